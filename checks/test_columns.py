"""What `intaglio_dict` makes of columns, and of plain codes, which `--raw` writes and reads, beside the reader and the writer in
formats.py and plain lists of lines."""

import itertools
import os
import random
import re
import unicodedata
from collections import Counter
from pathlib import Path

import pytest
import test_shards
from formats import (
    BYTES, KINDS, LINELESS, MISSING, TEXT, dictionary_of, encoded, ended, files_in, freeze, is_text, lines_of, packed, put,
    random_parts, read_dictionary, width_for,
)
from programs import TOP, run
from test_tables import LISTS
from tool import DONE, ONE, TRUSTED_FOLDER, WHOLE, left, made, other_dictionary, read, said, wrote


def missing_line(name, place, line):
    """What is said of a line that isn't there: as it is if it's a short text without control characters, or else escaped."""
    named = {9: "\\t", 10: "\\n", 13: "\\r", 34: '\\"', 39: "\\'", 92: "\\\\"}
    shown = "".join(named.get(it, chr(it) if 32 <= it < 127 else f"\\x{it:02x}") for it in line[:200])
    if len(line) <= 200 and is_text(line) and not any(unicodedata.category(it) == "Cc" for it in line.decode()):
        shown = line.decode()
    cut = ".." * (len(line) > 200)
    return f"{name}: line {place} is not in the dictionary: '{shown}'{cut}; --missing gives such lines the code {MISSING}"


def commands(*words):
    """Each command that reads a column, with its status after an error. All but the first and the last may trust their files."""
    return [
        (["decode", *words], 1), (["rows", *words, "0"], 1), (["count", *words], 1), (["match", *words, "a"], 2),
        (["match", "--count", "--invert", *words, "a"], 2), (["check", *words], 1),
    ]


def with_text(lines, text):
    """The lines, with a text in place of those that are missing, which are nothing."""
    return ended(text if it is None else it for it in lines)


def check_match(tool, table, lines, words, options):
    rows = [it for it, line in enumerate(lines) if line is not None and line in words]
    for invert, found in (((), rows), (("--invert",), sorted({*range(len(lines))} - {*rows}))):
        words_of_run = [*options, *invert, "--", table, "column", *(it.decode() for it in words)]
        assert tool("match", *words_of_run) == wrote(ended(b"%d" % it for it in found), int(not found))
        assert tool("match", "--count", *words_of_run) == wrote(b"%d\n" % len(found), int(not found))


def check_rows(tool, chance, table, lines, options):
    if not lines:
        assert tool("rows", *options, table, "column", "0") == said(1, "column: no row 0: there are 0 rows, counted from 0")
        return
    last = len(lines) - 1
    ranges = [*(sorted(chance.choices(range(len(lines)), k=2)) for _ in range(5)), [0, 0], [last, last], [0, last]]
    typed = [f"{first}-{last}" if first < last or chance.random() < 0.5 else f"{first}" for first, last in ranges]
    rows = [row for first, last in ranges for row in range(first, last + 1)]
    wanted, words = wrote(with_text([lines[it] for it in rows], b"none")), ["rows", *options, "--missing", "none", table]
    assert tool(*words, "column", *typed) == wanted == tool(*words, "-", *typed, given=read("column"))
    for row in (len(lines), 2**32, 2**64 - 1):
        told = said(1, f"column: no row {row}: there are {len(lines)} rows, counted from 0")
        assert tool(*words, "column", *typed, str(row)) == told == tool(*words, "column", f"0-{row}")
    check_missing(tool, ["rows", *options, table, "column", *typed], [it for it in rows if lines[it] is None], wanted)


def check_missing(tool, words, rows, wanted):
    """Without a text for missing lines, the first of them is an error."""
    told = (f"column: row {it} is missing: its line wasn't in the dictionary; --missing TEXT gives it a line" for it in rows[:1])
    assert tool(*words) == (said(1, *told) if rows else wanted)


def check_column(tool, chance, table, whole, lines):
    """Tries the commands on the file `column`, of a dictionary that is a file or a folder."""
    wanted, strings = wrote(with_text(lines, b"none")), whole.strings
    assert tool("decode", "--missing", "none", table, "column") == wanted
    assert tool("decode", "--missing", "none", table, given=read("column")) == wanted
    check_missing(tool, ["decode", table, "column"], [row for row, it in enumerate(lines) if it is None], wanted)
    counts = Counter(lines)
    counted = [(it, b"%d\t%s\n" % (counts[it], it)) for it in strings if counts[it]]
    by_count, missing = sorted(counted, key=lambda it: -counts[it[0]]), b"%d\n" % counts[None] * bool(counts[None])
    assert tool("count", "--by-symbol", table, "column") == wrote(b"".join(it for _, it in counted) + missing)
    texts = [it for it in strings if it.isascii() and b"\0" not in it and len(it) < 100_000]
    some = chance.choices(texts, k=min(3, len(texts))) + [b"none of them"]
    for options in ((),) if os.path.isdir(table) else ((), ("--trusted",)):
        assert tool("count", *options, table, "column") == wrote(b"".join(it for _, it in by_count) + missing)
        check_match(tool, table, lines, some, options)
        check_match(tool, table, lines, some[-1:], options)
        check_rows(tool, chance, table, lines, options)
    assert tool("check", table, "column", table, "column") == DONE
    width = width_for(len(strings))
    stat = f"column\nkind {KINDS[whole.kind]}\nstrings {len(strings)}\nrows {len(lines)}\n"
    stat += f"missing {lines.count(None)}\nwidth {width}\nbytes {128 + width * len(lines)}\n"
    assert tool("stat", "column") == wrote(f"{stat}identity {whole.name}\nshards {len(whole.shards)}\n".encode())


def check_lines(tool, chance, lines, kind, count):
    """Tries the commands on the column of lines, and on one with missing lines, with a dictionary in a file or in shards."""
    name, again, shards = f"dict{count}", f"again{count}", ["--shards", str(count)] if count else []
    whole = test_shards.check_freeze(tool, name, lines, kind, count)
    keys = chance.choice(((), (0, 0), (2**64 - 1, 0), (chance.getrandbits(64), chance.getrandbits(64))))
    drawn = ["--keys", f"{keys[0]},{keys[1]}"] if keys else ["--random-keys"]
    freezes = ["freeze", "--kind", KINDS[kind], *shards, "-o", again, "--column", "-", *drawn]
    assert tool(*freezes, given=ended(lines)) == wrote(whole.column(lines)) == tool("encode", again, given=ended(lines))
    assert not keys or files_in(again) == whole.files(*keys)
    os.replace(f"{name}.column", "column")
    check_column(tool, chance, name, whole, lines)
    some = [it if chance.random() < 0.9 else None for it in lines]
    data, all_lines = with_text(some, b"none of them"), f"{name}.lines"
    assert tool("encode", "--missing", name, "-o", "column", given=data) == DONE and read("column") == whole.column(some)
    check_column(tool, chance, name, whole, some)
    for raw, coded in (("", whole.column), ("--raw", lambda some: packed(encoded(whole.strings, some)))):
        words, decodes, wanted = ["encode", *raw.split(), name], ["decode", *raw.split(), name], coded(lines)
        assert tool(*words, all_lines) == wrote(wanted) == tool(*words, given=ended(lines))
        assert tool(*words, all_lines, all_lines, "-o", "codes") == DONE and read("codes") == coded(lines * 2)
        assert tool(*decodes, "codes", "-o", "plain") == DONE and read("plain") == ended(lines * 2)
        assert tool(*decodes, given=wanted) == wrote(ended(lines))
        assert tool(*words, "--missing", given=data) == wrote(coded(some))
        assert tool(*decodes, "--missing", "none", given=coded(some)) == wrote(with_text(some, b"none"))
        if None in some:
            told = missing_line("standard input", some.index(None) + 1, b"none of them")
            assert tool.refuses(1, told, *words, "-o", "out", given=data)
    assert not left()


def check_all(tool, chance, parts, kind, counts):
    """Tries the commands on the lines of parts, with dictionaries in files, and in folders of so many shards."""
    for count in (None, *counts):
        check_lines(tool, chance, [*itertools.chain(*parts)], kind, count)
        for many in (1, 2, 5) if sum(map(len, parts)) <= 3_000 else (4,):
            test_shards.check_parts(tool, parts[:many], kind, count)


@pytest.mark.parametrize("lines", [
    *LISTS.values(), [b"a" * length for length in (65_534, 65_535, 1, 65_536, 131_071, 0, 65_535)], [b"a", b"b" * 500_000, b"c"],
    [it.encode() for it in ("é" * 32_767, "é" * 40_000, "é" * 3, "a" + "é" * 70_000)],
], ids=[*LISTS, "lines that end where a block does", "a line of many blocks", "characters over blocks"])
def test_lists(tool, lines):
    for kind in (BYTES, TEXT) if all(map(is_text, lines)) else (BYTES,):
        check_all(tool, random.Random(0), [lines, lines[::-2]], kind, [2])


@pytest.mark.parametrize("kind, counts", [(BYTES, [1, 2]), (TEXT, [3, 7]), (BYTES, [16])])
@pytest.mark.parametrize("size", [*range(9), 30, 300, 3_000, 20_000])
def test_sizes(tool, size, kind, counts):
    """Few lines are of few different ones, so that many are equal."""
    chance = random.Random(size)
    check_all(tool, chance, random_parts(chance, size, kind), kind, counts)


@pytest.mark.parametrize("kind", [BYTES, TEXT], ids=KINDS)
@pytest.mark.parametrize("size", [100_000, 1_000_000])
def test_large_sizes(tool, size, kind):
    chance = random.Random(size)
    parts = random_parts(chance, size, kind)
    test_shards.check_parts(tool, parts, kind, None if kind else 3)
    assert size > 100_000 or not check_lines(tool, chance, [*itertools.chain(*parts)], kind, None)


FEW = [b"a", b"bb", b""]
OTHERS = {
    "another string": freeze([b"a", b"bc", b""]), "another order": freeze([b"bb", b"a", b""]), "another kind": freeze(FEW, TEXT),
    "a string more": freeze([*FEW, b"d"]), "a string less": freeze(FEW[:2]), "other ends": freeze([b"ab", b"b", b""]),
}


def test_other_dictionaries(tool):
    """A column is one of no other dictionary: the same strings in the same order are another one if they are in other files. The
    map of a shard is one of no folder."""
    made()
    put(".", OTHERS | {"column": dictionary_of(FEW).column([*FEW, b"a", None])})
    put("texts", WHOLE._replace(kind=TEXT).files())
    for name, count in (("fewer", 2), ("together", 3), ("alone", 1)):
        put(name, dictionary_of(WHOLE.strings, count).files())
    assert tool("check", "whole", "whole.column") == DONE
    tables = "0", "fewer", "texts", "together", "alone", "alone/0.dict"
    pairs = ((OTHERS, "column"), (tables, "whole.column"), (["whole"], f"maps/{ONE.map_name(1)}"))
    for table, name in ((table, name) for every, name in pairs for table in every):
        told, is_folder = other_dictionary(name, table), os.path.isdir(table)
        for words, status in commands(table, name):
            assert tool(*words) == said(status, told)
        for words, status in commands("--trusted", table, name)[1:5]:
            assert tool(*words) == (said(2, f"{table}: {TRUSTED_FOLDER}") if is_folder else said(status, told))
        assert tool.refuses(1, told, "decode", table, name, "-o", "out")


LONG = [b"x" * count for count in (200, 201, 65_536, 200_000)] + [b"\xc3\xa9" * 100, b"\xc3\xa9" * 101]
ODD = [b"\xff'\"\\", b"a\tb", b"\0", "é".encode(), b"a" * 70_000 + b"\n" + b"b" * 70_000]


@pytest.mark.parametrize("data, place", [
    (b"a\nx\n", 2), (b"x", 1), (b"a\n\nccc\ncc", 4), (b"aa\n", 1), (b"\n\n\nA\n", 4),
    *((b"a\n" * 40_000 + it + end, 40_001) for it in LONG + ODD for end in (b"", b"\n", b"\na\nzzz\n")),
], ids=itertools.count())
def test_missing_lines(tool, data, place):
    strings, lines = [b"a", b"", b"ccc"], lines_of(data)
    put(".", {"table": freeze(strings), "lines": data})
    codes, again = packed(encoded(strings, lines)), wrote(ended(it if it in strings else b"?" for it in lines))
    for raw, coded, begun in (("", dictionary_of(strings).column(lines), b""), ("--raw", codes, codes[: 4 * place - 4])):
        encodes, line = ["encode", *raw.split(), "table"], lines[place - 1]
        status, written, told = tool(*encodes, given=data)
        assert (status, told) == said(1, missing_line("standard input", place, line))[::2] and begun.startswith(written)
        assert tool.refuses(1, missing_line("lines", place, line), *encodes, "lines", "-o", "out")
        assert tool(*encodes, "--missing", given=data) == wrote(coded)
        assert tool("decode", *raw.split(), "--missing", "?", "table", given=coded) == again
    told = said(1, f"standard input: code number {place} {LINELESS}")[::2]
    assert tool("decode", "--raw", "table", given=codes)[::2] == told


def test_sessions_of_the_page(tool):
    """The steps with which docs/COLUMNS.md begins end with the lines, and each command of its sessions writes what it shows."""
    page = Path(TOP, "docs/COLUMNS.md").read_text(encoding="utf-8").replace("./intaglio dict", f"'{tool.path}'")
    steps = re.findall(r"^```sh\n(.*?)^```", page, re.M | re.S)[0]
    status, written, _ = run(["/bin/sh", "-ec", steps], PATH=os.environ["PATH"])
    assert (status, written) == (0, read("0.lines") + read("1.lines")) and read_dictionary("whole").shards[2:]
    parts = "".join(re.findall(r"```console\n(.*?)```", page, re.S)).split("$ ")[1:]
    assert len(parts) > 10
    for part in parts:
        command, _, wanted = part.partition("\n")
        assert run(["/bin/sh", "-c", command]) == wrote(wanted.encode())


def test_example(tool, folder):
    """The worked example compares what comes back itself. The names of its files may be odd, but not its number of parts."""
    for parts in ("0", "-1", "x", "", "3x", "1.5", "08", " 3", "a[$(touch made)]", "9999999"):
        status, written, told = run([f"{TOP}/examples/columns", "lines", parts], DICT=tool.path, PATH=os.environ["PATH"])
        assert (status, written, told[0]) == (2, b"", f"columns: PARTS is a number from 1 to 999999, and not '{parts}'")
    assert not [*folder.iterdir()]
    odd = os.path.abspath("a folder, 5% 'odd'")
    os.mkdir(odd)
    os.symlink(tool.path, f"{odd}/dict")
    columns: list[list[bytes]] = [[], [b"b", b"a", b"b"], [b"w%d" % (it * it % 97) for it in range(500)]]
    for lines in columns:
        put(odd, {"lines": ended(lines)})
        for environment in ({"DICT": tool.path}, {"DICT": f"{odd}/dict", "TMPDIR": odd}):
            ran = run([f"{TOP}/examples/columns", f"{odd}/lines", "3"], PATH=os.environ["PATH"], **environment)
            assert (ran[0], ran[1].split(b"\n")[:2]) == (0, [b"kind bytes", b"strings %d" % len({*lines})])
            assert sorted(os.listdir(odd)) == ["dict", "lines"]
