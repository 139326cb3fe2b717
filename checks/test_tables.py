"""Frozen tables: what the program says of whole ones, what it freezes, blocks, long lines, trusted bytes, and what it shows."""

import itertools
import os
import re
import resource
import subprocess
from pathlib import Path

import pytest
from formats import (
    BYTES, KINDS, MISSING, TEXT, Dictionary, Frozen, dictionary_of, encoded, ended, freeze, lines_of, map_of, packed, put,
    sip_hash,
)
from programs import TOP, unread
from tool import DONE, NAME, UNREAD, WORDS, read, said, wrote

LISTS: dict[str, list[bytes]] = {
    "no string": [], "an empty string": [b""], "one string": [b"a"], "two strings, of which one begins the other": [b"ab", b"a"],
    "digits, and an empty string": [b"%d" % number for number in range(9)] + [b""],
    "bytes that are no text": [b"\xff", b"\x80\xff", b"\0", b"\0\0"],
    "texts": [it.encode() for it in ("é", "漢字", "😀", "\u2028", "a b")],
    "twenty words": [b"word%d" % (number * number) for number in range(20)],
}
# Strings that all fall into the first of their groups under the first eight pairs of keys: a search found them in a minute.
CHOSEN = (
    b"gmwreda ubzttfa coknaha xvnccja ihhdwoa nbdjxwa irfvzwa cplerxa unktlya hhgofcb llwjhfb vypazkb "
    b"cowdblb vayiunb lmubmob mcbvadc vqevxdc qfrowec vfbfpgc qiwxxhc hblmjjc crszojc eeviemc htjjunc"
).split()
LINES, TABLE = ended(WORDS), freeze(WORDS)


def test_samples_of_the_page():
    """The files that docs/FORMATS.md shows, where what stands behind three spaces in a line says what is there."""
    page = Path(TOP, "docs/FORMATS.md").read_text(encoding="utf-8")
    samples = [re.sub(r"(?m) {3}\S.*$", "", it) for it in re.findall(r"^```text\n(.*?)^```", page, re.M | re.S)]
    column = dictionary_of([b"rose", b"thorn"], 1, TEXT).column([b"rose", b"thorn", b"rose", None])
    assert [freeze([b"rose"], TEXT), column] == [*map(bytes.fromhex, samples)] and sip_hash(0, 0, b"rose") == 0xDBCBC1FE67FCD9A6


def check_commands(tool, name, whole, shard=None):
    """What the commands say of a dictionary, in a file or in a folder of shards, or of one shard of it."""
    strings = whole.strings if shard is None else whole.shards[shard]
    size = sum(it.stat().st_size for it in [*Path(name).glob("*.dict")] or [Path(name)])
    lines, tenths = ended(strings), 10 * size // max(1, len(strings))
    told = f"kind {KINDS[whole.kind]}\nstrings {len(strings)}\nbytes {size}\nbytes a string {tenths // 10}.{tenths % 10}\n"
    told += f"longest {max(map(len, strings), default=0)}\nidentity {whole.name}\nshards {len(whole.shards)}\n"
    told += "" if shard is None else f"shard {shard}\n"
    for called, given in [(name, b"")] if os.path.isdir(name) else [(name, b""), ("-", read(name))]:
        ended_as = (tool(command, called, given=given) for command in ("stat", "check", "list"))
        assert [*ended_as] == [wrote(told.encode()), DONE, wrote(lines)]
    assert unread([tool.path, "stat", name]) == UNREAD
    some = [*range(0, len(strings), max(1, len(strings) // 1000)), len(strings) - 1, 0] if strings else []
    options = ((),) if os.path.isdir(name) else ((), ("--trusted",))
    for words, given in itertools.product(options, (lines, lines[:-1] + b"x\n\n" + lines + b"absent")):
        codes = encoded(strings, lines_of(given))
        found = wrote(ended(b"-" if it == MISSING else b"%d" % it for it in codes), int(MISSING in codes))
        assert tool("find", *words, name, given=given) == found
        assert tool("get", *words, name, given=ended(b"%d" % it for it in some)) == wrote(ended(strings[it] for it in some))
        assert not some or tool("get", *words, name, *map(str, some)) == wrote(ended(strings[it] for it in some))
        absent = tool("get", *words, name, *map(str, [*some, len(strings)]))
        assert absent == said(1, f"{name}: no string has the symbol {len(strings)}")


def test_random_keys(tool):
    drawn = [Frozen(tool("freeze", "-o", "-", "--random-keys", given=LINES)[1]) for _ in range(4)]
    assert all([*it] == WORDS for it in drawn) and len({key for it in drawn for key in it.header[3:5]}) == 8


def test_chosen_lines(tool):
    """Lines that were chosen to have no places under the first eight pairs."""
    refused = "no places were found for the strings; other keys may do: --random-keys"
    assert tool.refuses(1, refused, "freeze", "-o", "out", "--keys", "0,0", given=ended(CHOSEN))
    for words in (["--random-keys"], ["--keys", "8,0"], []):
        assert tool("freeze", "-o", "out", *words, given=ended(CHOSEN)) == DONE and [*Frozen(read("out"))] == CHOSEN
    assert read("out") == freeze(CHOSEN)


def test_lines_that_repeat_take_no_memory(tool):
    given = b"".join(b"a line that is there a thousand times: %d\n" % (number % 1_000) for number in range(1_000_000))
    for words in ([], ["--column", "column"]):
        assert tool("freeze", "-o", "made", *words, given=given, line='ulimit -v 40000; exec "$@"') == DONE
    assert os.path.getsize("column") == 2_000_128


def test_long_lines(tool):
    """Each command on a line of 100 MiB: what it writes, and its time, which isn't that of the square of the length."""
    line = b"0123456789abcdef" * (100 * 2**16)
    lines, two = line + b"\nb\n", packed([0, 1])
    put(".", {"source": lines})
    assert tool("freeze", "-o", "long", "source") == DONE
    # (the hash of so many bytes takes the writer here minutes)
    whole = Dictionary(BYTES, Frozen(read("long"), True).header.own, [[line, b"b"]])
    column = whole.column([line, b"b"])
    missing = f"line 1 is not in the dictionary: '{line[1:201].decode()}'..; --missing gives such lines the code {MISSING}"
    for words, given, wanted in (
        ("freeze -o long --column column source", b"", DONE), ("encode --raw long source", b"", wrote(two)),
        ("encode long source", b"", wrote(column)), ("encode --raw long", line, wrote(two[:4])),
        ("encode long", line[1:], said(1, f"standard input: {missing}")), ("find long source", b"", wrote(b"0\n1\n")),
        ("decode long column", b"", wrote(lines)), ("decode --raw long", two, wrote(lines)),
        ("get long 0", b"", wrote(line + b"\n")), ("list long", b"", wrote(lines)),
        ("merge long long -o out --maps maps", b"", DONE), ("freeze --shards 2 -o shards --column column source", b"", DONE),
    ):
        before = sum(resource.getrusage(resource.RUSAGE_CHILDREN)[:2])
        # (a difference of so long lines takes pytest minutes to show)
        is_right = tool(*words.split(), given=given) == wanted
        assert is_right, words
        assert sum(resource.getrusage(resource.RUSAGE_CHILDREN)[:2]) - before < 15, words
    is_right = read(f"maps/{whole.map_name()}") == map_of(whole, whole) and read("out") == read("long")
    assert is_right, "maps"


@pytest.mark.parametrize("section, following", [("symbols", "ends"), ("ends", "pilots"), ("tags", "text")])
def test_trusted_and_damaged(tool, section, following):
    """A trusted dictionary is opened by its header: a damaged one too, but what is found is there."""
    at = Frozen(TABLE).sections
    start, end = getattr(at, section), getattr(at, following)
    put(".", {"damaged": TABLE[:start] + bytes(end - start) + TABLE[end:]})
    assert tool("find", "damaged", given=LINES)[0] == 2
    status, written, told = tool("find", "--trusted", "damaged", given=LINES)
    found = [(line, int(it)) for line, it in zip(WORDS, lines_of(written), strict=True) if it != b"-"]
    assert (status, told) == (int(len(found) < 20), [])
    assert all(tool("get", "--trusted", "damaged", str(it)) == wrote(line + b"\n") for line, it in found)


def test_progress(tool):
    """Each tenth of what is read is shown if it is known how much there is."""
    given = b"".join(b"%d\n" % it for it in range(200_000))
    put(".", {"lines": given})
    freezes, tenths = ["freeze", "-o", "made", "--progress"], [f"{it}0 % of {len(given)} bytes read" for it in range(1, 11)]
    told = tool(*freezes, "lines")
    last = [f"{len(given)} bytes read", "200000 distinct lines", f"{os.path.getsize('made')} bytes frozen"]
    assert told == said(0, *tenths, *last) == tool(*freezes, line='exec "$@" < lines')
    assert f"{NAME}: 50 % of {2 * len(given)} bytes read" in tool(*freezes, "lines", "lines")[2]
    assert tool(*freezes, given=given) == said(0, *last) and read("made") == freeze(lines_of(given))
    check_commands(tool, "made", dictionary_of(lines_of(given)))


@pytest.mark.parametrize("called, shown", [
    ("intaglio dict", "intaglio dict"), ("/some/folder/dict", "dict"), ("./intaglio dict", "intaglio dict"),
])
def test_names_of_the_program(tool, called, shown):
    """Usage lines and messages begin with the name by which the program was called."""
    for words, message in (
        ("list no", "no: No such file or directory"), ("freeze -o no --keys 5", "--keys '5': "), ("get no x", "'x' is no "),
        ("find --help", None), ("find", None), ("find --no", None),
    ):
        ran = subprocess.run([called, *words.split()], executable=tool.path, capture_output=True, text=True, timeout=60)
        assert ran.stderr.startswith(f"{shown}: {message}") if message else f"Usage: {shown} find " in ran.stdout + ran.stderr
