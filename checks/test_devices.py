"""What the commands of `intaglio_dict` make of devices and memory that fail, and of closed streams."""

import itertools
import re
from collections import namedtuple
from pathlib import Path

import pytest
from formats import dictionary_of, ended, freeze, lines_of, maps_of, merge_of, packed, put
from programs import unread
from tool import NAME, ONE, ROWS, TWO, UNREAD, WAS, WHOLE, WORDS, left, made, read, said, wrote

LINES = b"b\na\nb\n"
PARTS = [dictionary_of(it) for it in ([b"b", b"a"], [b"b", b"c", b"a"])]
BOTH, SHARED = merge_of(PARTS), dictionary_of([b"b", b"a"], 2)
TABLE, OTHER, MERGED = (it.files()["0.dict"] for it in (*PARTS, BOTH))
COLUMN, RENUMBERED, OF_SHARED = (it.column(lines_of(LINES)) for it in (PARTS[0], BOTH, SHARED))
MAPS = maps_of(PARTS, BOTH)
# What is said where a request for memory, a read or a write fails, as patterns. That of a read or a write of one byte, which is
# no failure, matches nothing.
FAILURES = {
    "REFUSE": "out of memory", "FAIL_READ": "Input/output error", "FAIL_WRITE": "Input/output error",
    "FULL": "No space left on device", "SHORT": "(?!)",
}


def merged(parts, whole, shard=""):
    """The files of a merge, or of one shard of it."""
    shards = {f"new/{name}": data for name, data in whole.files().items() if name.startswith(shard)}
    return shards | {f"others/{name}": data for name, data in maps_of(parts, whole).items() if name.endswith(f"{shard}.map")}


# What is run: the words, an input, what it writes, its outputs in files or folders, and its status after an error.
Command = namedtuple("Command", "words given wrote files failed", defaults=(b"", b"", {}, 1))
COMMANDS = [
    Command("find words", WORDS[3] + b"\n" + WORDS[0], b"3\n0\n", failed=2), Command("check words"),
    Command("find --trusted words", WORDS[3], b"3\n", failed=2), Command("list words", wrote=ended(WORDS)),
    Command("get words", b"2\n0", ended([WORDS[2], WORDS[0]])), Command("get words 2 0", wrote=ended([WORDS[2], WORDS[0]])),
    Command("freeze -o -", LINES, TABLE), Command("freeze -o out", LINES, files={"out": TABLE}),
    Command("freeze -o out --column other", LINES, files={"out": TABLE, "other": COLUMN}),
    Command("freeze -o out --column -", LINES, COLUMN, {"out": TABLE}),
    Command("freeze --shards 2 -o new --column other", LINES, files=merged([], SHARED) | {"other": OF_SHARED}),
    Command("encode two lines", wrote=COLUMN), Command("encode two lines -o out", files={"out": COLUMN}),
    Command("encode --raw two", b"a\nb", packed([1, 0])),
    Command("encode --raw two -o out", b"a\nb", files={"out": packed([1, 0])}),
    Command("decode two column", wrote=LINES), Command("decode --raw two codes", wrote=b"a\nb\n"),
    Command("decode --raw two codes -o out", files={"out": b"a\nb\n"}),
    Command("rows two column 1-2", wrote=b"a\nb\n"), Command("rows --trusted two column 1-2 0", wrote=b"a\nb\nb\n"),
    Command("count two column", wrote=b"2\tb\n1\ta\n"), Command("match two column b", wrote=b"0\n2\n", failed=2),
    Command("merge two three -o -", wrote=MERGED),
    Command("merge two three -o out --maps new", files={"out": MERGED} | {f"new/{it}": MAPS[it] for it in MAPS}),
    Command("merge two three --shards 2 -o new --maps others", files=merged(PARTS, merge_of(PARTS, 2))),
    Command("merge 0 1 -o new --maps others", files=merged([ONE, TWO], WHOLE)),
    Command("merge --shard 1 0 1 -o new --maps others", files=merged([ONE, TWO], WHOLE, "1")),
    Command("renumber --maps maps column -o out", files={"out": RENUMBERED}),
    Command("renumber --maps maps --into both column", wrote=RENUMBERED),
    Command("renumber --maps maps --into whole 0.column -o out", files={"out": WHOLE.column(ROWS)}),
]


def each(which):
    return pytest.mark.parametrize("command", [pytest.param(it, id=it.words) for it in COMMANDS if which(it)])


@pytest.fixture(autouse=True)
def inputs(folder):
    """The files that the commands read, and folders that they write."""
    made()
    of_words = {"words": freeze(WORDS), "codes": packed([1, 0]), "lines": LINES}
    put(".", of_words | {"two": TABLE, "three": OTHER, "both": MERGED, "column": COLUMN})
    for name, files in (("maps", MAPS), ("new", {}), ("others", {})):
        put(name, files)


def are_in_order(files, whole):
    """A shard is written after the maps to it: those of its number, or all of parts of one shard."""
    numbers = {it: it.split(".")[-2] for it in files if it.startswith("others/")}
    shards = {Path(it).stem for it in whole if it.startswith("new/") and numbers}
    return not shards or whole >= {it for it in numbers if numbers[it] in shards or {*numbers.values()} == {"0"}}


@pytest.mark.parametrize("command, setting", [
    pytest.param(it, setting, id=f"{it.words}, {setting}") for it in COMMANDS
    for setting in ["REFUSE", "FAIL_READ", "SHORT"] + ["FAIL_WRITE"] * bool(it.wrote) + ["FULL"] * bool(it.files)
])
def test_failures(tool, command, setting):
    """The N-th request for memory, read or write fails, for each N until none does and the output is whole. The program reports
    it, and writes no more than a beginning. The output stays as it was, and each other file is as it was or whole."""
    words, files = command.words.split(), command.files
    names = (*(Path(it).parts[0] for it in words), "standard input", "standard output")
    for n in itertools.count(1):
        put(".", dict.fromkeys(files, WAS))
        status, begun, told = tool(*words, given=command.given, LD_PRELOAD=tool.library, **{setting: str(n)})
        whole = {it for it, data in files.items() if read(it) == data}
        if (status, begun, told) == wrote(command.wrote) and whole == {*files}:
            break
        case = f"{setting}={n}: {status}, {begun!r}, {told}"
        found = re.fullmatch(rf"{NAME}: (?:(.*): )?{FAILURES[setting]}", told[-1] if told else "")
        assert found and status in {command.failed, 1 if setting == "REFUSE" else command.failed}, case
        name = found[1] or ""
        assert not name if setting == "REFUSE" else name.startswith(names) or ".intaglio." in name, case
        assert command.wrote.startswith(begun) and not (begun and words[0] in ("find", "get", "list", "check")), case
        assert all(read(it) == WAS for it in {*files} - (whole - {"out"})) and are_in_order(files, whole), case
        assert not left(), case
    assert (n == 1) == (setting == "SHORT"), f"{setting}: {n - 1} failed"


@each(lambda it: it.wrote)
def test_outputs_that_fail(tool, command):
    words, given = command.words.split(), command.given
    for stream, what in ((">/dev/full", "No space left on device"), (">&-", "Bad file descriptor")):
        assert tool(*words, given=given, line=f'exec "$@" {stream}') == said(command.failed, f"standard output: {what}")
    assert unread([tool.path, *words], given) == UNREAD


@each(lambda it: it.given)
def test_closed_inputs(tool, command):
    status, _, told = tool(*command.words.split(), line='exec "$@" <&-')
    assert (status, told) == said(command.failed, "standard input: Bad file descriptor")[::2]
