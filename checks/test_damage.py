"""Damaged files: the program must accept a file exactly if the reader in formats.py does, and otherwise report a fault that it
has. hypothesis damages them, and finds the least damage by which a test fails."""

import os
import re
import struct
import tempfile

import pytest
from formats import (
    BYTES, COLUMN_HEADER, MISSING, TEXT, Damaged, Frozen, Source, assembled, begins_as_column, column, column_faults, decoded,
    dictionary_of, ended, freeze, is_text, packed, put, read_column, sealed, table_faults,
)
from hypothesis import given, seed, settings
from hypothesis import strategies as st
from test_answers import NOT_ONE
from test_columns import commands
from test_tables import LISTS
from tool import NAME, other_dictionary, said

# What messages say of faults; # is a number.
FAULTS = {
    "not a frozen table": "NotFrozen", NOT_ONE: "NotColumn", "the header is cut short": "Truncated: header",
    "another version": "OtherVersion", "an unknown kind": "NoKind", "a reserved byte isn't zero": "Reserved",
    "too many strings": "TooMany", "the file is truncated": "Truncated", "the codes are cut short": "Truncated",
    "the strings don't fill the text": "TextEnds", "a place without a string isn't empty": "Unused",
    "another width than that of the number of strings": "BadWidth", "there are bytes behind the last row": "TrailingBytes",
    "there are bytes behind the strings": "TrailingBytes", "a source of rows that can't be": "BadShard: source",
    "a dictionary of version 1: freeze its strings again": "OtherVersion: 1", "damaged: it has another checksum": "Damaged",
    "the identity isn't that of the strings": "OtherIdentity", "a column of version 1: encode its lines again": "OtherVersion: 1",
    "the number of the shard isn't below the number of shards": "BadShard", "string # isn't found at its symbol": "NotFound: #",
    "string # isn't UTF-8": "NotUtf8: #", "row # has a code that is no symbol": "NoSymbol: #",
    "row # of a map is missing": "Missing: #",
}
# Where the numbers of a header are.
FIELDS = (8, 12, 16, 24, 32, 40, 48, 52, 56, 64, 72, 80, 84, 88)
# How many files one run of the program checks, and how many tests share the damaged files.
BATCH, TURNS = 50, 16
SMALL = [
    freeze(strings, kind, key0, key1) for strings in LISTS.values()
    for kind, key0, key1 in ((BYTES, 0, 2**63 + 1), (TEXT if all(map(is_text, strings)) else BYTES, 2**64 - 1, 2**32 + 5))
]
# Columns of each width, and a map, each with the table that it is of.
DICTIONARIES = [
    dictionary_of([b"%d" % it for it in range(count)], 1, TEXT if count == 3 else BYTES) for count in (0, 3, 255, 300)
]
COLUMNS = [(it.files()["0.dict"], it.column([*it.strings[:: max(1, len(it.strings) // 7)], None, None])) for it in DICTIONARIES]
COLUMNS.append((COLUMNS[1][0], column(DICTIONARIES[1].id, [2, 0], Source(1, BYTES, DICTIONARIES[2].set))))


def is_right(message, faults, wanted=None):
    """Whether a message names one of the faults, or is as wanted if there are none."""
    if not (message and faults):
        return not faults and message == wanted
    told = re.sub("^a (frozen table|column) of (?=an)", "", message)
    [number] = re.findall(r"^(?:string|row) (\d+) ", told) or ["#"]
    return FAULTS.get(told.replace(number, "#", 1), told).replace("#", number) in faults


@st.composite
def damaged(draw, data, files):
    """A file that was damaged once or more: a number, other, more or fewer bytes, exchanged numbers, the end, or another's."""
    for _ in range(draw(st.sampled_from((1, 1, 1, 2, 3)))):
        width, place = draw(st.sampled_from((1, 2, 4, 8))), draw(st.integers(0, len(data)))
        aligned = place // width * width
        at = draw(st.sampled_from((place, aligned, aligned, draw(st.sampled_from(FIELDS)))))
        before, old, after = data[:at], data[at : at + width], data[at + width :]
        number, bits = int.from_bytes(old, "little"), 8 * width
        flipped = number ^ 1 << draw(st.integers(0, bits - 1))
        number = draw(st.sampled_from((number + 1, number - 1, flipped, -1)) | st.integers(0, 40))
        far = width * draw(st.integers(0, 15))
        data = draw(st.sampled_from((
            before + (number % 2**bits).to_bytes(width, "little") + after,
            before + draw(st.binary(max_size=4)) + data[at + draw(st.integers(0, 4)) :],
            before + after[far : far + width] + after[:far] + old + after[far + width :],
            before, before + draw(st.sampled_from(files))[at:],
        ))) or b"I"
    return data


def each_byte(data, end):
    """The file with each byte before an end changed to several values, cut at each length, and longer, in batches."""
    files = [data[:at] for at in range(len(data))] + [data + it for it in (b"\0", bytes(8), data)]
    for at, byte in enumerate(data[:end]):
        others = {byte ^ 1, byte ^ 0x80, byte + 1 & 255, 0, 2, 4, 255} - {byte}
        files += [data[:at] + bytes([other]) + data[at + 1 :] for other in others]
    return [files[at : at + 500] for at in range(0, len(files), 500)]


def reported(tool, names, before=()):
    """What `check` says of each file."""
    status, written, told = tool("check", *before, *names)
    parts = [line.split(": ", 2) for line in told]
    assert (status, written, {it[0] for it in parts}) == (int(bool(told)), b"", {NAME} if told else set())
    messages = {it[1]: it[2] for it in parts}
    assert len(messages) == len(told) and messages.keys() <= {*names}
    return messages


def check_tables(tool, files):
    names = {str(number): data for number, data in enumerate(files)}
    put(".", names)
    messages, wanted = reported(tool, names), "a column, and no dictionary before it; name its dictionary first"
    for name, data in names.items():
        faults, message = table_faults(data), messages.get(name)
        if begins_as_column(data):
            # It is checked as a column of the last file before it that doesn't begin so.
            assert message == wanted
            continue
        wanted = NOT_ONE
        assert is_right(message, faults), (message, faults[:3], data.hex())
        if not faults:
            # A table is fixed by its kind, keys, strings, pilots and place in its set.
            table = Frozen(data, True)
            assert assembled([*table], table.pilots, table.header) == data, data.hex()


def check_columns(tool, table, files):
    named = {str(number): data for number, data in enumerate(files)}
    put(".", {"table": table, **named})
    names = [name for name, data in named.items() if begins_as_column(data)]
    messages = reported(tool, names, ["table"])
    for name, data in named.items():
        faults, start = column_faults(data), f"{NAME}: {name}: "
        is_other = not faults and (read_column(data).id, read_column(data).shards) != (Frozen(table).id, 1)
        wanted = other_dictionary(name, "table").removeprefix(f"{name}: ") if is_other else None
        about = messages.get(name), faults[:3], data.hex()
        assert name not in names or is_right(messages.get(name), faults, wanted), about
        if faults or is_other:
            # A command is refused by its name, and writes nothing; with trusted bytes it may go on.
            words, status = commands("table", name)[1 + int(name) % 4]
            ended_as, written, (told,) = tool(*words)
            is_named = told.startswith(start) and is_right(told.removeprefix(start), faults, wanted)
            assert (ended_as, written, is_named) == (status, b"", True), (words, told, *about)
            assert tool(words[0], "--trusted", *words[1:])[0] in (0, 1, 2), about


@pytest.fixture(autouse=True)
def in_memory(monkeypatch):
    """Many files are written, so they are in memory, if there is such a folder."""
    with tempfile.TemporaryDirectory(dir="/dev/shm" if os.path.isdir("/dev/shm") else None) as folder:
        monkeypatch.chdir(folder)
        yield


@pytest.mark.parametrize("data", SMALL, ids=range(len(SMALL)))
def test_each_byte_of_a_table(tool, data):
    for files in each_byte(data, None):
        check_tables(tool, files)


@pytest.mark.parametrize("table, data", COLUMNS, ids=range(len(COLUMNS)))
def test_each_byte_of_a_column(tool, table, data):
    for files in each_byte(data, COLUMN_HEADER.size):
        check_columns(tool, table, files)
        check_columns(tool, table, [sealed(it) for it in files if len(it) >= COLUMN_HEADER.size])


@st.composite
def damaged_columns(draw):
    """A table, and a batch of damaged columns, of which half get the checksum that they then have."""
    table, whole = draw(st.sampled_from(COLUMNS))
    files = draw(st.lists(damaged(whole, [it for _, it in COLUMNS]), min_size=BATCH, max_size=BATCH))
    return table, [sealed(it) if at >= BATCH // 2 and len(it) >= COLUMN_HEADER.size else it for at, it in enumerate(files)]


DAMAGED_TABLES = st.lists(st.sampled_from(SMALL).flatmap(lambda it: damaged(it, SMALL)), min_size=BATCH, max_size=BATCH)


@pytest.mark.parametrize("turn", range(TURNS))
@pytest.mark.parametrize("check, most, files", [
    (check_tables, 10**9, st.tuples(DAMAGED_TABLES)), (check_columns, 10_000, damaged_columns()),
], ids=["tables", "columns"])
def test_damaged(tool, request, check, most, files, turn):
    """Each turn makes its share of the damaged files, and the second build a tenth of them."""
    count = min(request.config.getoption("count"), most) // (10 if "by-rattle" in tool.path else 1)

    @seed(turn)
    @settings(max_examples=max(1, count // TURNS // BATCH))
    @given(files)
    def each(given_files):
        check(tool, *given_files)

    each()


STRINGS = [b"%d" % it for it in range(200)]


def translated(data, text):
    """The lines of the codes before the first fault, and what is said of that, if there is one."""
    codes = [it for (it,) in struct.iter_unpack("<I", data[: len(data) // 4 * 4])]
    try:
        return ended(decoded(STRINGS, codes, text)), [f"code number {len(codes) + 1} is cut short"] * (len(data) % 4 > 0)
    except Damaged as found:
        place, what = found.args
        return ended(decoded(STRINGS, codes[: place - 1], text)), [f"code number {place} {what}"]


@settings(max_examples=150)
@given(st.data(), st.lists(st.sampled_from([*range(200), MISSING]), max_size=50), st.sampled_from((1, 400, 800, 3000)))
def test_damaged_codes(tool, data, codes, times):
    """What the program writes of plain codes, and the first one at which it stops, are what the reader finds."""
    given_codes = packed(codes * times)
    given_codes = data.draw(damaged(given_codes, [b""])) if data.draw(st.booleans()) else given_codes
    put(".", {"table": freeze(STRINGS), "codes": given_codes})
    for text, options in ((None, "--raw"), (b"?", "--raw --missing ?")):
        words, (wanted, faults) = ["decode", *options.split(), "table"], translated(given_codes, text)
        status, written, told = tool(*words, given=given_codes)
        assert (status, told) == said(len(faults), *(f"standard input: {it}" for it in faults))[::2]
        assert wanted.startswith(written) if faults else wanted == written
        assert not faults or tool.refuses(1, f"codes: {faults[0]}", *words, "codes", "-o", "out")
