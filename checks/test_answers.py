"""What `intaglio_dict` answers: words, an input, and how it ends. Each is run in a folder with the same files, which stay."""

import shlex

import pytest
from formats import BYTES, TEXT, dictionary_of, ended, files_in, freeze, map_of, packed, put
from programs import unread
from tool import DONE, UNREAD, WORDS, also_output, other_dictionary, said, wrote

LINES, TABLE, NUMBERS = ended(WORDS), freeze(WORDS), ended(b"%d" % it for it in range(20))
FEW, MERGED = [b"a", b"bb", b""], freeze([b"a", b"b", b"c"])
ONE, TWO = dictionary_of([b"a", b"b"]), dictionary_of([b"b", b"c", b"a"])
RENUMBERED = TWO.column([b"b", b"a"])
FILES = {
    "words": TABLE, "lines": LINES, "seventh": WORDS[7], "one": ONE.files()["0.dict"], "two": TWO.files()["0.dict"],
    "codes": packed([1, 0]), "part": ONE.column([b"b", b"a"]), "column": dictionary_of(FEW).column([*FEW, b"a", None]),
    "few": freeze(FEW, BYTES, 5, 6), "other": freeze(FEW, TEXT), "no": b"x" * 100, "text": "é\nb".encode(),
    "wrong": b"a\n\n\xc3\nb\n\xff\n", "damaged": freeze(FEW)[:-1], "cut": bytes.fromhex("494e548957b8b7"),
    ONE.map_name(): map_of(ONE, TWO), "old": TABLE[:8] + b"\1" + TABLE[9:],
    "oldcolumn": ONE.column([])[:8] + b"\1" + ONE.column([])[9:],
}
NOT_ONE = "not a column; encode writes one, and freeze and merge do"
NO_LINE_END = "the text after --missing has a line end"
LINELESS = "is missing: its line wasn't in the dictionary; --missing TEXT gives it a line"

ROWS = [
    # Standard streams, by the name `-` and without a name.
    ("freeze -o - lines - lines", b"other", wrote(freeze([*WORDS, b"other"]))),
    ("check -", b"x", said(1, "standard input: not a frozen table")), ("get - 3 0", TABLE, wrote(b"word3\nword0\n")),
    ("find - lines", TABLE, wrote(NUMBERS)), ("find words - lines", b"word4", wrote(b"4\n" + NUMBERS)),
    ("encode --raw one -", b"b\na", wrote(packed([1, 0]))), ("encode one -", b"b\na", wrote(FILES["part"])),
    ("decode --raw one codes - codes", packed([1]), wrote(b"b\na\nb\nb\na\n")),
    ("decode one part - part", ONE.column([b"b"]), wrote(b"b\na\nb\nb\na\n")),
    ("find words", b"", DONE), ("find words - seventh", b"x\n", wrote(b"-\n7\n", 1)), ("get words", b"", DONE),
    ("get words", b"3\n0\n19", wrote(b"word3\nword0\nword19\n")), ("get words", b"007\n", wrote(b"word7\n")),
    ("get words", b"0\n20\n", said(1, "words: no string has the symbol 20")),
    *((f"get words {it}", b"", wrote(b"word3\n")) for it in ("3", "03", "0000000000003")),
    *(("get words", given, said(1, f"standard input: {what}")) for given, what in (
        (b"1\nx\n", "line 2 is no symbol: 'x'"), (b"1\n2\n\n", "line 3 is no symbol: ''"), (b"-\n", "line 1 is no symbol: '-'"),
        (b"0\n\xff\n", "line 2 is not UTF-8"),
    )),
    *(row for it in ("+3", "3.0", "0x3", " 3", "3 ", "", "٣", "1_0", "4294967296", "9" * 20, "3,0") for row in (
        (f"get words 0 '{it}'", b"", said(2, f"'{it}' is no symbol: a number below 2^32 is needed, in digits alone")),
        ("get words", f"0\n{it}\n".encode(), said(1, f"standard input: line 2 is no symbol: '{it}'")),
    )),
    # Lines that aren't UTF-8 are named by their file and number.
    ("freeze --kind text -o - text text", b"", wrote(freeze(["é".encode(), b"b"], TEXT))),
    ("freeze --kind text -o out text wrong text", b"", said(1, "wrong: line 3 is not UTF-8")),
    ("freeze --kind text -o out text -", b"a\nb\nc\xc3", said(1, "standard input: line 3 is not UTF-8")),
    ("get --trusted no 1", b"", said(1, "no: not a frozen table")),
    *((f"freeze -o out '--keys={it}'", b"", said(2, f"--keys '{it}': two numbers below 2^64 are needed, as in 5,6")) for it in (
        "5", "5,", ",5", "5,6,7", "5;6", "5,x", "1,-2", f"{2**64},0", "", "five",
    )),
    ("merge - two -o -", FILES["one"], wrote(MERGED)),
    ("merge one two -o - --keys 5,6", b"", wrote(freeze([b"a", b"b", b"c"], BYTES, 5, 6))),
    ("renumber --maps . -", FILES["part"], wrote(RENUMBERED)), (f"decode two {ONE.map_name()}", b"", wrote(b"a\nb\n")),
    ("renumber --verbose --maps . part", b"", said(0, "2 codes renumbered", wrote=RENUMBERED)),
    ("encode --verbose one", b"b\na", said(0, "2 lines encoded", wrote=FILES["part"])),
    ("encode --raw --verbose one", b"b\na", said(0, "2 lines encoded", wrote=packed([1, 0]))),
    ("decode --raw --verbose one codes codes", b"", said(0, "4 codes decoded", wrote=b"b\na\n" * 2)),
    ("merge --verbose one two -o -", b"", said(
        0, "2 dictionaries merged", "5 strings merged", "3 distinct strings", wrote=MERGED,
    )),
    ("decode --raw --progress one codes", b"", said(0, "100 % of 8 bytes read", wrote=b"b\na\n")),
    *(("freeze --verbose -o -", b"\n".join(lines), said(
        0, f"{len(lines)} lines frozen", f"{len({*lines})} distinct lines", wrote=freeze([*dict.fromkeys(lines)]),
    )) for lines in ([b"b", b"a", b"b"], [b"b"], [b"b", b"b"])), ("freeze --verbose -o -", b"\n\n", said(
        0, "2 lines frozen", "1 distinct lines", wrote=freeze([b""]),
    )), ("freeze --verbose -o -", b"", said(0, "0 lines frozen", "0 distinct lines", wrote=freeze([]))),
    *((f"{it} few codes {row}", b"", said(status, f"codes: {NOT_ONE}"))
      for it, row, status in (("rows", "0", 1), ("count", "", 1), ("match", "a", 2), ("match --count --invert", "a", 2))),
    ("decode --missing ? few column column", b"", wrote(b"a\nbb\n\na\n?\n" * 2)),
    ("decode few column", b"", said(1, f"column: row 4 {LINELESS}")), ("decode few codes", b"", said(1, f"codes: {NOT_ONE}")),
    ("check few column", b"", DONE),
    ("check column few", b"", said(1, "column: a column, and no dictionary before it; name its dictionary first")),
    ("check few other column few", b"", said(1, other_dictionary("column", "other"))),
    ("check old", b"", said(1, "old: a dictionary of version 1: freeze its strings again")),
    ("check one oldcolumn", b"", said(1, "oldcolumn: a column of version 1: encode its lines again")),
    ("check damaged cut column", b"", said(
        1, "damaged: the file is truncated", f"cut: {NOT_ONE}", other_dictionary("column", "damaged"),
    )),
    *((f"rows -- few column 0 '{it}'", b"", said(
        2, f"'{it}' names no rows: a number is needed, or the first and the last, as in 10-20",
    )) for it in ("", "-", "x", "1-", "-2x", "2-1", "1-2-3", "+1", " 1", f"{2**64}", "1.5")),
    *((f"{command} --missing '{it}' few column {row}", b"", said(2, NO_LINE_END))
      for command, row in (("decode", ""), ("rows", "0")) for it in ("\n", "a\nb", "a\n")),
    *((f"{it} absent", b"", said(1, "absent: No such file or directory")) for it in (
        "list", "check", "get", "stat", "freeze -o out", "encode", "encode one", "decode", "decode one",
        "renumber --maps .", "merge -o -", "count few", "check few",
    )),
    *((it, b"", said(2 if it[0] in "fm" else 1, "absent: No such file or directory")) for it in (
        "find absent", "find --trusted absent", "find words absent", "match few absent a", "rows few absent 0", "get absent 1",
    )),
    ("find words .", b"", said(2, ".: Is a directory")), ("freeze -o out .", b"", said(1, ".: Is a directory")),
    ("freeze -o . lines", b"", also_output("lines", "./lines")),
    *((f"{it} .", b"", said(1 + (it == "find"), "./0.dict: No such file or directory")) for it in ("find", "check", "list")),
]


@pytest.mark.parametrize("words, given, wanted", ROWS)
def test_answers(tool, words, given, wanted):
    put(".", FILES)
    assert tool(*shlex.split(words), given=given) == wanted
    assert files_in(".") == FILES


@pytest.mark.parametrize("words, named", [
    ("freezes", "freezes"), ("freeze -o a --kind path", "path"), ("freeze -o a --kee", "--kee"), ("get a x1", "x1"), ("", ""),
    ("freeze", "--output"), ("freeze -o a --keys", "--keys"), ("freeze -o a --keys 1,2 --random-keys", "--random-keys"),
    ("list a b1", "b1"), *((it, "DICT") for it in ("find", "stat", "check", "get", "encode", "decode", "merge", "rows", "match")),
    ("get a -1", "-1"), ("merge a", ""), ("encode a --no", "--no"), ("renumber", ""), ("renumber a", "--maps"),
    ("renumber --maps a", ""), ("split a --shards 3 -o b", "split"), ("join a -o b", "join"), ("rows a b", ""), ("match a b", ""),
    ("count a", ""), ("count a b c", "c"), ("encode a --column b", "--column"), ("freeze -o a --codes b", "--codes"),
    ("merge a --shard 1 --shards 2 -o b", ""), ("freeze --shard 1 -o a", "--shard"),
    ("'freeze it'", "freeze it"),
])
def test_wrong_arguments(tool, folder, words, named):
    """What was typed is named, or what is missing, and nothing is written."""
    status, written, told = tool(*shlex.split(words))
    assert (status, written, bool(told), named in " ".join(told), [*folder.iterdir()]) == (2, b"", True, True, [])


def test_arguments_that_are_not_utf8(tool):
    assert tool("freeze", "-o", "out", "a", b"\xffb") == said(2, "argument 5 isn't UTF-8: '\\xffb'")
    assert tool("freeze", "-o", "out", b"\xff" * 5000) == said(2, "a long argument isn't UTF-8")
    assert tool(b"\xff")[:2] == (2, b"")


@pytest.mark.parametrize("words", ["--help", "--version", "find --help"])
def test_help(tool, words):
    status, written, told = tool(*words.split())
    assert (status, told) == (0, []) and b"intaglio_dict" in written and unread([tool.path, *words.split()]) == UNREAD
