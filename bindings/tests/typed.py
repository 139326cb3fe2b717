"""The types of calls, as `mypy --strict` must take them to be. This is no program: nothing runs it."""
from array import array
from collections import Counter
from collections.abc import Sequence
from copy import copy
from pathlib import Path, PurePath
from typing import assert_type

from intaglio import (
    MISSING, BytesTable, Column, Frozen, Missing, NoSymbol, OtherDictionary, PathTable, Refused, SymbolTable, merge,
    renumber,
)


def first(strings: Sequence[str]) -> str:
    return strings[0]


buffer = array("I", bytes(8))
with SymbolTable(["a", "b"], capacity=2, keys=(1, 2)) as table:
    for number in (table.intern("a"), table.intern_into(["a", "b"], buffer), table.check_into(["b", "z"], buffer)):
        assert_type(number, int)
    for codes in (table.intern_lines(b"a\nb"), table.encode(["a", None, float("nan")], missing=MISSING)):
        assert_type(codes, array[int])
    assert_type(table.intern_all(text for text in "ab"), list[int])
    assert_type(table.check_interned("b"), int | None)
    assert_type(table.check_all(["a", "c"]), list[int | None])
    assert_type(table[-1], str)
    for part in (table[0:1], table.decode(buffer)):
        assert_type(part, list[str])
    assert_type(table.get(0), str | None)
    assert_type(table.get(7, 0), str | int)
    assert_type(list(table.items()), list[tuple[int, str]])
    assert_type(table.decode(buffer, missing=None), list[str | None])
    assert_type(table.freeze(keys=(1, 2)), bytes)
    table.freeze(Path("frozen"), keys=(1, 2))
    first(table)
assert_type(PathTable([PurePath("a"), "a/."])[0], str)
assert_type(BytesTable([b"a", bytearray(b"b"), memoryview(b"c")])[2], bytes)

frozen = Frozen("frozen", kind=str)
told: Frozen[str] = Frozen(Path("frozen"))
assert_type(list(Frozen("frozen", kind=bytes)), list[bytes])
of_any_kind: bytes | str = Frozen("frozen")[0]
assert_type(copy(frozen), Frozen[str])
assert_type(frozen.find_all(["b", "c"]), list[int | None])
for string in (frozen[-1], Frozen.from_bytes(b"", trusted=True, kind=str)[0]):
    assert_type(string, str)
merged, maps = merge([Path("frozen"), frozen], "merged", keys=(1, 2))
for codes in (
    frozen.encode(["b", "x"], missing=MISSING), frozen.encode_lines(memoryview(b"b\na")), SymbolTable().absorb(frozen),
    renumber(buffer, maps[1]), renumber(buffer, maps[1], out=buffer),
):
    assert_type(codes, array[int])
assert_type(frozen.encode_into(iter(["b", "a"]), buffer), int)
for part in (frozen.decode(buffer), frozen.get_all([1, 0])):
    assert_type(part, list[str])
assert_type(frozen.decode(buffer, missing=None), list[str | None])
assert_type(merged.to_bytes(), bytes)
frozen.write_column(Path("column"), buffer)
first(frozen)

with Column(Path("column"), frozen, trusted=True) as column:
    strings: Sequence[str | None] = column
    words: Frozen[str] | None = column.dictionary
    assert_type(column.source and column.source.shard, int | None)
    assert_type((column[0], column[1:]), tuple[str | None, list[str | None]])
    assert_type(column.rows_of("b"), array[int])
    assert_type(column.counts(), Counter[str | None])
    assert_type((column.codes, column.widened()[2]), tuple[memoryview, int])

shards, new_maps = merge([frozen, Path("frozen")], "shards", shards=2, keys=None)
assert_type((shards.shards, shards.identity), tuple[int, str])
assert_type(renumber(buffer, new_maps[1]), array[int])
with Frozen("shards", kind=str) as words_in_shards:
    words_in_shards.write_column("sharded", buffer)
    assert_type(list(Column("sharded", words_in_shards)), list[str | None])
    assert_type(merge([words_in_shards, Path("shards")], "whole", shard=1)[1], list[array[int]])
    assert_type(Column("sharded").identity, str)
    assert_type(Column.from_bytes(b"", words_in_shards)[0], str | None)

try:
    frozen.encode(["no"])
except Missing as missing:
    assert_type((missing.position, missing.string), tuple[int, bytes | str])
except OtherDictionary as other:
    assert_type((other.column, other.dictionary), tuple[str, str])
except NoSymbol as error:
    refused: Refused = error
    assert_type((refused.code, refused.position), tuple[int | None, int | None])

# What mypy must report: it does so of an error that is ignored and isn't there.
table.intern(b"a")  # type: ignore
table.encode(["a", None])  # type: ignore
table.encode(7)  # type: ignore
table.decode([0])  # type: ignore
data: bytes = Frozen("x", kind=str)[0]  # type: ignore
row: bytes | None = Column("x", Frozen("y", kind=str))[0]  # type: ignore
merge([SymbolTable()])  # type: ignore
