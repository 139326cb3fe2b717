"""The types of calls with arrays of numpy and columns of pandas, as `mypy --strict` must take them to be. Nothing runs it."""
from array import array
from typing import Any, assert_type

import numpy
import numpy.typing
import pandas  # type: ignore[import]

from intaglio import MISSING, BytesTable, Column, Frozen, SymbolTable, merge, renumber

column: "numpy.typing.NDArray[numpy.object_]" = numpy.array(["b", None, "a", "b"], object)
texts: "numpy.typing.NDArray[numpy.str_]" = numpy.array(["b", "a"])
out: "numpy.typing.NDArray[numpy.uint32]" = numpy.zeros(4, numpy.uint32)
signed: "numpy.typing.NDArray[numpy.int32]" = numpy.zeros(4, numpy.int32)
series: Any = pandas.Series(["a", None, "b"])

table = SymbolTable(texts)
words = Frozen.from_bytes(numpy.frombuffer(table.freeze(), numpy.uint8), kind=str)
for given in (column, series):
    assert_type(table.encode(given, missing=MISSING), array[int])
    assert_type(words.encode(given, missing=MISSING), array[int])
assert_type(table.intern_into(column, out, missing=MISSING), int)
assert_type(table.encode_into(column, signed, missing=MISSING), int)
assert_type(table.check_into(texts, out), int)
assert_type(words.encode_into(column, signed, missing=MISSING), int)
assert_type(table.decode(signed, missing=None), list[str | None])
assert_type(words.decode(out[:2]), list[str])
assert_type(words.encode_lines(numpy.frombuffer(b"a\nb", numpy.uint8)), array[int])
assert_type(BytesTable().intern_lines(memoryview(b"a\nb")), array[int])
maps = merge([words])[1]
assert_type(renumber(signed, maps[0], out=signed), numpy.typing.NDArray[numpy.int32])
assert_type(renumber(out[:2], maps[0]), array[int])
words.write_column("column", signed)
of_file: "Column[str]" = Column("column", words)
shared: "numpy.typing.NDArray[numpy.uint8]" = numpy.frombuffer(of_file.codes, numpy.uint8)
assert_type(of_file.rows_of(float("nan")), array[int])
category: Any = of_file.to_categorical()
