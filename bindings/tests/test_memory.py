"""The Python module with each allocation of Python's refused in turn: a call then raises MemoryError, or does as it does
otherwise, and leaves the strings. (refused.c refuses those of the library.) Left out where Python has no _testcapi."""
import sys
import types
import unittest
from array import array
from unittest import mock

from cases import Case, optional
from intaglio import (
    MISSING, BytesTable, CStringTable, Frozen, Full, Missing, NoSymbol, NotUtf8, Stale, SymbolTable, merge, renumber,
)
from intaglio._table import frozen_misplaced, set_of, share_out

_testcapi = optional("_testcapi")
# CPython 3.11 may raise SystemError if there is no memory for the frame of a function of Python's that raises.
OUT_OF_MEMORY = (MemoryError, SystemError)
MOST = 150


def shared_out(data):
    """How many strings of a frozen table belong to each of three shards."""
    tables = SymbolTable(), SymbolTable(), SymbolTable()
    share_out(data, tables)
    return [*map(len, tables)]


class Categorical:
    """What a Categorical of pandas is to the module."""

    codes, categories = array("b", [2, 0, -1, 2]), ["w1", "unused", "w5"]


@unittest.skipUnless(_testcapi, "_testcapi isn't there")
@mock.patch.dict(sys.modules, pandas=types.SimpleNamespace(Categorical=Categorical, NA=object()))
class Memory(Case):
    def results(self, call):
        """What each call with one more allocation before the one that is refused returns or raises."""
        for first in range(MOST):
            try:
                _testcapi.set_nomemory(first, first + 1)
                try:
                    result = call()
                finally:
                    _testcapi.remove_mem_hooks()
            except Exception as error:
                result = type(error)
            yield result

    def test_each_allocation_refused(self):
        words = [f"w{number}" for number in range(20)]
        table, data = SymbolTable(words), Frozen.from_bytes(BytesTable([b"a"]).freeze())
        frozen = Frozen.from_bytes(table.freeze())
        codes, lines, out = array("I", range(20)), "\n".join(words).encode(), array("I", bytes(80))
        shards, _ = merge([frozen], self.folder, shards=3)
        numbers, in_shards = shards.encode(words), list(shards)
        ids = [it._id for it in shards._tables]
        hashes = set_of(ids), set_of(ids, 3)
        for number, (call, wanted) in enumerate((
            (lambda: frozen.encode([*words]), codes), (lambda: frozen.encode(iter(words)), codes),
            (lambda: frozen.encode(["w1", None, "no"], missing=7), array("I", [1, 7, 7])),
            (lambda: frozen.encode(["w1", "no"]), Missing), (lambda: frozen.encode(["w1", None]), TypeError),
            (lambda: frozen.encode(["\ud800"]), Missing),
            (lambda: data.encode([bytearray(b"a"), bytearray(b"b")], missing=1), array("I", [0, 1])),
            (lambda: frozen.encode_into(words, out), 20), (lambda: frozen.encode_lines(lines), codes),
            (lambda: frozen.encode_lines(b"no"), Missing), (lambda: frozen.find_all(words), [*codes]),
            (lambda: frozen.decode(codes), words), (lambda: frozen.decode(array("I", [99])), NoSymbol),
            (lambda: frozen.get_all(codes), words), (lambda: frozen[:], words),
            (lambda: [*frozen.items()], [*enumerate(words)]), (lambda: frozen[99], NoSymbol),
            (lambda: renumber(codes, codes), codes), (lambda: renumber(memoryview(codes)[::2], codes), codes[::2]),
            (lambda: renumber(codes, array("I")), NoSymbol), (lambda: table.encode([*words]), codes),
            (lambda: table.encode([None, "w1"], missing=MISSING), array("I", [MISSING, 1])),
            (lambda: table.encode(["new", 7]), TypeError), (lambda: table.intern_all(words), [*codes]),
            (lambda: table.intern_lines(lines), codes), (lambda: table.intern_lines(b"new\n\xff"), NotUtf8),
            (lambda: table.intern_into(words, out), 20), (lambda: table.check_all(words), [*codes]),
            (lambda: table.check_into(words, out), 20), (lambda: table.decode(codes), words),
            (lambda: table.get_all(codes), words), (lambda: table.take_back(99), Stale),
            (lambda: table.encode(["new", "\ud800"]), NotUtf8), (lambda: list(SymbolTable(words)), words),
            (lambda: list(CStringTable().intern_lines(lines)), [*codes]), (lambda: SymbolTable().absorb(frozen), codes),
            (lambda: SymbolTable(words, limit=2), Full),
            (lambda: table.encode(Categorical(), missing=9), array("I", [5, 1, 9, 5])),
            (lambda: frozen.encode(Categorical(), missing=9), array("I", [5, 1, 9, 5])),
            (lambda: table.encode(Categorical()), TypeError),
            (lambda: table.check_into(Categorical(), out, missing=9), 4),
            (lambda: frozen.encode(Categorical()), TypeError), (lambda: list(merge([frozen, frozen])[0]), words),
            (lambda: shards.encode([*words]), numbers), (lambda: shards.encode(["w1", "no"]), Missing),
            (lambda: shards.encode_lines(lines), numbers), (lambda: shards.find_all(words), [*numbers]),
            (lambda: shards.encode(Categorical(), missing=9), array("I", [numbers[5], numbers[1], 9, numbers[5]])),
            (lambda: shards.decode(numbers), words), (lambda: shards.get_all(numbers), words),
            (lambda: shards[:], in_shards), (lambda: shards["w5" in shards], in_shards[1]), (lambda: shards[99], NoSymbol),
            (lambda: shared_out(frozen._data), [*map(len, shards._tables)]),
            (lambda: frozen_misplaced(shards._tables[1]._data), None),
            (lambda: set_of(ids), hashes[0]), (lambda: set_of(ids, 3), hashes[1]), (lambda: table._own_id(), frozen._id),
            (lambda: table._freeze_alone((0, 0), frozen._id), frozen.to_bytes()),
        )):
            results = list(self.results(call))
            self.assertEqual([it for it in results if it not in OUT_OF_MEMORY and it != wanted], [], number)
            self.assertIn(wanted, results, number)
            self.assertEqual((list(table), list(frozen), list(shards)), (words, words, in_shards))
