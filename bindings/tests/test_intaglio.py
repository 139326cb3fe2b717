"""The Python module, call by call. Expected values are worked out by hand."""
import copy
import gc
import inspect
import pickle
import pydoc
import random
import weakref
from array import array
from collections.abc import Sequence
from pathlib import PurePath, PurePosixPath

import intaglio
from cases import NO_CODES, Case
from intaglio import MISSING, BytesTable, ByteStringTable, CStringTable, OsStringTable, PathTable, SymbolTable

LONE_SURROGATE = "\ud800"
TEXTS, DATA = (SymbolTable, PathTable, OsStringTable), (BytesTable, CStringTable, ByteStringTable)


class EachKind:
    """Tests of every kind, by its class and by what makes a text one of its strings."""

    def test_symbols_count_up_from_0_and_give_their_string_back(self, kind, of):
        table = kind([of("b"), of("a"), of("b")])
        self.assertEqual((table.intern(of("c")), table.intern(of("a"))), (2, 1))
        self.assertEqual(list(table), [of("b"), of("a"), of("c")])
        self.assertEqual(list(table.items()), [(0, of("b")), (1, of("a")), (2, of("c"))])
        self.assertEqual((len(table), table[1], table.get(3), table.get(3, of("x"))), (3, of("a"), None, of("x")))
        self.assertTrue(of("a") in table and of("d") not in table)

    def test_many_at_once(self, kind, of):
        table = kind()
        self.assertEqual(table.intern_all(map(of, ["x", "y", "x", "é", "longer than the rest"])), [0, 1, 0, 2, 3])
        self.assertEqual(table.check_all(map(of, ["y", "z", "é"])), [1, None, 2])
        self.assertEqual(table.get_all([3, 0, 3]), [of("longer than the rest"), of("x"), of("longer than the rest")])
        self.assertEqual((table.intern_all([]), table.check_all([]), table.get_all([])), ([], [], []))
        self.refused(intaglio.NoSymbol, "", table.get_all, [0, 4])

    def test_a_full_table_refuses_what_is_new(self, kind, of):
        table = kind([of("a")], limit=2)
        self.refused(intaglio.Full, "", table.intern_all, [of("b"), of("c")])
        self.assertEqual(list(table), [of("a")])
        table.intern(of("b"))
        self.refused(OverflowError, "", table.intern, of("c"))
        self.assertEqual(table.intern(of("a")), 0)

    def test_rollback_and_clear(self, kind, of):
        table = kind(map(of, "abc"))
        for length in (4, -1, 2**64, -(2**64)):
            said = f"^no length to roll back to: {length}, and the table has 3 strings$"
            self.refused(intaglio.Stale, said, table.take_back, length)
        for length in ("1", 1.0, None):
            self.refused(TypeError, "", table.take_back, length)
        table.take_back(1)
        self.assertEqual((list(table), table.intern(of("c"))), ([of("a")], 1))
        table.clear()
        self.assertEqual((len(table), table.intern(of("b"))), (0, 0))

    def test_room(self, kind, of):
        table = kind(capacity=10)
        self.assertEqual(table.capacity, 10)
        table.intern(of("a"))
        table.shrink_to()
        self.assertEqual(table.capacity, 1)
        table.reserve(5)
        self.assertGreaterEqual(table.capacity, 6)
        for additional in (2**32, 2**64, -1):
            self.refused(intaglio.TooLarge, "", table.reserve, additional)
        self.refused(intaglio.TooLarge, r"^a number of strings is from 0 to 2\*\*32, not -1$", table.shrink_to, -1)
        for sizes in ({"limit": 0}, {"limit": 2**32 + 1}, {"capacity": 2**32 + 1}, {"capacity": -1}):
            self.refused(intaglio.TooLarge, "", lambda: kind(**sizes))
        self.refused(TypeError, "", lambda: kind(capacity=1, limit=1))

    def test_numbers_that_python_does_not_write_in_digits(self, kind, of):
        table, number, said = kind([of("a")]), 10**5000, "a number of thousands of digits"
        self.refused(intaglio.TooLarge, f"not {said}$", table.reserve, number)
        self.refused(intaglio.Stale, f": {said}, and the table has 1 strings$", table.take_back, number)
        calls = (lambda: table[number], lambda: table.get_all([0, number]))
        self.refused(intaglio.NoSymbol, f"no such symbol: {said}, and ", calls)

    def test_a_closed_table_has_no_strings(self, kind, of):
        with kind([of("a")]) as table:
            self.assertEqual(len(table), 1)
        table.close()
        self.assertEqual((len(table), of("a") in table, list(table)), (0, False, []))
        self.refused(intaglio.NoTable, "", (table.intern_all, table.check_all), [of("a")])
        self.refused(intaglio.NoTable, "", table.intern, of("a"))
        self.refused(intaglio.NoTable, "", pickle.dumps, table)

    def test_a_copy_has_the_strings_at_their_symbols_and_is_another_table(self, kind, of):
        strings = [of(text) for text in ("b", "a", "é", "", "longer than the rest")]
        pickled = (lambda table, by=by: pickle.loads(pickle.dumps(table, by)) for by in range(6))
        for copied in (copy.copy, copy.deepcopy, *pickled):
            table = kind(strings)
            other = copied(table)
            self.assertIs(type(other), kind)
            self.assertEqual((list(other), other.check_all(strings)), (strings, [0, 1, 2, 3, 4]))
            self.assertEqual((other.intern(of("new")), table.check_interned(of("new"))), (5, None))
            table.clear()
            self.assertEqual(len(other), 6)
            del table
            gc.collect()
            self.assertEqual(other[0], of("b"))
        self.assertEqual(list(pickle.loads(pickle.dumps(kind()))), [])
        self.assertEqual(pickle.dumps(kind([of("a"), of("b")])), pickle.dumps(kind([of("a"), of("b"), of("a")], keys=(1, 2))))

    def test_a_copy_keeps_the_limit_and_what_a_subclass_has(self, kind, of):
        other = copy.copy(kind([of("a")], limit=2))
        self.assertEqual(other.intern(of("b")), 1)
        self.refused(intaglio.Full, "", other.intern, of("c"))
        table = type("Named", (kind,), {})([of("a")])
        table.name = "x"
        other = copy.copy(table)
        self.assertEqual((type(other), list(other), other.name), (type(table), [of("a")], "x"))

    def test_symbols_that_are_none(self, kind, of):
        table = kind([of("a")])
        for symbol in (1, -2, 2**32, 2**64, -(2**64)):
            self.refused(IndexError, f"^no such symbol: {symbol}, and the table has 1 strings$", lambda: table[symbol])
        for symbol in (1, -1, 2**32, 2**64):
            self.assertEqual(table.get(symbol, "none"), "none")
            self.refused(intaglio.NoSymbol, "", table.get_all, [symbol])
        self.refused(TypeError, "", (table.get, table.__getitem__), "0")

    def test_a_table_is_a_sequence(self, kind, of):
        table, strings = kind(map(of, "abcde")), list(map(of, "abcde"))
        self.assertIsInstance(table, Sequence)
        self.assertEqual((table[-1], table[-5], table[True]), (of("e"), of("a"), of("b")))
        for part in (slice(1, 3), slice(None, None, -2), slice(-2, None), slice(3, 1), slice(0, 99)):
            self.assertEqual(table[part], strings[part])
        self.assertEqual((list(reversed(table)), table.index(of("c")), table.index(of("c"), -3, -1)), (strings[::-1], 2, 2))
        self.assertEqual((table.count(of("c")), table.count(of("x"))), (1, 0))
        for arguments in ((of("x"),), (of("c"), 3), (of("c"), 0, 2)):
            self.refused(ValueError, "", table.index, *arguments)

    def test_an_object_of_another_type_is_no_string(self, kind, of):
        table = kind([of("a")])
        for other in (None, 7, 1.5, b"a" if isinstance(of("a"), str) else "a", [of("a")]):
            self.refused(TypeError, "", (table.__contains__, table.index, table.count, table.check_interned, table.intern), other)

    def test_codes_go_to_a_buffer(self, kind, of):
        table, symbols, found, signed = kind(), array("I", [9] * 4), array("I", [9] * 3), array("i", [9] * 3)
        self.assertEqual(table.intern_into(map(of, "aba"), symbols), 3)
        self.assertEqual(symbols.tolist(), [0, 1, 0, 9])
        self.assertEqual((table.check_into(map(of, "xb"), found), found.tolist()), (2, [MISSING, 1, 9]))
        self.assertEqual((table.check_into(map(of, "xb"), signed), signed.tolist()), (2, [-1, 1, 9]))
        self.assertEqual((table.check_into([of("x"), None, of("a")], signed, missing=7), signed.tolist()), (3, [7, 7, 0]))
        count = table.encode_into([of("b"), None, float("nan")], signed, missing=MISSING)
        self.assertEqual((count, signed.tolist()), (3, [1, -1, -1]))
        for call, out in ((table.intern_into, symbols), (table.encode_into, symbols), (table.check_into, found)):
            self.refused(intaglio.NoSpace, "", call, map(of, "vwxyz"), out)
            for other in NO_CODES:
                self.refused(TypeError, "^codes are .*4 bytes.*uint32", call, [of("new")], other)
            self.refused(BufferError, "", call, [of("new")], memoryview(out).toreadonly())
            self.refused(TypeError, "NoneType, at position 1: missing= gives", call, [of("new"), None], out)
        self.assertEqual((len(table), symbols.tolist(), found.tolist()), (2, [0, 1, 0, 9], [MISSING, 1, 9]))

    def test_a_column_is_encoded_and_decoded(self, kind, of):
        table, column = kind([of("b")]), [of("a"), None, of("b"), float("nan"), of("a"), of("é")]
        codes = table.encode(column, missing=MISSING)
        self.assertEqual(codes, array("I", [1, MISSING, 0, MISSING, 1, 2]))
        self.assertEqual(table.encode(iter(column), missing=5), array("I", [1, 5, 0, 5, 1, 2]))
        self.assertEqual(table.decode(codes, missing=None), [of("a"), None, of("b"), None, of("a"), of("é")])
        self.assertEqual((table.encode([]), table.decode(array("I"))), (array("I"), []))
        self.assertEqual(table.encode((of("é"), of("b"))), array("I", [2, 0]))
        first, second, third = table.decode(array("i", [0, 1, 0]))
        self.assertTrue(first is third and first is not second)
        for codes, code, position in ((array("I", [0, 3]), 3, 1), (array("i", [-1]), MISSING, 0)):
            said = f"^code {code} at position {position} is no symbol$"
            self.refused(intaglio.NoSymbol, said, table.decode, codes, position=position)
        for column in ([of("new"), None], [of("new"), 7], 7):
            self.refused(TypeError, "", table.encode, column)
        for missing in (-1, 2**32, "0"):
            self.refused((OverflowError, TypeError), "", lambda: table.encode([of("new")], missing=missing))
        self.assertEqual(list(table), [of("b"), of("a"), of("é")])
        table.close()
        self.refused(intaglio.NoTable, "", (lambda: table.encode([of("a")]), lambda: table.decode(array("I"))))

    def test_lines_of_a_buffer(self, kind, of):
        chance = random.Random(4)
        longer = [b"x" * size for size in (8_191, 8_192, 8_193, 100_000)]
        drawn, numbered = [b"w%d" % chance.randrange(500) for _ in range(3_000)], [b"%d" % it for it in range(2_000)]
        for lines in ([], [b""], [b"a"], [b"", b""], [b"a", b"", b"b", b"a", "é".encode()], longer, drawn, numbered):
            for end in (b"", b"\n") if lines and lines[-1] else (b"\n",) if lines else (b"",):
                data, symbols = b"\n".join(lines) + end, {}
                wanted = array("I", [symbols.setdefault(it, len(symbols)) for it in lines])
                for given in (data, bytearray(data), memoryview(data), array("B", data)):
                    table = kind()
                    self.assertEqual(table.intern_lines(given), wanted)
                    self.assertEqual(list(table), [it if of("") == b"" else it.decode() for it in symbols])
                self.assertEqual((table.encode_lines(data), len(table)), (wanted, len(symbols)))
        for other in ("a\nb", None, 7, [b"a"]):
            self.refused(TypeError, "", kind().intern_lines, other)
        table = kind([of("a")], limit=300)
        self.refused(intaglio.Full, "", table.intern_lines, b"\n".join(b"%d" % it for it in range(600)), position=299)
        self.assertEqual(list(table), [of("a")])

    def test_an_error_in_a_batch_has_its_position(self, kind, of):
        words = [of(f"word {number}") for number in range(1000)]
        for known, place in ((0, 10), (0, 700), (500, 700), (900, 950)):
            table = kind(words[:known], limit=place)
            for call in (table.intern_all, table.encode):
                error = self.refused(intaglio.Full, f"^at position {place}: The string is new", call, words, position=place)
                self.assertEqual(list(table), words[:known])
                again = pickle.loads(pickle.dumps(error))
                self.assertEqual((type(again), again.position, str(again)), (intaglio.Full, place, str(error)))
        table = kind(words)
        for place in (0, 63, 64, 700):
            calls = (table.intern_all, table.encode, table.check_all)
            self.refused(TypeError, f"not int, at position {place}$", calls, [*words[:place], 7, *words])
            said = f"^at position {place}: no such symbol: 1000, and the table has 1000 strings$"
            self.refused(intaglio.NoSymbol, said, table.get_all, [*range(place), 1000, 5], position=place)
        self.refused(intaglio.Full, "", lambda: kind(words, limit=8), position=8)

    def test_a_batch_fails_as_a_whole(self, kind, of):
        table = kind([of("a")])
        for last in (None, 1, 1.5):
            self.refused(TypeError, "", (table.intern_all, table.check_all), [of("new"), of("newer"), last])
        self.refused(ZeroDivisionError, "", table.intern_all, (of("new") if number < 3 else 1 // 0 for number in range(5)))
        self.assertEqual(list(table), [of("a")])

    def test_many_and_long_strings(self, kind, of):
        words = [of(f"word {number}" * (number % 9)) for number in range(10_000)]
        self.assertEqual(list(kind(words)), list(dict.fromkeys(words)))
        strings = [of("é" * size) for size in (0, 1, 100, 127, 128, 129, 1_000, 100_000)]
        table = kind(strings)
        self.assertEqual((list(table), [*map(table.get, range(8))], table.get_all(range(8))), (strings, strings, strings))

    def test_a_subclass_and_a_weak_reference(self, kind, of):
        class Named(kind):
            def __init__(self, name):
                super().__init__([of("a")])
                self.name = name

        table = Named("x")
        reference = weakref.ref(table)
        self.assertEqual((table.name, table[0], reference(), repr(table)), ("x", of("a"), table, "<Named of 1>"))
        del table
        gc.collect()
        self.assertIsNone(reference())

    def test_a_table_may_be_made_again(self, kind, of):
        table = kind([of("a")])
        table.__init__([of("b"), of("c")])
        self.assertEqual((list(table), len(kind.__new__(kind))), ([of("b"), of("c")], 0))


def with_kind(test, kind):
    return lambda self: test(self, kind, str if kind in TEXTS else str.encode)


for each in (*TEXTS, *DATA):
    tests = {name: with_kind(test, each) for name, test in vars(EachKind).items() if name.startswith("test")}
    globals()[f"Test{each.__name__}"] = type(f"Test{each.__name__}", (Case,), tests)


class OneKind(Case):
    def test_texts_have_no_lone_surrogate(self):
        for kind in TEXTS:
            table = kind()
            self.assertNotIn(LONE_SURROGATE, table)
            self.refused(intaglio.NotUtf8, "lone surrogate", (table.intern, lambda it: kind([it])), LONE_SURROGATE)
            for place in (0, 1, 100):
                strings, said = [*map(str, range(place)), LONE_SURROGATE, "a", 7], f"^at position {place}: .* lone surrogate"
                self.refused(intaglio.NotUtf8, said, (table.intern_all, table.encode), strings, position=place)
            self.refused(intaglio.NotUtf8, "^at position 2: The string isn't valid UTF-8.$", table.intern_lines, b"a\nb\n\xff\nc")
            self.refused(TypeError, "^a string, not bytes$", table.intern, b"a")
            self.assertEqual(len(table), 0)

    def test_c_strings_have_no_zero(self):
        table = CStringTable([b"a", b""])
        self.assertNotIn(b"a\0", table)
        self.refused(intaglio.InnerZero, "", table.intern, b"a\0b")
        calls = (table.intern_all, lambda it: table.intern_lines(b"\n".join(it)))
        self.refused(intaglio.InnerZero, "", calls, [b"x", b"y", b"a\0b"], position=2)
        self.assertEqual(list(table), [b"a", b""])

    def test_which_strings_are_equal(self):
        self.assertEqual(list(BytesTable([b"\xff\0", bytearray(b"\xff\0")])), [b"\xff\0"])
        table = PathTable(["a//b"])
        self.assertEqual((table.intern("a/./b"), table.intern(PurePath("a/b")), table[0]), (0, 0, "a//b"))

    def test_the_keys_may_be_chosen(self):
        self.assertEqual(SymbolTable(["a", "b"], keys=(0, 2**64 - 1)).intern("b"), 1)
        for keys in ((2**64, 0), (0, -1), (1,), (1, 2, 3), ()):
            self.refused(ValueError, "", lambda: SymbolTable(keys=keys))
        for keys in (1, (1, "2"), (1.0, 2)):
            self.refused(TypeError, "", lambda: SymbolTable(keys=keys))

    def test_batches_take_what_single_calls_take(self):
        self.assertEqual(PathTable(["a", PurePath("b")]).check_all([PurePath("b"), "a/."]), [1, 0])
        given = [b"a", bytearray(b"b"), memoryview(b"xcx")[1:2], memoryview(b"acbd")[::2]]
        self.assertEqual(list(BytesTable(given)), [b"a", b"b", b"c", b"ab"])
        self.assertEqual(SymbolTable(["a"]).check_all(["a", LONE_SURROGATE, "b"]), [0, None, None])

    def test_a_list_that_changes_while_its_contents_are_converted(self):
        given = ["a"] * 3

        class Shrinking(PurePosixPath):
            def __fspath__(self):
                given.clear()
                return "b"

        given.append(Shrinking("x"))
        self.assertEqual(PathTable().intern_all(given), [0, 0, 0, 1])

    def test_the_base_is_of_no_kind(self):
        self.refused(TypeError, "", intaglio.Table)
        self.assertEqual(intaglio.Table[str, str].__origin__, intaglio.Table)
        self.refused(intaglio.NoSymbol, "^no such symbol: 0, and the table has 0 strings$", lambda: SymbolTable()[0])
        self.assertRegex(intaglio.__version__, r"^\d+\.\d+\.\d+$")

    def test_constructors_show_their_arguments(self):
        for kind in (intaglio.Table, *TEXTS, *DATA):
            self.assertEqual(str(inspect.signature(kind)), "(contents=(), *, capacity=None, limit=None, keys=None)")
            self.assertIn(f"{kind.__name__}(contents=(), *, capacity=None, limit=None, keys=None)", pydoc.render_doc(kind))
            self.assertNotIn("--", kind.__doc__)
        for call, arguments in (
            (intaglio.Frozen, "(path, *, trusted=False, kind=None)"), (intaglio.renumber, "(codes, numbers, /, out=None)"),
            (SymbolTable.encode, "(self, strings, /, *, missing=None)"), (SymbolTable.intern_lines, "(self, lines, /)"),
            (SymbolTable.intern_into, "(self, strings, out, /, *, missing=None)"),
        ):
            self.assertEqual(str(inspect.signature(call)), arguments)

    def test_tables_and_frozen_tables_have_the_same_names(self):
        names = "encode encode_into encode_lines decode get get_all check_interned check_all index count items close"
        for kind in (SymbolTable, intaglio.Frozen):
            self.assertEqual([it for it in names.split() if not callable(getattr(kind, it, None))], [])
