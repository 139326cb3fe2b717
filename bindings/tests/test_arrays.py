"""Columns of numpy and pandas from Python, beside plain lists. What isn't there is left out."""
import pickle
import random
import subprocess
import sys
import tempfile
import unittest
from array import array
from pathlib import Path
from unittest import mock

from cases import Case, optional, table_of
from intaglio import (
    MISSING, BytesTable, Column, Frozen, Full, Missing, NoSpace, NotUtf8, PathTable, SymbolTable, merge, renumber,
)

numpy, pandas = optional("numpy"), optional("pandas")
NAN = float("nan")
NO_CODE = ": missing= gives None, NaN and NA a code$"
STRINGS = ["to", "be", "", "é", "a word that is longer than the others" * 9]


def frozen_of(strings):
    return Frozen.from_bytes(table_of(strings).freeze())


def in_shards(strings, of_strings=frozen_of):
    """The same as a dictionary in one shard, whose order is that of the strings."""
    with tempfile.TemporaryDirectory() as folder:
        return merge([of_strings(strings)], folder, shards=1)[0]


def codes_of(column, symbols):
    """The codes of a column, by a dict, in which new strings get the next number."""
    return [MISSING if it is None or it != it else symbols.setdefault(it, len(symbols)) for it in column]


def without_nan(column):
    return [None if it != it else it for it in column]


@unittest.skipUnless(numpy, "numpy isn't there")
class Arrays(Case):
    def test_arrays_of_objects_and_of_strings(self):
        column = ["é", "to", "", "to", "a" * 300, "é"]
        for given in (
            numpy.array(column), numpy.array(column, object), numpy.array(column, object)[:], numpy.array(column * 2, object)[:6],
            numpy.array(column).reshape(6),
        ):
            symbols, out, table = {}, numpy.full(8, 9, numpy.uint32), SymbolTable()
            wanted = codes_of(column, symbols)
            self.assertEqual((list(table.encode(given)), list(table), {*map(type, table)}), (wanted, [*symbols], {str}))
            for call in (table.intern_into, table.encode_into, table.check_into, frozen_of([*symbols]).encode_into):
                out[:] = 9
                self.assertEqual((call(given, out), out.tolist()), (6, wanted + [9, 9]))
            for call in (table.intern_all, table.check_all, frozen_of([*symbols]).find_all):
                self.assertEqual(call(given), wanted)
            self.assertEqual(list(SymbolTable(given)), [*symbols])
        self.assertEqual(list(SymbolTable(numpy.array(column * 2, object)[::2])), ["é", "", "a" * 300])
        self.assertEqual(list(SymbolTable(numpy.array(column)[::-1])), ["é", "a" * 300, "to", ""])
        data = [b"\xff", b"a", b"\xff", b"a\0b"]
        for given in (numpy.array(data), numpy.array(data, object)):
            self.assertEqual(list(BytesTable(given)), [b"\xff", b"a", b"a\0b"])
            self.assertEqual(list(frozen_of(data[::-1]).encode(given)), [1, 2, 1, 0])
        self.assertEqual((list(SymbolTable(numpy.array([], object))), list(SymbolTable(numpy.array([], str)))), ([], []))
        self.assertEqual(list(PathTable(numpy.array(["a//b", Path("a/b"), "c"], object))), ["a//b", "c"])

    def test_arrays_with_what_is_missing(self):
        for nothing in (None, NAN, numpy.nan, numpy.float64("nan")):
            column = numpy.array(["b", nothing, "a", nothing, "b"], object)
            table, out = SymbolTable(), numpy.full(5, 9, numpy.int32)
            self.assertEqual(list(table.encode(column, missing=MISSING)), [0, MISSING, 1, MISSING, 0])
            self.assertEqual((table.intern_into(column, out, missing=MISSING), out.tolist()), (5, [0, -1, 1, -1, 0]))
            self.assertEqual((table.check_into(column, out, missing=7), out.tolist()), (5, [0, 7, 1, 7, 0]))
            words = frozen_of(["a"])
            self.assertEqual((words.encode_into(column, out, missing=MISSING), out.tolist()), (5, [-1, -1, 0, -1, -1]))
            self.refused(TypeError, "at position 1", (table.encode, words.encode, table.intern_all, words.find_all), column[2:])
        wrong = numpy.array(["a", 1.5], object)
        self.refused(TypeError, "not float, at position 1$", lambda: SymbolTable().encode(wrong, missing=MISSING))
        self.assertEqual(list(SymbolTable().encode(numpy.empty(3, object), missing=4)), [4, 4, 4])

    def test_arrays_that_are_no_column_of_strings(self):
        table, words = SymbolTable(), frozen_of(["a"])
        for given in (
            numpy.array("abc"), numpy.array("abc", object), numpy.array([["a", "b"]]), numpy.array([["a"], ["b"]], object),
            numpy.zeros(3), numpy.array([1, 2], object), numpy.array(["a"], "S1"),
        ):
            calls = (table.encode, table.intern_all, table.check_all, words.encode, words.find_all, SymbolTable)
            self.refused(TypeError, "", calls, given)
        self.assertEqual(len(table), 0)

    def test_codes_of_numpy(self):
        words = frozen_of(STRINGS)
        for kind in ("u4", "i4"):
            codes = numpy.array([3, 0, -1, 1], "i4").astype(kind)
            self.assertEqual(words.decode(codes, missing=None), ["é", "to", None, "be"])
            self.assertEqual(SymbolTable(STRINGS).decode(codes[::-2], missing=None), ["be", "to"])
            numbers = numpy.arange(10, 15, dtype=kind)
            out = numpy.zeros(4, kind)
            self.assertIs(renumber(codes, numbers, out=out), out)
            self.assertEqual(out.astype("u4").tolist(), [13, 10, MISSING, 11])
            self.assertIs(renumber(codes, numbers, out=codes), codes)
            self.assertEqual(codes.tolist(), out.tolist())
        codes = numpy.frombuffer(words.encode(["be", "no", "to"], missing=MISSING), "i4")
        self.assertEqual(codes.tolist(), [1, -1, 0])
        self.assertEqual(words.decode(numpy.array([[3, 0], [1, 1]], "u4")), ["é", "to", "be", "be"])
        out = numpy.full(4, 9, numpy.uint32)
        self.assertEqual((words.encode_into(["be"], out[2:]), out.tolist()), (1, [9, 9, 1, 9]))
        self.refused(ValueError, "", words.encode_into, ["to"], numpy.zeros(6, "u4")[::2])

    def test_other_arrays_are_no_codes(self):
        words = Frozen.from_bytes(SymbolTable(STRINGS).freeze())
        for kind in ("i8", "u8", "u2", "i2", "f4", ">u4", ">i4", "S4"):
            advice = {"u2": "widened", "S4": "encode"}.get(kind, "astype")
            calls = (words.decode, lambda it: words.encode_into(["to"], it), lambda it: renumber(it, numpy.zeros(3, "u4")))
            self.refused(TypeError, f"^codes are integers of 4 bytes.*: .*{advice}", calls, numpy.zeros(3, kind))

    def test_lines_of_numpy(self):
        lines = numpy.frombuffer(b"b\na\nb", numpy.uint8)
        table = SymbolTable()
        self.assertEqual((list(table.intern_lines(lines)), list(table)), ([0, 1, 0], ["b", "a"]))
        self.assertEqual(list(frozen_of(["a", "b"]).encode_lines(lines)), [1, 0, 1])

    def test_random_columns(self):
        chance = random.Random(8)
        for size in (0, 1, 63, 64, 65, 5_000, 100_000):
            column = [chance.choice([None, NAN, *map(str, range(200))]) for _ in range(size)]
            symbols, table = {}, SymbolTable()
            wanted = codes_of(column, symbols)
            for given in (column, numpy.array(column, object)):
                self.assertEqual((list(table.encode(given, missing=MISSING)), list(table)), (wanted, [*symbols]))
                words, codes = frozen_of([*symbols]), numpy.array(wanted, numpy.uint32)
                self.assertEqual(list(words.encode(given, missing=MISSING)), wanted)
                self.assertEqual(words.decode(codes, missing=None), without_nan(column))
                present = codes[codes != MISSING]
                self.assertEqual(renumber(present, numpy.arange(10, 300, dtype="u4")).tolist(), (present + 10).tolist())


class ArraysInShards(Arrays):
    """The same where strings are looked up in shards."""

    def setUp(self):
        super().setUp()
        patch = mock.patch(f"{__name__}.frozen_of", in_shards)
        patch.start()
        self.addCleanup(patch.stop)


@unittest.skipUnless(pandas, "pandas isn't there")
class Columns(Case):
    def test_columns_of_each_type(self):
        column = ["b", None, "a", "b", NAN, "é"]
        for nothing in (column, ["b", pandas.NA, "a", "b", None, "é"]):
            series = pandas.Series(nothing, dtype=object)
            others = (
                pandas.Categorical(series), pandas.Index(series), pandas.Series(nothing, index=[5, 3, 2, 4, 1, 0]), series.array,
            )
            for given in (series, series.astype("string"), series.astype("category"), *others):
                table, out = SymbolTable(), numpy.zeros(6, "i4")
                self.assertEqual(list(table.encode(given, missing=MISSING)), [0, MISSING, 1, 0, MISSING, 2])
                self.assertEqual(list(table), ["b", "a", "é"])
                self.assertEqual((table.intern_into(given, out, missing=MISSING), out.tolist()), (6, [0, -1, 1, 0, -1, 2]))
                self.assertEqual(list(frozen_of(["a", "b"]).encode(given, missing=MISSING)), [1, MISSING, 0, 1, MISSING, MISSING])
                self.refused(TypeError, f"at position 1{NO_CODE}", (SymbolTable().encode, frozen_of(["b"]).encode), given)
        whole = pandas.Series(["b", "a", "b"])
        for given in (
            whole, whole.astype("string"), whole.astype("category"), pandas.DataFrame({"x": whole, "y": ["c", "d", "e"]})["x"],
        ):
            self.assertEqual((list(SymbolTable(given)), SymbolTable().intern_all(given)), (["b", "a"], [0, 1, 0]))
            self.assertEqual(frozen_of(["a", "b"]).find_all(given), [1, 0, 1])
        self.refused(Missing, "", frozen_of(["b"]).encode, whole, string="a", position=1)
        for other in (pandas.Series([1, 2]), pandas.DataFrame({"x": whole}), pandas.Series([1.5, NAN])):
            self.refused(TypeError, "", lambda: SymbolTable().encode(other, missing=MISSING))

    def test_categoricals_are_encoded_as_their_strings(self):
        chance = random.Random(9)
        for count, rows in ((0, 0), (0, 3), (1, 1), (5, 40), (300, 2_000), (40_000, 100_000)):
            categories = [f"é {number}" for number in chance.sample(range(10 * count), count)]
            codes = numpy.array([chance.randrange(-1, count) if chance.randrange(3) else -1 for _ in range(rows)], "i4")
            whole = pandas.Categorical.from_codes(codes, categories=categories)
            plain = [None if code < 0 else categories[code] for code in codes]
            for given, column in (
                (whole, plain), (pandas.Series(whole), plain), (pandas.Index(whole), plain), (whole[::-3], plain[::-3]),
                (pandas.Series(whole)[1:], plain[1:]),
            ):
                begun = {"x": 0, categories[0] if count else "y": 1}
                symbols, table, out = dict(begun), SymbolTable(begun), numpy.full(rows + 1, 9, "i4")
                wanted = codes_of(column, symbols)
                self.assertEqual((list(table.encode(given, missing=MISSING)), list(table)), (wanted, [*symbols]))
                self.assertEqual(list(frozen_of([*symbols]).encode(given, missing=MISSING)), wanted)
                self.assertEqual(list(frozen_of([*begun]).encode(given, missing=7)), [begun.get(it, 7) for it in column])
                signed = [it if it != MISSING else -1 for it in wanted]
                for call in (table.encode_into, table.check_into, frozen_of([*symbols]).encode_into):
                    out[:] = 9
                    self.assertEqual(call(given, out, missing=MISSING), len(column))
                    self.assertEqual(out.tolist(), signed + [9] * (rows + 1 - len(column)))
            dense, present = whole[codes >= 0], [it for it in plain if it]
            table, words = SymbolTable(), frozen_of([*dict.fromkeys(present)])
            wanted = codes_of(present, {})
            self.assertEqual((table.intern_all(dense), list(table), list(SymbolTable(dense))), (wanted, [*words], [*words]))
            for call in (table.check_all, words.find_all, words.check_all):
                self.assertEqual(call(dense), wanted)

    def test_what_is_wrong_in_a_categorical_is_named_with_its_row(self):
        def column(*strings, kind="category"):
            return pandas.Series(strings, dtype=kind)

        for position, given in ((0, column(None, "a")), (2, column("a", "a", None, "b")), (1, column("a", None).array)):
            table, words, said = SymbolTable(), frozen_of(["a"]), f"a string, not float, at position {position}"
            self.refused(TypeError, said, (table.intern_all, table.check_all, SymbolTable, words.find_all), given)
            self.refused(TypeError, f"{said}{NO_CODE}", (table.encode, words.encode), given)
        rows = column("a", "b", "a", None, "b", "c", "c")
        for call, given, error, position in (
            (SymbolTable(limit=2).encode, column("a", "b", "a", "b", "c", "c"), Full, 4),
            (frozen_of(["a"]).encode, rows, Missing, 1), (frozen_of(["b"]).encode, rows[1:], Missing, 1),
        ):
            self.refused(error, f"at position {position}", call, given, position=position)
        self.refused(TypeError, "at position 3", frozen_of(["b", "a"]).encode, rows)
        table, words, lone = SymbolTable(["b"]), frozen_of(["b"]), column("b", "b", "\ud800", "a")
        calls = (table.encode, table.intern_all, lambda it: table.encode_into(it, array("I", bytes(99 * 4))))
        self.refused(NotUtf8, "", calls, lone, position=2)
        self.assertEqual((list(words.encode(lone, missing=5)), table.check_all(lone)), ([0, 0, 5, 5], [0, 0, None, None]))
        calls = (table.encode_into, table.check_into, words.encode_into)
        self.refused(NoSpace, "", calls, column("b", "b", "b"), array("I", [0] * 2))
        for other in (column(1, 2, 1), column(*pandas.to_datetime(["2020-01-01", "2020-01-02"]))):
            self.refused(TypeError, "a string, not .*, at position 0", table.encode, other)
        self.assertEqual((list(BytesTable(column(b"b", b"a", b"b"))), list(table)), ([b"b", b"a"], ["b"]))

    def test_each_category_is_read_once(self):
        read = []

        class Counted(Path().__class__):
            def __fspath__(self):
                read.append(str(self))
                return str(self)

        categories, table = [Counted("b"), Counted("unused"), Counted("a/c")], PathTable()
        paths = pandas.Categorical.from_codes([2, 0, 2, 2, 0] * 1_000, categories=categories)
        self.assertEqual((list(table.encode(paths)), list(table), read), ([0, 1, 0, 0, 1] * 1_000, ["a/c", "b"], ["a/c", "b"]))

    def test_codes_of_pandas(self):
        words = frozen_of(STRINGS)
        codes = pandas.Series([1, -1, 0], dtype="int32")
        self.assertEqual(words.decode(codes, missing=None), ["be", None, "to"])
        self.assertEqual(list(renumber(codes, pandas.Series([7, 8], dtype="uint32"))), [8, MISSING, 7])
        for other in (pandas.Series([1, 0]), pandas.Categorical(["to", "be"]).codes):
            self.refused(TypeError, "astype", words.decode, other)

    def test_from_a_series_to_a_column_file_and_back_to_a_categorical(self):
        chance = random.Random(4)
        for count in (100, 200, 3_000, 70_000):
            words = frozen_of([f"s{it}" for it in range(count)])
            lines = [chance.choice([None, words[chance.randrange(count)]]) for _ in range(5_000)]
            words.write_column(self.folder / "column", words.encode(pandas.Series(lines), missing=MISSING))
            column = Column(self.folder / "column", words)
            codes = numpy.frombuffer(column.codes, f"u{column.width}")
            self.assertFalse(codes.flags.owndata or codes.flags.writeable)
            self.assertEqual((codes == column.missing).sum(), lines.count(None))
            signed = numpy.frombuffer(column.widened(), "i4")
            self.assertEqual(numpy.where(codes == column.missing, -1, codes.astype("i8")).tolist(), signed.tolist())
            back = pandas.Series(pandas.Categorical.from_codes(signed, categories=list(words)))
            self.assertEqual(back.astype(object).where(back.notna(), None).tolist(), lines)
            wanted = pandas.Series(lines).value_counts(dropna=False)
            self.assertEqual(dict(zip(without_nan(wanted.index), wanted)), column.counts())
            words.write_column(self.folder / "again", signed)
            self.assertEqual((self.folder / "again").read_bytes(), column.to_bytes())
            if count <= 127:
                self.assertEqual(numpy.frombuffer(column.codes, "i1").tolist(), signed.tolist())
            column.close()
            self.assertEqual(codes[:5].tolist(), [column.missing if it == -1 else it for it in signed[:5].tolist()])

    def test_from_a_series_to_a_file_and_back_to_a_categorical(self):
        chance = random.Random(3)
        paths = [f"/usr/share/{it % 97}/é{it}" for it in range(3_000)]
        left, right = ([chance.choice([None, *paths[at:at + 2_000]]) for _ in range(20_000)] for at in (0, 1_000))
        for name, column in (("left", left), ("right", right)):
            table = SymbolTable()
            codes = table.encode(pandas.Series(column), missing=MISSING)
            table.freeze(self.folder / f"{name}.dict")
            (self.folder / f"{name}.codes").write_bytes(codes)
        program = """if True:
            import pickle, sys
            import numpy, pandas
            from intaglio import Frozen
            words = Frozen(sys.argv[1] + ".dict", kind=str)
            codes = numpy.fromfile(sys.argv[1] + ".codes", "<i4")
            column = pandas.Series(pandas.Categorical.from_codes(codes, categories=list(words)))
            sys.stdout.buffer.write(pickle.dumps(column.astype(object).where(column.notna(), None).tolist()))"""
        for name, column in (("left", left), ("right", right)):
            back = subprocess.run([sys.executable, "-c", program, self.folder / name], capture_output=True, check=True)
            self.assertEqual(pickle.loads(back.stdout), column)
        words, maps = merge([self.folder / "left.dict", self.folder / "right.dict"])
        frames = []
        for name, numbers in zip(("left", "right"), maps):
            codes = numpy.frombuffer(renumber(numpy.fromfile(self.folder / f"{name}.codes", "<i4"), numbers), "i4")
            column = pandas.Categorical.from_codes(codes, categories=list(words))
            frames.append(pandas.DataFrame({"path": column}).dropna().drop_duplicates())
        joined = frames[0].merge(frames[1], on="path")
        self.assertEqual(sorted(joined["path"]), sorted({*left} & {*right} - {None}))
