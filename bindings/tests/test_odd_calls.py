"""Odd calls from Python: what each raises says what is wrong, where, and what to do. With numpy and pandas, if they are there."""
import copy
import pickle
import unittest
from array import array
from collections import Counter

import intaglio
from cases import Case, optional
from intaglio import MISSING, BytesTable, Column, Frozen, SymbolTable, merge, renumber

numpy, pandas = optional("numpy"), optional("pandas")
WORDS = ["fig", "plum", "pear"]
ROWS = ["plum", None, "fig", "plum"]
CODES = array("I", [1, MISSING, 0, 1])
NOTHING = [None, float("nan"), *([pandas.NA] if pandas else [])]


class OddCalls(Case):
    def setUp(self):
        super().setUp()
        self.table = SymbolTable(WORDS)
        self.table.freeze(self.folder / "dict")
        self.words = Frozen(self.folder / "dict")
        self.shards, _ = merge([self.words], self.folder / "shards", shards=2)
        self.words.write_column(self.folder / "column", CODES)
        self.column = Column(self.folder / "column", self.folder / "dict")

    def test_a_single_string_is_no_list(self):
        out, data = array("I", bytes(16)), BytesTable([b"fig"])
        calls = (
            SymbolTable, self.table.encode, self.table.intern_all, self.table.check_all, self.words.encode, self.words.find_all,
            self.shards.encode, lambda it: self.table.encode_into(it, out), lambda it: self.table.check_into(it, out),
            lambda it: self.words.encode_into(it, out, missing=7),
        )
        said = r"^a list or another iterable of strings, not a single {}: \[string\] is a list of one$".format
        self.refused(TypeError, said("str"), calls, "fig")
        self.refused(TypeError, said("bytes"), (BytesTable, data.encode, data.check_all), b"fig")
        self.assertEqual((list(self.table), list(data), list(out)), (WORDS, [b"fig"], [0] * 4))

    def test_what_holds_no_codes(self):
        column, narrow = self.column, r"format 'B': a Column's widened\(\) .* array\('I', data\) reads those of a file$"
        rows = [
            (["fig"], r" not a list: array\('I', codes\) puts them into one, and encode makes codes of strings$"),
            ("fig", "not a str: .*encode"), (WORDS, "not a list: .*encode"), (None, "not a NoneType: "),
            (column, r"not a Column: widened\(\) returns them$"), (column.codes, narrow), (bytes(8), narrow),
            (array("H", [1]), r"format 'H': a Column's widened\(\)"), (array("Q", [1]), "format 'Q': numpy's astype"),
            (array("b", [1]), r"format 'b': numpy's astype"), (array("f", [1]), "format 'f': numpy's astype"),
        ]
        if numpy:
            rows += [
                *((numpy.array(WORDS, kind), r"format '\d*[wOs]': encode makes codes of") for kind in (str, object, bytes)),
                (numpy.ma.array([1, 0], mask=[0, 1], dtype="i4"), r"not a MaskedArray with a mask: its filled\(-1\), or filled"),
                (numpy.zeros(2, "u1"), narrow), (numpy.zeros(2, "u2"), r"widened\(\)"), (numpy.zeros(2, "i2"), "astype"),
            ]
        if pandas:
            rows += [(pandas.Series(WORDS), "encode makes"), (pandas.Series([1, 2]), "astype")]
        calls = (
            self.words.decode, self.table.decode, self.shards.decode, lambda it: renumber(it, CODES),
            lambda it: renumber(CODES, it), lambda it: self.words.write_column(self.folder / "new", it),
        )
        for given, words in rows:
            self.refused(TypeError, f"^codes are integers of 4 bytes .*{words}", calls, given)
        self.assertFalse((self.folder / "new").exists())

    def test_what_is_no_dictionary_and_no_file(self):
        absent = self.folder / "absent/column"
        said = "a column is read with a Frozen or the path of one, not a {}: a table is frozen before$".format
        for words, call, *given in (
            (said("SymbolTable"), Column, self.folder / "column", self.table),
            (said("list"), Column, self.folder / "column", [self.words]),
            ("^a Column can't be pickled: send its path and its dictionary, and ", pickle.dumps, self.column),
            ("^each of the tables to merge is a Frozen or a path; at position 1: ", merge, [self.words, 7]),
            ("^a dictionary in shards is written to a folder, which `out` names$", merge, [self.shards]),
        ):
            self.refused(TypeError, words, call, *given)
        said = f"No such file or directory: '{absent}'$"
        self.refused(FileNotFoundError, said, (self.words.write_column, self.shards.write_column), absent, CODES)
        self.refused(FileNotFoundError, said, self.table.freeze, absent)

    def test_what_was_closed_is_named(self):
        opened = {"Column": lambda: Column(self.folder / "column", self.folder / "dict")}
        opened |= {"Frozen": lambda: copy.copy(self.words), "shards": lambda: copy.copy(self.shards)}
        words = (
            pickle.dumps, lambda it: it[0], lambda it: it[:2], lambda it: "fig" in it, lambda it: it.encode(["fig"]),
            lambda it: it.decode(array("I", [0])),
        )
        calls = {
            "Column": (lambda it: it.codes, lambda it: it.to_bytes(), lambda it: it[0], lambda it: it.counts(), lambda it: it[:]),
            "Frozen": (*words, list, lambda it: it.to_bytes(), lambda it: SymbolTable().absorb(it), lambda it: merge([it])),
            "shards": (
                *words, list, lambda it: it.to_bytes(), lambda it: it.get_all([0]), lambda it: merge([it], self.folder / "new"),
            ),
        }
        for name, of_kind in calls.items():
            for call in (*of_kind, copy.copy, copy.deepcopy):
                it = opened[name]()
                it.close()
                it.close()
                self.refused(ValueError, f"^the {type(it).__name__} was closed$", call, it)
                self.assertEqual(repr(it), f"<{type(it).__name__}, closed>")

    @unittest.skipUnless(numpy, "numpy isn't there")
    def test_what_masks_strings_or_has_columns(self):
        for kind in (object, str):
            masked = numpy.ma.array(["plum", "x", "fig", "plum"], mask=[0, 1, 0, 0], dtype=kind)
            for encode in (self.table.encode, self.words.encode, self.shards.encode):
                self.assertEqual(self.table.decode(self.table.encode(masked, missing=MISSING), missing=None), ROWS)
                self.refused(TypeError, "at position 1: missing= gives None, NaN and NA a code$", encode, masked)
        self.assertEqual(list(self.table), WORDS)
        deep = [numpy.array([WORDS], object), numpy.array([WORDS]), *([pandas.DataFrame({"a": WORDS})] if pandas else [])]
        said = "^a column of strings has one dimension, and this has 2: pass each of its columns by itself$"
        for it in deep:
            self.refused(TypeError, said, self.table.encode, it)

    def test_a_dictionary_that_grew(self):
        self.table.intern("quince")
        self.table.freeze(self.folder / "dict")
        said = "column: .* dictionary than .*/dict, of 4 strings, not 3: if it grew, freeze the first 3 for it$"
        paths = self.folder / "column", self.folder / "dict"
        error = self.refused(intaglio.OtherDictionary, f"^{self.folder}/{said}", Column, *paths, named=3, found=4)
        self.assertEqual(str(pickle.loads(pickle.dumps(error))), str(error))
        grown = Frozen(self.folder / "dict")
        before = Frozen.from_bytes(SymbolTable(grown[:3]).freeze())
        grown.write_column(self.folder / "column", Column(self.folder / "column", before).widened())
        self.assertEqual(list(Column(self.folder / "column", grown)), ROWS)

    def test_copies_of_a_column(self):
        self.column.note = ["x"]
        for copied, is_shared in ((copy.copy, True), (copy.deepcopy, False)):
            other = copied(self.column)
            self.assertEqual((list(other), other.note, other.note is self.column.note), (ROWS, ["x"], is_shared))
            other.close()
            self.assertEqual((repr(other), repr(other.dictionary)), ("<Column, closed>", "<Frozen, closed>"))
            self.assertEqual((list(self.column), self.column.dictionary[0]), (ROWS, "fig"))
        other = copy.copy(self.column)
        self.column.close()
        self.assertEqual((list(other), other.counts()), (ROWS, Counter(ROWS)))
        shared = Column(self.folder / "column", self.words)
        copy.copy(shared).close()
        self.assertEqual((list(shared), list(self.words)), (ROWS, WORDS))

    def test_what_is_missing_in_a_column(self):
        for nothing in NOTHING:
            column = self.column
            self.assertEqual((list(column.rows_of(nothing)), column.count(nothing), column.index(nothing)), ([1], 1, 1))
            self.assertTrue(nothing in column)
        self.refused(TypeError, "^a string, not float$", self.column.rows_of, 1.5)

    @unittest.skipUnless(pandas, "pandas isn't there")
    def test_columns_of_pandas(self):
        path, strings = self.folder / "long", [f"é{it}" for it in range(70_000)]
        for words, lines in ((strings[:3], [strings[0], None]), (strings, [*strings[::-1], None]), (strings[:200], [])):
            frozen = Frozen.from_bytes(SymbolTable(words).freeze())
            frozen.write_column(path, frozen.encode(lines, missing=MISSING))
            column = Column(path, frozen)
            category = column.to_categorical()
            self.assertEqual((type(category), category.categories.tolist()), (pandas.Categorical, words))
            self.assertEqual([None if it != it else it for it in category], lines)
            for series in (pandas.Series(column), pandas.DataFrame({"x": column})["x"], pandas.Series(numpy.asarray(column))):
                self.assertEqual((series.tolist(), series.dtype), (lines, object))
            self.assertEqual(column.counts(), Counter(lines))
        self.assertEqual(numpy.asarray(column, str).tolist(), [])
