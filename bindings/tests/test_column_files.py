"""Column files from Python, beside plain lists, checks/formats.py, and the program, if it is built."""
import itertools
import os
import random
import stat
from array import array
from collections import Counter

import intaglio
from cases import NO_CODES, SLICES, Case, are_texts, by_program, encoded, formats, if_built, table_of
from intaglio import MISSING, Column, Frozen, SymbolTable, merge, renumber

ROUNDS = 200
# How many shards dictionaries have.
SHARDS = (1, 2, 3, 40)
# How many strings dictionaries have, and the width of their codes.
WIDTHS = ((1, 1), (255, 1), (256, 2), (65_535, 2), (65_536, 4))


def texts(count):
    return [f"s{it}" for it in range(count)]


def plain_index(lines, string, *bounds):
    """What `index` of a list returns, or nothing."""
    try:
        return lines.index(string, *bounds)
    except ValueError:
        return None


class OfColumns(Case):
    def setUp(self):
        super().setUp()
        self.path = self.folder / "column"

    def freeze(self, strings):
        """A dictionary of these strings in a file."""
        table_of(strings).freeze(self.folder / "dict")
        return Frozen(self.folder / "dict")

    def made(self, codes):
        """Three strings, and a column of these codes."""
        words = self.freeze(texts(3))
        words.write_column(self.path, array("I", codes))
        return words

    def put(self, strings, count, name="words"):
        """A folder of these strings in so many shards that another writer wrote, and what it wrote."""
        dictionary = formats.dictionary_of(encoded(strings), count, int(are_texts(strings)))
        formats.put(self.folder / name, dictionary.files())
        return self.folder / name, dictionary

    def write(self, words, codes):
        """A column of these codes that another writer wrote."""
        self.path.write_bytes(formats.column(formats.Frozen(words.to_bytes()).id, codes))
        return self.path

    def compare(self, column, lines):
        """A column does what the plain list of its lines does."""
        self.assertEqual((list(column), len(column), list(reversed(column))), (lines, len(lines), lines[::-1]))
        self.assertEqual([column[it] for it in range(-len(lines), len(lines))], lines + lines)
        for bounds in SLICES:
            self.assertEqual(column[slice(*bounds)], lines[slice(*bounds)])
        for row in (len(lines), -len(lines) - 1, 2**70):
            self.refused(IndexError, f"^no such row: {row}, and the column has {len(lines)}$", lambda: column[row])
        counts = column.counts()
        self.assertEqual(counts, Counter(lines))
        self.assertEqual(set(map(type, counts)), set(map(type, lines)))
        for string in {*lines, None, "absent"} if column.dictionary.is_text else {*lines, None, b"absent"}:
            self.assertEqual(column.rows_of(string), array("Q", [i for i, it in enumerate(lines) if it == string]))
            self.assertEqual((column.count(string), string in column), (lines.count(string), string in lines))
            for bounds in ((), (1,), (2, -1), (0, 2), (-3,)):
                wanted = plain_index(lines, string, *bounds)
                if wanted is None:
                    self.refused(ValueError, " is not in the column$", column.index, string, *bounds)
                else:
                    self.assertEqual(column.index(string, *bounds), wanted)

    def test_columns_are_those_of_another_writer(self):
        for count, width in WIDTHS:
            strings = texts(count)
            with self.freeze(strings) as words:
                codes = [0, count - 1, MISSING, 0, count // 2]
                lines = [None if it == MISSING else strings[it] for it in codes]
                with Column(self.write(words, codes), words) as column:
                    self.compare(column, lines)
                    self.assertEqual((column.width, column.codes.itemsize, column.missing), (width, width, 256**width - 1))
                    self.assertEqual(list(column.codes), [min(it, column.missing) for it in codes])
                    self.assertEqual((column.widened(), column.codes.readonly), (array("I", codes), True))
                    self.assertEqual(words.decode(column.widened(), missing=None), lines)
                    self.assertIs(column.dictionary, words)
                for codes in (codes, [], [count - 1, MISSING, 0], [0] * 100):
                    written = self.write(words, codes).read_bytes()
                    words.write_column(self.path, array("I", codes))
                    self.assertEqual((self.path.read_bytes(), Column(self.path, words).to_bytes()), (written, written))

    def test_random_columns_are_plain_lists(self):
        for seed in range(ROUNDS):
            rng = random.Random(seed)
            is_text = rng.random() < .7
            strings = ["", "a", "\u00e9", "b c"] if is_text else [b"", b"a", b"\xff", b"\n"]
            strings = strings[: rng.randrange(5)]
            lines = [rng.choice([*strings, None]) for _ in range(rng.randrange(12))]
            with self.freeze(strings) as words:
                words.write_column(self.path, words.encode(lines, missing=MISSING))
                self.assertEqual(formats.column_faults(self.path.read_bytes()), [])
                with Column(self.path, words) as column:
                    self.compare(column, lines)

    def test_codes_may_be_in_any_buffer(self):
        with self.freeze(texts(3)) as words:
            wanted = [0, 2, MISSING, 1]
            codes = array("I", [it for code in wanted for it in (code, 9)])
            signed = array("i", [-1 if it == MISSING else it for it in wanted])
            for buffer in (array("I", wanted), memoryview(codes)[::2], signed):
                words.write_column(self.path, buffer)
                self.assertEqual(list(Column(self.path, words).widened()), wanted)
            for buffer in (*NO_CODES, bytes(72), "0"):
                self.refused(TypeError, "integers of 4 bytes", words.write_column, self.path, buffer)

    def test_a_dictionary_frozen_again_fits(self):
        table = SymbolTable(texts(300))
        words, again = (Frozen.from_bytes(table.freeze(keys=keys)) for keys in ((1, 2), (3, 4)))
        self.assertNotEqual(words.to_bytes(), again.to_bytes())
        words.write_column(self.path, array("I", [299, MISSING, 0]))
        self.assertEqual(list(Column(self.path, again)), ["s299", None, "s0"])
        as_bytes = Frozen.from_bytes(table.freeze(), kind=bytes)
        self.assertEqual(list(Column(self.path, as_bytes)), [b"s299", None, b"s0"])

    def test_the_dictionary_may_be_a_path(self):
        self.made([2, 0])
        with Column(self.path, self.folder / "dict") as column:
            self.assertEqual((list(column), column[0:1]), (["s2", "s0"], ["s2"]))
            words = column.dictionary
        self.assertEqual((repr(words), repr(column)), ("<Frozen, closed>", "<Column, closed>"))
        self.refused(FileNotFoundError, "", Column, self.path, self.folder / "absent")
        self.refused(intaglio.NotFrozen, f"^{self.path}: ", Column, self.path, self.path)

    def test_another_dictionary_is_refused_by_both_names(self):
        words = self.made([2, 0])
        others = (texts(4), texts(3)[::-1], ["s0", "s1", "s3"], ["s0s1", "", "s2"], [it.encode() for it in texts(3)])
        for strings in others:
            other, path = self.freeze(strings), str(self.folder / "dict")
            grown = ", of 4 strings, not 3: if it grew, freeze the first 3 for it" * (len(strings) > 3)
            said = f"^{self.path}: a column of another dictionary than {path}{grown}$"
            for dictionary, trusted in itertools.product((other, path), (False, True)):
                error = self.refused(intaglio.OtherDictionary, said, lambda: Column(self.path, dictionary, trusted=trusted))
                self.assertEqual((error.column, error.dictionary), (str(self.path), path))
        self.refused(ValueError, " than <Frozen of 1 str>$", Column, self.path, Frozen.from_bytes(SymbolTable(["s"]).freeze()))
        self.assertEqual(list(Column(self.path, words)), ["s2", "s0"])

    def test_damaged_columns_are_refused_by_name(self):
        words = self.freeze(texts(3))
        data = self.write(words, [0, 2, MISSING, 1]).read_bytes()
        changed = [data[:cut] for cut in range(len(data))]
        changed.append(data + b"\0")
        changed += [data[:i] + bytes([data[i] ^ bit]) + data[i + 1:] for i in range(len(data)) for bit in (1, 128)]
        for bad in changed:
            self.path.write_bytes(bad)
            fault = getattr(intaglio, formats.column_faults(bad)[0].split(":")[0])
            self.refused(fault, f"^{self.path}: ", Column, self.path, words, filename=str(self.path))
        self.path.write_bytes(formats.sealed(data[:-1] + b"\x03"))
        self.refused(intaglio.NoSymbol, f"^{self.path}: code 3 at position 3 is no symbol$", Column, self.path, words)

    def test_a_trusted_column_is_read_as_it_is(self):
        words = self.freeze(texts(3))
        data = self.write(words, [0, 2, MISSING, 1]).read_bytes()
        self.path.write_bytes(data[:-1] + b"\x03")
        column = Column(self.path, words, trusted=True)
        self.assertEqual((column[:3], column.counts()), (["s0", "s2", None], Counter(["s0", "s2", None])))
        self.refused(intaglio.NoSymbol, "", (lambda: column[3], lambda: list(column)))
        self.path.write_bytes(data[:-1])
        self.refused(intaglio.Truncated, "", lambda: Column(self.path, words, trusted=True))

    def test_what_cannot_be_written_leaves_the_file(self):
        words = self.made([0])
        before = self.path.read_bytes()
        for codes, position in (([0, 3], 1), ([MISSING - 1], 0), ([0, 0, 7, 9], 2)):
            said = f"^code {codes[position]} at position {position} is no symbol$"
            self.refused(intaglio.NoSymbol, said, words.write_column, self.path, array("I", codes), position=position)
        self.refused(IsADirectoryError, "", words.write_column, self.folder, array("I", [0]))
        self.assertEqual((self.path.read_bytes(), sorted(os.listdir(self.folder))), (before, ["column", "dict"]))

    def test_a_file_is_replaced_at_once(self):
        words = self.made([0, 1])
        self.path.chmod(0o640)
        (self.folder / "link").symlink_to(self.path)
        column = Column(self.path, words)
        words.write_column(self.folder / "link", array("I", [2]))
        self.assertEqual((list(column), list(Column(self.path, words))), (["s0", "s1"], ["s2"]))
        self.assertEqual(stat.S_IMODE(self.path.stat().st_mode), 0o640)
        self.assertTrue((self.folder / "link").is_symlink())

    def test_a_closed_column_raises(self):
        words = self.made([0, 1, MISSING])
        column = Column(self.path, words)
        codes = column.codes
        self.assertEqual(repr(column), "<Column of 3 rows of 3 strings>")
        column.close()
        self.assertEqual((codes.tolist(), repr(column)), ([0, 1, 255], "<Column, closed>"))
        read = (lambda: column[0], column.counts, lambda: column.rows_of("s0"), lambda: column.codes, column.widened)
        self.refused(ValueError, "", read)
        column.close()
        self.assertEqual(words[0], "s0")

    def test_wrong_arguments_raise(self):
        words = self.made([0])
        column = Column(self.path, words)
        for wrong in (b"s0", 7):
            self.refused(TypeError, "", (column.rows_of, column.count, column.index, lambda it: it in column), wrong)
        for data in (self.path.read_bytes(), bytearray(64), memoryview(b"")):
            self.refused(TypeError, "^a path, not the bytes of a column in a ", Column, data, words)
        for data in (words.to_bytes(), bytearray(64)):
            self.refused(TypeError, "Frozen.from_bytes", Column, self.path, data)
        self.refused(FileNotFoundError, "", Column, self.folder / "absent", words)
        self.refused(FileNotFoundError, f"'{self.folder}/0.dict'$", Column, self.path, self.folder)
        with open(self.path, "rb") as file:
            self.assertEqual(list(Column(os.dup(file.fileno()), words)), ["s0"])

    # Of dictionaries in shards, and maps.

    def test_columns_of_shards_are_read_and_written(self):
        for count, (strings, width) in (*itertools.product(SHARDS, WIDTHS[:3]), (3, WIDTHS[4])):
            folder, dictionary = self.put(texts(strings), count, f"{count} {strings}")
            codes = [0, strings - 1, MISSING, 0, strings // 2]
            lines = [None if it == MISSING else dictionary.strings[it].decode() for it in codes]
            written = formats.column(dictionary.id, codes, shards=count)
            for trusted in (False, True):
                with Frozen(folder, trusted=trusted) as words:
                    self.path.write_bytes(written)
                    with Column(self.path, folder if trusted else words, trusted=trusted) as column:
                        self.compare(column, lines)
                        self.assertEqual((column.width, column.widened(), column.source), (width, array("I", codes), None))
                        self.assertEqual(column.identity, words.identity)
                        opened = column.dictionary
                    self.assertEqual((opened is words, repr(opened) == "<Frozen, closed>"), (not trusted, trusted))
                    self.path.unlink()
                    words.write_column(self.path, words.encode(lines, missing=MISSING))
                    self.assertEqual(self.path.read_bytes(), written)

    def test_other_shards_are_refused_by_both_names(self):
        folder, dictionary = self.put(texts(300), 3)
        self.path.write_bytes(formats.column(dictionary.id, [2, 0], shards=3))
        merge([folder], self.folder / "merged")
        others = [(texts(300), 4), (texts(301), 3), (texts(300)[::-1], 3), (encoded(texts(300)), 3)]
        folders = [self.put(*it, f"{number}")[0] for number, it in enumerate(others)]
        for other in (*folders, self.folder / "merged", folder / "0.dict"):
            said = f"^{self.path}: a column of another dictionary than {other}"
            for trusted in (False, True):
                words = Frozen(other, trusted=trusted)
                self.refused(intaglio.OtherDictionary, said, lambda: Column(self.path, words, trusted=trusted))
        # With its own set in the header, but other numbers of strings and of shards.
        id = dictionary.id
        for id, shards in ((id._replace(strings=301), 3), (id, 4), (id._replace(kind=formats.BYTES), 3)):
            column, said = formats.column(id, [2, 0], shards=shards), f"^the column: a column of another dictionary than {folder}"
            self.refused(intaglio.OtherDictionary, said, Column.from_bytes, column, folder)
        self.assertEqual(len(Column(self.path, folder)), 2)

    def test_columns_of_parts_are_renumbered(self):
        lines, parts = [["b", "a", None, "c", "a"], ["d", None, "a"]], []
        for number, part in enumerate(lines):
            words = Frozen.from_bytes(SymbolTable(filter(None, part)).freeze())
            parts.append(merge([words], self.folder / f"part {number}", shards=2)[0])
        whole, maps = merge(parts, self.folder / "whole")
        for part, of_part, numbers in zip(parts, lines, maps):
            part.write_column(self.path, part.encode(of_part, missing=MISSING))
            self.refused(intaglio.OtherDictionary, f" than {self.folder / 'whole'}", Column, self.path, whole)
            with Column(self.path, part) as column:
                whole.write_column(self.folder / "new", renumber(column.widened(), numbers))
            with Column(self.folder / "new", self.folder / "whole") as column:
                self.compare(column, of_part)

    def test_maps_and_columns_without_a_dictionary(self):
        part, whole = (formats.dictionary_of(encoded(it), 2, formats.TEXT) for it in (texts(9), texts(20)))
        formats.put(self.folder / "whole", whole.files())
        for shard in (0, 1):
            data = formats.map_of(part, whole, shard)
            column = Column.from_bytes(data, self.folder / f"whole/{shard}.dict")
            self.assertEqual(encoded(column), part.shards[shard])
            self.assertEqual((column.source, column.identity), ((part.name, 2, shard), whole.name))
            self.assertEqual((column.source.shards, column.to_bytes()), (2, data))
            for other in (self.folder / "whole", self.folder / f"whole/{1 - shard}.dict"):
                self.refused(intaglio.OtherDictionary, "", Column.from_bytes, data, other)
        self.path.write_bytes(data)
        with Column(self.path) as column:
            codes = formats.read_column(data)[1]
            self.assertEqual((column.dictionary, column.widened().tolist(), column.count(None)), (None, codes, 0))
            self.assertEqual(repr(column), f"<Column of {len(codes)} rows of {len(whole.shards[1])} strings>")
            read = (lambda: column[0], lambda: list(column), column.counts, lambda: column.rows_of("s1"))
            self.refused(TypeError, "^the Column was opened without its dictionary$", read)
        # A map has a string for each row.
        missing = formats.sealed(data[: formats.COLUMN_HEADER.size] + b"\0\xff" + data[formats.COLUMN_HEADER.size + 2 :])
        self.refused(intaglio.NoSymbol, "^code 4294967295 at position 1 is no symbol$", Column.from_bytes, missing)
        for source in ((2, 1, b"x" * 16, 2), (3, 1, b"x" * 16, 0), (0, 0, b"x" * 16, 0)):
            self.refused(intaglio.BadShard, "", Column.from_bytes, formats.column(whole.id, [0], source, shards=2))

    @if_built
    def test_the_program_writes_the_same_bytes(self):
        lines = [None if it % 7 == 0 else f"s{it * it % 300}" for it in range(500)]
        given, name = formats.ended(b"absent" if it is None else it.encode() for it in lines), self.folder / "of_program"
        self.freeze(texts(300))
        for path in (self.folder / "dict", *(self.put(texts(300), it, f"{it}")[0] for it in SHARDS)):
            by_program("encode", "--missing", path, "-o", name, given=given)
            with Frozen(path) as words:
                words.write_column(self.path, words.encode(lines, missing=MISSING))
            self.assertEqual(self.path.read_bytes(), name.read_bytes())
            self.compare(Column(name, path), lines)
            self.assertEqual(by_program("decode", "--missing", "absent", path, self.path), given)
