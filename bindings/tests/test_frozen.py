"""Frozen tables from Python: those of checks/formats.py, which is written from docs/FORMATS.md alone."""
import copy
import multiprocessing
import os
import pickle
import random
import stat
from array import array
from concurrent.futures import ProcessPoolExecutor
from operator import methodcaller

import intaglio
from cases import Case, encoded, formats, frozen_bytes
from intaglio import Frozen
from intaglio._table import frozen_find_all, thaw

TEXTS = ["a", "bc", "", "é"]
BYTES = [b"a", b"\xff", b""]
PICKLED = tuple(lambda it, by=by: pickle.loads(pickle.dumps(it, by)) for by in range(6))


class OfFrozen(Case):
    def setUp(self):
        super().setUp()
        self.path = self.folder / "frozen"

    def write(self, strings):
        """A file with these strings."""
        self.path.write_bytes(frozen_bytes(strings))
        return self.path

    def test_strings_are_found_at_their_symbols(self):
        for strings in (TEXTS, BYTES, [], ["x"], [str(number) for number in range(1000)]):
            with Frozen(self.write(strings)) as table:
                self.compare(table, strings)
                self.assertEqual(repr(table), f"<Frozen of {len(strings)} {'str' if table.is_text else 'bytes'}>")
                for symbols in (["0"], 7, [None]):
                    self.refused(TypeError, "", table.get_all, symbols)
            self.refused(ValueError, "", lambda: table[0])
        with Frozen(self.write(TEXTS)) as table:
            self.assertEqual((table.find_all(["b", "\ud800", "bc"]), "\ud800" in table), ([None, None, 1], False))
            self.refused(ValueError, "", table.index, "bc", 2)
            self.refused(TypeError, "", table.check_interned, b"a")

    def test_a_table_is_frozen_to_the_bytes_of_the_writer_in_python(self):
        for kind, strings in ((intaglio.SymbolTable, TEXTS), (intaglio.BytesTable, BYTES), (intaglio.PathTable, ["a/b", "/"])):
            table = kind(strings)
            table.freeze(self.path, keys=(1, 2))
            self.assertEqual((self.path.read_bytes(), list(table)), (frozen_bytes(strings), strings))
            self.assertEqual(list(Frozen(self.path)), strings)
        self.assertEqual(os.listdir(self.folder), ["frozen"])

    def test_strings_of_any_table_keep_their_symbols(self):
        words = [f"word {number}" * (number % 9) + str(number) for number in range(10_000)]
        for kind in (intaglio.SymbolTable, intaglio.OsStringTable, intaglio.ByteStringTable, intaglio.CStringTable):
            of = str if kind in (intaglio.SymbolTable, intaglio.OsStringTable) else str.encode
            kind(map(of, words)).freeze(str(self.path))
            zero = b"\0" if kind is intaglio.CStringTable else of("")
            self.assertEqual(list(Frozen(self.path)), [of(word) + zero for word in words])
        for strings, name in (([], b"empty"), (TEXTS, b"\xff"), (TEXTS, b"n" * 255)):
            path = os.fsencode(self.folder) + b"/" + name
            intaglio.SymbolTable(strings).freeze(path)
            self.assertEqual(list(Frozen(path)), strings)

    def test_what_cannot_be_frozen_leaves_the_file(self):
        whole, table = self.write(TEXTS).read_bytes(), intaglio.SymbolTable(["a"])
        self.refused(ValueError, "", lambda: table.freeze(self.path, keys=(1,)))
        self.refused(FileNotFoundError, "", table.freeze, self.folder / "none/x")
        table.close()
        self.refused(intaglio.NoTable, "", table.freeze, self.path)
        self.assertEqual(self.path.read_bytes(), whole)

    def test_what_is_beside_the_file_and_its_mode_stay(self):
        beside, target, table = self.folder / "frozen.new", self.folder / "target", intaglio.SymbolTable(TEXTS)
        os.mkfifo(beside)
        target.write_bytes(b"")
        target.chmod(0o640)
        self.path.symlink_to("target")
        table.freeze(self.path)
        self.assertTrue(self.path.is_symlink() and beside.is_fifo())
        self.assertEqual((list(Frozen(target)), stat.S_IMODE(target.stat().st_mode)), (TEXTS, 0o640))
        self.refused(OSError, "", table.freeze, beside, filename=str(beside))
        self.refused(IsADirectoryError, "", table.freeze, self.folder)
        self.assertEqual((sorted(os.listdir(self.folder)), beside.is_fifo()), (["frozen", "frozen.new", "target"], True))

    def test_what_is_no_pickle_of_a_table_is_refused(self):
        texts, data, paths = map(frozen_bytes, (TEXTS, BYTES, ["a/b", "a//b"]))
        self.assertEqual((list(thaw(intaglio.SymbolTable, texts, 0)), list(thaw(intaglio.BytesTable, data, 3))), (TEXTS, BYTES))
        for kind, frozen, limit, error in (
            (intaglio.SymbolTable, texts[:40], 0, intaglio.Truncated), (intaglio.SymbolTable, b"", 0, intaglio.NotFrozen),
            (intaglio.SymbolTable, data, 0, intaglio.NoKind), (intaglio.BytesTable, texts, 0, intaglio.NoKind),
            (intaglio.SymbolTable, texts, 3, intaglio.Full), (intaglio.SymbolTable, texts, -1, intaglio.TooLarge),
            (intaglio.PathTable, paths, 0, intaglio.Equal), (intaglio.CStringTable, data, 0, intaglio.MissingZero),
            (intaglio.Table, texts, 0, TypeError), (int, texts, 0, TypeError),
            (type("Other", (intaglio.SymbolTable,), {"__new__": lambda cls: 7}), texts, 0, TypeError),
        ):
            self.refused(error, "", thaw, kind, frozen, limit)

    def test_strings_are_read_as_another_type(self):
        for strings, wanted in ((encoded(TEXTS), TEXTS), (TEXTS, TEXTS), (TEXTS, encoded(TEXTS)), (BYTES, BYTES)):
            kind, data = str if wanted is TEXTS else bytes, self.write(strings).read_bytes()
            trusted, by_bytes = Frozen(self.path, kind=kind, trusted=True), Frozen.from_bytes(data, kind=kind)
            for table in (Frozen(self.path, kind=kind), trusted, by_bytes, pickle.loads(pickle.dumps(trusted))):
                self.assertEqual((list(table), table.is_text), (wanted, kind is str))
                self.assertEqual((table.find_all(wanted), wanted[1] in table), (list(range(len(wanted))), True))
                self.assertEqual((table[1], table[::-1], table.get(2)), (wanted[1], wanted[::-1], wanted[2]))
                self.assertEqual((table.decode(table.encode(wanted)), table.index(wanted[1])), (wanted, 1))
                self.assertEqual(list(pickle.loads(pickle.dumps(table))), wanted)
                other = wanted[0].encode() if kind is str else wanted[0].decode()
                self.refused(TypeError, "", table.check_interned, other)
        self.assertEqual([Frozen(self.write(it)).is_text for it in (TEXTS, BYTES)], [True, False])
        many = [b"%d" % it for it in range(40_000)]
        for at in (0, 20_000, 39_999):
            intaglio.BytesTable([*many[:at], b"ab\xff", *many[at + 1:]]).freeze(self.path)
            said = f"frozen: at position {at}: The string isn't valid UTF-8.$"
            self.refused(intaglio.NotUtf8, said, lambda: Frozen(self.path, kind=str), position=at, filename=str(self.path))
        for kind in ("str", int, True):
            self.refused(TypeError, "^kind is str, bytes or None", lambda: Frozen(self.path, kind=kind))

    def test_pickles_and_copies(self):
        for strings in (TEXTS, BYTES, [], [str(number) for number in range(5_000)]):
            path = self.write(strings)
            data = path.read_bytes()
            for table in (
                Frozen(path), Frozen(path, trusted=True), Frozen(str(path)), Frozen.from_bytes(data),
                Frozen.from_bytes(bytearray(data), trusted=True),
            ):
                for copied in (copy.copy, copy.deepcopy, *PICKLED):
                    other = copied(table)
                    self.assertEqual((type(other), list(other), other.is_text), (Frozen, strings, table.is_text))
                    self.assertEqual((other.find_all(strings), other._trusted), (list(range(len(strings))), table._trusted))
                    other.close()
                    self.assertEqual(list(table), strings)
                other = copy.copy(table)
                table.close()
                self.assertEqual(list(other), strings)
                self.assertEqual(list(copy.deepcopy([other, other])[1]), strings)
                other.close()

    def test_a_mapped_table_is_pickled_by_its_path(self):
        strings = [str(number) for number in range(20_000)]
        table, here = Frozen(self.write(strings)), os.getcwd()
        self.assertTrue(len(pickle.dumps(table)) < 500 < 100_000 < len(pickle.dumps(Frozen.from_bytes(table.to_bytes()))))
        try:
            os.chdir(self.folder)
            relative = pickle.dumps(Frozen(self.path.name))
        finally:
            os.chdir(here)
        self.assertEqual(list(pickle.loads(relative)), strings)
        with open(self.path, "rb") as file:
            self.assertEqual(list(pickle.loads(pickle.dumps(Frozen(os.dup(file.fileno()))))), strings)

    def test_a_pickle_is_never_of_another_table(self):
        for trusted in (False, True):
            table = Frozen(self.write(["a", "b"]), trusted=trusted)
            before = pickle.dumps(table)
            for others in (["c"], ["a", "b", "c"], ["a", "c"]):
                intaglio.SymbolTable(others).freeze(self.path)
                said = "frozen: another dictionary than the one that was pickled$"
                self.refused(ValueError, said, pickle.loads, before)
                self.assertEqual(list(pickle.loads(pickle.dumps(table))), ["a", "b"])
            self.path.unlink()
            self.refused(FileNotFoundError, "", pickle.loads, before)
            self.assertEqual(list(pickle.loads(pickle.dumps(table))), ["a", "b"])

    def test_what_a_subclass_has_is_copied(self):
        globals()["Named"] = Named = type("Named", (Frozen,), {"__module__": __name__})
        table = Named(self.write(TEXTS))
        table.name = ["x"]
        for copied, is_shared in ((copy.copy, True), (copy.deepcopy, False), (PICKLED[-1], False)):
            other = copied(table)
            self.assertEqual((type(other), list(other), other.name, other.name is table.name), (Named, TEXTS, ["x"], is_shared))

    def test_other_processes_get_a_table(self):
        tables = [Frozen(self.write(TEXTS)), Frozen.from_bytes(self.path.read_bytes())]
        for method in ("fork", "spawn"):
            with ProcessPoolExecutor(2, multiprocessing.get_context(method)) as pool:
                for table in tables:
                    self.assertEqual([*pool.map(methodcaller("find_all", TEXTS), [table] * 4)], [[0, 1, 2, 3]] * 4)
                self.assertEqual(list(pool.submit(copy.copy, tables[1]).result()), TEXTS)

    def test_damaged_files_are_refused_by_name(self):
        whole = self.write(TEXTS).read_bytes()
        of_header = (
            (0, 0, intaglio.NotFrozen), (8, 1, intaglio.OtherVersion), (8, 3, intaglio.OtherVersion), (12, 2, intaglio.NoKind),
            (88, 1, intaglio.Reserved), (127, 1, intaglio.Reserved), (39, 1, intaglio.TooMany), (33, 1, intaglio.Truncated),
            (63, whole[63] ^ 1, intaglio.OtherIdentity), (64, whole[64] ^ 1, intaglio.OtherIdentity), (84, 1, intaglio.BadShard),
        )
        rows = [(whole[:at] + bytes([to]) + whole[at + 1:], error, True) for at, to, error in of_header]
        rows += [(it, intaglio.NotFrozen, True) for it in (b"", b"garbage" * 40)]
        rows += [(whole[:it], intaglio.Truncated, True) for it in (40, 130, -1)]
        rows += [(whole + b"a", intaglio.TrailingBytes, True), (whole[:-1] + b"\xff", intaglio.NotFound, False)]
        for damaged, error, is_of_header in rows:
            self.path.write_bytes(damaged)
            for trusted in (False, True) if is_of_header else (False,):
                said = f"^{self.path}: {'' if damaged else 'The bytes don.t begin as a frozen table does.$'}"
                self.refused(error, said, lambda: Frozen(self.path, trusted=trusted), filename=str(self.path))
                self.refused(error, "", lambda: Frozen.from_bytes(damaged, trusted=trusted), filename=None)
        self.refused(FileNotFoundError, "", Frozen, self.folder / "none")

    def test_what_is_found_in_damaged_bytes_is_equal(self):
        words = [str(number) for number in range(40)]
        whole, chance, found = frozen_bytes(words), random.Random(7), 0
        for _ in range(5_000):
            damaged = bytearray(whole)
            for _ in range(chance.randint(1, 9)):
                damaged[chance.randrange(formats.TABLE_HEADER.size, len(whole))] = chance.randrange(256)
            reader = formats.Frozen(bytes(damaged), True)
            symbols = frozen_find_all(bytes(damaged), True, [*words, "absent"])
            for word, symbol in zip([*words, "absent"], symbols, strict=True):
                self.assertTrue(symbol is None or reader[symbol] == word.encode(), (word, symbol))
            found += sum(it is not None for it in symbols)
        self.assertTrue(100_000 < found < 200_000, found)

    def test_trusted_files_are_not_checked(self):
        self.path.write_bytes(frozen_bytes(BYTES)[:-1] + b"\x00")
        with Frozen(self.path, trusted=True) as table:
            self.assertEqual((table[0], table[1], b"\xff" in table, b"a" in table), (b"a", b"\x00", False, True))
        # Texts that are damaged aren't decoded.
        whole = frozen_bytes(TEXTS)
        self.path.write_bytes(whole[:-1] + b"\xff")
        with Frozen(self.path, trusted=True) as table:
            self.assertEqual((table[0], table.get(1), "é" in table), ("a", "bc", False))
            calls = (
                lambda: table[3], lambda: table.get(3), lambda: list(table), lambda: table[2:], lambda: dict(table.items()),
                lambda: table.decode(array("I", [0, 3])),
            )
            self.refused(UnicodeDecodeError, "", calls)
        # The end of the first string lies behind that of the second.
        at = formats.Sections(len(TEXTS)).ends
        self.path.write_bytes(whole[:at] + b"\x05" + whole[at + 1:])
        with Frozen(self.path, trusted=True) as table:
            self.assertIsNone(table.get(1))
            self.refused(intaglio.NoSymbol, "", (lambda: list(table), lambda: table.decode(array("I", [1]))))
