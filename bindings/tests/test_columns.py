"""Columns from Python: strings to codes and back, merged dictionaries, beside plain lists and dicts."""
import os
import pickle
import random
import struct
from array import array

import intaglio
from cases import NO_CODES, Case, formats, frozen_bytes
from intaglio import MISSING, BytesTable, Frozen, SymbolTable, merge, renumber

WORDS = ["to", "be", "", "é", "a word that is longer than the others" * 9]
ROUNDS = 300


def frozen_of(strings, is_text=None):
    """A table of these strings in memory."""
    return Frozen.from_bytes(frozen_bytes(strings, is_text))


def codes_in(strings, column):
    """The codes of a column, by a dict."""
    numbers = {it: number for number, it in enumerate(strings)}
    return array("I", [numbers.get(it, MISSING) for it in column])


class Encoding(Case):
    def test_strings_are_encoded_to_their_symbols_and_back(self):
        for strings in (WORDS, [it.encode() for it in WORDS] + [b"\xff"], [], ["x"], [str(it) for it in range(10_000)]):
            words, column = frozen_of(strings), [*strings, *reversed(strings), *strings[:1]]
            codes = codes_in(strings, column)
            self.assertEqual((words.encode(column), words.encode(column).typecode), (codes, "I"))
            self.assertEqual((words.encode(iter(column)), words.encode(tuple(column))), (codes, codes))
            self.assertEqual(words.decode(codes), column)
        first, second, third = frozen_of(["ab", "cd"]).decode(array("I", [1, 0, 1]))
        self.assertTrue(first is third and first is not second)

    def test_the_first_missing_string_is_named_with_its_position(self):
        words, many = frozen_of(WORDS), ["to"] * 1000
        for column, string, position in ((["no"], "no", 0), ([*many, "x", "y"], "x", 1000), (["be", "\ud800"], "\ud800", 1)):
            said = f"^{string!r} at position {position} is not in the table$".replace("\\", "\\\\")
            error = self.refused(KeyError, said, words.encode, column, string=string, position=position)
            again = pickle.loads(pickle.dumps(error))
            self.assertEqual((type(error), type(again), str(again)), (intaglio.Missing, intaglio.Missing, str(error)))

    def test_a_missing_string_has_the_code_that_is_asked_for(self):
        words, column = frozen_of(WORDS), ["to", "no", "\ud800", "é"]
        for missing in (MISSING, 0, 7, True, 2**31):
            self.assertEqual(list(words.encode(column, missing=missing)), [0, missing, missing, 3])
        for missing in (-1, 2**32, 2**64):
            self.refused(OverflowError, "MISSING", lambda: words.encode(column, missing=missing))
        for missing in ("0", 1.0):
            self.refused(TypeError, "", lambda: words.encode(column, missing=missing))
        codes = words.encode(column, missing=MISSING)
        for missing in (None, "?", b"", 0):
            self.assertEqual(words.decode(codes, missing=missing), ["to", missing, missing, "é"])
        self.assertEqual(list(words.encode(["to", None, "no", float("nan"), "é"], missing=7)), [0, 7, 7, 7, 3])
        self.assertEqual(list(words.encode([None] * 70_000, missing=MISSING)), [MISSING] * 70_000)
        self.assertEqual(list(words.encode(["to", None, "é"] * 40_000, missing=9)), [0, 9, 3] * 40_000)
        for nothing in (None, float("nan")):
            said = "at position 1: missing= gives None, NaN and NA a code$"
            self.refused(TypeError, said, words.encode, ["to", nothing, "no"])
            self.refused(TypeError, "at position 1$", words.find_all, ["to", nothing])

    def test_other_objects_are_no_strings(self):
        texts, data = frozen_of(WORDS), frozen_of([b"a", b"\xff"])
        for words, other, advice in (
            (texts, b"to", "kind=bytes"), (texts, None, ""), (texts, 7, ""), (data, "a", "kind=str"), (data, None, ""),
        ):
            for count in (1, 1000):
                column = [words[0]] * count + [other]
                self.refused(TypeError, f"at position {count}.*{advice}", (words.encode, words.find_all), column)
            self.refused(TypeError, advice, (words.check_interned, words.__contains__, words.index, words.count), other)
        self.refused(intaglio.Missing, "", texts.encode, ["to", "no", 7], position=1)
        self.refused(TypeError, "", (texts.encode, texts.find_all), 7)
        for call in (texts.encode, texts.find_all):
            self.refused(ZeroDivisionError, "", call, ("to" if it else 1 // 0 for it in (1, 0)))
        self.assertEqual(list(data.encode([bytearray(b"\xff"), b"a", memoryview(b"a")])), [1, 0, 0])

    def test_codes_go_to_a_buffer(self):
        words, out = frozen_of(WORDS), array("I", [9] * 4)
        self.assertEqual((words.encode_into(iter(["be", "é", "to"]), out), list(out)), (3, [1, 3, 0, 9]))
        self.refused(intaglio.Missing, "", words.encode_into, ["to", "no"], out)
        self.refused(intaglio.NoSpace, "", words.encode_into, ["to"] * 5, out)
        for other in NO_CODES:
            self.refused(TypeError, "^codes are .*4 bytes.*uint32", words.encode_into, ["to"], other)
        signed = array("i", [9] * 4)
        self.assertEqual((words.encode_into(["é", "no", None], signed, missing=MISSING), list(signed)), (3, [3, -1, -1, 9]))
        self.refused(BufferError, "", words.encode_into, ["to"], memoryview(out).toreadonly())
        self.assertEqual(list(out), [1, 3, 0, 9])
        self.assertEqual((words.encode_into(["to", "no"], out, missing=MISSING), list(out)), (2, [0, MISSING, 0, 9]))

    def test_a_code_that_is_no_symbol_is_named_with_its_position(self):
        words, many = frozen_of(WORDS), [0] * 1000
        for codes, code, position in (([5], 5, 0), ([*many, 4, MISSING], MISSING, 1001), ([0, 2**31, 7], 2**31, 1)):
            calls = (words.decode, lambda it: renumber(it, array("I", range(5))))[: 1 + (code != MISSING)]
            said = f"^code {code} at position {position} is no symbol$"
            error = self.refused(IndexError, said, calls, array("I", codes), position=position)
            again = pickle.loads(pickle.dumps(error))
            self.assertEqual((type(again), again.position, str(again)), (intaglio.NoSymbol, position, str(error)))
        self.refused(intaglio.NoSymbol, "", lambda: words.decode(array("I", [5]), missing=None))
        self.assertIsNone(intaglio.NoSymbol().position)

    def test_codes_are_read_from_any_buffer_of_their_type(self):
        words, codes = frozen_of(WORDS), array("I", [1, 0, 3, 1])
        data = codes.tobytes()
        odd = memoryview(b"x" + data)[1:].cast("I")
        for given in (codes, memoryview(codes), memoryview(data).cast("I"), odd, memoryview(data).cast("I", (2, 2))):
            self.assertEqual(words.decode(given), ["be", "to", "é", "be"])
            self.assertEqual(list(renumber(given, array("I", [7, 8, 9, 5]))), [8, 7, 5, 8])
            self.assertEqual(list(renumber(array("I", [3, 0]), given)), [1, 1])
        self.assertEqual(words.decode(memoryview(codes)[::-2]), ["be", "to"])
        signed = array("i", [1, -1, 3])
        self.assertEqual(words.decode(signed, missing="?"), ["be", "?", "é"])
        self.assertEqual(list(renumber(signed, array("i", [7, 8, 9, -1]))), [8, MISSING, MISSING])
        for other in (*NO_CODES, data):
            calls = (words.decode, lambda it: renumber(it, codes), lambda it: renumber(codes, it))
            self.refused(TypeError, "^codes are .*4 bytes.*uint32", calls, other)
        none = array("I")
        self.assertEqual((words.decode(none), list(renumber(none, codes))), ([], []))
        self.assertIs(renumber(none, codes, out=none), none)
        self.assertEqual(list(renumber(array("I", [MISSING, 2, MISSING]), codes)), [MISSING, 3, MISSING])

    def test_codes_are_renumbered_into_a_buffer(self):
        codes, numbers, wanted = array("I", [2, 0, MISSING, 1]), array("I", [5, 6, 7]), [7, 5, MISSING, 6]
        for out in (array("I", [9] * 4), array("i", [9] * 4), array("I", [9] * 6), memoryview(bytearray(16)).cast("I")):
            self.assertIs(renumber(codes, numbers, out=out), out)
            self.assertEqual([it % 2**32 for it in out], wanted + [9] * (len(out) - 4))
        self.assertEqual((list(codes), renumber(codes, numbers, None)), ([2, 0, MISSING, 1], array("I", wanted)))
        # Buffers that are one, or overlap.
        shared = array("I", codes)
        self.assertIs(renumber(shared, numbers, shared), shared)
        self.assertEqual(list(shared), wanted)
        for size in (1, 2, 3):
            for start in (0, 2 * size):
                shifted = array("I", [9] * size + list(codes) + [9] * size)
                view = memoryview(shifted)
                renumber(view[size:size + 4], numbers, out=view[start:start + 4])
                self.assertEqual(list(shifted)[start:start + 4], wanted)
        shared = array("I", [2, 0, 1])
        self.assertEqual(list(renumber(array("I", [0, 1, 2]), shared, shared)), [2, 0, 1])
        out = array("I", [9] * 4)
        for given, error in ((array("I", [0, 3, 0]), intaglio.NoSymbol), (array("I", [0] * 5), intaglio.NoSpace)):
            self.refused(error, "", renumber, given, numbers, out)
        odd = memoryview(bytearray(21))[1:].cast("I")
        for other in (array("Q", [0] * 9), [0] * 9, odd):
            self.refused(TypeError, "", renumber, codes, numbers, other)
        self.refused(BufferError, "", renumber, codes, numbers, memoryview(out).toreadonly())
        self.assertEqual(list(out), [9] * 4)

    def test_lines_of_a_buffer_are_encoded(self):
        chance, long = random.Random(6), ["", "a", "é", "x" * 9_000, "y" * 1_100_000]
        strings = [*dict.fromkeys([*long, *(str(chance.randrange(10**9)) for _ in range(2_000))])]
        words, data = frozen_of(strings), frozen_of([it.encode() for it in strings])
        many = [chance.choice(strings[:4] + strings[5:]) for _ in range(100_000)]
        for column in ([], [""], ["a"], ["", ""], long, many, [*long, *long, *strings]):
            wanted, text = codes_in(strings, column), "\n".join(column).encode() + b"\n" * bool(column)
            for given in (text, bytearray(text), memoryview(text)):
                self.assertEqual((words.encode_lines(given), data.encode_lines(given)), (wanted, wanted))
            if column and column[-1]:
                self.assertEqual(words.encode_lines(text[:-1]), wanted)
        self.assertEqual(words.encode_lines(b"a\nb\n\xff\n\n", missing=MISSING), array("I", [1, MISSING, MISSING, 0]))
        for text, string, position in (
            (b"a\nb", "b", 1), (b"a\n\xff", b"\xff", 1), (b"a\na\r", "a\r", 1), (b"a\n" * 50_000 + b"no", "no", 50_000),
        ):
            self.refused(intaglio.Missing, "", words.encode_lines, text, string=string, position=position)
        for other in ("a", None, 7, ["a"]):
            self.refused(TypeError, "", words.encode_lines, other)

    def test_long_batches_are_looked_up_in_blocks(self):
        chance = random.Random(7)
        strings = [*dict.fromkeys([*(str(chance.randrange(10**9)) for _ in range(5_000)), "z" * 1_100_000, "é" * 600_000])]
        words, column = frozen_of(strings), [chance.choice(strings[:-2]) for _ in range(100_000)]
        column[0], column[40_000], column[-1] = strings[-2], strings[-1], strings[-2]
        self.assertEqual(words.encode(column), codes_in(strings, column))
        column[70_000], column[70_001], column[90_000] = "no", "\ud800", "\ud800"
        wanted = codes_in(strings, column)
        self.assertEqual(words.find_all(column), [None if it == MISSING else it for it in wanted])
        self.assertEqual(words.encode(column, missing=MISSING), wanted)
        for string, position in (("no", 70_000), ("\ud800", 70_001), ("\ud800", 90_000)):
            self.refused(intaglio.Missing, "", words.encode, column, string=string, position=position)
            column[position] = strings[0]
        self.assertEqual(words.encode(column), codes_in(strings, column))
        self.assertEqual(words.decode(words.encode(column)), column)

    def test_damaged_codes_and_maps(self):
        """What other bytes a file of codes has is told as the reader in Python tells it."""
        chance, words, numbers = random.Random(3), frozen_of([str(it) for it in range(40)]), array("I", range(7, 47))
        for _ in range(ROUNDS):
            data = bytearray(struct.pack("<60I", *(chance.randrange(40) for _ in range(60))))
            for _ in range(chance.randrange(3)):
                data[chance.randrange(len(data))] = chance.randrange(256)
            codes = array("I", bytes(data))
            for call, other in (
                (words.decode, lambda: formats.decoded(list(words), list(codes))),
                (lambda it: list(renumber(it, numbers)), lambda: formats.decoded(list(numbers), list(codes), MISSING)),
            ):
                try:
                    wanted = other()
                except formats.Damaged as fault:
                    self.refused(intaglio.NoSymbol, "", call, codes, position=fault.args[0] - 1)
                else:
                    self.assertEqual(call(codes), wanted)


class Merging(Case):
    def same(self, merged, strings, maps, is_text):
        """What `merge` returns is a dictionary of these strings, and these maps."""
        self.assertEqual((list(merged[0]), [*map(list, merged[1])], merged[0].is_text), (strings, maps, is_text))

    def test_bytes_in_memory(self):
        table, path = SymbolTable(WORDS), self.folder / "words"
        table.freeze(path, keys=(1, 2))
        data = path.read_bytes()
        self.assertEqual((table.freeze(keys=(1, 2)), table.freeze(None, keys=(1, 2))), (data, data))
        self.assertEqual(table.freeze()[:8], b"INTAGLIO")
        drawn = [table.freeze(keys=None) for _ in range(2)]
        self.assertNotEqual(*drawn)
        self.assertEqual([list(Frozen.from_bytes(it)) for it in drawn], [list(table)] * 2)
        for words in (Frozen(path), *map(Frozen.from_bytes, (data, bytearray(data), memoryview(data), array("B", data)))):
            with words:
                self.assertEqual((list(words), words.to_bytes(), words.is_text), (WORDS, data, True))
        for wrong, error in (
            (b"", intaglio.NotFrozen), (data[:-1], intaglio.Truncated), (data[:30], intaglio.Truncated), ("text", TypeError),
        ):
            self.refused(error, "", Frozen.from_bytes, wrong)

    def test_a_table_absorbs_a_frozen_one(self):
        for table, strings, wanted, numbers in (
            (SymbolTable(["or", "be"]), ["to", "be", "é"], ["or", "be", "to", "é"], [2, 1, 3]),
            (SymbolTable(["or", "be"]), [], ["or", "be"], []), (BytesTable(), ["é"], ["é".encode()], [0]),
            (intaglio.PathTable(["a//b"]), ["a/b", "c", "a/./b"], ["a//b", "c"], [0, 1, 0]),
        ):
            self.assertEqual((table.absorb(frozen_of(strings)), list(table)), (array("I", numbers), wanted))

    def test_a_table_absorbs_all_or_nothing(self):
        for table, frozen, error, message in (
            (SymbolTable(["a"], limit=2), frozen_of(["b", "a", "c"]), intaglio.Full, "^at position 2: The string is new"),
            (SymbolTable(["a"]), frozen_of([b"b", b"\xff"]), intaglio.NotUtf8, "^at position 1: The string isn't valid UTF-8.$"),
            (intaglio.CStringTable([b"a"]), frozen_of([b"b\0", b"c"]), intaglio.MissingZero, "^at position 1: "),
            (SymbolTable(["a"]), frozen_of([]).to_bytes(), TypeError, "^a Frozen, not bytes$"),
            (SymbolTable(["a"]), None, TypeError, "^a Frozen, not NoneType$"),
        ):
            before = list(table)
            self.refused(error, message, table.absorb, frozen)
            self.assertEqual(list(table), before)
        table.close()
        self.refused(intaglio.NoTable, "", table.absorb, frozen_of(["a"]))

    def test_tables_are_merged(self):
        one, two, out = frozen_of(["to", "be"]), self.folder / "two", self.folder / "out"
        SymbolTable(["or", "to"]).freeze(two)
        for given, strings, wanted in (
            ([one, two], ["to", "be", "or"], [[0, 1], [2, 0]]), ([two], ["or", "to"], [[0, 1]]),
            ([two, str(two)], ["or", "to"], [[0, 1]] * 2), ([], [], []),
            ([bytes(two), one], ["or", "to", "be"], [[0, 1], [1, 2]]),
        ):
            self.same(merge(iter(given)), strings, wanted, True)
            self.same(merge(given, out, keys=(5, 6)), strings, wanted, True)
            self.assertEqual(out.read_bytes(), formats.freeze([it.encode() for it in strings], formats.TEXT, 5, 6))
        self.assertEqual(list(one), ["to", "be"])

    def test_texts_and_bytes_are_merged_to_bytes(self):
        texts, data = frozen_of(["é", "a"]), frozen_of([b"\xff", "é".encode()])
        self.same(merge([texts, data]), ["é".encode(), b"a", b"\xff"], [[0, 1], [2, 0]], False)
        # Bytes may be read as texts.
        data = [frozen_of([it.encode() for it in words]) for words in (["é", "a"], ["b", "é"])]
        read = [Frozen.from_bytes(it.to_bytes(), kind=str) for it in data]
        self.same(merge(read), ["é", "a", "b"], [[0, 1], [2, 0]], True)
        self.assertFalse(merge([read[0], data[1]])[0].is_text)

    def test_what_is_not_merged_leaves_the_file(self):
        one, out = self.folder / "one", self.folder / "out"
        formats.put(self.folder, {"one": b"INTAGLIO", "out": b"as it was"})
        for other, error in ((one, intaglio.Truncated), (self.folder / "no", FileNotFoundError), (7.5, TypeError)):
            self.refused(error, "", merge, [frozen_of(["a"]), other], out)
        self.assertEqual((out.read_bytes(), sorted(os.listdir(self.folder))), (b"as it was", ["one", "out"]))

    def test_what_is_no_list_of_tables_is_named(self):
        one, path = frozen_of(["a"]), self.folder / "one"
        SymbolTable(["a"]).freeze(path)
        data, single, no_path = path.read_bytes(), "a list of tables, not a single", "out is the path of a new file, not a"
        for given, message in (
            ((one,), f"{single} Frozen"), ((one, one), f"{single} Frozen"), ((SymbolTable(["a"]),), f"{single} SymbolTable"),
            ((str(path),), f"{single} str"), ((path,), f"{single} PosixPath"), ((data,), f"{single} bytes"),
            ((str(path), str(path)), f"{single} str"), (([one], one), f"{no_path} Frozen"),
            (([one], SymbolTable()), f"{no_path} SymbolTable"), (([one, data],), "at position 1: .*from_bytes"),
            (([one, bytearray(data)],), "at position 1: .*from_bytes"),
            (([SymbolTable()],), "at position 0: .*not SymbolTable"), (([7.5],), "at position 0: "),
        ):
            self.refused(TypeError, message, merge, *given)
        self.refused(TypeError, "from_bytes", Frozen, data)
        path.write_bytes(b"no table")
        for given in (path, str(path)):
            said = f"^{path}: The bytes don't begin as a frozen table does.$"
            error = self.refused(intaglio.NotFrozen, said, merge, [one, given])
            self.assertEqual(os.fsdecode(error.filename), str(path))
        self.assertEqual(os.listdir(self.folder), ["one"])

    def test_many_tables_need_few_descriptors(self):
        names = [self.folder / str(it) for it in range(1200)]
        for number, name in enumerate(names):
            name.write_bytes(formats.freeze([b"%d" % number, b"all"]))
        words, maps = merge(names)
        self.assertEqual((len(words), [list(it) for it in maps[:2]], list(maps[-1])), (1201, [[0, 1], [2, 1]], [1200, 1]))

    def test_random_columns_agree_with_a_dict(self):
        chance = random.Random(9)
        for size in (0, 1, 7, 300, 5_000, 100_000):
            for are_texts in (True, False):
                parts = formats.random_parts(chance, size, formats.TEXT if are_texts else formats.BYTES)
                parts = [[it.decode() for it in lines] if are_texts else lines for lines in parts]
                distinct = [[*dict.fromkeys(lines)] for lines in parts]
                frozen = [frozen_of(it, are_texts) for it in distinct]
                codes = [words.encode(lines) for words, lines in zip(frozen, parts)]
                for lines, strings, each in zip(parts, distinct, codes):
                    table = (SymbolTable if are_texts else BytesTable)()
                    self.assertEqual((table.encode(lines), list(table), table.decode(each)), (each, strings, lines))
                whole, maps = merge(frozen)
                every = [*dict.fromkeys(it for strings in distinct for it in strings)]
                self.assertEqual((list(whole), maps), (every, [codes_in(every, it) for it in distinct]))
                for lines, each, numbers, strings in zip(parts, codes, maps, distinct):
                    again = renumber(each, numbers)
                    self.assertEqual(again, codes_in(every, lines))
                    self.assertEqual((whole.decode(again), whole.encode(lines)), (lines, again))
                    self.assertEqual(whole.decode(renumber(array("I", range(len(strings))), numbers)), strings)
