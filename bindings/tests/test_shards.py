"""Dictionaries in shards from Python, beside plain lists, checks/formats.py, and the program, if it is built."""
import copy
import itertools
import os
import pickle
import random
from array import array

import intaglio
from cases import Case, by_program, encoded, formats, if_built
from intaglio import BytesTable, Frozen, SymbolTable, merge, renumber

ROUNDS = 60
WORDS = ["", "a", "b c", "\u00e9", "a string that is longer than the others", *(f"w{it}" for it in range(60))]


def dictionary_of(strings, count, is_text=True):
    """The dictionary that has these strings in so many shards, by the writer in plain Python."""
    return formats.dictionary_of(encoded(strings), count, int(is_text))


def freeze(strings, is_text=True):
    return Frozen.from_bytes((SymbolTable if is_text else BytesTable)(strings).freeze())


class OfShards(Case):
    def setUp(self):
        super().setUp()
        self.at, self.folder = self.folder, self.folder / "words"

    def put(self, strings, count, is_text=True):
        """A folder of these strings that another writer wrote. Returns the strings in its order."""
        dictionary = dictionary_of(strings, count, is_text)
        formats.put(self.folder, dictionary.files(0, 0))
        return [it.decode() for it in dictionary.strings] if is_text else dictionary.strings

    def test_folders_of_another_writer_are_read(self):
        for count, is_text in ((1, True), (3, False), (16, True), (200, False)):
            strings = self.put(WORDS if is_text else [*encoded(WORDS), b"\xff"], count, is_text)
            for trusted in (False, True):
                with Frozen(os.fsencode(self.folder) if trusted else self.folder, trusted=trusted) as shards:
                    self.compare(shards, strings)
                    self.assertEqual((shards.shards, shards.identity), (count, formats.read_dictionary(self.folder).name))
                    kind = "str" if is_text else "bytes"
                    self.assertEqual(repr(shards), f"<Frozen of {len(strings)} {kind} in {count} shards>")
                self.refused(ValueError, "^the Frozen was closed$", (lambda: shards[0], lambda: shards.encode(["a"])))
        # One file, and one shard by itself, which has its own symbols.
        self.assertEqual((freeze(WORDS).shards, freeze(WORDS).identity), (1, dictionary_of(WORDS, 1).name))
        with Frozen(self.folder / "7.dict") as shard:
            self.assertEqual([*shard], formats.read_dictionary(self.folder).shards[7])
            self.assertEqual((shard.shards, shard.identity), (200, shards.identity))
            said = f"^{self.folder}/7.dict: shard 7 of 200; name its folder$"
            self.refused(ValueError, said, shard.write_column, self.at / "column", array("I"))

    def test_files_are_shared_out_and_shards_are_merged(self):
        for seed in range(ROUNDS):
            rng, folder = random.Random(seed), self.at / f"{seed}"
            is_text, count = rng.random() < .6, rng.randrange(1, 6)
            words = WORDS if is_text else [*encoded(WORDS), b"\xff"]
            lists, keys = [rng.sample(words, rng.randrange(9)) for _ in range(rng.randrange(1, 4))], (seed, 5)
            tables = [freeze(it, is_text) for it in lists]
            parts = [dictionary_of(it, count, is_text) for it in lists]
            folder.mkdir()
            made = [merge([it], folder / f"{number}", shards=count, keys=keys) for number, it in enumerate(tables)]
            for number, (part, strings, (shards, [numbers])) in enumerate(zip(parts, lists, made)):
                self.assertEqual(formats.files_in(folder / f"{number}"), part.files(*keys))
                self.assertEqual(shards.decode(numbers), strings)
            self.compare(made[0][0], list(made[0][0]))
            # Shards of several parts, each a Frozen or a path: all in one call, and one by one.
            given = [rng.choice([shards, folder / f"{number}"]) for number, (shards, _) in enumerate(made)]
            whole, maps = merge(given, folder / "whole", keys=keys)
            wanted = formats.merge_of(parts)
            self.assertEqual((formats.files_in(folder / "whole"), whole.identity), (wanted.files(*keys), wanted.name))
            for shard in rng.sample(range(count), count):
                one, of_shard = merge(given, folder / "by shard", shard=shard, keys=keys)
                for part, numbers in zip(parts, of_shard):
                    self.assertEqual(encoded(one.decode(numbers)), part.shards[shard])
            self.assertEqual(formats.files_in(folder / "by shard"), formats.files_in(folder / "whole"))
            for (shards, [split]), strings, numbers in zip(made, lists, maps):
                self.assertEqual(whole.decode(numbers), list(shards))
                self.assertEqual(whole.decode(renumber(split, numbers)), strings)
            # Files are merged and shared out in one call, and merges nest.
            out, maps = merge(tables, folder / "out", shards=count, keys=keys)
            self.assertEqual([out.decode(it) for it in maps], lists)
            wanted = formats.merge_of([dictionary_of(it, 1, is_text) for it in lists], count)
            self.assertEqual(formats.files_in(folder / "out"), wanted.files(*keys))
            again, [numbers, _] = merge([whole, folder / "0"], folder / "again", keys=None)
            self.assertEqual((again.decode(numbers), list(again)), (list(whole), list(whole)))

    def test_a_merge_of_both_kinds_is_of_bytes(self):
        texts, of_bytes = freeze(["a", "b"]), freeze([b"b", b"\xff"], False)
        merge([texts], self.at / "texts", shards=2)
        merge([of_bytes], self.at / "bytes", shards=2)
        for tables, shards in (([self.at / "texts", self.at / "bytes"], None), ([texts, of_bytes], 2)):
            whole, maps = merge(tables, self.folder, shards=shards)
            self.assertEqual((sorted(whole), sorted(whole.decode(maps[0]))), ([b"a", b"b", b"\xff"], [b"a", b"b"]))
        self.assertEqual(sorted(Frozen(self.at / "texts", kind=bytes)), [b"a", b"b"])
        self.refused(intaglio.NotUtf8, f"^{self.at}/bytes/[01].dict: ", lambda: Frozen(self.at / "bytes", kind=str))

    def test_folders_that_are_no_dictionary_are_refused_by_name(self):
        self.put(WORDS, 3)
        first, second, third = (self.folder / f"{it}.dict" for it in range(3))
        good, other = second.read_bytes(), self.at / "other"
        merge([freeze(WORDS[1:])], other, shards=3)
        merge([self.folder], self.at / "merged")
        dictionary = formats.read_dictionary(self.folder)
        place = dictionary.set, 3, 1
        misplaced = formats.freeze([*dictionary.shards[1], dictionary.shards[0][0]], formats.TEXT)
        last = len(dictionary.shards[1])
        for data, said, error, is_trusted in (
            (None, "", FileNotFoundError, True),
            (first.read_bytes(), "shard 0 of 3, not shard 1", intaglio.OtherShard, True),
            ((other / "1.dict").read_bytes(), f"of another set than {first}; write both again", intaglio.OtherShard, True),
            ((self.at / "merged/1.dict").read_bytes(), "of another set", intaglio.OtherShard, True),
            (formats.placed(good, dictionary.set, 4, 1), "of another set", intaglio.OtherShard, True),
            (formats.placed(formats.freeze(dictionary.shards[1]), *place), "of another set", intaglio.OtherShard, True),
            (good[:-1], "", intaglio.Truncated, True), (good + b"a", "", intaglio.TrailingBytes, True),
            (formats.placed(misplaced, *place), f"string {last} belongs to another shard", intaglio.Misplaced, False),
            (good[:-1] + b"~", "", (intaglio.NotFound, intaglio.OtherIdentity), False),
        ):
            second.unlink() if data is None else second.write_bytes(data)
            calls = [lambda: Frozen(self.folder), lambda: merge([self.folder], self.at / "out")]
            calls += [lambda: Frozen(self.folder, trusted=True)] * is_trusted
            self.refused(error, f"{second}" if data is None else f"^{second}: {said}", calls)
            if not is_trusted:
                Frozen(self.folder, trusted=True).close()
        second.write_bytes(good)
        third.write_bytes(b"")
        self.refused(intaglio.NotFrozen, f"^{third}: ", (lambda: Frozen(self.folder), lambda: Frozen(self.folder, trusted=True)))
        first.unlink()
        self.refused(FileNotFoundError, f"{first}", (lambda: Frozen(self.folder), lambda: merge([self.folder], self.at / "out")))
        one, _ = merge([self.folder], self.at / "one", shard=1)
        self.assertEqual(encoded(one), dictionary.shards[1])

    def test_each_byte_of_a_shard_is_checked(self):
        self.put(WORDS[:9], 2)
        path = self.folder / "1.dict"
        good = path.read_bytes()
        # (the second to the fifth four bytes are the keys: with others a string may be found by chance)
        for place in {*range(len(good))} - {*range(16, 32)}:
            path.write_bytes(good[:place] + bytes([good[place] ^ 1]) + good[place + 1 :])
            with self.subTest(place=place):
                self.refused(intaglio.Refused, f"^{path}: ", Frozen, self.folder)

    def test_inputs_are_not_written_over(self):
        self.put(WORDS, 3)
        freeze(WORDS).write_column(self.at / "column", array("I"))
        SymbolTable(WORDS).freeze(self.at / "0.dict")
        before, path = (formats.files_in(self.folder), (self.at / "0.dict").read_bytes()), self.at / "0.dict"
        self.refused(ValueError, "this input is in the folder that is written, ", (
            lambda: merge([path], self.at, shards=2), lambda: merge([Frozen(path)], self.at, shards=2),
            lambda: merge([self.folder], self.folder), lambda: merge([Frozen(self.folder)], self.folder, shard=1),
        ))
        self.assertEqual((formats.files_in(self.folder), path.read_bytes()), before)

    def test_copies_and_pickles(self):
        Named, strings = type("Named", (Frozen,), {}), self.put(WORDS, 3)
        for trusted, kind in itertools.product((False, True), (None, bytes)):
            shards = Named(self.folder, trusted=trusted, kind=kind)
            shards.name = ["words"]
            for other in (copy.copy(shards), copy.deepcopy(shards)):
                self.assertIsInstance(other, Named)
                self.compare(other, encoded(strings) if kind else strings)
                other.close()
                self.assertEqual((other.name, repr(other), len(list(shards))), (["words"], "<Named, closed>", len(WORDS)))
        shards = Frozen(self.folder)
        pickled = pickle.dumps(shards)
        self.compare(pickle.loads(pickled), strings)
        self.put(WORDS[:-1], 3)
        said = f"^{self.folder}: another dictionary than the one that was pickled$"
        self.refused(ValueError, said, pickle.loads, pickled)
        (self.folder / "0.dict").unlink()
        self.refused(FileNotFoundError, "0.dict", pickle.loads, pickled)
        self.refused(TypeError, f"^{self.folder}: it has other shards by now", pickle.dumps, shards)

    def test_long_batches(self):
        strings = [f"s{it}" for it in range(70_000)]
        shards, [numbers] = merge([freeze(strings)], self.folder, shards=7)
        self.assertEqual((shards.encode(strings), shards.decode(numbers)), (numbers, strings))
        self.assertEqual(shards.find_all(iter([*strings, "no"])), [*numbers, None])
        self.assertEqual(shards.encode_lines("\n".join(strings).encode()), numbers)

    def test_wrong_arguments_raise(self):
        self.put(WORDS, 3)
        shards, words, out = Frozen(self.folder), freeze(WORDS), self.at / "out"
        for other in (b"a", 7):
            self.refused(TypeError, "", (shards.check_interned, shards.count, shards.index, shards.__contains__), other)
        one_shard = self.folder / "2.dict"
        for error, said, tables, how in (
            *((ValueError, "^the number of shards is from 1 to ", [words], {"shards": it}) for it in (0, -1, 2**32)),
            *((ValueError, "^the number of the shard is from 0 to 2, not ", [shards], {"shard": it}) for it in (3, -1)),
            *((ValueError, f"^{one_shard}: shard 2 of 3; name its folder$", [one_shard], {"shards": it}) for it in (None, 2)),
            (ValueError, f"^{self.folder}: 3 shards, and 2 are merged$", [shards], {"shards": 2}),
            (ValueError, "^<Frozen of 65 str>: 1 shard, and 3 are merged$", [shards, words], {}),
            (TypeError, "", [words], {"shards": "2"}), (TypeError, "", [words], {"shard": 0}),
            *((TypeError, "", [it], {"shards": 2}) for it in (SymbolTable(WORDS), words.to_bytes())), (TypeError, "", shards, {}),
            (NotADirectoryError, "", [words], {"out": self.folder / "0.dict", "shards": 2}),
            (FileNotFoundError, "", [words], {"out": self.at / "none/out", "shards": 2}),
        ):
            self.refused(error, said, lambda: merge(tables, **{"out": out} | how))
        self.refused(TypeError, "", (
            lambda: merge([words], shards=2), lambda: merge([shards]), lambda: merge([words], shards),
            lambda: SymbolTable().absorb(shards), lambda: Frozen(self.folder, kind=int), shards.to_bytes,
        ))
        self.assertFalse(out.exists())

    @if_built
    def test_the_program_writes_the_same_bytes(self):
        parts = [self.at / f"{it}" for it in range(3)]
        for part, strings in zip(parts, (WORDS[:40], WORDS[20:], [])):
            SymbolTable(strings).freeze(f"{part}.dict")
            by_program("merge", f"{part}.dict", "--shards", 3, "-o", f"{part}.of_program")
            merge([f"{part}.dict"], part, shards=3)
            self.assertEqual(formats.files_in(part), formats.files_in(f"{part}.of_program"))
        by_program("merge", *parts, "-o", self.at / "of_program")
        whole, _ = merge(parts, self.folder)
        self.assertEqual(formats.files_in(self.folder), formats.files_in(self.at / "of_program"))
        self.assertEqual(by_program("list", self.folder), formats.ended(encoded(whole)))
