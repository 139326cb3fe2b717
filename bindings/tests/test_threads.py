"""The Python module with several threads on one table. They change places as often as the interpreter can, so that each call is
likely to be interrupted wherever it can be. checks/bindings sets MALLOC_MMAP_THRESHOLD_=65536: the memory of a large string that
is dropped then leaves the process, so that reading it afterwards is a crash."""
import sys
import tempfile
import threading
import time
import unittest
from array import array
from concurrent.futures import ThreadPoolExecutor

import intaglio
from intaglio import MISSING, Frozen, SymbolTable, merge, renumber
from intaglio._table import frozen_slice, share_out

CALLS = 60_000
THREADS = 3
WORDS = [f"word {number}" + "x" * (number % 50) for number in range(400)]
CLEARS = 20_000
LARGE = ["a" * 100_000, "b" * 100_000]
# How many strings a batch has, and how many words there are, so that one takes some tenths of a second.
LONG, DISTINCT = 1_000_000, 100_000
TRIES = 9


def run(*calls):
    """Runs each in a thread of its own, and returns what they raised."""
    with ThreadPoolExecutor(len(calls)) as pool:
        done = [pool.submit(call) for call in calls]
    return [it.exception() for it in done if it.exception()]


def begun(call):
    """A thread that has begun with a call."""
    started = threading.Event()
    thread = threading.Thread(target=lambda: (started.set(), call()))
    thread.start()
    started.wait()
    return thread


class Switching(unittest.TestCase):
    interval = 1e-6

    def setUp(self):
        self.addCleanup(sys.setswitchinterval, sys.getswitchinterval())
        sys.setswitchinterval(self.interval)


class Threads(Switching):

    def wrong_answers(self, answer):
        """How often `answer(table, number)` isn't the number of its word, over the calls of all threads on one table."""
        table, wrong = SymbolTable(WORDS), []

        def call(seed):
            for step in range(CALLS):
                number = (step * 7919 + seed * 131) % len(WORDS)
                found = answer(table, number)
                if found != number:
                    wrong.append((number, found))

        self.assertEqual(run(*(lambda seed=seed: call(seed) for seed in range(THREADS))), [])
        return wrong

    def test_each_thread_gets_its_own_symbol_and_string(self):
        numbers = {word: number for number, word in enumerate(WORDS)}
        for answer in (
            lambda table, number: table.intern(WORDS[number]), lambda table, number: table.check_interned(WORDS[number]),
            lambda table, number: numbers[table[number]],
        ):
            self.assertEqual(self.wrong_answers(answer), [])

    def test_a_string_that_another_thread_drops_is_whole_or_absent(self):
        table, seen = SymbolTable(), set()

        def change():
            for step in range(CLEARS):
                table.intern(LARGE[step % 2])
                table.clear()

        def read():
            for _ in range(CLEARS):
                seen.add(table.get(0))

        self.assertEqual(run(change, read, read), [])
        self.assertEqual([text[:100] for text in seen - {None, *LARGE}], [])

    def test_a_batch_that_fails_drops_no_other_threads_strings(self):
        table = SymbolTable()

        def batches():
            for step in range(300):
                with self.assertRaises(intaglio.NotUtf8):
                    table.intern_all([*(f"batch {step} {number}" for number in range(20)), "\ud800"])

        def single(seed):
            for step in range(5_000):
                table.intern(f"single {seed} {step}")

        self.assertEqual(run(batches, lambda: single(1), lambda: single(2)), [])
        self.assertEqual(sorted(table), sorted(f"single {seed} {step}" for seed in (1, 2) for step in range(5_000)))


class FrozenTables(Switching):
    """A Frozen is read-only, so its batches let other threads run."""

    interval = 1e-4

    @classmethod
    def setUpClass(cls):
        cls.words = [f"word {number}" for number in range(DISTINCT)]
        cls.table = Frozen.from_bytes(SymbolTable(cls.words).freeze())
        cls.numbers = array("I", (step * 7919 % DISTINCT for step in range(LONG)))
        cls.column = [cls.words[number] for number in cls.numbers]
        cls.lines = "\n".join(cls.column).encode()
        cls.map = array("I", reversed(range(DISTINCT)))
        cls.long_table = SymbolTable(f"{number} of many" for number in range(LONG))
        cls.long = Frozen.from_bytes(cls.long_table.freeze(), trusted=True)
        folder = tempfile.TemporaryDirectory()
        cls.addClassCleanup(folder.cleanup)
        cls.shards, _ = merge([cls.table], folder.name, shards=3)

    def calls_meanwhile(self, batch):
        """How many calls another thread makes on the table while a batch runs, and how long the batch and the longest wait of
        that thread are."""
        done, waits = threading.Event(), []

        def look_up():
            last = time.perf_counter()
            while not done.is_set():
                assert self.table.check_interned(self.words[len(waits) % DISTINCT]) == len(waits) % DISTINCT
                now = time.perf_counter()
                waits.append(now - last)
                last = now

        thread = begun(look_up)
        start = time.perf_counter()
        result = batch()
        length = time.perf_counter() - start
        done.set()
        thread.join()
        # (to free a long list takes its time too)
        del result
        return len(waits), length, max(waits)

    def assert_lets_run(self, name, batch, share=4):
        """Another thread's calls wait for less than this share of a batch. A machine that is busy may let them wait longer, so
        there are several tries."""
        tries = []
        for _ in range(TRIES):
            calls, length, wait = self.calls_meanwhile(batch)
            # (a batch that held the lock would leave one call, which waits as long as the batch)
            if calls > 100 and wait < length / share:
                return
            tries.append((calls, length, wait))
        self.fail((name, tries))

    def test_another_threads_call_does_not_wait_for_a_batch(self):
        out = array("I", bytes(4 * LONG))
        for name, batch in (
            ("encode", lambda: self.table.encode(self.column)), ("encode_into", lambda: self.table.encode_into(self.column, out)),
            ("find_all", lambda: self.table.find_all(self.column)), ("encode_lines", lambda: self.table.encode_lines(self.lines)),
            ("decode", lambda: self.table.decode(self.numbers)), ("iterating", lambda: [list(self.table) for _ in range(9)]),
            ("all of it", lambda: list(self.long)),
            ("a slice", lambda: frozen_slice(self.table._data, True, 0, 2 * LONG, 0)),
            ("get_all", lambda: self.table.get_all(self.numbers)), ("merge", lambda: merge([self.table] * 9)),
            ("encode by shards", lambda: self.shards.encode(self.column)),
            ("decode by shards", lambda: self.shards.decode(self.numbers)),
            ("to share strings out", lambda: share_out(self.long._data, (SymbolTable(), SymbolTable()))),
            ("to intern all for merge", lambda: SymbolTable()._absorb_alone(self.long)),
            ("to freeze for merge", lambda: self.long_table._freeze_alone((0, 0), self.long._id)),
        ):
            self.assert_lets_run(name, batch)

    def test_the_list_of_find_all_is_made_in_turns(self):
        # (to look this word up takes little, so that the list is a large part)
        column = [self.words[300]] * LONG
        self.assert_lets_run("find_all", lambda: self.table.find_all(column), share=10)

    def test_batches_of_several_threads_agree(self):
        sys.setswitchinterval(1e-6)
        part, text = self.column[:100_000], self.lines[:1_000_000].rpartition(b"\n")[0]
        wanted, of_lines = self.numbers[:100_000], self.numbers[:text.count(b"\n") + 1]
        out = {}

        def work(number):
            for turn in range(4):
                out[number, turn] = (
                    self.table.encode(part) == wanted, self.table.encode_lines(text) == of_lines,
                    self.table.decode(wanted) == part, self.table.find_all(part) == list(wanted),
                    renumber(renumber(wanted, self.map), self.map) == wanted,
                    self.table.encode([None, *part], missing=MISSING)[1:] == wanted,
                    self.table.get_all(wanted) == part, merge([self.table, self.table])[1][1] == array("I", range(DISTINCT)),
                    self.shards.decode(self.shards.encode(part)) == part,
                )

        self.assertEqual(run(*(lambda number=number: work(number) for number in range(4))), [])
        self.assertEqual(
            {it: all(found) for it, found in out.items()}, {(number, turn): True for number in range(4) for turn in range(4)}
        )

    def test_a_list_that_changes_meanwhile_is_refused_or_read_whole(self):
        for change in (list.clear, lambda it: it.extend(self.words), lambda it: it.__setitem__(slice(None), ["no"] * len(it))):
            column, seen = self.column * 2, []

            def encode():
                try:
                    seen.append(len(self.table.encode(column, missing=MISSING)))
                except RuntimeError as error:
                    seen.append(str(error))

            thread = begun(encode)
            time.sleep(0.05)
            change(column)
            thread.join()
            self.assertIn(seen, ([2 * LONG], ["the list of strings changed its length meanwhile"], [0], [2 * LONG + DISTINCT]))

    def test_a_table_that_another_thread_reads_is_not_closed(self):
        for _ in range(20):
            table, codes = Frozen.from_bytes(self.table.to_bytes()), []
            thread = begun(lambda: codes.append(table.encode_lines(self.lines)))
            time.sleep(0.02)
            try:
                table.close()
            except BufferError:
                thread.join()
                self.assertEqual(codes, [self.numbers])
                table.close()
                return
            thread.join()
        self.fail("no batch was met")
