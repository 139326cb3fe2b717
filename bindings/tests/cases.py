"""What the tests of the Python module share."""
import importlib
import os
import subprocess
import sys
import tempfile
import unittest
from array import array
from pathlib import Path

sys.dont_write_bytecode = True
TOP = Path(__file__).resolve().parents[2]
sys.path.insert(0, str(TOP / "checks"))
import formats
import intaglio
from intaglio import MISSING, BytesTable, SymbolTable

# What no buffer of codes is.
NO_CODES = (*(array(it, bytes(72)) for it in "bHqQf"), bytearray(72), [0] * 9, 7, None)
# Slices, among them such whose next step leads behind what 8 bytes count.
STEPS = tuple((start, None, step) for start in (0, 1, -1) for step in (2**63 - 1, 1 - 2**63, 2**63, 2**70, -(2**70)))
SLICES = ((None,), (None, None, -1), (None, None, -2), (1, -1), (-2, None), (9, 1), (9, 1, -3), (0, 99, 4), (5, 500, 7), *STEPS)
PROGRAM = TOP / "crates/intaglio_dict/out/intaglio_dict"
if_built = unittest.skipUnless(os.access(PROGRAM, os.X_OK), "intaglio_dict isn't built")


def optional(name):
    """A module, or nothing if it isn't there."""
    try:
        return importlib.import_module(name)
    except ImportError:
        return None


def by_program(*words, given=None):
    return subprocess.run([PROGRAM, *map(str, words)], check=True, capture_output=True, input=given).stdout


def encoded(strings):
    return [it.encode() if isinstance(it, str) else it for it in strings]


def are_texts(strings):
    return all(isinstance(it, str) for it in strings)


def table_of(strings):
    """A table of these texts or bytes."""
    return (SymbolTable if are_texts(strings) else BytesTable)(strings)


def frozen_bytes(strings, is_text=None):
    """A frozen table of these strings, by the writer in plain Python."""
    is_text = are_texts(strings) if is_text is None else is_text
    return formats.freeze(encoded(strings), formats.TEXT if is_text else formats.BYTES, 1, 2)


class Case(unittest.TestCase):
    def setUp(self):
        """Each test has a folder of its own."""
        folder = tempfile.TemporaryDirectory()
        self.addCleanup(folder.cleanup)
        self.folder = Path(folder.name)

    def refused(self, error, words, calls, *given, **fields):
        """A call, or each of several, raises an error with these words and fields. Returns the last one."""
        for call in calls if isinstance(calls, (tuple, list)) else (calls,):
            with self.assertRaisesRegex(error, words) as raised:
                call(*given)
            self.assertEqual({it: getattr(raised.exception, it) for it in fields}, fields)
        return raised.exception

    def compare(self, words, strings):
        """A dictionary does what the plain list of its strings does."""
        count, numbers = len(strings), {it: number for number, it in enumerate(strings)}
        absent = "not there" if words.is_text else b"not there"
        self.assertEqual((list(words), len(words), list(reversed(words))), (strings, count, strings[::-1]))
        self.assertEqual([words[it] for it in range(-count, count)], strings + strings)
        self.assertEqual((list(words.items()), next(iter(words), 7)), (list(enumerate(strings)), [*strings, 7][0]))
        for bounds in SLICES:
            self.assertEqual(words[slice(*bounds)], strings[slice(*bounds)])
        for symbol in (count, -count - 1, MISSING, 2**32, 2**64, 2**70, -(2**64)):
            said = f"no such symbol: {symbol}, and the table has {count} strings$"
            self.refused(IndexError, f"^{said}", lambda: words[symbol])
            self.assertEqual((words.get(symbol), words.get(symbol, 7), words.get(-1)), (None, 7, None))
            if strings:
                self.refused(intaglio.NoSymbol, f"^at position 1: {said}", words.get_all, [0, symbol, "x"], position=1)
        for string, number in numbers.items():
            self.assertEqual((words.check_interned(string), words.index(string), words.get(number)), (number, number, string))
            self.assertTrue(string in words and words.count(string) == 1)
        self.assertEqual((words.check_interned(absent), words.count(absent), absent in words), (None, 0, False))
        self.refused(ValueError, "^.*not there' is not in the table$", words.index, absent)
        self.compare_batches(words, strings, absent)

    def compare_batches(self, words, strings, absent):
        asked = [*strings[::-2], absent, *strings[:3]]
        codes = [strings.index(it) if it in strings else None for it in asked]
        with_missing = array("I", [MISSING if it is None else it for it in codes])
        self.assertEqual((words.find_all(asked), words.check_all(iter(asked))), (codes, codes))
        self.assertEqual(words.encode(asked, missing=MISSING), with_missing)
        self.assertEqual((words.encode([None, *asked], missing=7)[0], words.get_all([])), (7, []))
        said = f"not there' at position {asked.index(absent)} is not in the table$"
        self.refused(intaglio.Missing, said, words.encode, asked)
        out = array("I", bytes(4 * len(asked)))
        self.assertEqual((words.encode_into(asked, out, missing=MISSING), out), (len(asked), with_missing))
        self.assertEqual(words.encode(tuple(strings)), array("I", range(len(strings))))
        lines = formats.ended(encoded(asked))
        self.assertEqual(words.encode_lines(lines, missing=MISSING), with_missing)
        self.assertEqual(words.decode(with_missing, missing=None), [None if it == absent else it for it in asked])
        said = f"^code {len(strings)} at position 0 is no symbol$"
        self.refused(intaglio.NoSymbol, said, words.decode, array("I", [len(strings)]))
        symbols = [it for it in codes if it is not None]
        self.assertEqual(words.get_all(iter(symbols)), [strings[it] for it in symbols])
