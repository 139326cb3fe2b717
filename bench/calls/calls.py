"""Times calls of the Python module as calls.c does, with the same arguments and output, and a dict's beside them.

The strings are made anew before each measurement, since a str keeps its hash, which a dict uses again. The times are processor
time.
"""
import gc
import sys
from array import array
from pathlib import Path
from time import process_time

from intaglio import SymbolTable

FRESH, SHUFFLED, ABSENT = (Path(word).read_bytes() for word in sys.argv[1:4])


def measure(row, column, lines, call):
    texts = lines.decode().splitlines()
    start = process_time()
    call(texts)
    print(f"{row};{column};{(process_time() - start) * 1e9 / len(texts):.1f}")


def one_by_one(call):
    def each(texts):
        for text in texts:
            call(text)

    return each


def number_each(numbers):
    def each(texts):
        for text in texts:
            numbers.setdefault(text, len(numbers))

    return each


def turn(row, intern, find):
    measure(row, "new", FRESH, intern)
    measure(row, "again", FRESH, intern)
    measure(row, "found", FRESH, find)
    measure(row, "again, shuffled", SHUFFLED, intern)
    measure(row, "found, shuffled", SHUFFLED, find)
    measure(row, "absent", ABSENT, find)


def main():
    gc.disable()
    count = len(FRESH.splitlines())
    symbols, found = array("I", bytes(4 * count)), array("I", bytes(4 * count))
    for _ in range(int(sys.argv[4])):
        table = SymbolTable()
        turn("Python: intern_all, check_all", table.intern_all, table.check_all)
        table = SymbolTable()
        turn(
            "Python: intern_into, check_into",
            lambda texts: table.intern_into(texts, symbols),
            lambda texts: table.check_into(texts, found),
        )
        numbers: dict[str, int] = {}
        turn(
            "a dict, in a comprehension",
            lambda texts: [numbers.setdefault(text, len(numbers)) for text in texts],
            lambda texts: [numbers.get(text) for text in texts],
        )
        table = SymbolTable()
        turn("Python: intern, check_interned", one_by_one(table.intern), one_by_one(table.check_interned))
        numbers = {}
        turn("a dict, one by one", number_each(numbers), one_by_one(numbers.get))


main()
