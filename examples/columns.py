#!/usr/bin/env python3
"""Shows how a file of lines is encoded in parts, and keeps nothing: examples/columns.py FILE [PARTS]

The steps of examples/columns with the Python module: each part gets a dictionary and codes, by a process of its own. The
dictionaries are merged, the codes of each part are renumbered, again side by side, and what they are decoded to is
compared with the file. Processes share nothing but files and maps. All parts are encoded at once, so memory must hold what
each needs. docs/COLUMNS.md has recipes that keep what they write, also for files that are larger than the memory.
"""
import os
import sys
import tempfile
import time
from array import array
from concurrent.futures import ProcessPoolExecutor
from itertools import pairwise
from pathlib import Path

from intaglio import BytesTable, Frozen, merge, renumber


def ends_of(path, parts):
    """Where the parts of a file end: the first at 0, each other behind a line."""
    yield 0
    with open(path, "rb") as file:
        size = file.seek(0, os.SEEK_END)
        for number in range(1, parts):
            file.seek(max(size * number // parts - 1, 0))
            file.readline()
            yield file.tell()
        yield size


def read_part(path, start, end):
    with open(path, "rb") as file:
        file.seek(start)
        return file.read(end - start)


def lines_of(path, start, end):
    data = read_part(path, start, end)
    return data.removesuffix(b"\n").split(b"\n") if data else []


def read_codes(name):
    codes = array("I")
    codes.frombytes(Path(name).read_bytes())
    return codes


def encode(name, path, start, end):
    """Map: the dictionary and the codes of a part."""
    table = BytesTable()
    codes = table.encode_lines(read_part(path, start, end))
    table.freeze(f"{name}.dict")
    Path(f"{name}.codes").write_bytes(codes)


def rewrite(name, numbers):
    """Map: the codes of a part in the one dictionary."""
    codes = renumber(read_codes(f"{name}.codes"), numbers)
    Path(f"{name}.whole").write_bytes(codes)


def comes_back(name, whole, path, start, end):
    """Whether the codes of a part are decoded to its lines."""
    with Frozen(whole, trusted=True) as words:
        return words.decode(read_codes(f"{name}.whole")) == lines_of(path, start, end)


def run(path, parts, folder, done):
    names, whole = [f"{folder}/{part}" for part in range(parts)], f"{folder}/whole.dict"
    starts, ends = zip(*pairwise(ends_of(path, parts)))
    with ProcessPoolExecutor(parts) as pool:
        list(pool.map(encode, names, [path] * parts, starts, ends))
        done("each part frozen and encoded")
        # Reduce: one dictionary, and a map for each part.
        words, maps = merge([f"{name}.dict" for name in names], whole)
        done("merged")
        list(pool.map(rewrite, names, maps))
        done("renumbered")
        if not all(pool.map(comes_back, names, [whole] * parts, [path] * parts, starts, ends)):
            sys.exit("other lines came back")
        done("decoded, and the same")
    print(f"strings {len(words)}")


def main():
    if len(sys.argv) not in (2, 3):
        print(__doc__.splitlines()[0], file=sys.stderr)
        sys.exit(2)
    path, parts = sys.argv[1], int(sys.argv[2]) if sys.argv[2:] else os.cpu_count()
    start = time.monotonic()
    with tempfile.TemporaryDirectory() as folder:
        run(path, parts, folder, lambda what: print(f"{1000 * (time.monotonic() - start):.0f} ms: {what}", file=sys.stderr))


if __name__ == "__main__":
    main()
