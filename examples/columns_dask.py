#!/usr/bin/env python3
"""Encodes a file of lines on a Dask cluster: examples/columns_dask.py SCHEDULER FILE OUT [SIZE]

The file is read in blocks of about SIZE (64 MiB), which end at a line's end. Each gets a dictionary and codes, by a worker.
The dictionaries are merged in a tree, on the workers, and the maps go back to the workers that made the codes. OUT is a new
folder, which all workers see as they see the file. The one dictionary is written there, and the new codes of each block by its
worker: `intaglio_dict decode --raw OUT/whole.dict OUT/*.codes` writes the lines of the file. If a worker is lost, Dask runs its
tasks again, on others.

SCHEDULER is the scheduler's address, such as tcp://HOST:8786. This program and each worker need the module `intaglio`,
dask, distributed and fsspec. Start workers with --nthreads 1, since a call on a table holds the interpreter's lock.
"""
import os
import sys
from itertools import count
from pathlib import Path

from dask import delayed
from dask.bytes import read_bytes
from distributed import Client, as_completed

from intaglio import BytesTable, Frozen, merge, renumber

# How many dictionaries a task merges.
WIDTH = 8


def encode(block):
    """The dictionary and the codes of a block. The same block gives the same again."""
    table = BytesTable()
    codes = table.encode_lines(block)
    return table.freeze(), codes


def merge_group(*dictionaries):
    """One dictionary, and a map for each."""
    words, maps = merge(map(Frozen.from_bytes, dictionaries))
    return words.to_bytes(), maps


def item(pair, position):
    return pair[position]


def map_to_whole(merged, position, above):
    """The map of a dictionary to that of its group, and on by the group's own map, if it has one."""
    own = merged[1][position]
    return own if above is None else renumber(own, above)


def rewrite(codes, numbers, name):
    """Writes the codes of a block in the one dictionary. Whoever reads the file has all of it, even if this is run twice at
    once, by processes of two machines that have the same number."""
    new = f"{name}.{os.urandom(8).hex()}.new"
    Path(new).write_bytes(codes if numbers is None else renumber(codes, numbers))
    os.replace(new, name)


def beside(client, function, futures, *others):
    """For each future a task on the worker that has its result, or on any if that one was lost."""
    holders = client.who_has(futures)
    for future, *more in zip(futures, *others):
        workers = list(holders[future.key])
        where = {"workers": workers, "allow_other_workers": True} if workers else {}
        yield client.submit(function, future, *more, **where)


def await_all(what, futures):
    """Says how many of these are done, until all are."""
    for number, future in enumerate(as_completed(futures), 1):
        if future.status != "finished":
            future.result()
        print(f"\r{number} of {len(futures)} {what}", end="", file=sys.stderr, flush=True)
    print(file=sys.stderr)


def merge_tree(client, dictionaries):
    """The one dictionary, and the map of each of these to it, or None for the only one."""
    if len(dictionaries) == 1:
        return dictionaries[0], [None]
    groups = [dictionaries[at : at + WIDTH] for at in range(0, len(dictionaries), WIDTH)]
    merged = [client.submit(merge_group, *group) for group in groups]
    await_all("groups of dictionaries merged", merged)
    whole, above = merge_tree(client, [*beside(client, item, merged, [0] * len(merged))])
    places = [(pair, position, way) for pair, group, way in zip(merged, groups, above) for position, _ in enumerate(group)]
    return whole, [client.submit(map_to_whole, *place) for place in places]


def run(client, path, out, size):
    _, [blocks] = read_bytes(path, delimiter=b"\n", blocksize=size, sample=False)
    os.mkdir(out)
    # (an empty file has no block)
    encoded = client.compute([delayed(encode)(block) for block in blocks or [b""]])
    await_all("blocks encoded", encoded)
    dictionaries, codes = ([*beside(client, item, encoded, [part] * len(encoded))] for part in (0, 1))
    whole, maps = merge_tree(client, dictionaries)
    names = (f"{out}/{number:06}.codes" for number in count())
    await_all("blocks renumbered", [*beside(client, rewrite, codes, maps, names)])
    Path(out, "whole.dict").write_bytes(whole.result())


def main():
    if len(sys.argv) not in (4, 5):
        print(__doc__.splitlines()[0], file=sys.stderr)
        sys.exit(2)
    scheduler, path, out = sys.argv[1], os.path.realpath(sys.argv[2]), os.path.realpath(sys.argv[3])
    with Client(scheduler) as client:
        run(client, path, out, sys.argv[4] if sys.argv[4:] else "64 MiB")


if __name__ == "__main__":
    main()
