"""Merges dictionaries: to one file, or to one in shards, each shard by itself."""
import contextlib
import operator
import os
from array import array
from typing import Any

from intaglio._table import BytesTable, SymbolTable, Table, renumber, set_of, share_out
from intaglio.frozen import Frozen, id_at, is_folder, open_shard, refuse_bytes, replace, shard_name

# How many shards there may be.
MOST = 2**32 - 1


def path_of(table, position):
    """The path of one of the tables that are merged. Raises TypeError if it is none."""
    try:
        refuse_bytes(table)
        return os.fspath(table)
    except TypeError as error:
        raise TypeError(f"each of the tables to merge is a Frozen or a path; at position {position}: {error}") from None


class Part:
    """One of the dictionaries that are merged: a Frozen, or the path of a file or a folder, which is opened while it is read."""

    frozen: Any

    def __init__(self, position, table, shard):
        if isinstance(table, Frozen):
            self.frozen, self.path, self.id, self.is_text = table, table._path, table._id, table.is_text
            self.is_folder, self.name = bool(table._tables), table._name()
            return
        self.frozen, self.path = None, path_of(table, position)
        self.is_folder, self.name, self.id = is_folder(self.path), os.fsdecode(self.path), id_at(self.path, shard)
        self.is_text = self.id[0]

    @property
    def shards(self):
        return self.id[4]

    # The Frozen of its file, or of the shard with this number. All is checked.
    def opened(self, number):
        if self.frozen is not None:
            return contextlib.nullcontext(self.frozen._tables[number] if self.is_folder else self.frozen)
        return open_shard(self.path, number, self.id, False) if self.is_folder else Frozen(self.path)

    # Raises ValueError if it isn't in so many shards, in a folder or not.
    def check(self, is_folder, count):
        if self.shards > 1 and not self.is_folder:
            raise ValueError(f"{self.name}: shard {self.id[5]} of {self.shards}; name its folder")
        if (self.is_folder, self.shards) != (is_folder, count):
            raise ValueError(f"{self.name}: {self.shards} {'shard' if self.shards == 1 else 'shards'}, and {count} are merged")


def merge(tables, /, out=None, *, keys=(0, 0), shards=None, shard=None):
    """Merges dictionaries. Returns a Frozen of all their strings in the order of their first occurrences, and a list with a map
    for each: an array('I') with the new symbol of each of its strings, by which renumber turns codes of that dictionary into
    codes of the new one.

    The dictionaries are in a list or another iterable, and each is a Frozen or a path. The new one is written to the path `out`,
    as Table.freeze does, or else held in memory. It is of UTF-8 strings if all are. With keys=None random ones are drawn. Other
    threads run meanwhile. Raises what Frozen, Table.absorb and Table.freeze raise, and ValueError.

    >>> one, two = (Frozen.from_bytes(SymbolTable(words).freeze()) for words in (["to", "be"], ["or", "to"]))
    >>> both, maps = merge([one, two])
    >>> list(both), maps
    (['to', 'be', 'or'], [array('I', [0, 1]), array('I', [2, 0])])
    >>> both.decode(renumber(two.encode(["to", "or"]), maps[1]))
    ['to', 'or']

    With `shards` the new one is written to the folder `out` in so many shards. `intaglio_dict` writes the same files.

    >>> import tempfile
    >>> with tempfile.TemporaryDirectory() as folder:
    ...     both, maps = merge([one, two], f"{folder}/both", shards=2)
    >>> both.decode(renumber(two.encode(["to", "or"]), maps[1]))
    ['to', 'or']

    Dictionaries with the same number of shards are merged shard by shard, each by itself, and one shard of each path is held at a
    time. With `shard` only that one is merged: then the Frozen is of its file, and a map has the symbols of that shard's strings
    in the new shard. Of a path no other shard is read. Such calls may be made at the same time, also by several machines. They
    get the same dictionaries in the same order.
    """
    if isinstance(tables, (Frozen, Table, str, bytes, bytearray, memoryview, os.PathLike)):
        raise TypeError(f"a list of tables, not a single {type(tables).__name__}: merge([one, two])")
    if isinstance(out, (Frozen, Table)):
        name = type(out).__name__
        raise TypeError(f"out is the path of a new file, not a {name}: the tables are in a list, merge([one, two])")
    first = 0 if shard is None else operator.index(shard)
    parts = [Part(*it, first) for it in enumerate(tables)]
    are_folders = any(it.is_folder for it in parts)
    count = next((it.shards for it in parts if it.is_folder), 1)
    for part in parts:
        part.check(are_folders, count if shards is None or not are_folders else shards)
    if not are_folders and shards is None and shard is None:
        return merge_files(parts, out, keys)
    if out is None:
        raise TypeError("a dictionary in shards is written to a folder, which `out` names")
    folder = os.fsdecode(out)
    for part in parts:
        refuse_within(folder, part.path)
    if not are_folders:
        return merge_to_shards(parts, folder, keys, number_of(shards, "the number of shards", 1, MOST))
    numbers = range(count) if shard is None else [number_of(shard, "the number of the shard", 0, count - 1)]
    maps = merge_shards(parts, folder, keys, numbers)
    return Frozen(folder if shard is None else shard_name(folder, shard)), maps


def number_of(given, what, least, most):
    """A number of shards or of one. Raises TypeError, and ValueError if it is less or more."""
    number = operator.index(given)
    if not least <= number <= most:
        raise ValueError(f"{what} is from {least} to {most}, not {number}")
    return number


def write_shard(folder, number, data):
    """Writes a shard to a folder, which is made if it isn't there."""
    with contextlib.suppress(FileExistsError):
        os.mkdir(folder)
    replace(shard_name(folder, number), data)


def refuse_within(folder, path):
    """Raises ValueError for an input in the folder that is written."""
    if path is None or not os.path.isdir(folder):
        return
    where = path if is_folder(path) else os.path.dirname(os.path.realpath(path))
    if os.path.samefile(where, folder):
        raise ValueError(f"{os.fsdecode(path)}: this input is in the folder that is written, {folder}")


def kind_of(parts):
    """What the strings of a merge are: those of each part are `str`, or all are `bytes`."""
    return str if all(it.is_text for it in parts) else bytes


def table_for(parts):
    """A table for the strings of a merge."""
    return SymbolTable() if kind_of(parts) is str else BytesTable()


def absorbed(merged, part, number):
    """The map of a part, or of its shard with this number, into a table."""
    with part.opened(number) as table:
        return merged._absorb_alone(table)


def merge_files(parts, out, keys):
    """Merges files to a file, or to bytes in memory."""
    with table_for(parts) as merged:
        maps = [absorbed(merged, it, 0) for it in parts]
        data = merged._freeze_alone(keys, (False, 0, 0, 0, 1, 0))
    if out is None:
        return Frozen.from_bytes(data, trusted=True), maps
    replace(out, data)
    return Frozen(out), maps


def merge_to_shards(parts, folder, keys, count):
    """Merges files to a folder of so many shards."""
    with contextlib.ExitStack() as opened:
        tables = [opened.enter_context(it.opened(0)) for it in parts]
        made = tuple(opened.enter_context(table_for(parts)) for _ in range(count))
        for table in tables:
            share_out(table._data, made)
        hashes = set_of([it._own_id() for it in made])
        for number, shard in enumerate(made):
            write_shard(folder, number, shard._freeze_alone(keys, (False, 0, *hashes, count, number)))
        whole = Frozen(folder)
        return whole, [whole.encode(Frozen.from_bytes(it._data, trusted=True, kind=kind_of(parts))) for it in tables]


def merge_shards(parts, folder, keys, numbers):
    """Merges the shards with these numbers of folders, and returns the maps: the strings of a shard follow those of the ones
    before."""
    count, start, maps = parts[0].shards, 0, [array("I") for _ in parts]
    hashes = set_of([it.id for it in parts], count)
    for number in numbers:
        with table_for(parts) as merged:
            symbols = [absorbed(merged, it, number) for it in parts]
            new = array("I", range(start, start + len(merged)))
            start += len(new)
            for of_part, of_shard in zip(maps, symbols):
                of_part.extend(renumber(of_shard, new))
            data = merged._freeze_alone(keys, (False, 0, *hashes, count, number))
        write_shard(folder, number, data)
    return maps
