"""Frozen tables: dictionaries in files, each a symbol table in one block of bytes, or in folders of shards."""
import contextlib
import copy
import errno
import fcntl
import functools
import itertools
import mmap
import os
import stat
from array import array
from typing import Any

from intaglio._table import (
    MISSING, column_bytes, frozen_check, frozen_check_header, frozen_check_texts, frozen_id, frozen_misplaced,
)
from intaglio.errors import OtherShard, Refused, TooMany, misplaced, name_file
from intaglio.strings import Strings

# How many names are drawn for a new file.
MAX_NAMES = 100
# What a frozen table begins with, and how many bytes its header has.
MAGIC, HEADER = b"INTAGLIO", 128


def mode_at(path):
    """The mode of the regular file at the path, or None if nothing is there. What is no regular file raises OSError."""
    try:
        mode = os.stat(path).st_mode
    except FileNotFoundError:
        return None
    if stat.S_ISDIR(mode):
        raise OSError(errno.EISDIR, os.strerror(errno.EISDIR), path)
    if not stat.S_ISREG(mode):
        raise OSError(errno.EINVAL, "not a regular file", path)
    return stat.S_IMODE(mode)


def open_above_streams(path, flags, mode):
    """As os.open, but the descriptor isn't 0, 1 or 2: of a standard stream that is closed, the number is free."""
    descriptor = os.open(path, flags, mode)
    try:
        return fcntl.fcntl(descriptor, fcntl.F_DUPFD_CLOEXEC, 3)
    finally:
        os.close(descriptor)


def create_beside(path, mode):
    """Makes a file in the folder of the path, under a name that is drawn at random. Returns it and its path."""
    for _ in range(MAX_NAMES):
        beside = os.path.join(os.path.dirname(path), f".intaglio.{os.urandom(8).hex()}.new")
        with contextlib.suppress(FileExistsError):
            return open(beside, "xb", opener=functools.partial(open_above_streams, mode=mode)), beside
    raise FileExistsError(errno.EEXIST, "no name is free beside it", path)


def replace(path, data):
    """Writes the bytes to a new file beside the path, syncs it, and renames it to the path.

    A symbolic link is followed, and the mode of the file that is replaced is kept. The new file is written, renamed and removed
    only here. An OSError names the path, and not the new file, which is gone.
    """
    path, beside = os.fsdecode(path), None
    mode = mode_at(path)
    target = os.path.realpath(path) if os.path.islink(path) else path
    try:
        file, beside = create_beside(target, 0o666 if mode is None else 0o600)
        with file:
            file.write(data)
            file.flush()
            if mode is not None:
                os.fchmod(file.fileno(), mode)
            os.fsync(file.fileno())
        os.replace(beside, target)
    except BaseException as error:
        if beside is not None:
            with contextlib.suppress(FileNotFoundError):
                os.remove(beside)
        if isinstance(error, OSError) and error.filename2 is None:
            error.filename = path
        raise


def map_file(path):
    """The bytes of a file as a memoryview, and the map that they are in, or None for an empty file."""
    with open(path, "rb") as file:
        # (an empty file can't be mapped)
        mapped = mmap.mmap(file.fileno(), 0, access=mmap.ACCESS_READ) if file.seek(0, 2) else None
        return memoryview(mapped or b""), mapped


def refuse_bytes(path):
    """Raises TypeError for the bytes of a table in place of its path."""
    if isinstance(path, (bytearray, memoryview)) or isinstance(path, bytes) and path.startswith(MAGIC):
        raise TypeError(f"a path, not the bytes of a table in a {type(path).__name__}: Frozen.from_bytes takes those")


def is_folder(path):
    """Whether a path is that of a folder, as of shards. The number of a descriptor is none."""
    return not isinstance(path, int) and os.path.isdir(path)


def shard_name(folder, number):
    """The path of a shard."""
    return os.path.join(os.fsdecode(folder), f"{number}.dict")


def id_at(path, shard=0):
    """What the header of a file says, or that of a shard of a folder. An error names the file."""
    path = shard_name(path, shard) if is_folder(path) else path
    with open(path, "rb") as file:
        header = file.read(HEADER)
    try:
        return frozen_id(header)
    except Refused as error:
        name_file(error, os.fspath(path))
        raise


def common(id):
    """What the shards of a dictionary have in common: the kind, the two hashes, and how many they are."""
    return id[0], *id[2:5]


def open_shard(folder, number, first, trusted, kind=None):
    """The Frozen of a shard, which is of the same dictionary as the first one, of which this is the id. Unless it is trusted,
    each string must belong to it."""
    path = shard_name(folder, number)
    table = Frozen(path, trusted=trusted, kind=kind)
    try:
        shards, found = table._id[4:]
        if found != number:
            raise OtherShard(f"shard {found} of {shards}, not shard {number}")
        if common(table._id) != common(first or table._id):
            raise OtherShard(f"of another set than {shard_name(folder, 0)}; write both again")
        symbol = None if trusted else frozen_misplaced(table._data)
        if symbol is not None:
            raise misplaced(symbol)
    except Refused as error:
        table.close()
        name_file(error, path)
        raise
    return table


class Frozen(Strings):
    """A read-only dictionary in a file, as Table.freeze and `intaglio_dict freeze` write it, or in a folder of shards, as merge
    and `intaglio_dict` write them. The files are mapped. It is a sequence of its strings, each at its symbol. The symbols of a
    shard follow those of the shards before it, and a look-up reads the one shard to which the string belongs, by its bytes.

    Frozen(path, *, trusted=False, kind=None)

    kind: `str` or `bytes`, what the strings are. By default they are `str` if the file says that they are UTF-8, and else
    `bytes`. A file of bytes is opened as `str` if all are UTF-8.

    trusted: the files are known to be whole, and only their headers are checked, so that opening takes the same time for each
    file. Otherwise all bytes are. In a damaged file a string that is found is still equal to the one that was sought, but one
    that is there may not be found, and what returns strings (`get`, `[]`, iterating, `items`, `decode`) may raise
    UnicodeDecodeError, or have no string at a symbol below the length. The files must not be made shorter while they are mapped.

    A column of strings is stored as its codes, the symbol of each string in 4 bytes:

    >>> words = Frozen.from_bytes(SymbolTable(["to", "be", "or"]).freeze())
    >>> codes = words.encode(["be", "to", "be"])
    >>> codes, words.decode(codes)
    (array('I', [1, 0, 1]), ['be', 'to', 'be'])

    It can be copied, and pickled: by its path, while that leads to the same dictionary, and else one in memory or in one file by
    its bytes. Batches (encode, find_all, decode, get_all and their kin) let other threads run meanwhile.

    Raises NotFrozen, OtherVersion, NoKind, Reserved, TooMany, BadShard, OtherIdentity, Truncated, TrailingBytes, TextEnds,
    Unused, NotFound, NotUtf8, and of a folder OtherShard and Misplaced, which name the file, OSError.
    """

    # The shards of a folder, and what the header says, with the number of all strings.
    _tables: tuple[Any, ...]
    _id: Any
    _path: Any
    _own = ("_data", "_map", "_tables", "_path", "_trusted", "_is_text", "_len", "_id")

    def __init__(self, path, *, trusted=False, kind=None):
        refuse_bytes(path)
        self._path = None if isinstance(path, int) else os.path.abspath(os.fspath(path))
        if is_folder(path):
            self._open_shards(os.fsdecode(path), trusted, kind)
            return
        try:
            data, mapped = map_file(path)
            self._open(data, mapped, trusted, kind)
        except Refused as error:
            name_file(error, path if isinstance(path, int) else os.fspath(path))
            raise

    @classmethod
    def from_bytes(cls, data, *, trusted=False, kind=None):
        """A table over its bytes in memory, as freeze and to_bytes return them: any buffer, which must not change. Raises what
        Frozen raises."""
        frozen = cls.__new__(cls)
        frozen._path = None
        frozen._open(memoryview(data).cast("B"), None, trusted, kind)
        return frozen

    # Takes the bytes, and closes what holds them if they are no frozen table.
    def _open(self, data, mapped, trusted, kind):
        self._data, self._map, self._tables, self._trusted = data, mapped, (), bool(trusted)
        try:
            if kind not in (None, str, bytes):
                raise TypeError(f"kind is str, bytes or None, not {kind!r}")
            frozen_check_header(data)
            self._id = frozen_id(data)
            is_text, self._len, *_ = self._id
            self._is_text = is_text if kind is None else kind is str
            if not trusted:
                frozen_check(data)
                if self._is_text and not is_text:
                    frozen_check_texts(data)
        except BaseException:
            self.close()
            raise

    # Opens the shards of a folder, whose headers must agree.
    def _open_shards(self, folder, trusted, kind):
        with contextlib.ExitStack() as opened:
            tables = [opened.enter_context(open_shard(folder, 0, None, trusted, kind))]
            first = tables[0]._id
            tables += (opened.enter_context(open_shard(folder, it, first, trusted, kind)) for it in range(1, first[4]))
            if sum(map(len, tables)) >= MISSING:
                error = TooMany("The shards have 2**32 - 1 strings or more together.")
                name_file(error, folder)
                raise error
            self._map, self._trusted, self._is_text = None, bool(trusted), tables[0].is_text
            self._hold(tables)
            opened.pop_all()

    # Takes the shards of a folder.
    def _hold(self, tables):
        starts = array("I", itertools.accumulate(map(len, tables), initial=0))
        self._tables, self._len, self._data = tuple(tables), starts[-1], (starts, tuple(it._data for it in tables))
        is_text, _, *rest = tables[0]._id
        self._id = is_text, self._len, *rest

    @property
    def shards(self):
        """How many shards the dictionary has: 1 if it is in one file."""
        return self._id[4]

    @property
    def identity(self):
        """What the dictionary is, as 32 hexadecimal digits, which its columns have in their headers. A dictionary in one file is
        identified by its strings, and shards also by how they were made."""
        return identity_of(self._id)

    def write_column(self, path, codes, /):
        """Writes codes to a file that says that they belong to this dictionary, which Column reads: any buffer of integers of 4
        bytes, as decode takes it, with MISSING for what is missing. The file has 1, 2 or 4 bytes for each.

        A file at the path is replaced at once, as by Table.freeze, and keeps its mode. Raises NoSymbol, with the position of the
        first code that is neither a symbol nor MISSING, ValueError if this is one shard of several, and OSError. There is then no
        new file.
        """
        if self.shards > 1 and not self._tables:
            raise ValueError(f"{self._name()}: shard {self._id[5]} of {self.shards}; name its folder")
        replace(path, column_bytes(self._id, codes))

    def to_bytes(self):
        """The bytes of the table, which from_bytes takes, and which a file of it has. Raises TypeError for a folder of shards."""
        data = self._bytes()
        if self._tables:
            raise TypeError(f"{self._name()}: its shards are in {self.shards} files")
        return bytes(data)

    def close(self):
        """Unmaps the files, if no copy has them. Calls that read them then raise ValueError. Raises BufferError while another
        thread reads them."""
        for table in self._tables:
            table.close()
        if not self._tables:
            super().close()

    def __iter__(self):
        return itertools.chain.from_iterable(self._tables) if self._tables else super().__iter__()

    def __copy__(self):
        other = super().__copy__()
        if self._tables:
            other._hold([copy.copy(it) for it in self._tables])
        return other

    def __reduce__(self):
        kind, data = str if self._is_text else bytes, self._bytes()
        if self._is_at_path():
            return reopen, (type(self), self._path, self._trusted, kind, self._id), self._attributes()
        if self._tables:
            raise TypeError(f"{self._name()}: it has other shards by now, so those before can't be pickled")
        return thaw, (type(self), bytes(data), self._trusted, kind), self._attributes()

    # What messages call it.
    def _name(self):
        return repr(self) if self._path is None else os.fsdecode(self._path)

    # Whether the path still leads to the same dictionary.
    def _is_at_path(self):
        with contextlib.suppress(OSError, Refused):
            return self._path is not None and id_at(self._path)[2:] == self._id[2:]
        return False

    def _described(self):
        return super()._described() + f" in {self.shards} shards" * bool(self._tables)


def identity_of(id):
    """The two hashes of a dictionary in hexadecimal digits."""
    return f"{id[2]:016x}{id[3]:016x}"


# Pickles name these two functions, so they keep their names and their parameters.
def reopen(cls, path, trusted, kind, id):
    """The dictionary that was pickled by its path. Raises ValueError if another one is there by now."""
    frozen = cls.__new__(cls)
    Frozen.__init__(frozen, path, trusted=trusted, kind=kind)
    if frozen._id != tuple(id):
        frozen.close()
        raise ValueError(f"{os.fsdecode(path)}: another dictionary than the one that was pickled")
    return frozen


def thaw(cls, data, trusted, kind):
    """The table that was pickled by its bytes."""
    return cls.from_bytes(data, trusted=trusted, kind=kind)
