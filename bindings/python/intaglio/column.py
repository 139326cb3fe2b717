"""Columns: the codes of a list of strings in a file that says which dictionary they belong to."""
import bisect
import copy
import itertools
import os
from array import array
from collections import Counter
from typing import NamedTuple

from intaglio._table import (
    MISSING, column_check, column_codes, column_count, column_counts, column_id, column_len, column_rows, column_source,
    column_width, is_missing,
)
from intaglio.errors import OtherDictionary, Refused, name_file
from intaglio.frozen import Frozen, identity_of, map_file
from intaglio.frozen import refuse_bytes as refuse_table
from intaglio.strings import Mapped

# What a column begins with, and how many bytes its header has.
MAGIC, HEADER = b"INT\x89COL\n", 128
# What numbers of each width are to memoryview.
FORMATS = {1: "B", 2: "H", 4: "I"}


class Source(NamedTuple):
    """The dictionary whose strings are the rows of a map, or its shard with this number."""

    identity: str
    shards: int
    shard: int


class Column(Mapped):
    """A read-only column of strings in a file, as Frozen.write_column writes it. The file is mapped. It is a sequence of its
    strings, and of None for those that are missing.

    Column(path, dictionary=None, *, trusted=False)

    dictionary: the Frozen that the column was written with, or its path, or another with the same identity. A column of another
    dictionary raises OtherDictionary. Without a dictionary there are the codes alone, and what takes or returns strings raises
    TypeError.

    trusted: the file is known to be whole, and its codes aren't checked, so that opening takes the same time for each file. In a
    damaged one a code may be that of no string: what returns strings then raises NoSymbol. The file must not be made shorter
    while it is mapped.

    >>> import tempfile
    >>> words = Frozen.from_bytes(SymbolTable(["to", "be", "or"]).freeze())
    >>> with tempfile.TemporaryDirectory() as folder:
    ...     words.write_column(f"{folder}/column", words.encode(["be", "to", None, "be"], missing=MISSING))
    ...     column = Column(f"{folder}/column", words)
    >>> list(column), column[-1], column.rows_of("be"), column.counts()
    (['be', 'to', None, 'be'], 'be', array('Q', [0, 3]), Counter({'be': 2, 'to': 1, None: 1}))

    Raises NotColumn, OtherVersion, NoKind, TooMany, BadWidth, BadShard, Reserved, Truncated, TrailingBytes, Damaged,
    NoSymbol, which name the file, OtherDictionary, OSError, and what Frozen raises.
    """

    _own = ("_data", "_map", "_words", "_opened", "_len", "_width")

    def __init__(self, path, dictionary=None, *, trusted=False):
        refuse_bytes(path)
        try:
            data, mapped = map_file(path)
            self._open(data, mapped, shown(path), dictionary, trusted)
        except Refused as error:
            # (an error of the dictionary names that)
            if error.filename is None:
                name_file(error, path if isinstance(path, int) else os.fspath(path))
            raise

    @classmethod
    def from_bytes(cls, data, dictionary=None, *, trusted=False):
        """A column over its bytes in memory, as to_bytes returns them: any buffer, which must not change."""
        column = cls.__new__(cls)
        column._open(memoryview(data).cast("B"), None, "the column", dictionary, trusted)
        return column

    # Takes the bytes and the dictionary, and closes what holds them if they are no column of it.
    def _open(self, data, mapped, name, dictionary, trusted):
        self._data, self._map, self._opened = data, mapped, None
        try:
            (column_id if trusted else column_check)(data)
            if dictionary is not None and not isinstance(dictionary, Frozen):
                self._opened = opened(dictionary)
            self._words = dictionary if self._opened is None else self._opened
            named = column_id(data)
            if self._words is not None and named != self._words._id:
                other = self._words._name() if self._opened is None else shown(dictionary)
                raise OtherDictionary(name, other, named[1], len(self._words))
        except BaseException:
            self.close()
            raise
        self._len, self._width = column_len(data), column_width(data)

    @property
    def dictionary(self):
        """The Frozen, or None."""
        return self._words

    @property
    def identity(self):
        """The identity of the dictionary to which the codes belong, as Frozen.identity."""
        return identity_of(column_id(self._bytes()))

    @property
    def source(self):
        """If the column is a map, from where it leads: row i is the string with symbol i of this dictionary, or of this shard of
        it. Otherwise None."""
        id = column_source(self._bytes())
        return Source(identity_of(id), *id[4:]) if id[4] else None

    @property
    def width(self):
        """How many bytes a code has: 1 if the dictionary has at most 255 strings, 2 up to 65,535, and otherwise 4."""
        return self._width

    @property
    def codes(self):
        """The codes as they are in the file: a read-only memoryview of integers of `width` bytes without a sign, as
        numpy.frombuffer takes it without a copy. The greatest is `missing`."""
        return self._bytes()[HEADER:].cast(FORMATS[self._width])

    @property
    def missing(self):
        """The code of what is missing in `codes`: 255, 65535, or MISSING."""
        return (1 << 8 * self._width) - 1

    def widened(self):
        """A copy of the codes in 4 bytes each, as an array('I') with MISSING, which as an integer with a sign is -1.
        The dictionary's decode and renumber take it."""
        return column_codes(self._data, 0, self._len, 1)

    def to_categorical(self):
        """A pandas.Categorical of the rows, whose categories are the strings of the dictionary. Missing rows are NaN."""
        import pandas

        codes = memoryview(self.widened()).cast("B").cast("i")
        return pandas.Categorical.from_codes(codes, categories=list(self._strings()))

    def __array__(self, dtype=None, copy=None):
        """For numpy and pandas an array of objects, with None for missing rows."""
        import numpy

        return numpy.array(self._strings().decode(self.widened(), missing=None), dtype or object)

    def rows_of(self, string, /):
        """An array('Q') of the rows that have a string, or that are missing for None, NaN or pandas.NA, in ascending order. Only
        codes are compared."""
        code = self._code_of(string)
        return array("Q") if code is None else column_rows(self._data, code)

    def counts(self):
        """A Counter of how many rows have each string that occurs, in the order of the dictionary, and how many are missing, at
        None. Only codes are counted."""
        words = self._strings()
        counts, missing = column_counts(self._data, len(words))
        codes = array("I", itertools.compress(range(len(counts)), counts))
        counter = Counter(dict(zip(words.decode(codes), filter(None, counts))))
        if missing:
            counter[None] = missing
        return counter

    def index(self, string, start=0, stop=None, /):
        """The first row that has a string, or that is missing for None. Raises ValueError if there is none from start to stop."""
        rows, (start, stop, _) = self.rows_of(string), slice(start, stop).indices(self._len)
        place = bisect.bisect_left(rows, start)
        if place < len(rows) and rows[place] < stop:
            return rows[place]
        raise ValueError(f"{string!r} is not in the column")

    def count(self, string, /):
        """How many rows have a string, or are missing for None."""
        code = self._code_of(string)
        return 0 if code is None else column_count(self._data, code)

    def to_bytes(self):
        """The bytes of the file."""
        return bytes(self._bytes())

    def close(self):
        """Unmaps the file, if no copy and no buffer of `codes` is left, and closes the dictionary if it was passed as a path.
        Calls that read it then raise ValueError. Raises BufferError while another thread reads it."""
        super().close()
        if self._opened is not None:
            self._opened.close()

    def __copy__(self):
        other = super().__copy__()
        if self._opened is not None:
            other._words = other._opened = copy.copy(self._opened)
        return other

    def __reduce__(self):
        raise TypeError("a Column can't be pickled: send its path and its dictionary, and open it there")

    # The dictionary, where strings are taken or returned.
    def _strings(self):
        if self._words is None:
            raise TypeError("the Column was opened without its dictionary")
        return self._words

    # The code of a string, or None if the dictionary hasn't got it.
    def _code_of(self, string):
        return MISSING if is_missing(string) else self._strings().check_interned(string)

    def _run(self, row, count, step):
        return self._strings().decode(column_codes(self._data, row, count, step), missing=None)

    def _item(self, row):
        if not -self._len <= row < self._len:
            raise IndexError(f"no such row: {row}, and the column has {self._len}")
        return self._run(row % self._len, 1, 1)[0]

    def _described(self):
        return f"{self._len} rows of {column_id(self._data)[1]} strings"

    def __contains__(self, string):
        return self.count(string) > 0


def shown(path):
    """A path, or the number of a descriptor, as messages have it."""
    return f"descriptor {path}" if isinstance(path, int) else os.fsdecode(path)


def opened(path):
    """The dictionary at a path."""
    refuse_table(path)
    if not isinstance(path, (str, bytes, int, os.PathLike)):
        name = type(path).__name__
        raise TypeError(f"a column is read with a Frozen or the path of one, not a {name}: a table is frozen before")
    return Frozen(path)


def refuse_bytes(path):
    """Raises TypeError for the bytes of a column in place of its path."""
    if isinstance(path, (bytearray, memoryview)) or isinstance(path, bytes) and path.startswith(MAGIC):
        raise TypeError(f"a path, not the bytes of a column in a {type(path).__name__}")
