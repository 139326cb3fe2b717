"""What frozen tables and columns share."""
import contextlib
import copy
import itertools
import operator
from abc import abstractmethod
from collections.abc import Sequence
from typing import Any

from intaglio._table import (
    frozen_decode, frozen_encode, frozen_encode_into, frozen_encode_lines, frozen_find, frozen_find_all, frozen_get,
    frozen_get_all, frozen_slice,
)
from intaglio.errors import no_such_symbol

# What is passed if nothing stands in for a missing string.
NOTHING = object()
# How many strings are made at once while a table is gone through.
CHUNK = 256


class Mapped(Sequence):
    """A read-only sequence of strings over bytes that are in memory or mapped, until it is closed."""

    # The bytes, the map that they are in, if any, and how many items there are.
    _data: Any
    _map: Any
    _len: int
    # The names of what an object has by itself: other attributes are a subclass's or a caller's.
    _own: tuple[str, ...] = ()

    def close(self):
        """Unmaps the file, if no copy has it. Calls that read it then raise ValueError. Raises BufferError while another thread
        reads it."""
        self._data.release()
        if self._map is not None:
            with contextlib.suppress(BufferError):
                self._map.close()

    # The bytes, of shards those of the first. Raises ValueError if they were closed.
    def _bytes(self):
        data = self._data[1][0] if isinstance(self._data, tuple) else self._data
        try:
            data.nbytes
        except ValueError:
            raise ValueError(f"the {type(self).__name__} was closed") from None
        return data

    @abstractmethod
    def _run(self, start, count, step):
        """A list of so many items from a place on, each a step behind the last."""

    @abstractmethod
    def _item(self, place):
        """The item at a place, which counts from the end if it is negative."""

    @abstractmethod
    def _described(self):
        """What there is, as repr has it."""

    def __len__(self):
        return self._len

    def __getitem__(self, index):
        if not isinstance(index, slice):
            return self._item(operator.index(index))
        places = range(*index.indices(self._len))
        # (a step to where no second item is may have any number of digits)
        return self._run(places.start, len(places), places.step if len(places) > 1 else 1)

    def __iter__(self):
        starts = range(0, self._len, CHUNK)
        return itertools.chain.from_iterable(self._run(start, min(CHUNK, self._len - start), 1) for start in starts)

    def __enter__(self):
        return self

    def __exit__(self, kind, error, trace):
        self.close()

    def __copy__(self):
        other = type(self).__new__(type(self))
        other.__dict__.update(self.__dict__)
        other._data = memoryview(self._bytes())
        return other

    def __deepcopy__(self, memo):
        other = copy.copy(self)
        other.__dict__.update(copy.deepcopy(self._attributes(), memo))
        return other

    # What a subclass or a caller has set.
    def _attributes(self):
        return {name: value for name, value in self.__dict__.items() if name not in self._own}

    def __repr__(self):
        try:
            self._bytes()
        except ValueError:
            return f"<{type(self).__name__}, closed>"
        return f"<{type(self).__name__} of {self._described()}>"


class Strings(Mapped):
    """A read-only sequence of distinct strings, each at its symbol. Its bytes are those of a table, or the starts of shards and
    the bytes of each."""

    # Whether the strings are `str`.
    _is_text: bool

    @property
    def is_text(self):
        """Whether the strings are `str`."""
        return self._is_text

    def check_interned(self, string, /):
        """The symbol of a string, or None. Raises TypeError for another type than the strings have."""
        return frozen_find(self._data, self._is_text, string)

    def find_all(self, strings, /):
        """A list of the symbol of each string, or None."""
        return frozen_find_all(self._data, self._is_text, strings)

    check_all = find_all

    def encode(self, strings, /, *, missing=None):
        """The codes of strings, which are their symbols, as an array('I').

        With `missing`, such as MISSING, that is the code of a string that isn't in the table, and of None, NaN and pandas.NA.
        Without it, raises Missing, a KeyError with the first such string and its position, or TypeError. The strings are in any
        iterable: numpy's arrays of objects and pandas' columns of objects are read where they are, and of a Categorical its
        categories.

        >>> words = Frozen.from_bytes(SymbolTable(["to", "be"]).freeze())
        >>> words.encode(["be", "or", None], missing=MISSING)
        array('I', [1, 4294967295, 4294967295])
        >>> words.encode(["be", "or"])
        Traceback (most recent call last):
        intaglio.errors.Missing: 'or' at position 1 is not in the table
        """
        return frozen_encode(self._data, self._is_text, strings, missing)

    def encode_into(self, strings, out, /, *, missing=None):
        """Writes the codes of strings to the start of a buffer of integers of 4 bytes, such as an array('I') or a numpy array of
        uint32 or int32, and returns how many there are. `missing` is as in encode. Raises what encode raises, and NoSpace if the
        buffer is too short; it is then unchanged.
        """
        return frozen_encode_into(self._data, self._is_text, strings, out, missing)

    def encode_lines(self, lines, /, *, missing=None):
        """The codes of the lines of a buffer, as an array('I'). No object is made of a line. A line ends before b"\\n", and the
        last one needs none; those of a table of str are UTF-8. The buffer must not change meanwhile. `missing` is as in encode.
        Raises what encode raises.

        >>> words = Frozen.from_bytes(SymbolTable(["to", "be"]).freeze())
        >>> words.encode_lines(b"be\\nto\\nbe\\n")
        array('I', [1, 0, 1])
        """
        return frozen_encode_lines(self._data, self._is_text, lines, missing)

    def decode(self, codes, /, *, missing=NOTHING):
        """A list of the strings of codes: any buffer of integers of 4 bytes, such as an array('I') or a numpy array of uint32 or
        int32.

        `missing` is what the list has for the code MISSING. Raises NoSymbol, an IndexError, with the position of the first code
        that is no symbol, and UnicodeDecodeError if the file is trusted, of str, and damaged.

        >>> words = Frozen.from_bytes(SymbolTable(["to", "be"]).freeze())
        >>> words.decode(words.encode(["be", "or"], missing=MISSING), missing=None)
        ['be', None]
        """
        given = () if missing is NOTHING else (missing,)
        return frozen_decode(self._data, self._is_text, codes, *given)

    def get(self, symbol, default=None, /):
        """The string of a symbol, or the default if there is none. Raises UnicodeDecodeError if the file is trusted, of str,
        and damaged."""
        string = frozen_get(self._data, self._is_text, symbol)
        return default if string is None else string

    def get_all(self, symbols, /):
        """A list of the strings of symbols: any iterable of numbers. Raises NoSymbol, with its position."""
        return frozen_get_all(self._data, self._is_text, symbols)

    def index(self, string, start=0, stop=None, /):
        """The symbol of a string. Raises ValueError if it isn't in the table, or not from start to stop."""
        symbol = self.check_interned(string)
        if symbol is not None and symbol in range(*slice(start, stop).indices(self._len)):
            return symbol
        raise ValueError(f"{string!r} is not in the table")

    def count(self, string, /):
        """1 if the string is in the table, and else 0."""
        return int(string in self)

    def items(self):
        """The symbols with their strings, in order."""
        return enumerate(self)

    def __contains__(self, string):
        return self.check_interned(string) is not None

    def _run(self, start, count, step):
        return frozen_slice(self._data, self._is_text, start, count, step)

    def _item(self, symbol):
        string = frozen_get(self._data, self._is_text, symbol + self._len if symbol < 0 else symbol)
        if string is None:
            raise no_such_symbol(symbol, self._len)
        return string

    def _described(self):
        return f"{self._len} {'str' if self._is_text else 'bytes'}"
