"""The errors of the tables. Each is also one of Python's, so that code which knows nothing of tables catches them."""
import os
from typing import Any


class Refused(Exception):
    """A call failed, and the strings of the table are unchanged. The subclass says why.

    `position` is that of the string, code or shard that it is about, from 0, if the call took several; `filename` is the file
    that it is about. `code` is that of the library, which has none for what is wrong with a folder of shards.
    """

    code: int | None = None
    position: int | None = None
    filename: str | bytes | int | None = None

    def __str__(self) -> str:
        return super().__str__() or self.__doc__ or ""


class NoTable(Refused, ValueError):
    """The table was closed."""

    code = 1


class Full(Refused, OverflowError):
    """The string is new, and the table holds as many as its limit."""

    code = 2


class NoMemory(Refused, MemoryError):
    """Out of memory."""

    code = 3


class TooLarge(Refused, ValueError):
    """A capacity above 2**32 or the limit, or a limit of 0 or above 2**32."""

    code = 4


class Stale(Refused, ValueError):
    """No length that the table can be rolled back to."""

    code = 5


class NotUtf8(Refused, ValueError):
    """The string isn't valid UTF-8."""

    code = 6


class InnerZero(Refused, ValueError):
    """A zero byte in a C string."""

    code = 7


class MissingZero(Refused, ValueError):
    """No zero byte in a C string."""

    code = 8


class BadEnds(Refused, ValueError):
    """The ends of a batch decrease, or are beyond its bytes."""

    code = 9


class NoSymbol(Refused, IndexError):
    """The table has no such symbol."""

    code = 10


class NoSpace(Refused, ValueError):
    """The buffer is too short."""

    code = 11


class NoKind(Refused, ValueError):
    """The number is not that of a kind."""

    code = 12


class NotFrozen(Refused, ValueError):
    """The bytes don't begin as a frozen table does."""

    code = 13


class OtherVersion(Refused, ValueError):
    """A frozen table or a column of another version."""

    code = 14


class Reserved(Refused, ValueError):
    """A reserved byte of a frozen table or a column isn't zero."""

    code = 15


class TooMany(Refused, ValueError):
    """More strings than a frozen table can have."""

    code = 16


class Truncated(Refused, ValueError):
    """The bytes of a frozen table end within its header or a section, or those of a column before its last row."""

    code = 17


class TextEnds(Refused, ValueError):
    """The strings of a frozen table don't fill its text."""

    code = 18


class Unused(Refused, ValueError):
    """A place of a frozen table that no string has isn't empty."""

    code = 19


class NotFound(Refused, ValueError):
    """A string of a frozen table isn't found at its symbol."""

    code = 20


class TooLong(Refused, ValueError):
    """The strings have 2**32 bytes or more together."""

    code = 21


class Equal(Refused, ValueError):
    """Two strings are equal."""

    code = 22


class NoPlaces(Refused, ValueError):
    """No places were found for the strings under these keys."""

    code = 23


class NotColumn(Refused, ValueError):
    """The bytes don't begin as a column does."""

    code = 24


class BadWidth(Refused, ValueError):
    """The codes of a column haven't the width of its dictionary."""

    code = 25


class TrailingBytes(Refused, ValueError):
    """There are bytes behind the strings of a frozen table, or behind the last row of a column."""

    code = 26


class BadShard(Refused, ValueError):
    """The number of a shard isn't below the number of shards."""

    code = 27


class OtherIdentity(Refused, ValueError):
    """The identity in the header of a frozen table isn't that of its strings."""

    code = 28


class Damaged(Refused, ValueError):
    """The checksum of a column isn't that of its codes and its header."""

    code = 29


class OtherShard(Refused, ValueError):
    """Not the shard that is named, or of another dictionary than the other shards."""


class Misplaced(Refused, ValueError):
    """A string belongs to another shard, or there is another number of shards."""


class OtherDictionary(ValueError):
    """A column belongs to another dictionary than the one that it is to be read with: the names of the two, how many strings that
    of the column has, and how many this one."""

    def __init__(self, column: str, dictionary: str, named: int = 0, found: int = 0) -> None:
        super().__init__(column, dictionary, named, found)
        self.column, self.dictionary, self.named, self.found = column, dictionary, named, found

    def __str__(self) -> str:
        message = f"{self.column}: a column of another dictionary than {self.dictionary}"
        if self.found <= self.named:
            return message
        return f"{message}, of {self.found} strings, not {self.named}: if it grew, freeze the first {self.named} for it"


class Missing(KeyError):
    """A string that is to be encoded isn't in the frozen table: the first such string, and its position."""

    def __init__(self, string: str | bytes, position: int) -> None:
        super().__init__(string, position)
        self.string, self.position = string, position

    def __str__(self) -> str:
        return f"{self.string!r} at position {self.position} is not in the table"


REFUSALS: dict[int, type[Refused]] = {it.code: it for it in Refused.__subclasses__() if it.code is not None}


def shown(number: int) -> str:
    """A number as messages have it: Python writes none of thousands of digits."""
    try:
        return str(number)
    except ValueError:
        return "a number of thousands of digits"


def at(position: int | None, message: str) -> str:
    """The message about a string or code at a position of a batch, or about the only one."""
    return message if position is None else f"at position {position}: {message}"


def placed(kind: type[Refused], message: str, position: int | None) -> Refused:
    """An error with a message of its own."""
    error = kind(at(position, message))
    error.position = position
    return error


def refusal(code: int, position: int | None = None) -> Refused:
    """The error of a code of the library."""
    kind = REFUSALS[code]
    return kind() if position is None else placed(kind, kind.__doc__ or "", position)


def lone_surrogate(position: int | None = None) -> Refused:
    """The error of a `str` that has no UTF-8."""
    return placed(NotUtf8, "The string isn't valid UTF-8: it contains a lone surrogate.", position)


def no_such_symbol(symbol: int, length: int, position: int | None = None) -> Refused:
    """The error of a number that is no symbol."""
    return placed(NoSymbol, f"no such symbol: {shown(symbol)}, and the table has {length} strings", position)


def no_size(number: int) -> TooLarge:
    """The error of a number that isn't one of strings."""
    return TooLarge(f"a number of strings is from 0 to 2**32, not {shown(number)}")


def no_length(length: int, strings: int) -> Stale:
    """The error of a length that a table can't be rolled back to."""
    return Stale(f"no length to roll back to: {shown(length)}, and the table has {strings} strings")


def no_symbol(code: int, position: int) -> NoSymbol:
    """The error of a code of a column."""
    error = NoSymbol(f"code {code} at position {position} is no symbol")
    error.position = position
    return error


# What to do in place of passing something else than codes, by the last letter of its format or by its name, and with others.
TO_CODES = {
    **dict.fromkeys("Osuw", "encode makes codes of strings, and astype('int32') of integers"),
    **dict.fromkeys("BH", "a Column's widened() has 4 bytes for each, and array('I', data) reads those of a file"),
    "Column": "widened() returns them",
    "mask": "its filled(-1), or filled(MISSING) of uint32, has the code of what is missing for what is masked",
    "list": "array('I', codes) puts them into one, and encode makes codes of strings",
}
AS_CODES = "numpy's astype('uint32') or astype('int32') makes them, or array('I', ..)"


def no_codes(given: Any) -> TypeError:
    """The error of what holds no codes, or masks some of them."""
    name = type(given).__name__
    try:
        format = memoryview(given).format
        what, how = (f"a {name} with a mask", "mask") if hasattr(given, "mask") else (f"of format {format!r}", format[-1:])
    except TypeError:
        what, how = f"a {name}", name if name in TO_CODES else "list"
    codes = "codes are integers of 4 bytes in a buffer, such as array('I') or numpy's uint32 and int32"
    return TypeError(f"{codes}, not {what}: {TO_CODES.get(how, AS_CODES)}")


def misplaced(symbol: int) -> Misplaced:
    """The error of a string that belongs to another shard, by its symbol in the shard that it is in."""
    error = Misplaced(f"string {symbol} belongs to another shard, or there is another number of shards")
    error.position = symbol
    return error


def name_file(error: Refused, path: str | bytes | int) -> None:
    """Puts a file's name before the message of an error."""
    error.filename = path
    error.args = (f"{path if isinstance(path, int) else os.fsdecode(path)}: {error}",)
