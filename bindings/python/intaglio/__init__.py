"""A string interner over a library that is proved correct.

A SymbolTable gives each distinct string a small number, its symbol, and returns the string of a symbol:

    >>> table = SymbolTable(["b", "a", "b"])
    >>> table.intern("a")
    1
    >>> table[0]
    'b'
    >>> list(table), len(table), "c" in table
    (['b', 'a'], 2, False)

The other kinds take the same calls: BytesTable, CStringTable, PathTable, OsStringTable and ByteStringTable. A table is a sequence
of its strings, each at its symbol: table[-1] is the last, and table[1:3] a list. `get` and `get_all` take symbols, which aren't
negative.

intern_all, check_all and get_all make one call for many strings. encode and decode turn a column of strings into codes, which are
symbols in 4 bytes each, and back; encode_into writes them to a buffer, and encode_lines takes the lines of one. What is missing
has the code MISSING, the last number of 4 bytes: as an integer with a sign it is -1.

table.freeze(path) writes the strings to a file, and Frozen(path) maps it: a read-only sequence of them, each at its symbol, with
the same calls. merge makes one Frozen of several, and renumber turns codes of each into its own. Tables and Frozens can be copied
and pickled.

frozen.write_column(path, codes) writes codes to a file that says which table they belong to, and Column(path, frozen) maps it: a
read-only sequence of strings, which finds the rows of a string and counts strings by their codes alone.

merge(.., folder, shards=..) writes a dictionary in shards, which Frozen(folder) maps. The same shards of several such
dictionaries can be merged each by itself.

A call that the library refuses raises a subclass of Refused, named after the reason, and leaves the strings unchanged. `position`
says which string of several it is about, and `filename` which file. A string that isn't in a Frozen raises Missing, a KeyError.

A table may be used by several threads. A batch of internings or look-ups holds the interpreter's lock until it is done: no other
thread sees a part of it. Batches on a Frozen let other threads run. An interpreter without that lock can't import the module.
"""
from collections.abc import Sequence

from intaglio._table import (
    MISSING, BytesTable, ByteStringTable, CStringTable, OsStringTable, PathTable, SymbolTable, Table, __version__, renumber,
)
from intaglio.column import Column
from intaglio.errors import (
    REFUSALS, BadEnds, BadShard, BadWidth, Damaged, Equal, Full, InnerZero, Misplaced, Missing, MissingZero, NoKind, NoMemory,
    NoPlaces, NoSpace, NoSymbol, NotColumn, NotFound, NotFrozen, NotUtf8, NoTable, OtherDictionary, OtherIdentity,
    OtherShard, OtherVersion, Refused, Reserved, Stale, TextEnds, TooLarge, TooLong, TooMany, TrailingBytes, Truncated, Unused,
)
from intaglio.frozen import Frozen
from intaglio.merging import merge

__all__ = [
    "SymbolTable", "BytesTable", "CStringTable", "PathTable", "OsStringTable", "ByteStringTable", "Table", "Frozen", "Column",
    "merge", "renumber", "MISSING", "Missing", "Refused", "NoTable", "Full", "NoMemory", "TooLarge",
    "Stale", "NotUtf8", "InnerZero", "MissingZero", "BadEnds", "NoSymbol", "NoSpace", "NoKind", "NotFrozen", "OtherVersion",
    "Reserved", "TooMany", "Truncated", "TextEnds", "Unused", "NotFound", "TooLong", "Equal", "NoPlaces", "NotColumn",
    "BadWidth", "TrailingBytes", "BadShard", "OtherIdentity", "Damaged", "OtherDictionary", "OtherShard",
    "Misplaced", "REFUSALS", "__version__",
]

Sequence.register(Table)
