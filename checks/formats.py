"""Readers and writers of dictionaries, columns, maps and plain codes, from docs/FORMATS.md alone, without the library. Faults
of files have the names that the library has for them, and more words behind a colon, such as the number of a string or row."""

import functools
import itertools
import os
import struct
from collections import namedtuple
from itertools import pairwise
from pathlib import Path
from typing import NamedTuple

BYTES, TEXT = 0, 1
KINDS = ("bytes", "text")
MAX_COUNT, NO_SYMBOL, MAX_PILOT, WORD = 2**31, 2**32 - 1, 2**16 - 1, 2**64 - 1
TABLE_HEADER = struct.Struct("<8sIIQQQQ16s16sII40s")
Header = namedtuple(
    "Header", "magic version kind key0 key1 strings length own set shards shard reserved",
    defaults=(b"INTAGLIO", 2, BYTES, 0, 0, 0, 0, b"", b"", 1, 0, b""),
)
COLUMN_MAGIC, COLUMN_HEADER = bytes.fromhex("494e5489434f4c0a"), struct.Struct("<8sII16sQQIIQII16sI36s")
# What a dictionary is, with the identity of its set, and from which one the rows of a map come; the default is that of lines.
Id = namedtuple("Id", "kind strings identity")
Source = namedtuple("Source", "shards kind identity shard", defaults=(0, 0, bytes(16), 0))
Column = namedtuple("Column", "id codes source shards", defaults=(Source(), 1))
# The missing code, of four bytes.
MISSING = 2**32 - 1
LINELESS = f"is {MISSING}, that of a line that wasn't in a dictionary; --missing TEXT gives it a line"
CODES = {1: "B", 2: "H", 4: "I"}
# The keys of the hash that gives a string its shard.
SHARD_KEYS = tuple(int.from_bytes(it, "big") for it in (b"shards.0", b"shards.1"))


class Damaged(ValueError):
    """The bytes aren't what they are read as. It has their faults: of codes the position, from 1 on, and what is wrong there."""


def rotated(word, by):
    return (word << by | word >> 64 - by) & WORD


def sip_round(a, b, c, d):
    a, c = a + b & WORD, c + d & WORD
    b, d = rotated(b, 13) ^ a, rotated(d, 16) ^ c
    a, c = rotated(a, 32) + d & WORD, c + b & WORD
    return a, rotated(b, 17) ^ c, rotated(c, 32), rotated(d, 21) ^ a


@functools.lru_cache(maxsize=2**18)
def sip_hash(key0, key1, string):
    """SipHash-1-3 of the bytes under the two keys."""
    starts = (0x736F6D6570736575, 0x646F72616E646F6D, 0x6C7967656E657261, 0x7465646279746573)
    a, b, c, d = (start ^ key for start, key in zip(starts, (key0, key1) * 2))
    padded = string + bytes(7 - len(string) % 8) + bytes([len(string) % 256])
    for (word,) in struct.iter_unpack("<Q", padded):
        a, b, c, d = sip_round(a, b, c, d ^ word)
        a ^= word
    a, b, c, d = sip_round(*sip_round(*sip_round(a, b, c ^ 0xFF, d)))
    return a ^ b ^ c ^ d


def numbers(*given):
    return struct.pack(f"<{len(given)}Q", *given)


def identity(tag, data):
    """The two hashes of bytes under the keys tag and 0, and tag and 1, in sixteen bytes."""
    return numbers(sip_hash(tag, 0, data), sip_hash(tag, 1, data))


def header_of(table):
    return Header._make(TABLE_HEADER.unpack_from(table))


def scaled(many, number):
    return (number >> 32) * many >> 32


def mixed(number, pilot):
    return (number ^ pilot * 0x9E3779B97F4A7C15 & WORD) * 0xD6E8FEB86659FD93 & WORD


class Sections:
    """Where the sections of a table of so many strings begin."""

    def __init__(self, count):
        self.places, self.groups = count + count // 19 + 2, count // 3 + 1
        sizes = TABLE_HEADER.size, 4 * self.places, 4 * count, 2 * self.groups, self.places
        self.symbols, self.ends, self.pilots, self.tags, self.text = itertools.accumulate(sizes)

    def place(self, number, pilots):
        """That of a hash."""
        return scaled(self.places, mixed(number, pilots[scaled(self.groups, number)]))


class Frozen(list):
    """The strings of a table, and how they are found in it. A trusted one is read by its header alone."""

    def __init__(self, data, is_trusted=False):
        if not is_trusted and (faults := table_faults(data)):
            raise Damaged(*faults)
        self.header = header = header_of(data)
        self.kind, self.key0, self.key1, count = header.kind, header.key0, header.key1, header.strings
        self.id = Id(header.kind, count, header.own)
        self.sections = at = Sections(count)
        found = struct.unpack_from(f"<{at.places}I{count}I{at.groups}H", data, at.symbols)
        self.symbols, self.ends, self.pilots = found[: at.places], found[at.places : -at.groups], found[-at.groups :]
        self.tags, self.text = data[at.tags : at.text], data[at.text :]
        super().__init__(self.text[start:end] for start, end in pairwise((0, *self.ends)))

    def find(self, string):
        """The symbol of a string, or nothing."""
        number = sip_hash(self.key0, self.key1, string)
        place = self.sections.place(number, self.pilots)
        symbol = self.symbols[place]
        is_there = self.tags[place] == number % 256 and symbol < len(self) and self[symbol] == string
        return symbol if is_there else None


def version_faults(data):
    """What is wrong with the version, which stands behind the magic, and is 2 of both formats."""
    version = int.from_bytes(data[8:12], "little")
    return [{1: "OtherVersion: 1"}.get(version, "OtherVersion")] * (version != 2)


def table_header_faults(data):
    """What is wrong with the header, and whether what follows it can be read."""
    faults = ["NotFrozen"] * (data[:8] != Header().magic) + (version_faults(data) if len(data) >= 12 else [])
    if len(data) < TABLE_HEADER.size:
        return [*faults, "Truncated"], False
    header = header_of(data)
    faults += ["NoKind"] * (header.kind > TEXT) + ["Reserved"] * any(header.reserved)
    faults += ["BadShard"] * (header.shard >= header.shards)
    faults += ["OtherIdentity"] * (header.shards == 1 and header.set != header.own)
    if header.strings > MAX_COUNT:
        return [*faults, "TooMany"], False
    size = Sections(header.strings).text + header.length
    faults += ["Truncated"] * (len(data) < size) + ["TrailingBytes"] * (len(data) > size)
    return faults, len(data) == size


def table_faults(data):
    """What is wrong with the bytes: nothing if they are a frozen table."""
    faults, is_whole = table_header_faults(data)
    if not is_whole:
        return faults
    table = Frozen(data, True)
    ends = (0, *table.ends, len(table.text))
    if any(end < before for before, end in pairwise(ends)) or ends[-2] != ends[-1]:
        return [*faults, "TextEnds"]
    unused = [tag for symbol, tag in zip(table.symbols, table.tags) if symbol == NO_SYMBOL]
    if len(unused) != len(table.symbols) - len(table) or any(unused):
        faults.append("Unused")
    faults += [f"NotFound: {symbol}" for symbol, string in enumerate(table) if table.find(string) != symbol]
    if table.kind == TEXT:
        faults += [f"NotUtf8: {symbol}" for symbol, string in enumerate(table) if not is_text(string)]
    return faults + ["OtherIdentity"] * (table.header.own != id_of_strings([*table], table.kind).identity)


def is_text(string):
    return string.decode(errors="ignore").encode() == string


def pilots_of(hashes):
    """For each group the least pilot that gives its hashes free places, larger groups first, or nothing if one has none."""
    at = Sections(len(hashes))
    members: list[list[int]] = [[] for _ in range(at.groups)]
    for number in hashes:
        members[scaled(at.groups, number)].append(number)
    pilots, taken = [0] * at.groups, set[int]()
    for group in sorted(range(at.groups), key=lambda it: -len(members[it])):
        for pilot in range(MAX_PILOT + 1):
            places = {scaled(at.places, mixed(number, pilot)) for number in members[group]}
            if len(places) == len(members[group]) and taken.isdisjoint(places):
                break
        else:
            return None
        pilots[group] = pilot
        taken |= places
    return pilots


def default_keys(strings):
    """The keys if none are given: 0 and 0, and two hashes of all strings, each after its length in eight bytes."""
    yield 0, 0
    hashed = b"".join(numbers(len(it)) + it for it in strings)
    key0 = sip_hash(0, 0, hashed)
    yield key0, sip_hash(key0, 0, hashed)


def freeze(strings, kind=BYTES, key0=None, key1=0):
    """The bytes of a frozen table of these strings, which must be distinct, or nothing if eight pairs of keys give no places."""
    pairs = default_keys(strings) if key0 is None else [(key0, key1)]
    for key0, key1 in ((first + attempt & WORD, second) for first, second in pairs for attempt in range(8)):
        if pilots := pilots_of([sip_hash(key0, key1, it) for it in strings]):
            return assembled(strings, pilots, Header(kind=kind, key0=key0, key1=key1))
    return None


def assembled(strings, pilots, header):
    """The bytes of a table whose header has the kind, the keys and the place in a set, or no set for the only table of one."""
    at, ends = Sections(len(strings)), [*itertools.accumulate(map(len, strings))]
    symbols, tags = [NO_SYMBOL] * at.places, bytearray(at.places)
    for symbol, string in enumerate(strings):
        number = sip_hash(header.key0, header.key1, string)
        place = at.place(number, pilots)
        symbols[place], tags[place] = symbol, number % 256
    own = id_of_strings(strings, header.kind).identity
    header = header._replace(strings=len(strings), length=ends[-1] if ends else 0, own=own, set=header.set or own)
    sections = struct.pack(f"<{at.places}I{len(ends)}I{at.groups}H", *symbols, *ends, *pilots)
    return b"".join([TABLE_HEADER.pack(*header), sections, tags, *strings])


def id_of_strings(strings, kind):
    """That of a dictionary in one file with these strings in this order, and the own one of a shard with them."""
    ends = (end % 2**32 for end in itertools.accumulate(map(len, strings)))
    return Id(kind, len(strings), identity(kind, struct.pack(f"<{len(strings)}I", *ends) + b"".join(strings)))


def width_for(count):
    """How many bytes a code has under a dictionary of so many strings."""
    return 1 if count <= 255 else 2 if count <= 65_535 else 4


def column(*given, **named):
    """The bytes of a column, with what `Column` has."""
    of, codes, source, shards = Column(*given, **named)
    width = width_for(of.strings)
    to = (COLUMN_MAGIC, 2, of.kind, of.identity, of.strings, len(codes), width, shards)
    narrowed = (2 ** (8 * width) - 1 if it == MISSING else it for it in codes)
    return sealed(COLUMN_HEADER.pack(*to, 0, *source, b"") + struct.pack(f"<{len(codes)}{CODES[width]}", *narrowed))


def header_of_column(data):
    """The dictionary of a column, how many rows of which width it has, its shards and its source, and what is reserved."""
    _, _, kind, its_identity, strings, rows, width, shards, _, *source, reserved = COLUMN_HEADER.unpack_from(data)
    return Id(kind, strings, its_identity), rows, width, shards, Source(*source), reserved


def read_column(data):
    """The column in these bytes."""
    of, _, _, shards, source, _ = header_of_column(data)
    width = width_for(of.strings)
    codes = struct.unpack_from(f"<{(len(data) - COLUMN_HEADER.size) // width}{CODES[width]}", data, COLUMN_HEADER.size)
    return Column(of, [MISSING if it == 2 ** (8 * width) - 1 else it for it in codes], source, shards)


def sealed(data):
    """The bytes of a column with the checksum of the codes, and then of the header with zeros in place of the checksum."""
    start, end, codes = data[:56], data[64 : COLUMN_HEADER.size], data[COLUMN_HEADER.size :]
    return start + numbers(sip_hash(4, 0, codes + start + bytes(8) + end)) + end + codes


def begins_as_column(data):
    """Whether the program takes a file for a column, rather than for a dictionary or for plain codes."""
    return data[:4] == COLUMN_MAGIC[:4]


def column_header_faults(data):
    """What is wrong with the header, and whether what follows it can be read."""
    if len(data) < 12 or data[:8] != COLUMN_MAGIC:
        return ["NotColumn"], False
    if faults := version_faults(data) or ["Truncated: header"] * (len(data) < COLUMN_HEADER.size):
        return faults, False
    of, rows, width, shards, source, reserved = header_of_column(data)
    faults = ["NoKind"] * (of.kind > TEXT) + ["TooMany"] * (of.strings > MISSING)
    faults += ["BadWidth"] * (width != width_for(of.strings))
    is_of_map = source.kind <= TEXT and source.shard < source.shards and source.shards in (1, shards)
    faults += ["BadShard: source"] * (not shards or not is_of_map and source != Source()) + ["Reserved"] * any(reserved)
    end = COLUMN_HEADER.size + width_for(of.strings) * rows
    faults += ["Truncated"] * (len(data) < end) + ["TrailingBytes"] * (len(data) > end)
    return faults, len(data) == end


def column_faults(data):
    """Everything that is wrong with the bytes: nothing if they are a column."""
    faults, is_whole = column_header_faults(data)
    if not is_whole:
        return faults
    of, codes, source, _ = read_column(data)
    faults += ["Damaged"] * (sealed(data) != data)
    faults += [f"NoSymbol: {row}" for row, code in enumerate(codes) if code >= of.strings and code != MISSING]
    return faults + [f"Missing: {row}" for row, code in enumerate(codes) if code == MISSING and source.shards]


def packed(codes):
    """The bytes of plain codes."""
    return struct.pack(f"<{len(codes)}I", *codes)


def lines_of(data):
    return data.removesuffix(b"\n").split(b"\n") if data else []


def ended(lines):
    return b"".join(it + b"\n" for it in lines)


def encoded(strings, lines):
    """The codes of lines: that of a line which is no string is the missing one."""
    symbols = {it: number for number, it in enumerate(strings)}
    return [symbols.get(it, MISSING) for it in lines]


def decoded(values, codes, missing=None):
    """The value of each code, and of missing ones this one, if there is one."""
    for place, code in enumerate(codes, 1):
        if code == MISSING and missing is None:
            raise Damaged(place, LINELESS)
        if code >= len(values) and code != MISSING:
            raise Damaged(place, f"is {code}, which is no symbol")
    return [missing if it == MISSING else values[it] for it in codes]


def shard_of(count, string):
    return scaled(count, sip_hash(*SHARD_KEYS, string))


class Dictionary(NamedTuple):
    """A dictionary: its kind, the identity of its set, and the strings of each shard."""

    kind: int
    set: bytes
    shards: list[list[bytes]]

    @property
    def strings(self):
        """All strings, each at its symbol."""
        return [*itertools.chain(*self.shards)]

    @property
    def id(self):
        return Id(self.kind, len(self.strings), self.set)

    @property
    def name(self):
        """How messages and the names of maps write the set."""
        return "%016x%016x" % struct.unpack("<QQ", self.set)

    def map_name(self, shard=0):
        """The name of the map of a shard."""
        return f"{self.name}.{shard}.map"

    def files(self, *keys):
        """The files of its folder."""
        tables = enumerate(freeze(it, self.kind, *keys) for it in self.shards)
        return {f"{shard}.dict": placed(it, self.set, len(self.shards), shard) for shard, it in tables}

    def column(self, lines):
        """The column of these lines, of which the missing ones are no strings."""
        return column(self.id, encoded(self.strings, lines), shards=len(self.shards))


def placed(table, set, count, shard):
    """The bytes of a table as those of this shard of a set."""
    header = header_of(table)._replace(set=set, shards=count, shard=shard)
    return TABLE_HEADER.pack(*header) + table[TABLE_HEADER.size :]


def dictionary_of(strings, count=1, kind=BYTES):
    """The dictionary of these strings in so many shards, as one process makes it."""
    shards: list[list[bytes]] = [[] for _ in range(count)]
    for string in strings:
        shards[shard_of(count, string)].append(string)
    ids = [id_of_strings(it, kind) for it in shards]
    of_all = identity(2, numbers(count, kind) + b"".join(numbers(it.strings) + it.identity for it in ids))
    return Dictionary(kind, of_all if count > 1 else ids[0].identity, shards)


def merge_of(parts, count=1):
    """The dictionary to which parts are merged shard by shard, or parts of one shard each in so many shards."""
    kind = min(it.kind for it in parts)
    shards = [[*dict.fromkeys(itertools.chain(*each))] for each in zip(*(it.shards for it in parts))]
    if len(shards) == 1:
        return dictionary_of(shards[0], count, kind)
    return Dictionary(kind, identity(3, numbers(len(shards), len(parts)) + b"".join(it.set for it in parts)), shards)


def map_of(part, whole, shard=0):
    """The map of a shard of a part to the same shard of the merged dictionary, or of a part of one shard to all of it."""
    into = whole.shards[shard] if len(part.shards) > 1 else whole.strings
    source = Source(len(part.shards), part.kind, part.set, shard)
    return column(whole.id._replace(strings=len(into)), encoded(into, part.shards[shard]), source, len(whole.shards))


def maps_of(parts, whole):
    """The files of the folder of maps of a merge."""
    return {part.map_name(it): map_of(part, whole, it) for part in parts for it in range(len(part.shards))}


def read_dictionary(path):
    """The dictionary in a file or a folder, after all checks. Raises Damaged, or FileNotFoundError for a shard."""
    is_folder = os.path.isdir(path)
    tables = [Frozen((Path(path, "0.dict") if is_folder else Path(path)).read_bytes())]
    first = tables[0].header
    tables += (Frozen(Path(path, f"{it}.dict").read_bytes()) for it in range(1, first.shards if is_folder else 1))
    for number, table in enumerate(tables):
        if (table.kind, *table.header[8:11]) != (first.kind, first.set, len(tables), number):
            raise Damaged(number, "is another shard, or of another set, or one of several")
        if any(shard_of(first.shards, it) != number for it in table):
            raise Damaged(number, "has a string of another shard")
    return Dictionary(first.kind, first.set, [[*it] for it in tables])


def files_in(path):
    """All files of a folder, the only file of a dictionary, or nothing if nothing is there."""
    paths = {it: Path(path, it) for it in os.listdir(path)} if os.path.isdir(path) else {"0.dict": Path(path)}
    return {name: it.read_bytes() for name, it in paths.items()} if os.path.exists(path) else None


def put(folder, files):
    os.makedirs(folder, exist_ok=True)
    for name, data in files.items():
        Path(folder, name).write_bytes(data)


def random_parts(chance, size, kind=BYTES):
    """The lines of each of ten parts, so many in all: lines are in several parts, some are empty, and some parts have none."""
    many = min(1 + size // 3, 10_000)
    words = [f"{chance.choice(('w', 'é', '漢字 '))}{chance.randrange(size + 1)}".encode() for _ in range(many)] + [b""]
    if kind == BYTES:
        words = [chance.randbytes(chance.randrange(12)).replace(b"\n", b"") for _ in range(many)] + [b"", b"\xff"]
    # (each of the seven places at which it is cut may be drawn several times)
    cuts = [0, *sorted(chance.choices([chance.randrange(size + 1) for _ in range(7)], k=9)), size]
    return [chance.choices(words, k=end - start) for start, end in pairwise(cuts)]
