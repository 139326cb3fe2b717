"""What is compared with what."""

from typing import NamedTuple

# The tables by which the programs go: the proved program's by how many words a call takes, the Rust program's by what they
# are. Rivals are tables that a user would write or pick where there were no crate `intaglio`.
OURS = ["single", "batch", "packed", "packed_batch"]
RIVALS = ["boxes", "buffer", "index_set"]

# A table begins with no capacity, or with that of all words.
CAPACITIES = ["grown", "reserved"]


class Run(NamedTuple):
    """What a program is asked for."""

    table: str
    hashing: str
    capacity: int
    size: int


class Side(NamedTuple):
    """A table with its hashers, and the name by which pages call it."""

    name: str
    table: str
    hashing: str


class Comparison(NamedTuple):
    """Tables that are compared with that of the Rust crate."""

    title: str
    base: Side
    sides: list[Side]
    # Whether capacity is asked for as `with_capacity` does, which rounds it up to a power of two in ours and in the crate.
    is_rounded: bool

    def run(self, side, capacity, size):
        """What a side is asked for, at one of CAPACITIES."""
        room = 0 if capacity == "grown" else size
        if room and self.is_rounded and side.table not in RIVALS:
            room = 1 << (size - 1).bit_length()
        return Run(side.table, side.hashing, room, size)

    def batches(self):
        """Our own tables, with calls that take a batch."""
        return [self.sides[0]._replace(table="batch"), self.sides[1]._replace(table="packed_batch")]


COMPARISONS = {
    "fold": Comparison(
        "FoldHasher's hashes on all sides (a fixed seed), packed by FixedState",
        Side("the Rust crate", "crate", "fold"),
        [
            Side("ours", "single", "fold"), Side("packed", "packed", "fixed"), Side("boxes", "boxes", "fold"),
            Side("buffer", "buffer", "fold"), Side("IndexSet", "index_set", "fold"),
            Side("ours by FixedState", "single", "fixed"),
        ],
        is_rounded=True,
    ),
    "sip": Comparison(
        "SipHash-1-3 on all sides (random keys), ours by KeyedState",
        Side("the Rust crate", "crate", "std"),
        [
            Side("ours", "single", "keyed"), Side("packed", "packed", "keyed"), Side("boxes", "boxes", "std"),
            Side("buffer", "buffer", "std"), Side("IndexSet", "index_set", "std"),
            Side("ours by the toolchain's RandomState", "single", "std"),
        ],
        is_rounded=False,
    ),
    "default": Comparison(
        (
            "the default of each side: ours FoldHasher, packed FixedState, the Rust crate RandomState, hashbrown ahash, IndexSet"
            " RandomState"
        ),
        Side("the Rust crate", "crate", "std"),
        [
            Side("ours", "single", "fold"), Side("packed", "packed", "fixed"), Side("boxes", "boxes", "hashbrown"),
            Side("buffer", "buffer", "hashbrown"), Side("IndexSet", "index_set", "std"),
        ],
        is_rounded=True,
    ),
}

# Hashing alone, on so few words that they stay in the processor's caches. The last is what the others are compared with.
HASHINGS = {
    "ours: FoldHasher": Run("single", "fold", 0, 1_000),
    "ours: FixedState": Run("single", "fixed", 0, 1_000),
    "ours: KeyedState": Run("single", "keyed", 0, 1_000),
    "ours: the toolchain's RandomState": Run("single", "std", 0, 1_000),
    "Rust: the port of FoldHasher": Run("crate", "fold", 0, 1_000),
    "Rust: RandomState": Run("crate", "std", 0, 1_000),
}


# Sizes at which a table is also measured with huge pages, and the word before the names of its operations then.
HUGE_SIZES, HUGE = [100_000, 1_000_000], "huge "


def huge_sides():
    """The tables that are measured with huge pages too: the Rust crate's and ours."""
    fold = COMPARISONS["fold"]
    return [fold.base, *fold.sides[:2]]


def huge_runs_of(sizes):
    """The runs with huge pages, of tables that begin with no capacity."""
    fold = COMPARISONS["fold"]
    return [fold.run(side, "grown", size) for size in sizes if size in HUGE_SIZES for side in huge_sides()]


def copies_of(sizes, absent):
    """The runs that take one borrowed word a call, once."""
    batches = [side.table for comparison in COMPARISONS.values() for side in comparison.batches()]
    return [run for run in runs_of(sizes, absent) if run.table not in batches]


def runs_of(sizes, absent):
    """Each run that the comparisons need, once."""
    runs = []
    for size in sizes:
        for comparison in COMPARISONS.values():
            for side in [comparison.base, *comparison.sides, *comparison.batches()]:
                if side.table not in absent:
                    runs += [comparison.run(side, capacity, size) for capacity in CAPACITIES]
    return list(dict.fromkeys(runs))
