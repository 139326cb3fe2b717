#!/usr/bin/env python3
"""Tables of what was measured.

    bench/tables.py RESULTS

prints them from the file results.csv that bench/run writes.
"""

import csv
import sys
from pathlib import Path

sys.dont_write_bytecode = True
sys.path.append(str(Path(__file__).resolve().parent.parent / "checks"))

import arguments
from comparisons import CAPACITIES, COMPARISONS, HASHINGS, HUGE, Run, huge_sides

OPERATIONS = {
    "new": "intern new owned words",
    "copied": "intern new borrowed words",
    "hit": "look-up hits, random order",
    "borrowed": "intern borrowed words again, random order",
    "again": "intern owned words again, random order",
    "miss": "look-up misses",
    "get": "get by symbol, random order",
    "read": "get by symbol and read a byte, random order",
    "iterate": "iterate",
    "clear": "clear",
    "refill": "fill again after clear",
}

COLUMNS = ["turn", "table", "hashing", "capacity", "size", "operation", "value"]

LEGEND = """Each cell is the least time of all turns over that of the Rust crate `intaglio` under the hashers that the heading
names. Below 1 it takes less than the Rust crate. In brackets stand the Rust crate's nanoseconds for each word.

- ours: the proved table of owned texts; packed: the proved table in one buffer
- boxes: hashbrown's table of numbers beside a list of boxed strings
- buffer: hashbrown's table of numbers beside one buffer of text, as `StringBackend` of the crate `string-interner` has it
- IndexSet: `IndexSet<Box<str>>` of the crate `indexmap`, version 1, which hashes a new borrowed word twice
- grown: the table begins with no capacity; reserved: it begins with that of all words
"""


def write_results(path, rows):
    """Writes each figure in a line."""
    with open(path, "w", newline="") as file:
        lines = csv.writer(file)
        lines.writerow(COLUMNS)
        lines.writerows(rows)


def read_results(path):
    """The least figure of all turns by run and operation."""
    least: dict[tuple[Run, str], float] = {}
    with open(path, newline="") as file:
        for row in csv.DictReader(file):
            run = Run(row["table"], row["hashing"], int(row["capacity"]), int(row["size"]))
            key = run, row["operation"]
            least[key] = min(float(row["value"]), least.get(key, float("inf")))
    return least


def page(times):
    """All tables."""
    sizes = sorted({run.size for run, operation in times if operation == "new"})
    parts = [LEGEND, "## One word a call", ""]
    for comparison in COMPARISONS.values():
        for capacity in CAPACITIES:
            parts += single_table(times, comparison, capacity, sizes)
    parts += ["## A batch of 64 words a call, beside the Rust crate's call for each word", ""]
    parts += ["The lists of the batches are made before the clock starts, as the words are.", ""]
    for comparison in COMPARISONS.values():
        for capacity in CAPACITIES:
            parts += batch_table(times, comparison, capacity, sizes)
    return "\n".join(parts + huge_table(times, sizes) + hash_table(times) + memory_table(times))


def single_table(times, comparison, capacity, sizes):
    """Ratios of single calls."""
    sides = [side for side in comparison.sides if (comparison.run(side, capacity, sizes[0]), "new") in times]
    said = " / ".join(side.name for side in sides)
    lines = [f"### {comparison.title}; {capacity}", "", f"{said} (the Rust crate's nanoseconds)", "", *head(sizes)]
    for operation, name in OPERATIONS.items():
        cells = []
        for size in sizes:
            base = times[comparison.run(comparison.base, capacity, size), operation]
            runs = [comparison.run(side, capacity, size) for side in sides]
            ours, *others = [ratio(times[run, operation], base) for run in runs]
            cells.append(" / ".join([f"**{ours}**", *others]) + f" ({base:.1f})")
        lines.append(row(name, cells))
    return lines + [""]


def batch_table(times, comparison, capacity, sizes):
    """Ratios of calls that take a batch."""
    said = "ours and packed, each over the Rust crate's single calls / over its own"
    lines = [f"### {comparison.title}; {capacity}", "", said, "", *head(sizes)]
    for operation, name in OPERATIONS.items():
        rows = [[batch_cell(times, comparison, (side, capacity, size), operation) for size in sizes] for side in (0, 1)]
        cells = [f"{ours}; {packed}" for ours, packed in zip(*rows) if ours and packed]
        if cells:
            lines.append(row(name, cells))
    return lines + [""]


def batch_cell(times, comparison, place, operation):
    """The two ratios of a batch of one of our tables, or nothing where the operation has no batch."""
    side, capacity, size = place
    sides = [comparison.batches()[side], comparison.base, comparison.sides[side]]
    batch, *single = [times.get((comparison.run(it, capacity, size), operation)) for it in sides]
    if batch is None or None in single:
        return ""
    rust, own = [ratio(batch, other) for other in single]
    return f"**{rust}** / {own}"


def huge_table(times, sizes):
    """What huge pages bring: ratios of a table's times with them and without."""
    sides = [(side.name, COMPARISONS["fold"].run(side, "grown", 0)) for side in huge_sides()]
    held = [size for size in sizes if all((run._replace(size=size), HUGE + "new") in times for _, run in sides)]
    said = " / ".join(name for name, _ in sides) + ", each with huge pages over the same without"
    lines = ["## Huge pages: FoldHasher's hashes, grown", "", said, "", *head(held)] if held else []
    for operation, name in OPERATIONS.items() if held else []:
        runs = [[run._replace(size=size) for _, run in sides] for size in held]
        if (runs[0][0], HUGE + operation) in times:
            lines.append(
                row(
                    name,
                    [" / ".join(ratio(times[run, HUGE + operation], times[run, operation]) for run in some) for some in runs],
                )
            )
    return [*lines, ""] if held else []


def hash_table(times):
    """Nanoseconds of hashing alone."""
    lines = ["## Hashing alone", "", "| hasher | nanoseconds a word | over Rust's RandomState |", "|---|---|---|"]
    *_, base = HASHINGS.values()
    for name, run in HASHINGS.items():
        lines.append(row(name, [f"{times[run, 'hash']:.1f}", ratio(times[run, "hash"], times[base, "hash"])]))
    return lines + [""]


def memory_table(times):
    """Bytes for each symbol."""
    comparison = COMPARISONS["sip"]
    sides = [comparison.base, *comparison.sides]
    sizes = sorted({run.size for run, operation in times if operation == "resident"})
    held = [side for side in sides if sizes and (comparison.run(side, "grown", sizes[0]), "resident") in times]
    names = [side.name for side in held]
    lines = ["## Memory: resident bytes for each symbol (at most while it was filled)", ""]
    lines += [row("words", ["capacity", *names, "ours over the Rust crate's", "bytes of text"])]
    lines += ["|---" * (len(names) + 4) + "|"]
    for size in sizes:
        for capacity in CAPACITIES:
            runs = [comparison.run(side, capacity, size) for side in held]
            cells = [f"{times[run, 'resident']:.1f} ({times[run, 'most']:.1f})" for run in runs]
            over = ratio(times[runs[1], "resident"], times[runs[0], "resident"])
            lines.append(row(f"{size:,}", [capacity, *cells, over, f"{times[runs[0], 'text']:.1f}"]))
    return lines + [""]


def head(sizes):
    """The first two lines of a table with a column for each size."""
    return [row("words", [f"{size:,}" for size in sizes]), "|---" * (len(sizes) + 1) + "|"]


def row(name, cells):
    """A line of a table."""
    return f"| {name} | " + " | ".join(cells) + " |"


def ratio(one, other):
    """One over the other."""
    return f"{one / max(other, 0.01):.2f}"


if __name__ == "__main__":
    parser = arguments.parser(__doc__)
    parser.add_argument("results", metavar="RESULTS")
    print(page(read_results(parser.parse_args().results)))
