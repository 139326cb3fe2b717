#!/usr/bin/env python3
"""Draws bench/choice.svg, by which a reader chooses a table, from the ratios of bench/figures.txt, by matplotlib, a package of
Debian.

    bench/plot.py

What figures.txt doesn't have isn't drawn. The picture holds the sum of figures.txt and of this script, for checks/pictures.py.
"""

import importlib.util
import io
import re
import sys
from pathlib import Path

sys.dont_write_bytecode = True
TOP = Path(__file__).resolve().parent.parent
sys.path.append(str(TOP / "checks"))

import arguments
from pictures import CHOICE, in_the_dark, marks

FIGURES = TOP / "bench/figures.txt"

# The lines: by the names of figures.txt what they are called, and their colours, markers and dashes. Colours differ in grey too.
INK, GREY, FAINT = "#24292f", "#6e7781", "#d0d7de"
LINES = {
    "ours": ("owned table", "#0a58a6", "o", "-"),
    "packed": ("packed table", "#c2410c", "s", (0, (6, 1.5))),
    "IndexSet": ("IndexSet<Box<str>>", "#7a5195", "D", (0, (3, 1.5))),
    "buffer": ("hashbrown, one buffer", "#1a7f5a", "^", (0, (4, 1.5, 1, 1.5))),
}
CRATE = "the Rust crate (1)"
# What each colour is in the dark.
DARK = {
    "#ffffff": "#0d1117", INK: "#e6edf3", GREY: "#9198a1", FAINT: "#30363d", "#0a58a6": "#6cb6ff", "#c2410c": "#ff9a5c",
    "#7a5195": "#d2a8ff", "#1a7f5a": "#57d9a3",
}
# What is drawn for choosing, by the names of figures.txt, and what of it.
CHOSEN = {
    "look-up hits, random order": "look-ups that hit",
    "look-up misses": "look-ups that miss",
    "get by symbol, random order": "the string of a symbol",
    "intern new borrowed words": "interning new borrowed strings",
    "intern new owned words": "interning new owned strings",
}
TITLE = "Time relative to the Rust crate intaglio, by the number of strings: below 1 takes less"
OF_CHOICE = ("ours", "packed", "IndexSet", "buffer")
FOLD = "FoldHasher's hashes on all sides (a fixed seed), packed by FixedState; grown"


def tables():
    """The tables of figures.txt on single calls, by their titles: by operation and size the ratio of each line to the Rust
    crate."""
    text = FIGURES.read_text(encoding="utf-8").partition("\nOne word a call\n")[2].partition("\nA batch of 64 words a call")[0]
    found: dict[str, dict] = {}
    for title, names, rows in re.findall(
        r"(?m)^(.+; (?:grown|reserved)[^\n]*)\n\n(.+) \(the Rust crate's nanoseconds\)\n\n((?:.+\t.+\n)+)", text
    ):
        head, *lines = [row.split("\t") for row in rows.splitlines()]
        sizes = [int(it.replace(",", "")) for it in head[1:]]
        table = found.setdefault(title, {})
        for operation, *cells in lines:
            for size, cell in zip(sizes, cells, strict=True):
                ratios = [float(it) for it in re.sub(r"\(.*", "", cell).split(" / ")]
                table.setdefault(operation, {}).setdefault(size, {}).update(zip(names.split(" / "), ratios, strict=True))
    return found


def in_words(size):
    """A size as its axis has it."""
    return f"{size // 1_000_000} million" if size % 1_000_000 == 0 else f"{size:,}"


def panel(axes, rows, names, ends):
    """An operation: a line for each table by size, and the Rust crate's at 1. What lies outside of the ends is drawn at them."""
    sizes = sorted(rows)
    axes.axhline(1, color=GREY, linewidth=1)
    for name in names:
        points = [(size, min(max(rows[size][name], ends[0]), ends[1])) for size in sizes if name in rows[size]]
        if points:
            _, colour, marker, dashes = LINES[name]
            how = {"linewidth": 1.4, "markersize": 4, "clip_on": False}
            axes.plot(*zip(*points), color=colour, marker=marker, linestyle=dashes, **how)
    axes.set_xscale("log")
    axes.set_yscale("log", base=2)
    axes.set_ylim(ends)
    axes.set_xlim(sizes[0] * 0.8, sizes[-1] * 1.25)
    ticks = [it for it in (0.125, 0.25, 0.5, 1, 2, 4) if ends[0] <= it <= ends[1]]
    axes.set_yticks(ticks, [f"{it:g}" for it in ticks])
    axes.set_xticks(sizes, [in_words(it) for it in sizes])
    axes.minorticks_off()
    axes.tick_params(colors=GREY, labelcolor=INK, labelsize=8, length=3)
    axes.grid(axis="y", color=FAINT, linewidth=0.6)
    axes.set_axisbelow(True)
    for edge, spine in axes.spines.items():
        spine.set_visible(edge in ("left", "bottom"))
        spine.set_color(GREY)


def handles(names):
    """What the legend has for some lines, and for the Rust crate's."""
    from matplotlib.lines import Line2D

    shown = []
    for name in names:
        label, colour, marker, dashes = LINES[name]
        shown.append(Line2D([], [], color=colour, marker=marker, linestyle=dashes, linewidth=1.4, markersize=4, label=label))
    return [*shown, Line2D([], [], color=GREY, linewidth=1, label=CRATE)]


def drawn_in(rows, names):
    return [name for name in names if any(name in it for sizes in rows.values() for it in sizes.values())]


def choice(found):
    """The picture by which a reader chooses."""
    from matplotlib.figure import Figure

    rows = {operation: found[FOLD][operation] for operation in CHOSEN}
    names = drawn_in(rows, OF_CHOICE)
    figure = Figure(figsize=(9.2, 4.9), layout="constrained")
    every = figure.subplots(2, 3)
    for axes, (operation, title) in zip(every.flat, CHOSEN.items()):
        panel(axes, rows[operation], names, (0.25, 2))
        axes.set_title(title, fontsize=9.5, color=INK)
    every.flat[-1].axis("off")
    every.flat[-1].legend(handles=handles(names), loc="center", frameon=False, fontsize=9, labelcolor=INK, handlelength=3.2)
    figure.suptitle(TITLE, fontsize=10.5, color=INK)
    return figure


def lightened(text):
    """The text of a picture without what no reader sees: names of groups, spaces, and more than a hundredth of a point."""
    text = re.sub(r"(?s)<\?xml.*?\?>\s*|<!DOCTYPE.*?>\s*|<!--.*?-->\s*|<metadata>.*?</metadata>\s*", "", text)
    text = re.sub(r' id="(?:axes|figure|legend|line2d|matplotlib\.axis|patch|text|xtick|ytick)_\d+"', "", text)
    return re.sub(r"(\d\.\d\d)\d+(?=[^<>]*>)", r"\1", re.sub(r"\s*\n\s*", "\n", text))


def main():
    arguments.parser(__doc__).parse_args()
    if not importlib.util.find_spec("matplotlib"):
        sys.exit("bench/plot.py needs matplotlib: apt-get install python3-matplotlib")
    import matplotlib

    with matplotlib.rc_context(
        {"svg.fonttype": "none", "svg.hashsalt": "intaglio", "font.family": "sans-serif", "font.sans-serif": ["DejaVu Sans"]}
    ):
        wrote = io.StringIO()
        choice(tables()).savefig(wrote, format="svg", facecolor="#ffffff", metadata={"Date": None, "Creator": None})
    CHOICE.write_text(f"{in_the_dark(lightened(wrote.getvalue()), DARK).rstrip()}\n{marks()[CHOICE]}\n", encoding="utf-8")


if __name__ == "__main__":
    main()
