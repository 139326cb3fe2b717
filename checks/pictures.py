#!/usr/bin/env python3
"""Draws docs/crates.svg from crates.txt, and docs/interning.svg from docs/interning.dot, by graphviz.

    checks/pictures.py

In crates.svg an arrow leads from a crate to one that it stands on, unless that is reached through another arrow. Crates of tests,
examples and benchmarks aren't drawn. A picture holds the sum of what it was drawn from, which checks/consistency compares.
"""

import hashlib
import re
import shutil
import subprocess
import sys

sys.dont_write_bytecode = True
import arguments
from sources import TOP, rows_of_crates, text_of, with_those_below

CHOICE = TOP / "bench/choice.svg"
LEFT_OUT = re.compile(r"tests|refused_allocations|bench|example_\w+")
# Colours that are read on white, in grey too, and what they are in the dark, with those of docs/interning.dot.
PROGRAMS, LIBRARIES, INK = "#ffffff", "#e8eef7", "#223344"
DARK = {
    "white": "#0d1117", PROGRAMS: "#0d1117", LIBRARIES: "#1c2a3f", INK: "#d5dee8", "#fff4d6": "#3d3212", "#f3f6fa": "#161d27",
    "#d9e6f7": "#1f4068", "#e4f4e4": "#17381d",
}


def graph():
    """The crates of crates.txt, without what is reached through another crate."""
    crates = {name: below for name, (below, _) in rows_of_crates().items() if not LEFT_OUT.fullmatch(name)}
    lines = [
        'rankdir=TB; bgcolor=white; nodesep=.25; ranksep=.4; node [shape=box style="filled,rounded" fontname="sans-serif"'
        f' fontsize=11 color="{INK}" fontcolor="{INK}" margin=".12,.06" height=.3]; edge [color="{INK}" arrowsize=.6];'
    ]
    for name, every in crates.items():
        below = [it for it in every if it in crates]
        colour = PROGRAMS if (TOP / "crates" / name / "src/main.rt").is_file() else LIBRARIES
        lines.append(f'{name} [fillcolor="{colour}" label="{name.removeprefix("intaglio_")}"];')
        through = {it: set().union(*(with_those_below(other, crates) for other in below if other != it)) for it in below}
        lines += [f"{name} -> {it};" for it in below if it not in through[it]]
    return "digraph crates {\n" + "\n".join(lines) + "\n}\n"


def sources_of():
    """Each picture with the graph that it is drawn from."""
    return {TOP / "docs/crates.svg": graph(), TOP / "docs/interning.svg": text_of(TOP / "docs/interning.dot")}


def in_the_dark(svg, colours):
    """The text of a picture with other colours where the reader's screen is dark."""
    rules = [
        f'[{part}="{light}"], [style*="{part}: {light}"] {{ {part}: {dark} !important }}'
        for light, dark in colours.items()
        for part in ("fill", "stroke")
    ]
    style = "<style>@media (prefers-color-scheme: dark) {\n" + "\n".join(rules) + "\n}</style>"
    return re.sub(r"(<svg[^>]*>)", lambda it: f"{it[1]}\n{style}", svg, count=1)


def marks():
    """The last line of each picture, with the sum of what it is drawn from, and by what."""
    drawn = {path: ("checks/pictures.py", text + repr(DARK)) for path, text in sources_of().items()}
    drawn[CHOICE] = "bench/plot.py", "".join(text_of(TOP / "bench" / it) for it in ("figures.txt", "plot.py"))
    sums = {path: hashlib.sha256(text.encode()).hexdigest()[:16] for path, (_, text) in drawn.items()}
    return {path: f"<!-- drawn from {sums[path]} by {by} -->" for path, (by, _) in drawn.items()}


def wrong():
    """What is wrong with the pictures that are there."""
    for path, line in marks().items():
        if not path.is_file() or line not in text_of(path):
            yield f"{path.relative_to(TOP)}: isn't drawn from its source as that is: run {line.split()[-2]}"


def main():
    arguments.parser(__doc__).parse_args()
    if not shutil.which("dot"):
        sys.exit("checks/pictures.py needs graphviz: apt-get install graphviz")
    for path, text in sources_of().items():
        drawn = subprocess.run(["dot", "-Tsvg"], input=text, capture_output=True, text=True, check=True).stdout
        # (the version of graphviz doesn't belong in the file)
        drawn = re.sub(r"(?s)<!DOCTYPE.*?>\s*|<!--.*?-->\s*", "", drawn).rstrip()
        path.write_text(f"{in_the_dark(drawn, DARK)}\n{marks()[path]}\n", encoding="utf-8")


if __name__ == "__main__":
    main()
