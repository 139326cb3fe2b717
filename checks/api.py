#!/usr/bin/env -S python3 -B
"""Writes pages from the sources into out/doc: for each library its public calls, for all crates what is in each file (files.md),
and for each promise of docs/PROMISES.md its mutants and tests (evidence.md).

    checks/api.py [NAME]    (as ./intaglio doc does)

On a library's page a type or a call has its declaration, the first paragraph of its documentation, what it requires, its errors,
and the names of its clauses. Prints where the pages are, or with a NAME one of them: that of a library such as `intaglio`,
`files`, `evidence`, or the part of `evidence` on one promise, by its name in PROMISES.
"""

import itertools
import re
import sys
import textwrap

import arguments
import sources
from sources import TOP, UNNAMED

FOLDER = TOP / "out/doc"
# Links in documentation, as the names that lead somewhere.
LINK = re.compile(r"\[(`[^`]+`|[^\]`]+)\](?:\([^)]*\))?")
EVIDENCE = """# Evidence

It has the mutants of each promise of docs/PROMISES.md, and its tests. Of a mutant it says which clauses refuse it, by
the names of CONTRIBUTING.md. A mutant that 'stays' isn't removed while its clause is there.
"""
FILES = "# Files\n\nEach file of sources with what its first lines say, from the lowest crate to the highest.\n"


def wrapped(text, first="- ", rest="  "):
    return textwrap.fill(text, 118, initial_indent=first, subsequent_indent=rest, break_long_words=False, break_on_hyphens=False)


def paragraphs(lines):
    """The first paragraph of documentation, and those on errors. Examples are left out."""
    text = re.sub(r"(?ms)^```.*?^```$", "", "\n".join(re.sub(r"^\s*//[/!] ?", "", it) for it in lines))
    errors = re.findall(r"(?ms)^# Errors$(.*?)(?=^# |\Z)", text)
    found = (re.split(r"\n\n|\A# |\n# ", text)[0], *(f"Errors: {it}" for it in errors))
    return [LINK.sub(r"\1", it) for it in found if it.strip()]


def above(lines, at):
    """What the documentation above a line says."""
    block = [*itertools.takewhile(re.compile(r"\s*(//|#\[)").match, reversed(lines[:at]))]
    return paragraphs([it for it in reversed(block) if it.lstrip().startswith("///")])


def of_contract(every, function):
    kinds = {name: text.split()[0].rstrip("*") for name, text in function.clauses.items()}
    for name in (it for it in kinds if kinds[it] == "requires"):
        condition = function.clauses[name].partition("{")[2].rpartition("}")[0]
        yield f"Requires `{' '.join(condition.split())}`."
    own = every.members.get((function.crate, function.owner, function.trait), {}) if function.trait else {}
    clauses = [name for name in kinds if kinds[name] == "ensures" and name != UNNAMED]
    clauses += [name for name in own if name.startswith(function.name) or name.endswith("_gives")]
    if clauses:
        yield f"Clauses: {', '.join(f'`{it}`' for it in clauses)}."


def of_file(every, calls, path):
    """The public types and calls of a file, in the order of the source."""
    text = sources.text_of(path)
    lines, found = text.splitlines(), []
    for it in sources.DECLARED.finditer(text):
        at = text[: it.start()].count("\n")
        found.append((at, f"`{sources.joined(it[2])}`", above(lines, at)))
    for call in (it for it in calls if TOP / it.file == path):
        owner, declared = sources.signature(call)
        said = [*above(lines, call.line - 1), *of_contract(every, call)]
        found.append((call.line, f"`{owner}`: " * bool(owner) + f"`{declared}`", said))
    for _, head, said in sorted(found, key=lambda it: it[0]):
        yield from (wrapped(head), *(wrapped(it, "  ") for it in said))


def about(path):
    return " ".join(paragraphs(re.findall(r"(?m)^//! ?(.*)$", sources.text_of(path)))[:1])


def sources_of(crate):
    return sorted(sources.files_of(crate), key=lambda it: it.name not in ("lib.rt", "main.rt") or it.parent.name != "src")


def of_library(every, crate):
    calls = [it for it in every.functions if it.crate == crate and not it.is_test and every.is_public(it)]
    root = sources_of(crate)[0]
    yield f"# `{crate}`\n\n{wrapped(about(root), '', '')}\n"
    for path in sources_of(crate):
        if items := [*of_file(every, calls, path)]:
            head = f"## {path.relative_to(root.parent)}\n\n{wrapped(about(path), '', '')}\n\n" * (path != root)
            yield head + "\n".join(items) + "\n"


def of_promise(every, promise, tests):
    lines = [
        f"`{it.name}` edits `{it.function}` of `{it.crate}`, and {', '.join(it.clauses)} refuses it: {it.breaks}."
        + " It stays." * (f"{promise}!" in it.shows)
        for it in every.shown[promise]
    ]
    files = {name: it.file for it in every.tests for name in (it.name, f"{it.crate}/{it.name}")}
    scripts = ((it.relative_to(TOP), sources.text_of(it)) for it in TOP.glob("crates/tests/src/**/*.rt"))
    files |= {name: place for place, text in scripts for name in re.findall(r"(?m)^(\w+):$", text)}
    lines += [f"test `{it}` in {files.get(it, it)}" for it in tests]
    return f"## {promise}\n\n" + "\n".join(map(wrapped, lines)) + "\n"


def main():
    name, every = arguments.parser(__doc__, name="?").parse_args().name, sources.Sources()
    tests = {it: names for promises, names in every.evidence for it in promises.split()}
    promises = {it: of_promise(every, it, tests.get(it, ())) for it in dict.fromkeys([*tests, *every.shown])}
    libraries = sorted(it.parents[1].name for it in TOP.glob("crates/*/src/lib.rt"))
    pages = {"files": [FILES], "evidence": [EVIDENCE, *promises.values()]}
    pages |= {it: [*of_library(every, it)] for it in libraries if not sources.NOT_FOR_CALLERS.fullmatch(it)}
    for crate in sources.rows_of_crates():
        root, *others = sources_of(crate)
        of_each = "\n".join(wrapped(f"`{it.relative_to(root.parent)}`: {about(it)}") for it in others)
        pages["files"] += [f"## `{crate}`\n\n{wrapped(about(root), '', '')}\n", f"{of_each}\n"]
    texts = {page: "\n".join(parts).rstrip() + "\n" for page, parts in pages.items()}
    FOLDER.mkdir(parents=True, exist_ok=True)
    for page, text in texts.items():
        (FOLDER / f"{page}.md").write_text(text, encoding="utf-8")
    if not name:
        print(f"{FOLDER} has the pages {' '.join(texts)}")
    elif not (found := texts.get(name) or promises.get(name)):
        sys.exit(f"there is no page and no promise {name}: {' '.join(texts)}")
    else:
        print(found, end="")


main()
