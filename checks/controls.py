"""Which controls needn't be tried again: those that rest on what they rested on when they were last accepted.

A control rests on the kit and on its edit; on its function with its contract and its proof; on the headers, with their clauses,
of the functions that it calls; and on whatever any of these cites, or that cites in turn: files of lemmas, types with their impls
and ghost members, traits, constants, and definitions of specs. Comments, layout, tactics and bodies of other functions don't
count. All whose name is a word there counts, in the crate and in those below it, whether it is meant or not: so nothing is
missed, and some controls are tried that needn't be. controls.txt has the checksums of all that.
"""

import collections
import functools
import hashlib
import random
import re
import textwrap

import sources
import toolchain
from sources import TOP

TABLE = TOP / "checks/controls.txt"
HEAD = "# The checksums of the controls of each crate that were accepted, by all that they rest on: `checks/mutants` writes them."
# A comment or a comma before a closing bracket, which are layout; or else a text in quotes, a file of lemmas, a word or a sign.
TOKEN = re.compile(
    r'''//.*|(?<!\S)--.*|,(?=\s*[)\]}])|("(?:\\.|[^"\\])*"|'(?:\\.|[^'\\])'|proofs\.\w+|\w+(?:-[^\W\d]\w*)*|\S)'''
)
# What a file takes from others: a path, and names in it. What a path has before the types is none.
USE = re.compile(r"(?m)^ *(?:pub |ghost )*use ([^{;\n]*)(?:\{([^}]*)\})?")
BEFORE_TYPES = re.compile(r"Rattle\.(?:.*\.declared|.*\.specs\.\w+|.*\.proofs\.\w+)\.|\b[a-z_]\w*\.")
TACTIC = re.compile(r"#!?\[tactic.*\]")
# Where an item of a source begins, and the attributes in front of one.
ITEM = re.compile(r"(?m)^(?=#|(?:pub|impl|struct|enum|trait|type|const|static|unsafe|macro_rules!|ghost|use|mod)\b)")
ATTRIBUTES = re.compile(r"(?m)^(?:#\[(?:[^][]|\[[^]]*\])*\]\s*)+")
NAMED = re.compile(r"(?:pub(?:\(\w+\))? )?(?:(?:struct|enum|trait|type|const|static) |macro_rules! )(\w+)")
# What a part of a file says: a checksum of it, and its words with the names of what it takes from others.
Statement = collections.namedtuple("Statement", "sum words")


def sum_of(said):
    return hashlib.sha256(repr(said).encode()).hexdigest()[:16]


@functools.lru_cache(maxsize=None)
def uses(whole):
    """What a file takes from others: of each what it's called here, and its path."""
    names = [(path, *it.strip().partition(" as ")) for path, names in USE.findall(whole) for it in (names or path).split(",")]
    return [(here or re.split(r"::|\.", it)[-1], f"{path}.{it}".replace("::", ".")) for path, it, _, here in names]


def stated(text, whole):
    """What a text of a file says, with the paths of what it takes from others."""
    said = list[str](filter(None, TOKEN.findall(text.replace("::", "."))))
    words = frozenset(said)
    paths = sorted(path for name, path in uses(whole) if name in words)
    return Statement(sum_of([said, paths]), words.union(*(TOKEN.findall(BEFORE_TYPES.sub("", it)) for it in paths)))


@functools.lru_cache(maxsize=None)
def source(crate, path):
    """What a source states: the headers of its functions, each with its name and the type or trait that has it; types, traits
    and constants by their names; and impls by that of the type, with the words from the trait to the bounds. An impl of a
    trait has the headers of its functions."""
    whole = rest = sources.text_of(path)
    functions, items = [], []
    for it in sources.functions_in(crate, path)[0]:
        lines, is_of_impl = it.text.split("\n"), it.trait not in ("", it.owner)
        head = it.text if "const fn" in lines[0] else "\n".join(lines[: len(sources.header_of(lines))])
        rest = rest.replace(it.text, head * is_of_impl, 1)
        functions += [(it.name, it.owner, stated(head, whole))] * (not is_of_impl)
    rest = ATTRIBUTES.sub(lambda it: " ".join(it[0].split()) + " ", TACTIC.sub("", re.sub(r"(?m)^ *//.*\n", "", rest)))
    for item in ITEM.split(rest):
        line = ATTRIBUTES.sub("", item)
        if sources.OWNER.match(line):
            header = re.split(r"[{;]|\bwhere\b", line)[0]
            owner, trait = sources.owner_of(header)
            of_impl = re.findall(r"\w+", header[header.rfind(trait) :]) if owner != trait else []
            items.append((owner, of_impl, stated(item, whole)))
        else:
            items += [(name, [], stated(item, whole)) for name in NAMED.findall(line)[:1]]
    return functions, items


@functools.lru_cache(maxsize=None)
def definitions(path):
    """The definitions of a file of specs by their names, each with what the file's modules are given; or a file of lemmas as a
    whole, by its own name. (A file Names only passes names on.)"""
    whole = sources.text_of(path)
    if path.parent.name == "proofs":
        return [(f"proofs.{path.stem}", stated(whole, whole))] * (path.stem != "Names")
    given, own = " ".join(re.findall(r"(?ms)^ *module .*? where$", whole)), sources.definitions_in(path)
    return [(it, stated(own[it] + given, whole)) for it in own if "." not in it and it not in ("use", "mod")]


class Index:
    """What a crate and those below it state: the headers of functions with their names, and all else without one, each with the
    words that must be cited for it to count."""

    def __init__(self, crate):
        folders = [TOP / "crates" / it.name for it in (*crate.below(), crate)]
        files = [source(it.name, path) for it in folders for path in it.glob("src/**/*.rt")]
        self.every = [(name, {owner} - {""}, said) for functions, _ in files for name, owner, said in functions]
        items = [it for _, items in files for it in items]
        declared = {name for name, of_impl, _ in items if not of_impl}
        for name, of_impl, said in items:
            # (an impl for a type of std, or for all that have another trait, goes by what its trait is of)
            self.every.append(("", {name} if name in declared else declared.intersection(of_impl) or {name}, said))
        paths = (it for folder in folders for part in ("specs/**", "proofs") for it in folder.glob(f"{part}/*.antt"))
        self.every += [("", {name}, said) for path in paths for name, said in definitions(path)]

    def sum_of(self, edit):
        """The checksum of all that an edit rests on."""
        folder = TOP / "crates" / edit.crate
        whole = sources.text_of(folder / edit.file)
        found = sources.turned_by(edit)
        turned = [whole] if sources.is_of_type(edit) else [it.text for it in found]
        edited = [edit.function, *sum(edit.pairs, ()), *(f"{it.owner} {it.trait}" for it in found), *TACTIC.findall(whole)]
        proof = [sources.text_of(it) for it in folder.joinpath("proofs", *edit.function.split("::")).glob("*.antt")]
        own = {stated(it, whole) for it in (" ".join(edited), *turned)}
        called, cited, said = {word for it in own for word in it.words}, set[str](), set[Statement]()
        left = own | {stated(it, it) for it in proof}
        while left:
            said |= left
            cited.update(*(it.words for it in left))
            # (a function calls what a macro of it calls)
            called.update(*(it.words for it in left if "macro_rules" in it.words))
            left = {it for name, needs, it in self.every if needs <= cited and (not name or name in called)} - said
        return sum_of([toolchain.VERSION, *sorted(it.sum for it in said)])[:8]


class Accepted:
    """The controls that were accepted, by the checksums in controls.txt. One of ten is tried again, by a seed."""

    def __init__(self, is_anew, seed):
        rows = (it.partition(":") for it in (sources.paragraphs(TABLE.name) if TABLE.is_file() else ()))
        self.sums = {crate: sums.split() for crate, _, sums in rows}
        self.is_anew, self.seed, self.now, self.again = is_anew, seed, {}, []

    def left_out(self, crate, edits):
        index, known = Index(crate), () if self.is_anew else self.sums.get(crate.name, ())
        now = {it: index.sum_of(it) for it in edits if it.kind == sources.CONTROL}
        same = [it for it in now if now[it] in known]
        again = [it for it in same if random.Random(f"{self.seed} {it.crate}/{it.name}").random() < 0.1]
        self.now |= now
        self.again += (f"{it.crate}/{it.name}" for it in again)
        return [it for it in same if it not in again]

    def write(self, crates, accepted):
        """Writes controls.txt, now that of these crates' edits these were accepted. What was refused, or isn't there, goes."""
        self.sums |= {crate: sorted(self.now[it] for it in accepted if it in self.now and it.crate == crate) for crate in crates}
        there = (it for it in sorted(self.sums) if self.sums[it] and (TOP / "crates" / it).is_dir())
        rows = (f"{crate}: {' '.join(self.sums[crate])}" for crate in there)
        text = "\n".join([HEAD, *(textwrap.fill(it, 130, subsequent_indent="  ") for it in rows), ""])
        TABLE.write_text(text, encoding="utf-8")
