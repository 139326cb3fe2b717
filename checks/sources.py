"""What the sources of the crates have: functions with their clauses, impls with their ghost members, definitions, tests, edits;
and what the lists of this folder have. It reads files as `rt fmt` lays them out, and nothing else.
"""

import collections
import functools
import re
from collections import namedtuple
from dataclasses import make_dataclass
from itertools import groupby
from pathlib import Path

TOP = Path(__file__).resolve().parent.parent
# How a clause without a name is cited, and what a type promises of each of its values.
UNNAMED, INVARIANT = "ensures", "invariant"
FN = re.compile(r'( *)(?:pub(?:\(\w+\))? )?(?:final |const |unsafe |extern "C" )*fn (\w+)')
OWNER = re.compile(r"(?:pub(?:\(\w+\))? )?(?:unsafe )?(impl|trait)\b")
TYPE = re.compile(r"(?:pub(?:\(\w+\))? )?(?:struct|enum|trait|type|mod|const|static) (\w+)")
CLAUSE = re.compile(r"\s*(requires|ensures)\*?(?: (\w+))? \{.*")
MEMBER = re.compile(r" {4}(?:pub )?ghost (?!use\b)(\w+)")
DEFINED = re.compile(r"(?: *(?:(?:pub|opaque) +)*(?:abbrev|record|data|unfoldable) +(?:pub +)?|pub +)([^\s:(){},]+)")
FIELD = re.compile(r" +(?:pub )?(\w+) : ")
# What ends a function's signature, and a public type with its attributes.
END = re.compile(r"(?m)^\s*(?:where|requires|ensures)\b|\s*//|\s*\{\s*\}?$|;\s*$")
DECLARED = re.compile(r"(?m)^((?:#\[.*\]\n)*)pub ((?:struct|enum|trait|type|const) [^{;(]*)(\([^)]*\);|[{;])")
# Crates of tests and examples, which no caller needs, and `intaglio_c`, whose calls bindings/c/intaglio.h documents.
NOT_FOR_CALLERS = re.compile(r"intaglio_c|refused_allocations|bench|tests|example_\w+")


# A function: where it is, the impl or trait that it stands in, its clauses by their names, and whether it is a test.
Function = make_dataclass("Function", "crate file line owner trait name clauses is_test text".split(), frozen=True, eq=False)
# An edit, a mutant or a control: the function that it turns, the promises that it shows, with a `!` if it stays as long as its
# clauses do, those by which it is refused, and what it breaks.
Edit = namedtuple("Edit", "crate kind name path function shows clauses breaks beside file pairs")
MUTANT, CONTROL = "mutant", "control"


def text_of(path, errors="strict"):
    return path.read_text(encoding="utf-8", errors=errors)


def paragraphs(name):
    """The lines of a list in this folder, without comments, each with the indented ones that go on with it."""
    text = re.sub(r"(?m)^#.*\n", "", text_of(TOP / "checks" / name))
    return [*filter(None, re.sub(r"\n +", " ", text).split("\n"))]


def rows_of_crates():
    """The crates of crates.txt by their names, each with those that its line lists, and with the line's comment."""
    rows = re.findall(r"(?m)^(\w+)[^:#\n]*:?([^#\n]*)(.*)", text_of(TOP / "crates.txt"))
    return {name: (listed.split(), comment) for name, listed, comment in rows}


def with_those_below(name, below):
    """A crate's name with those of all crates that it stands on, by what each lists."""
    return {name}.union(*(with_those_below(it, below) for it in below.get(name, ()) if it in below))


def owner_of(header):
    """The type and the trait of an impl's header, or a trait's own name twice, all without paths and arguments."""
    bare = re.split(r"\bwhere\b", header.replace("->", ""))[0]
    while bare != (bare := re.sub(r"<[^<>]*>", "", bare)):
        pass
    if found := re.search(r"\btrait (\w+)", bare):
        return found[1], found[1]
    names = (re.sub(r"^&+('\w+ )?(mut |dyn )?", "", it.strip()) for it in bare.partition("impl")[2].split(" for ", 1)[::-1])
    return [*(re.sub(r"\s.*", "", it).split("::")[-1] for it in names), ""][:2]


def header_of(lines, at=0):
    """The lines of the header of a function that begins at a line, each with the word and the name of its clause, or nothing."""
    header, clause, depth = list[tuple](), None, 0
    while True:
        row = lines[at + len(header)].rstrip()
        found = None if depth else CLAUSE.fullmatch(row)
        clause = clause if depth else found and (found[1], found[2] or found[1])
        header.append((row, clause))
        depth += row.count("{") - row.count("}") if clause else 0
        if not depth and (row.endswith(";") or not clause and row.endswith(("{", "{}"))):
            return header


def with_ensures(text, names):
    """The text of a function with those of its `ensures` alone that have one of these names, and the shortest other one if one
    is left, since the prover names goals by their clauses only if there are several: all, if one has no name or there is one."""
    lines = text.split("\n")
    head = next(i for i, it in enumerate(lines) if FN.match(it))
    header = [(row, clause[1] if clause and clause[0] == "ensures" else None) for row, clause in header_of(lines, head)]
    ensured = collections.Counter(name for row, name in header for _ in range(len(row) + 1) if name)
    stay = {None, *names}
    if UNNAMED in ensured or len(ensured) == 1:
        return text
    if len(ensured.keys() & stay) == 1:
        stay |= {*sorted(ensured.keys() - stay, key=lambda it: (ensured[it], it))[:1]}
    return "\n".join([*lines[:head], *(row for row, name in header if name in stay), *lines[head + len(header) :]])


@functools.lru_cache(maxsize=None)
def functions_in(crate, path):
    """The functions of a file, the ghost members of its impls by owner and trait, and the types that it declares."""
    lines, file, functions = text_of(path).splitlines(), str(path.relative_to(TOP)), []
    members: dict[tuple[str, str], dict[str, str]] = collections.defaultdict(dict)
    at, owner, trait = 0, "", ""
    while at < len(lines):
        end = at
        if OWNER.match(lines[at]):
            end = next(i for i in range(at, len(lines)) if re.search(r"[{;]\s*\}?$", lines[i]))
            owner, trait = owner_of(" ".join(map(str.strip, lines[at : end + 1])))
        elif lines[at] == "}":
            owner = trait = ""
        elif found := MEMBER.match(lines[at]):
            members[owner, trait][found[1]] = lines[at]
        elif found := FN.match(lines[at]):
            header = header_of(lines, at)
            rows = groupby(header, lambda row: row[1])
            clauses = {it[1]: "".join(f"{row}\n" for row, _ in of) for it, of in rows if it}
            end = at + len(header) - 1
            if lines[end].rstrip().endswith("{"):
                end = next(i for i in range(end, len(lines)) if lines[i].rstrip() == found[1] + "}")
            is_test = bool(re.search(r"#\[test\]\s*(#\[[^\n]*\]\s*)*$", "\n".join(lines[max(0, at - 4) : at])))
            text = "\n".join(lines[at : end + 1])
            functions.append(Function(crate, file, at + 1, owner, trait, found[2], clauses, is_test, text))
        at = end + 1
    return functions, members, {it[1] for it in map(TYPE.match, lines) if it}


def joined(text):
    """A text on one line, without the commas before its closing brackets."""
    text = re.sub(r"\s+", " ", text).strip()
    return re.sub(r",? ([)>}])", r"\1", re.sub(r"([(<]) ", r"\1", text)) if "{" not in text else re.sub(r",? \}", " }", text)


def signature(function):
    """The type or the impl of a function, and its declaration, without `pub`."""
    owner = function.owner if function.trait in ("", function.owner) else f"{function.trait} for {function.owner}"
    return owner, joined(END.split(function.text, maxsplit=1)[0]).removeprefix("pub ")


def definitions_in(path):
    """The definitions of a file of specs, each with its text, and the fields of its records as RECORD.FIELD."""
    found: dict[str, str] = {}
    name = None
    for line in text_of(path).splitlines():
        if head := DEFINED.match(line):
            name = head[1]
            found.setdefault(name, "")
        elif name and (field := FIELD.match(line)) and " = " not in line[: field.end()]:
            found[f"{name}.{field[1]}"] = line
        if name and not line.startswith("--"):
            found[name] += line + "\n"
    return found


@functools.lru_cache(maxsize=None)
def files_of(crate):
    return sorted((TOP / "crates" / crate).glob("src/**/*.rt"))


def named_by(crate, path):
    """The functions of a crate that the path in a line `fn:` may name."""
    owner, name = ["", *path.split("::")][-2:]
    every = (it for file in files_of(crate) for it in functions_in(crate, file)[0])
    return [it for it in every if it.name == name and owner.startswith(it.owner)]


def edits_in(crate):
    """A crate's mutants and controls, as CONTRIBUTING.md says how they are written. A line `fn:` is for later blocks too."""
    path, function, edits = TOP / "crates" / crate / "mutants.txt", "", []
    text = re.sub(r"(?m)^#.*\n", "", text_of(path)).strip() if path.is_file() else ""
    for block in filter(None, re.split(r"\n{2,}", text)):
        if found := re.match(r"fn: (.*)\n", block):
            function, block = found[1], block[found.end() :]
        kind, _, name = block.partition("\n")[0].partition(": ")
        lines = dict(re.findall(r"(?m)^(promise|beside|file): (.*)$", block))
        promise = re.fullmatch(r"([\w! -]+): ([\w, ]+): (.+)", lines.get("promise", ""))
        pairs = tuple(re.findall(r"(?m)^old: (.*)\nnew: ?(.*)$", block))
        files = {it.file for it in named_by(crate, function) if all(old in it.text for old, _ in pairs)}
        file = lines.get("file") or (files.pop().split("/", 2)[2] if len(files) == 1 else "src/lib.rt")
        of_promise = (tuple(promise[1].split()), tuple(promise[2].split(", ")), promise[3]) if promise else ((), (), "")
        beside = tuple(lines.get("beside", "").split())
        edits.append(Edit(crate, kind, name, f"{path.relative_to(TOP)}: {name}", function, *of_promise, beside, file, pairs))
    return edits


def is_of_type(edit):
    """Whether an edit turns a type, which stands before all functions of its file, and no body."""
    text = text_of(TOP / "crates" / edit.crate / edit.file)
    return any(old in text and not re.search(r"\bfn ", text[: text.index(old) + len(old)]) for old, _ in edit.pairs)


@functools.lru_cache(maxsize=None)
def turned_by(edit):
    """The functions of the name in an edit's `fn:` in which its texts stand, or that may refuse it, where it turns a type."""
    if is_of_type(edit):
        return named_by(edit.crate, edit.function)
    here = functions_in(edit.crate, TOP / "crates" / edit.crate / edit.file)[0]
    named = (it for it in here if it.name == edit.function.split("::")[-1])
    return [it for it in named if all(old.strip() in it.text for old, _ in edit.pairs)]


class Sources:
    def __init__(self):
        self.functions, self.edits, self.definitions, self.types = [], [], dict[str, str](), set[str]()
        self.members: dict[tuple[str, str, str], dict[str, str]] = collections.defaultdict(dict)
        for folder in sorted((TOP / "crates").iterdir()):
            for path in files_of(folder.name):
                functions, members, types = functions_in(folder.name, path)
                self.functions += functions
                self.types |= types
                for (owner, trait), own in members.items():
                    self.members[folder.name, owner, trait].update(own)
            for path in sorted(folder.glob("specs/**/*.antt")):
                self.definitions |= definitions_in(path)
            self.edits += edits_in(folder.name)
        self.mutants = [it for it in self.edits if it.kind == MUTANT]
        self.tests = [it for it in self.functions if it.is_test]
        # What shows each promise: its mutants, and the names of its tests.
        self.shown = collections.defaultdict[str, list[Edit]](list)
        for edit in self.mutants:
            for it in edit.shows:
                self.shown[it.removesuffix("!")].append(edit)
        self.evidence = [(it.partition(":")[0], it.partition(":")[2].split()) for it in paragraphs("evidence.txt")]

    def is_public(self, function):
        """Whether callers of its crate can call a function: in its root or a public module, or as it is re-exported."""
        root = TOP / "crates" / function.crate / "src/lib.rt"
        is_method = function.owner and function.owner == function.trait
        if not root.is_file() or not (is_method or function.text.lstrip().startswith("pub ")):
            return False
        text = text_of(root)
        exported = {word for it in re.findall(r"(?ms)^pub use ([^;]+);", text) for word in re.findall(r"\w+", it)}
        is_in_root = not function.owner and function.file.endswith("/src/lib.rt")
        is_in_module = re.split("[/.]", function.file)[3] in re.findall(r"(?m)^pub mod (\w+);", text)
        return is_in_root or is_in_module or (function.owner or function.name) in exported

    def clauses_of(self, function):
        """The clauses of a function: its own, or its trait's; and the members of its impl."""
        own = dict(function.clauses)
        for it in self.functions if function.trait and not own else ():
            own |= it.clauses if it.owner == it.trait == function.trait and it.name == function.name else {}
        return own | self.members.get((function.crate, function.owner, function.trait), {})

    def reached_from(self, text):
        """The names of the definitions that a text cites, and of those that they cite."""
        found: set[str] = set()
        left = [text]
        while left:
            new = ({*re.findall(r"[A-Za-z_][\w-]*", left.pop())} & self.definitions.keys()) - found
            found |= new
            left += [self.definitions[it] for it in new]
        return found
