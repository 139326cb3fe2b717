"""Each output of `intaglio_dict` is a file of its own: if one is also an input or another output, the command is refused, and
nothing is changed. For each command, each pair of these is one file, which each of the two names in each way that it can: by a
path, a symbolic or hard link, a dangling link, or as a standard stream. Or standard input is two inputs, or a name is empty.
"""

import contextlib
import itertools
import os
import subprocess
from collections import namedtuple
from pathlib import Path
from typing import Any

import pytest
from formats import dictionary_of, ended, maps_of, packed, put
from tool import ONE_STANDARD_INPUT, WAS, WORDS, also_output, said, seen

WHOLE = dictionary_of(WORDS)
TABLE = WHOLE.files()["0.dict"]
# What is in the inputs, so that each command would end with status 0. Other words aren't the names of files.
CONTENTS = {
    "lines": ended(WORDS), "dict": TABLE, "codes": packed([1, 0, 19]), "column": WHOLE.column(WORDS[:3]), "--into dict": TABLE,
}
# What is otherwise read from standard input.
NUMBERS = {"3": b"3\n0\n"}
# A command: its words, what its inputs are, behind their options, of which one with ? is standard input if it isn't named, and
# its outputs, of which one with ! isn't standard output if it isn't named.
Command = namedtuple("Command", "words inputs outputs")
ROWS = (
    ("freeze", "lines?", "-o! --column"), ("freeze", "lines, lines", "-o!"), ("find", "dict, lines?", "stdout"),
    ("get", "dict, 3?", "stdout"), ("list", "dict", "stdout"), ("check", "dict, column", "stdout"), ("stat", "dict", "stdout"),
    ("encode", "dict, lines?", "-o"), ("encode --raw", "dict, lines, lines", "-o"),
    ("decode", "dict, column?", "-o"), ("decode --raw", "dict, codes?", "-o"),
    ("rows", "dict, column, 0", "stdout"), ("count", "dict, column", "stdout"),
    ("match --invert", "dict, column, word0", "stdout"),
    ("renumber --maps maps", "column, --into dict", "-o"), ("merge", "dict, dict", "-o!"),
)
COMMANDS = [Command(words, inputs.split(", "), outputs.split()) for words, inputs, outputs in ROWS]
EACH = pytest.mark.parametrize("command", [pytest.param(it, id=f"{it.words} {' '.join(it.inputs)}") for it in COMMANDS])
# How a file is named: from the folder that the program runs in, with what makes a link to the file.
NAMES = ("file", "folder/.././file", "folder/link", "link")
# An input or an output: its name, if it is another file, its option, what it is, whether it can be named, and whether it needn't
# be, and how it is redirected. And how it is given: words behind its option, and what standard input or output is opened with.
Slot = namedtuple("Slot", "name role option what is_named is_standard modes")
Way = namedtuple("Way", "called words mode", defaults=((), ""))


def slots(command):
    """The outputs and the inputs of a command."""
    for number, what in enumerate(command.outputs):
        option, modes = [what.rstrip("!")] * (what != "stdout"), {">": "wb", ">>": "ab"}
        yield Slot(f"out{number}", "output", option, what, bool(option), what in ("-o", "stdout"), modes)
    for number, what in enumerate(command.inputs, 1):
        named = what.rstrip("?")
        yield Slot(f"in{number}", "input", what.split()[:-1], named, named in CONTENTS, what != named, {"<": "rb"})


def ways(slot, is_there):
    """The ways in which an input or output can be the file."""
    if slot.is_named:
        yield from (Way(name, (name,)) for name in NAMES + ("hard",) * is_there)
        yield from (Way(f"- and {sign}", ("-",), mode) for sign, mode in slot.modes.items())
    if slot.is_standard:
        yield from (Way(sign, (), mode) for sign, mode in slot.modes.items())


def words_of(command, given):
    """The words of a run. What isn't given to an input or output, by its name, is another file."""
    words = command.words.split()
    for slot in slots(command):
        put(".", {slot.name: CONTENTS[slot.what]} if slot.what in CONTENTS else {})
        other = (slot.name,) if slot.is_named else (slot.what,) * (slot.role == "input")
        of_slot = given.get(slot.name, Way("", other)).words
        words += [*slot.option * bool(of_slot), *of_slot]
    return words


def ended_as(tool, command, given={}, messages=None):
    """How the program ends, what it wrote and said, and whether all is as it was when it began. Messages may go to a file."""
    words = words_of(command, given)
    streams: dict[str, Any] = {"stdin": subprocess.DEVNULL, "stdout": subprocess.PIPE, "stderr": subprocess.PIPE}
    with contextlib.ExitStack() as opened:
        for way in filter(lambda it: it.mode, given.values()):
            streams["stdin" if way.mode == "rb" else "stdout"] = opened.enter_context(open("file", way.mode))
        if messages:
            streams["stderr"] = opened.enter_context(open(messages, "ab"))
        before = seen()
        ran = subprocess.run([tool.path, *words], timeout=60, **streams)
    return ran.returncode, ran.stdout or b"", (ran.stderr or b"").decode(errors="replace").splitlines(), before == seen()


@pytest.fixture(autouse=True)
def links(folder):
    """The folder of a map, and links to a file that isn't there yet."""
    os.mkdir("folder")
    put("maps", maps_of([WHOLE], WHOLE))
    os.symlink("../file", "folder/link")
    os.symlink("folder/link", "link")


def shown(way, standard):
    """How messages name it."""
    return way.words[-1] if way.words and way.words[-1] != "-" else f"standard {standard}"


def refused(command):
    """Yields what is given, what is in the file, which may not be there, and how the program ends."""
    for first, second in itertools.combinations(slots(command), 2):
        if second.role == "output":
            contents = [WAS, None]
        else:
            contents = [(CONTENTS | NUMBERS)[it] for it in [second.what] if it in CONTENTS | NUMBERS]
        if first.role == "input" and first.what in CONTENTS and contents:
            for words in [("-",)] * second.is_named + [()] * second.is_standard:
                given = {first.name: Way("", ("-",), "rb"), second.name: Way("", words)}
                yield f"{first.name} -, {second.name} {words}: standard input twice", given, WAS, said(2, ONE_STANDARD_INPUT)
        for content in contents if first.role == "output" else ():
            for one, other in itertools.product(*(ways(it, content is not None) for it in (first, second))):
                called = f"{first.name} {one.called}, {second.name} {other.called}{'' if content else ', not there'}"
                wanted = also_output(shown(other, second.role), shown(one, "output"), second.role)
                yield called, {first.name: one, second.name: other}, content, wanted
    for it in filter(lambda it: it.is_named, slots(command)):
        yield f"{it.name} empty", {it.name: Way("", ("",))}, None, said(2, f"the name of an {it.role} is empty")


@pytest.mark.parametrize("command, given, content, wanted", [
    pytest.param(command, *case, id=f"{number} {command.words}: {called}")
    for number, command in enumerate(COMMANDS) for called, *case in refused(command)
])
def test_refused_names(tool, command, given, content, wanted):
    """The program says why, and nothing else happens."""
    if content is not None:
        Path("file").write_bytes(content)
        os.link("file", "hard")
    assert ended_as(tool, command, given) == (*wanted, True)


@EACH
def test_messages(tool, command):
    """Messages would go into an input or a named output: nothing is said then, and nothing is changed."""
    for slot in filter(lambda it: it.is_named, slots(command)):
        words_of(command, {})
        if slot.role == "output":
            Path(slot.name).write_bytes(WAS)
        assert ended_as(tool, command, messages=slot.name) == (2, b"", [], True), slot


@EACH
def test_files_that_are_apart(tool, command):
    """The command ends with status 0; two inputs may be one file."""
    assert ended_as(tool, command)[0] == 0
    for one, other in itertools.combinations(slots(command), 2):
        if one.what == other.what:
            Path("file").write_bytes(CONTENTS[one.what])
            assert ended_as(tool, command, {one.name: Way("", ("file",)), other.name: Way("", ("link",))})[0] == 0
