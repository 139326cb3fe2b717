"""How the tests of `intaglio_dict` run it, in the working folder, and what they share."""

import os
import stat
from pathlib import Path

import pytest
from formats import dictionary_of, maps_of, merge_of, put
from programs import BUILDS, TOP, program, run

NAME = "intaglio_dict"
WAS = b"as it was"
WORDS = [b"word%d" % number for number in range(20)]
ONE_STANDARD_INPUT = "standard input can be only one of the inputs"
TRUSTED_FOLDER = "--trusted takes a file, and this is a folder of shards"
# Parameters: the executables of the two compilers.
OF_PROGRAM = [pytest.param(it, id=it or "first", marks=pytest.mark.program) for it in BUILDS]
# How the program ends if nobody reads its output.
UNREAD = 141, b""


def said(status, *lines, wrote=b""):
    """How the program ends, with these messages."""
    return status, wrote, [f"{NAME}: {it}" for it in lines]


def wrote(data, status=0):
    return said(status, wrote=data)


DONE = said(0)


def also_output(what, output, kind="input"):
    """That an input, or an output, is an output."""
    return said(2, f"{what}: this {kind} is also the output {output}; nothing was written")


def other_dictionary(name, table):
    return f"{name}: a column of another dictionary than {table}; name the one that it was written with"


def read(name):
    """The bytes of a file, or nothing if it isn't there."""
    return Path(os.fsdecode(name)).read_bytes() if os.path.exists(name) else None


def left():
    """The new files that weren't renamed."""
    return [*Path().rglob("*.new")]


def seen():
    """All that is in the working folder: of each name what it is, its number, its mode, and what is in it."""
    found = {}
    for path in Path().rglob("*"):
        it = path.lstat()
        inside = os.readlink(path) if path.is_symlink() else path.read_bytes() if path.is_file() else None
        found[str(path)] = it.st_ino, it.st_mode, it.st_nlink, stat.S_ISREG(it.st_mode) and it.st_mtime_ns, inside
    return found


class Tool:
    """The program, as one of the two compilers built it, by a link with its plain name, with which messages begin."""

    def __init__(self, build, folder, library):
        self.path, self.library = f"{folder}/{NAME}", library
        os.symlink(os.path.join(TOP, program(NAME, build)), self.path)

    def __call__(self, *words, given=b"", line=None, **settings):
        """The status, what it wrote, and the lines of standard error. In a line for a shell the command is "$@"."""
        return run([self.path, *words], given, line, **settings)

    def refuses(self, status, message, *words, given=b""):
        """Whether a command is refused by a message, and its output stays as it was."""
        Path("out").write_bytes(WAS)
        assert self(*words, given=given) == said(status, message)
        return read("out") == WAS and not left()


# Two parts in shards, the dictionary to which they are merged, and the lines of a column of the first, of which one is missing.
ONE, TWO = (dictionary_of((b"w%d" % it for it in range(start, start + 30)), 3) for start in (0, 20))
WHOLE, ROWS = merge_of([ONE, TWO]), [*ONE.strings[::-3], None]


def made():
    """Writes these three, a column of each, and the maps, by the writer in formats.py."""
    for name, it in (("0", ONE), ("1", TWO), ("whole", WHOLE)):
        put(name, it.files())
        put(".", {f"{name}.column": it.column([*it.strings[::-3], None])})
    put("maps", maps_of([ONE, TWO], WHOLE))
