"""How `intaglio_dict freeze` and the `freeze` of the Python module, whose function `replace` frozen_replace.py runs, replace a
file: what they leave in its folder, and what they don't touch."""

import errno
import itertools
import os
import re
import signal
import stat
import subprocess
import sys
from collections import namedtuple
from collections.abc import Callable
from concurrent.futures import ThreadPoolExecutor
from pathlib import Path
from typing import Any

import pytest
from formats import ended, freeze
from programs import BUILDS
from tool import NAME, OF_PROGRAM, WAS, read, seen

STRINGS = [b"b", b"a"]
# What the program names if the new file can't be made or written: that file, by a name that was drawn.
NEW = r"\.intaglio\.[0-9a-f]{16}\.new"
HOW: dict[str, Any] = {"capture_output": True, "timeout": 20}
# Under this a file that grows longer than 10 bytes raises a signal, and under the second it is a failed write.
LIMITED = ("prlimit", "--fsize=10")
FAILING = (*LIMITED, "env", "--ignore-signal=XFSZ")


class Writer(namedtuple("Writer", "command given noise start new")):
    """What freezes to a path: a command, what it reads, an option for noise, how messages begin, and how they call a new file."""

    def __call__(self, path, under=(), strings=STRINGS, umask=-1, **settings):
        """The status of a process that freezes strings to a path, and what it said."""
        ran = subprocess.run([*under, *self.command, path], input=self.given(strings), umask=umask, env=settings, **HOW)
        return ran.returncode, (ran.stdout + ran.stderr).decode(errors="surrogateescape").strip()

    def freezes(self, path, **how):
        """Whether it says nothing, and the file then is the frozen table."""
        assert self(path, **how) == (0, "")
        return read(path) == freeze(STRINGS)

    def said(self, path, what):
        return 1, f"{self.start}{path}: {what}"


MODULE = Writer([sys.executable, "-S", f"{Path(__file__).resolve().parent}/frozen_replace.py"], freeze, "--noisy", "", "dict")


def writer_of(request, name):
    if name == "module":
        return MODULE
    return Writer([request.getfixturevalue("tools")(name).path, "freeze", "-o"], ended, "--progress", f"{NAME}: ", NEW)


@pytest.fixture(params=["module", *OF_PROGRAM])
def writer(request):
    return writer_of(request, request.param)


PROGRAM = pytest.mark.parametrize("writer", OF_PROGRAM, indirect=True)


def mode_of(path):
    return stat.S_IMODE(os.stat(path).st_mode)


def as_file(path, mode=0o644):
    Path(path).write_bytes(WAS)
    os.chmod(path, mode)


def as_link(path):
    as_file("target")
    os.symlink("target", path)


# What is planted that is somebody else's.
PLANTED: dict[str, Callable] = {"a file": as_file, "a link": as_link, "a folder": os.mkdir, "a pipe": os.mkfifo}


@pytest.mark.parametrize("what", PLANTED)
def test_files_of_others(writer, what):
    """What is at the name of the path with .new is somebody else's: it is neither written to, nor removed, nor waited for."""
    PLANTED[what]("dict.new")
    before = seen()
    assert writer.freezes("dict") and before.items() <= seen().items()


@PROGRAM
def test_drawn_names_that_are_taken(writer, library):
    """All is left as it was, and the next is drawn, until there is none."""
    settings = {"LD_PRELOAD": library, "SAME_RANDOM": "1"}
    drawn = [f".intaglio.{number:016x}.new" for number in range(1000)]
    for planted, name in zip(PLANTED.values(), drawn):
        planted(name)
    before = seen()
    assert writer.freezes("dict", **settings) and before.items() <= seen().items()
    os.remove("dict")
    for name in drawn[len(PLANTED) :]:
        as_file(name)
    before = seen()
    assert writer("dict", **settings) == writer.said("dict", "no name is free beside it") and seen() == before


@pytest.mark.parametrize("mode", [None, 0o600, 0o640, 0o444, 0o755])
def test_modes(writer, mode):
    """That of a new file is by the mask, and that of an old one stays."""
    for mask in (0o022, 0o077):
        if mode:
            as_file("dict", mode)
        assert writer.freezes("dict", umask=mask)
        assert mode_of("dict") == (mode or 0o666 & ~mask)
        os.remove("dict")


@PROGRAM
def test_a_process_that_is_killed(writer):
    """It is killed as it writes, and so leaves its file, which only its owner reads. (Python ignores the signal.)"""
    as_file("dict", 0o604)
    killed, _ = writer("dict", LIMITED)
    left = [it for it in os.listdir() if it != "dict"]
    assert (killed, read("dict"), [*map(mode_of, left)]) == (-signal.SIGXFSZ, WAS, [0o600])
    assert writer.freezes("dict") and all(map(os.path.exists, left))


def test_links(writer):
    """A symbolic link stays one: what it leads to is replaced, or made."""
    os.mkdir("one")
    os.mkdir("two")
    target = os.path.abspath("two/target")
    os.symlink("../two/between", "one/dict")
    os.symlink(target, "two/between")
    for mode in (None, 0o640):
        if mode:
            as_file(target, mode)
        assert writer.freezes("one/dict") and read(target) == freeze(STRINGS)
        assert (os.readlink("one/dict"), os.readlink("two/between")) == ("../two/between", target)
    assert mode_of(target) == mode
    assert (os.listdir("one"), sorted(os.listdir("two"))) == (["dict"], ["between", "target"])
    os.symlink("circle", "circle")
    assert writer("circle") == writer.said("circle", os.strerror(errno.ELOOP)) and os.readlink("circle") == "circle"


@pytest.mark.parametrize("name", ["there", "link"])
@pytest.mark.parametrize("kind", ["a pipe", "a device"])
def test_irregular_files(writer, name, kind):
    """What is no regular file isn't replaced: the program writes to devices and pipes, and the Python module refuses them."""
    try:
        os.mkfifo("there") if kind == "a pipe" else os.mknod("there", stat.S_IFCHR | 0o666, os.makedev(1, 3))
    except PermissionError:
        pytest.skip(f"{kind} can't be made here")
    os.symlink("there", "link")
    was, reader = os.stat("there").st_mode, os.open("there", os.O_RDONLY | os.O_NONBLOCK)
    assert writer(name) == (writer.said(name, "not a regular file") if writer is MODULE else (0, ""))
    if writer is not MODULE and kind == "a pipe":
        assert os.read(reader, 1 << 16) == freeze(STRINGS)
    os.close(reader)
    assert os.stat("there").st_mode == was and sorted(os.listdir()) == ["link", "there"] and os.path.islink("link")


def test_names(writer, folder):
    """Names of up to 255 bytes, in the working folder too."""
    for name in ("n" * 255, "é" * 127 + "n", "d.new", ".dict"):
        for path in (name, os.path.abspath(name)):
            assert writer.freezes(path)
            os.remove(path)
    long, other = f"{folder}/{'n' * 256}", os.fsencode(folder) + b"/\xff"
    assert writer(long) == writer.said(long, os.strerror(errno.ENAMETOOLONG))
    if writer is MODULE:
        assert writer.freezes(other)
    else:
        assert writer(other) == (2, f"{NAME}: argument 3 isn't UTF-8: '{folder}/\\xff'")


def test_errors(writer):
    """An error names the file that it is about, and what was there stays."""
    path = os.path.abspath("dict")
    as_file(path)
    before = seen()
    for target, under, new, error in (
        (os.path.abspath("absent/dict"), (), os.path.abspath("absent"), errno.ENOENT),
        (path, FAILING, os.path.dirname(path), errno.EFBIG),
    ):
        status, told = writer(target, under)
        start, end = (re.escape(it) for it in writer.said(new, os.strerror(error))[1].split(f"{new}: "))
        assert status == 1 and re.fullmatch(f"{start}{re.escape(new)}/{writer.new}: {end}", told)
    status, told = writer("none/")
    assert status == 1 and told.startswith(writer.said("none", "")[1][:-2]) and seen() == before


@pytest.mark.parametrize("streams", [it for count in (1, 2, 3) for it in itertools.combinations(range(3), count)])
def test_closed_streams(writer, streams):
    """Nothing that is said goes into the file."""
    Path("given").write_bytes(writer.given(STRINGS))
    words = [*writer.command, "dict", writer.noise, "given"]
    done = subprocess.run(words, preexec_fn=lambda: [*map(os.close, streams)], **HOW)
    assert done.returncode == 0 and read("dict") == freeze(STRINGS)
    if streams == (0,):
        done = subprocess.run([*writer.command, "other"], preexec_fn=lambda: os.close(0), **HOW)
        assert done.returncode == 1 and sorted(os.listdir()) == ["dict", "given"]


@pytest.mark.parametrize("names", [
    ["module"], *(pytest.param(it, marks=pytest.mark.program) for it in ([BUILDS[0]], [BUILDS[1]], [BUILDS[0], "module"])),
])
@pytest.mark.parametrize("count", [2, 4])
def test_several_processes(request, names, count):
    """Several freeze to one file at once, and in each second round one fails: the file is always that of one that succeeded."""
    writers = [writer_of(request, it) for it in names * (count // len(names))]
    lists = [[b"%d %d" % (it, number) for number in range(1500 + 400 * it)] for it in range(count)]
    tables = [*map(freeze, lists)]
    for turn in range(25):
        failing = turn // 2 % count if turn % 2 else None
        under = [FAILING if it == failing else () for it in range(count)]
        with ThreadPoolExecutor(count) as pool:
            ended_as = pool.map(lambda writer, *how: writer("dict", *how)[0], writers, under, lists)
        assert [*ended_as] == [int(it == failing) for it in range(count)], turn
        is_right = read("dict") in [it for number, it in enumerate(tables) if number != failing] and os.listdir() == ["dict"]
        assert is_right, turn
        if turn % 3 == 0:
            os.remove("dict")
