"""Runs the built programs with the library that refuses their requests for memory."""
import os
import shutil
import subprocess
import sys
import tempfile
from concurrent.futures import ThreadPoolExecutor

TOP = os.path.realpath(os.path.join(os.path.dirname(os.path.abspath(__file__)), ".."))
BUILDS = ("", ".by-rattle")  # the two compilers' executables
OUT_OF_MEMORY = "out of memory"


def compiled(folder):
    """The library, as a compiler of the kit or of the machine makes it."""
    page = subprocess.run(["rt", "doc"], capture_output=True, text=True).stdout.strip()
    names = (os.path.join(os.path.dirname(page), "toolchain/bin/clang"), "clang", "cc", "gcc")
    library = f"{folder}/refuse.so"
    compiler = next((it for it in map(shutil.which, names) if it), None)
    if not compiler:
        sys.exit("no C compiler")
    subprocess.run([compiler, "-O2", "-fPIC", "-shared", "-nostdlib", "-o", library, f"{TOP}/checks/refuse.c"], check=True)
    return library


def answer_of(command, given=b"", line=None, **settings):
    """The status, and what went to standard output and to standard error. In a line for a shell the command is "$@"."""
    words = command if line is None else ["/bin/sh", "-c", line, "sh", *command]
    done = subprocess.run(words, input=given, capture_output=True, env=settings, timeout=60)
    return done.returncode, done.stdout, done.stderr


def run(*words, **settings):
    """The status, what went to standard output, and the lines of standard error."""
    status, wrote, told = answer_of(*words, **settings)
    return status, wrote, told.decode(errors="replace").splitlines()


def unread(command, given=b""):
    """The status, and what went to standard error, if the output is a pipe that nobody reads."""
    reader, writer = os.pipe()
    os.close(reader)
    with open(writer, "wb") as nobody:
        ended = subprocess.run(command, input=given, stdout=nobody, stderr=subprocess.PIPE, timeout=60)
    return ended.returncode, ended.stderr


def program(name, build):
    return f"crates/{name}/out/{name}{build}"


def check_built(names):
    """Ends with a message if a program isn't built."""
    missing = [it for it in (program(name, build) for name in names for build in BUILDS) if not os.access(it, os.X_OK)]
    if missing:
        sys.exit(f"not built: {' '.join(missing)}")


def side_by_side(rows, shown=lambda it: it):
    """What is shown of the items of generators, each with the name of its row; as many run at a time as there are processors."""
    with ThreadPoolExecutor(os.cpu_count()) as pool:
        found = pool.map(lambda row: [*map(shown, row[1])], rows)
        return [(name, it) for (name, _), every in zip(rows, found) for it in every]


def judge(checks, names):
    """Makes the checks, which return what is wrong, and ends with the status."""
    os.chdir(TOP)
    check_built(names)
    with tempfile.TemporaryDirectory() as folder:
        wrong = checks(compiled(folder))
    print(*wrong, sep="\n", end="\n" * bool(wrong))
    sys.exit(1 if wrong else 0)
