"""All that the scripts here take from the toolchain's own `rt`, which promises none of it: names of its module, and sentences
of its prover. `load` stops under another version than the one below: see then that each of these still stands, and edit the line.
"""

import functools
import hashlib
import importlib.machinery
import os
import re
import shutil
import subprocess
import sys
import tempfile
import types
from pathlib import Path

TOP = Path(__file__).resolve().parent.parent
VERSION = "rattle-kit-13f logic dac8208d650f15bf"
# The variable of the environment that says to a check that others run beside it.
BESIDE = "INTAGLIO_BESIDE"
# How the names of the folders begin in which edits are tried.
SCRATCH = "mutants-"
# What `fmt --check` says of a file.
NOT_LAID_OUT = re.compile(r"^(.*) is not in the layout$", re.M)

# What `rt ci` says of a crate that it has proved, now or in an earlier run, and at its end where all went well.
PROVED_CRATE = re.compile(r"^rt: (\w+) (?:proved$|is kept: )", re.M)
ALL_PASSED = re.compile(r"^\d+ passed, 0 failed$", re.M)
# What the prover says of a function, `fn CRATE::PATH: WORDS`, after the notes on its open goals.
FUNCTION = re.compile(r"^fn (\S+): (.*)$")
PROVED = re.compile(r"^proved\b")
# How rt's pattern of the last line ends, and that line's word on libraries that were built with what earlier checks kept.
ENDS, KEPT_WORK = r"\n\Z", "incremental=trusted"
# The function's own goals may all be closed: it can't be told, or is told, while a function that it calls isn't proved.
CALLS_UNPROVED = re.compile(
    r"^(not proved; |no proof: )(it calls|the borrow checker's part in its proof is not made yet: a call of)"
)
NOT_PROVED = re.compile(r"^not proved(?:; it calls .* not proved)?$")
OPEN_GOAL = re.compile(r"^note: \S+:\d+:\d+: it is not proved that")
LEFT_OPEN = re.compile(r"`search` did not prove (?:`[^`]+`(?:, )?)+")
# An error in the files of a function's proof: the path of the function, with / for ::.
PROOF_ERROR = re.compile(r"^(?:\./)?proofs/(\S+)/(?:Answers|Invariants|Proof)\.antt:\d+:\d+: error: ")
# The goal's name in a line of these, and what it is a goal of: of a clause, `clause-NAME`, or else by a word of its name.
GOAL = re.compile(r"(?:error: `|\(`)([^`]+)`[:)]")
OF_CLAUSE = re.compile(r"clause-([a-z]\w*)")
OF_OTHERS = {"invariant_of": "invariant", "requires": "requires", "loop": "loop", "returns": "ensures", "bounds": "bounds"}
# The answers that rest on a lemma of their file which isn't proved.
RESTING = re.compile(r"declarations? that depends? on `([^`]+)`, which was rejected, (?:was|were) not checked: (.+)$")
# An answer that names what an edit took away. That shows nothing of the contract, and `rt must-fail` says so too.
BROKEN_NAME = re.compile(r"has no field|is not in scope|has no `|was not admitted")
# The answer by which a function is spoilt.
SPOILT = re.compile(r": error: `spoilt`: ")
# What provers hold of the memory that `rt` plans for them: what each counts as its own, and its share of what several read.
HELD_OF_NEED = 0.5
# How `rt` names the task of proving a crate.
PROOF = "proof"


@functools.lru_cache(maxsize=None)
def load():
    """The toolchain's `rt`, as a module. What stands below a crate is read as statements, as under `rt ci`."""
    path = os.path.realpath(shutil.which("rt") or sys.exit("Rattle's rt isn't on the PATH: what isn't proved yet needs it"))
    version = subprocess.run([path, "version"], capture_output=True, text=True).stdout.strip()
    if version != VERSION:
        sys.exit(f"checks/toolchain.py is for '{VERSION}', and not for '{version}': see that what it names still stands")
    sys.path.insert(0, os.path.dirname(path))
    module = types.ModuleType("rt")
    module.__file__ = path
    importlib.machinery.SourceFileLoader("rt", path).exec_module(module)
    module.Crate.cuts_libraries = True
    module.rtlib.Crate = module.Crate
    # (a verdict's last line may end in KEPT_WORK, as it does over a library that `rt lib` made)
    verdict = module.rtlib.VERDICT
    if not verdict.pattern.endswith(ENDS):
        sys.exit("checks/toolchain.py: the pattern of rt's last line doesn't end as it did")
    pattern = verdict.pattern.removesuffix(ENDS) + f"(?: {KEPT_WORK})?{ENDS}"
    module.rtlib.VERDICT = re.compile(pattern, verdict.flags)
    # Whatever it starts ends with this process. (The first call sets a signal's handler, which the main thread alone may.)
    module.rtlib.guarded()
    return module


def crates(top=TOP):
    return load().rtlib.crates_below(str(top))


def wrong_layouts():
    """The files that aren't laid out as `rt fmt` does. (`rt ci` says so only when it comes to the crate, after those below.)"""
    rt, out = load().rtlib, subprocess.DEVNULL
    files = [file for it in crates() for file in rt.files_of(it.folder) if file.endswith((".rt", ".antt"))]
    ran = subprocess.run([rt.RATTLE, "fmt", "--check", *files], stdin=out, stdout=out, stderr=subprocess.PIPE, errors="replace")
    for file in (os.path.relpath(it, TOP) for it in NOT_LAID_OUT.findall(ran.stderr)):
        yield f"{file}: not in the layout: run rt fmt in {'/'.join(file.split('/')[:2])}"


def is_built(library):
    """Whether the library is built from the sources as they are, and over those below it as they are."""
    stamp, made = Path(library.folder, "out/rlib/stamp"), Path(library.rlib)
    if not (made / "format").is_file():
        return False
    if stamp.is_file():
        return library.is_built()
    # (what `rt ci` builds has no stamp, and can be used over its own libraries alone; a file that it kept from an earlier run is
    # older than its folder here)
    is_of_ci = not any(Path(it.folder, "out/rlib/stamp").is_file() for it in library.below())
    return newest_of([library]) <= made.stat().st_mtime and is_of_ci


def newest_of(crates):
    return max(os.path.getmtime(file) for it in crates for file in load().rtlib.files_of(it.folder))


def build_missing(libraries):
    """Builds those of these libraries, lowest first, that aren't built: `rt ci` gives back what was built before it."""
    for it in (it for it in libraries if not is_built(it)):
        print(f"{it.name} isn't built from the sources as they are: rt lib builds it", flush=True)
        ran = subprocess.run(["rt", "lib"], cwd=it.folder, stdin=subprocess.DEVNULL, capture_output=True, text=True)
        if ran.returncode:
            sys.exit(f"{it.name} isn't proved:\n{without_good_news(ran.stdout + ran.stderr)[-3000:]}")


def processors():
    return load().processors()


def jobs():
    return ["--jobs", "1" if BESIDE in os.environ else str(processors())]


def provers_outside(name):
    """How many provers are at work on this machine, but for those in folders whose names begin so."""
    count = 0
    for process in Path("/proc").glob("[0-9]*"):
        try:
            is_prover = (process / "comm").read_text(errors="replace") == "rattle\n"
            if is_prover and not Path(os.readlink(process / "cwd")).name.startswith(name):
                states = [it.read_text(errors="replace").rpartition(")")[2].split()[0] for it in process.glob("task/*/stat")]
                count += not {*states}.isdisjoint("RD")
        except OSError:
            continue
    return count


def checked(crate, texts, functions, are_spoilt, kept, stubs):
    """What a check prints of these functions, each with the one whose proof it takes, in a copy of the crate with these texts,
    over what `kept` holds; and the first line by which the prover can't read a text, or can't use a library's kept work."""
    rt, only = load(), [word for function in functions for word in ("--only", function)]
    words = [rt.rtlib.RATTLE, "check", *crate.words(["--jobs", "1", *only], keeps=False), "--incremental", kept]
    with tempfile.TemporaryDirectory(prefix=SCRATCH) as room:
        for part in (it for it in rt.rtlib.PARTS if Path(crate.folder, it).is_dir()):
            shutil.copytree(Path(crate.folder, part), Path(room, part))
        for path, text in texts.items():
            Path(room, path).write_text(text, encoding="utf-8")
        give_proofs(Path(room, "proofs"), functions, are_spoilt, stubs)
        command, null = [*rt.rtlib.guarded(), *words], subprocess.DEVNULL
        ran = subprocess.run(command, cwd=room, stdin=null, capture_output=True, errors="replace")
    said = ran.stdout + ran.stderr
    return said, next((it for it in said.splitlines() if rt.unread(it, texts) or rt.rtlib.STALE.search(it)), None)


def give_proofs(proofs, functions, are_spoilt, stubs):
    """Gives each function the proof of the one that it is a copy of, or one with no answers, by which all goals are left to the
    prover. A spoilt one has an answer that can't be read: then the prover writes no answers to start from for open goals, which
    takes a sixth of a check. If there are stubs, all other functions have an empty file, and no proof is searched for them."""
    folders = {it: proofs.joinpath(*it.split("::")) for it in (*functions, *functions.values(), *stubs)}
    for function, whose in functions.items():
        if function != whose and folders[whose].is_dir():
            shutil.copytree(folders[whose], folders[function])
            old, new = (f".{it.replace('::', '.')}." for it in (whose, function))
            for path in folders[function].glob("*.antt"):
                path.write_text(path.read_text(encoding="utf-8").replace(old, new), encoding="utf-8")
    own = {it.parent for name in ("Answers", "Invariants", "Proof") for it in proofs.glob(f"**/{name}.antt") if stubs}
    for folder in own.union(folders[it] for it in stubs).difference(folders[it] for it in functions):
        folder.mkdir(parents=True, exist_ok=True)
        for name in ("Answers", "Invariants"):
            (folder / f"{name}.antt").unlink(missing_ok=True)
        (folder / "Proof.antt").write_text("-- No proof.\n", encoding="utf-8")
    for answers in (folders[it] / "Answers.antt" for it in functions):
        if not answers.is_file() and not answers.with_name("Proof.antt").is_file():
            answers.parent.mkdir(parents=True, exist_ok=True)
            answers.write_text("-- No goal has an answer of its own.\n", encoding="utf-8")
        if are_spoilt and answers.is_file():
            with open(answers, "a", encoding="utf-8") as file:
                file.write("\nspoilt : no_such_name\nspoilt = no_such_name\n")


class Verdicts:
    """What the prover said of edits, in any run on this machine, kept as `rt` keeps such, under a sum of the kit, the crate's
    files and those below it, the edit and the scripts. Beside an `rt ci` only what was said over the libraries of one counts."""

    def __init__(self, scripts, is_anew, is_beside_ci):
        # (the files are looked at here, and again as something is kept)
        self.kept, self.stamps = load().Kept(crates(), is_anew), dict[str, str]()
        self.scripts, self.is_beside_ci = [load().rtlib.sum_of(it) for it in scripts], is_beside_ci

    def name(self, crate, edit, is_of_ci):
        stamp = load().stamp_of(crate, self.stamps)
        return hashlib.sha256(repr((stamp, self.scripts, edit, is_of_ci)).encode()).hexdigest()

    def known(self, crate, edit):
        return (self.kept.tried(self.name(crate, edit, self.is_beside_ci)) or (None, None))[1]

    def keep(self, crate, edit, said):
        """Keeps what was said of it, unless a file of the crate or of those below it was touched since this run began."""
        if all(map(self.kept.is_untouched, [crate, *crate.below()])):
            for is_of_ci in {False, self.is_beside_ci}:
                self.kept.keep_tried(self.name(crate, edit, is_of_ci), load().REFUSED, said)


def crate_above(room, name):
    """A crate in a scratch folder that lists every library of this repository, and of the kit, that crates.txt names."""
    every = crates()
    rlibs = {it.name: it.rlib for it in every if it.makes_rlib()}
    build_missing([it for it in every if it.name in rlibs])
    for folder in (*(f"{it.name}/src" for it in every), f"{name}/src", f"{name}/out"):
        os.makedirs(f"{room}/crates/{folder}")
    listed = " ".join([*rlibs, *sorted({dep for it in every for dep in it.of_kit if dep != "std"})])
    rows = (TOP / "crates.txt").read_text(encoding="utf-8")
    Path(room, "crates.txt").write_text(f"{rows}{name}: {listed}\n", encoding="utf-8")
    crate = next(it for it in crates(room) if it.name == name)
    for it in crate.below():
        it.rlib = rlibs[it.name]
    return crate


def heard(crate, call):
    """The status of a call that works on the crate, and what was printed."""
    with tempfile.TemporaryFile("w+", errors="replace") as crate.out:
        try:
            status = call()
        except SystemExit as stopped:
            status = stopped.code or 2
        crate.out.seek(0)
        return status, crate.out.read()


def tested(crate):
    """Whether the crate's tests are proved and built, and the status of that, or else of their run, and what it printed."""
    status, said = heard(crate, lambda: crate.ci(jobs(), True))
    if status:
        return False, status, said
    command = [load().rtlib.RUNNER, "--seconds", "60", f"{crate.folder}/out/{crate.name}_tests"]
    ran = subprocess.run(command, stdin=subprocess.DEVNULL, stdout=subprocess.PIPE, stderr=subprocess.STDOUT, errors="replace")
    return True, ran.returncode, ran.stdout


def standing_on(names):
    """The crates of these names and those that they stand on, lowest first. No other `rt` works in them from now on."""
    every = {it.name: it for it in crates()}
    wanted = [every.get(it) or sys.exit(f"crates.txt lists no {it}") for it in names]
    found = [*dict.fromkeys(it for crate in wanted for it in (*crate.below(), crate))]
    load().rtlib.lock(found)
    return found


def is_proved(crate):
    """Whether the crate was proved as it is now, here or in another checkout on this machine, whose library is then taken."""
    if not crate.is_program:
        return crate.is_built() or load().take_rlib(crate)
    is_there = os.path.exists(f"{crate.folder}/out/{crate.name}")
    return is_there and load().rtlib.text_of(f"{crate.folder}/out/rlib/stamp") == crate.stamp()


def proved(crate, jobs):
    """The status of proving the crate and building, as `rt ci` does, a program or a library, and what was printed."""
    stamp, kept = crate.stamp(), Path(crate.folder, "out/rlib")
    # (a library with its proofs, so that `rt lib` and other checkouts on this machine take it)
    crate.cuts_libraries = False
    shutil.rmtree(kept, ignore_errors=True)
    kept.mkdir(parents=True)
    status, said = heard(crate, lambda: crate.ci(["--jobs", str(jobs)], False))
    if not status and stamp == crate.stamp():
        (kept / "stamp").write_text(stamp, encoding="utf-8")
        load().offer(crate, stamp)
    return status, said


def built_static(name):
    """What proving and building a static library, over the libraries that `rt ci` leaves, printed where it failed, or nothing."""
    crate = next(it for it in crates() if it.name == name)
    made = Path(crate.folder, f"out/lib{name}.a")
    if made.is_file() and newest_of([*crate.below(), crate]) <= made.stat().st_mtime:
        return ""
    build_missing(crate.below())
    made.parent.mkdir(exist_ok=True)
    status, said = heard(crate, lambda: crate.build_static(jobs()))
    return said if status else ""


def copied_proofs(repository, names):
    """Copies what `rt lib` made of these crates, lowest first, to a repository that has the same sources of them and of those
    below. Returns the names of those that are proved there now. No other `rt` works in them from now on."""
    here, there = ({it.name: it for it in crates(top)} for top in (TOP, repository))
    load().rtlib.lock([of[it] for of in (here, there) for it in names])
    for mine, theirs in ((here[it], there[it]) for it in names):
        if mine.is_built() and not theirs.is_built() and mine.stamp() == theirs.stamp():
            to, whole = Path(theirs.folder, "out/rlib"), Path(theirs.folder, "out/copied")
            shutil.rmtree(whole, ignore_errors=True)
            shutil.copytree(Path(mine.folder, "out/rlib"), whole)
            shutil.rmtree(to, ignore_errors=True)
            whole.rename(to)
    return [it for it in names if there[it].is_built()]


def without_good_news(said):
    """What a check printed, without the lines on what is proved and what was loaded."""
    return re.sub(r"(?m)^(\w+ \S+: proved$|fn \S+: proved|statements |logic /|rt: chose ).*\n", "", said)


def in_lanes(tasks):
    """Whether all tasks are done, side by side: each has its crate, what it waits for, its seconds, and the call that does it."""
    rt = load()
    every = {(it.name, PROOF): (waits, seconds, HELD_OF_NEED * rt.need(it), call) for it, waits, seconds, call in tasks}
    return all(rt.in_lanes(every).values())
