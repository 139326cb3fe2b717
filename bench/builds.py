"""The two programs are built, and what they are built with is said."""

import os
import shutil
import subprocess
import sys
from datetime import date
from pathlib import Path

# The processor that the toolchain compiles for, so that both programs may use the same instructions.
PROCESSOR = "x86-64-v2"

MANIFEST = """[package]
name = "intaglio"
version = "1.15.1"
edition = "2024"

[features]
default = ["bytes", "cstr", "osstr", "path"]
bytes = []
bstr = []
cstr = []
osstr = []
path = []
"""

# Where Debian's packages of Rust crates put their sources: librust-hashbrown-dev and librust-indexmap-dev.
REGISTRY = Path("/usr/share/cargo/registry")

# The feature of the Rust program that each is for, and how the program depends on it. Both have the same version of hashbrown.
HASHBROWN, INDEXMAP = "hashbrown-0.12", "indexmap-1"
DEPENDENCIES = {
    HASHBROWN: ("rivals", '\n[dependencies.hashbrown]\nversion = "0.12"\nfeatures = ["raw"]\n'),
    INDEXMAP: ("index_set", '\n[dependencies.indexmap]\nversion = "1.9"\nfeatures = ["std"]\n'),
}


def build_ours(top):
    """Proves and builds the program in crates/bench."""
    run(["rt", "run", "--", "check", "both", "keyed", "0", "300", "1"], top / "crates/bench")
    return top / "crates/bench/out/bench"


def build_tool(top):
    """Proves and builds the program in crates/intaglio_tool."""
    run(["rt", "run", "--", "text"], top / "crates/intaglio_tool")
    return top / "crates/intaglio_tool/out/intaglio_tool"


def build_restore(top):
    """Proves and builds the program in crates/intaglio_restore, which is run on the least input that is well formed."""
    run(["rt", "run"], top / "crates/intaglio_restore", given="\n")
    return top / "crates/intaglio_restore/out/intaglio_restore"


def build_dict(top):
    """Proves and builds the program in crates/intaglio_dict."""
    run(["rt", "run", "--", "--version"], top / "crates/intaglio_dict")
    return top / "crates/intaglio_dict/out/intaglio_dict"


def lay_out(scratch, upstream):
    """Writes the Rust crate's sources, which are text files in UPSTREAM, as a crate in the scratch folder."""
    crate = scratch / "intaglio"
    shutil.rmtree(crate, ignore_errors=True)
    files = sorted(upstream.glob("src--src--*.rs.txt"))
    if not files:
        sys.exit(f"bench: no sources of the Rust crate in {upstream}")
    for file in files:
        path = crate / file.name.removesuffix(".txt").removeprefix("src--").replace("--", "/")
        path.parent.mkdir(parents=True, exist_ok=True)
        shutil.copyfile(file, path)
    (crate / "Cargo.toml").write_text(MANIFEST)
    return crate


def build_twin(top, scratch, upstream, name="twin"):
    """Lays the Rust crate out in the scratch folder, and builds the twin's program of that name over it."""
    lay_out(scratch, upstream)
    twin = scratch / "twin"
    shutil.rmtree(twin / "src", ignore_errors=True)
    shutil.copytree(top / "bench/rust", twin, dirs_exist_ok=True)
    build = ["cargo", "build", "--release", "--offline"]
    for crate in filter(of_debian, DEPENDENCIES):
        feature, lines = DEPENDENCIES[crate]
        with open(twin / "Cargo.toml", "a") as manifest:
            manifest.write(lines)
        build += ["--features", feature]
    if any(map(of_debian, DEPENDENCIES)):
        build += ["--config", 'source.crates-io.replace-with="debian"']
        build += ["--config", f'source.debian.directory="{REGISTRY}"']
    (twin / "Cargo.lock").unlink(missing_ok=True)
    run(build, twin, {"RUSTFLAGS": f"-C target-cpu={PROCESSOR}"})
    return twin / "target/release" / name


def of_debian(crate):
    """Debian's crate of this name and version, or None where it isn't there."""
    return next((path.name for path in sorted(REGISTRY.glob(f"{crate}.*"))), None)


def absent():
    """The tables that can't be measured, since what they stand on isn't there."""
    of_crate = {HASHBROWN: ("boxes", "buffer"), INDEXMAP: ("index_set",)}
    return {table for crate, tables in of_crate.items() if not of_debian(crate) for table in tables}


def run(command, folder, more=None, given=""):
    """Runs a command, and ends with what it said where it fails."""
    done = subprocess.run(
        command,
        cwd=folder,
        env=os.environ | (more or {}),
        input=given,
        capture_output=True,
        text=True,
    )
    if done.returncode != 0:
        sys.exit(f"{done.stdout}{done.stderr}bench/run: {' '.join(command)} failed")
    return done.stdout.strip()


def conditions(top, ends=False):
    """What the figures were made with, in lines."""
    load = "%.1f, %.1f, %.1f" % os.getloadavg()
    if ends:
        return [f"- load averages at the end: {load}"]
    return [
        f"- made by `bench/{Path(sys.argv[0]).name}` on {date.today()}, of {commit(top)}",
        f"- {run(['rt', 'version'], top)}",
        f"- {run(['rustc', '--version'], top)}, opt-level 3, one codegen unit, link-time optimisation, {PROCESSOR}",
        f"- {processor()}, {os.cpu_count()} processors; huge pages: {huge_pages()}",
        f"- load averages at the start: {load}",
    ]


def commit(top):
    """Which commit was measured."""
    git = ["git", "-C", str(top), "describe", "--always", "--dirty"]
    done = subprocess.run(git, capture_output=True, text=True)
    return f"commit {done.stdout.strip()}" if done.returncode == 0 else "no commit"


def huge_pages():
    """For which memory the kernel gives huge pages: what stands in brackets is so."""
    path = Path("/sys/kernel/mm/transparent_hugepage/enabled")
    return path.read_text().strip() if path.exists() else "none"


def processor():
    """The name of the processor."""
    with open("/proc/cpuinfo") as lines:
        for line in lines:
            if line.startswith("model name"):
                return line.split(":", 1)[1].strip()
    return "processor unknown"
