"""What `intaglio_dict` makes of dictionaries in shards: parts that are frozen, merged and renumbered, files that don't belong
together, and histories in which files are replaced, and processes killed."""

import contextlib
import itertools
import os
import random
import re
import shutil
import subprocess
import tempfile
from pathlib import Path
from typing import Any

import pytest
from formats import (
    BYTES, KINDS, TEXT, Damaged, Id, column, dictionary_of, ended, files_in, freeze, map_of, maps_of, merge_of,
    placed, put, read_column, read_dictionary,
)
from test_tables import check_commands
from tool import DONE, NAME, ONE, ROWS, TRUSTED_FOLDER, TWO, WAS, WHOLE, left, made, other_dictionary, read, said, seen, wrote

NO_FILE, CUT = "No such file or directory", "the file is truncated"
OF_ANOTHER_SET = "whole/1.dict: of another set than whole/0.dict; write both again"
OTHER, OTHER_SET = merge_of([TWO, ONE]), bytes(range(16))


def refused(tool, status, message, words):
    """Checks that the command says this, which is a pattern. Returns the files that it changed."""
    put(".", {"out": WAS})
    before = seen()
    ended_as, written, told = tool(*words.split())
    is_said = re.fullmatch(f"{NAME}: {message}", "\n".join(told))
    assert is_said and (ended_as, written) == (status, b""), (words, ended_as, written, told, message)
    return {path for path, _ in before.items() ^ seen().items() if not os.path.isdir(path)}


def check_freeze(tool, part, lines, kind, count):
    """Freezes lines to a file, or to a folder of so many shards. Returns the dictionary."""
    wanted, shards = dictionary_of(dict.fromkeys(lines), count or 1, kind), ["--shards", str(count)] if count else []
    # (the last line doesn't end, unless it is empty)
    put(".", {f"{part}.lines": b"\n".join(lines) + b"\n" * (lines[-1:] == [b""])})
    words = ["freeze", "--kind", KINDS[kind], *shards, "-o", part, "--column", f"{part}.column"]
    assert tool(*words, f"{part}.lines") == DONE
    assert files_in(part) == wanted.files() and read(f"{part}.column") == wanted.column(lines)
    return wanted


def check_parts(tool, parts, kind, count):
    """Tries the three steps on the lines of parts, whose dictionaries are files, or folders of so many shards, which are merged
    one by one. Once more they are merged at once: to the same, or if they are files to shards."""
    names = [*map(str, range(len(parts)))]
    for name in ("maps", "others", "again", "whole", *names):
        shutil.rmtree(name) if os.path.isdir(name) else Path(name).unlink(missing_ok=True)
    of_parts = [check_freeze(tool, *it, kind, count) for it in zip(names, parts)]
    whole = merge_of(of_parts)
    again, shards = (whole, []) if count else (merge_of(of_parts, 3), ["--shards", "3"])
    for shard in reversed(range(count or 0)):
        some = [f"{it}/{shard}.dict" if shard % 2 else it for it in names]
        assert tool("merge", "--shard", str(shard), *some, "-o", "whole", "--maps", "maps") == DONE
    assert count or tool("merge", *names, "-o", "whole", "--maps", "maps") == DONE
    assert tool("merge", *names, *shards, "-o", "again", "--maps", "others") == DONE
    for name, maps, wanted in (("whole", "maps", whole), ("again", "others", again)):
        assert files_in(name) == wanted.files() and read_dictionary(name) == wanted
        assert files_in(maps) == maps_of(of_parts, wanted)
    for name, lines in zip(names, parts):
        column, renumber = whole.column(lines), ["renumber", "--maps", "maps", f"{name}.column"]
        assert tool(*renumber, "-o", f"{name}.whole") == DONE and read(f"{name}.whole") == column
        assert tool(*renumber, "--into", "whole") == wrote(column) == tool("encode", "whole", f"{name}.lines")
    assert tool("decode", "whole", *(f"{it}.whole" for it in names)) == wrote(ended(itertools.chain(*parts)))
    check_commands(tool, "whole", whole)
    for command in ("find", "get") if count else ():
        assert tool(command, "--trusted", "whole", given=b"0\n") == said(2, f"whole: {TRUSTED_FOLDER}")
    assert not left()


@pytest.mark.parametrize("count", [1, 4])
def test_nested_merges(tool, count):
    """One folder has the maps of a merge of a merge. A column is renumbered once for each, or by maps that are composed."""
    parts = [dictionary_of((b"w%d" % it for it in range(start, start + 30)), count) for start in (0, 20, 40)]
    inner = merge_of(parts[:2])
    outer, lines = merge_of([inner, parts[2]]), parts[0].strings[::-2]
    for name, it in zip("abc", parts):
        put(name, it.files())
    put(".", {"column": parts[0].column([*lines, None])})
    assert tool("merge", "a", "b", "-o", "inner", "--maps", "maps") == DONE
    assert tool("merge", "inner", "c", "-o", "outer", "--maps", "maps") == DONE and files_in("outer") == outer.files()
    assert files_in("maps") == maps_of(parts[:2], inner) | maps_of([inner, parts[2]], outer)
    for source, name, whole in (("column", "once", inner), ("once", "twice", outer)):
        assert tool("renumber", "--maps", "maps", source, "-o", name) == DONE and read(name) == whole.column([*lines, None])
    os.mkdir("composed")
    for shard in range(count):
        name = parts[0].map_name(shard)
        assert tool("renumber", "--maps", "maps", f"maps/{name}", "-o", f"composed/{name}") == DONE
        assert read(f"composed/{name}") == map_of(parts[0], outer, shard)
    assert tool("renumber", "--maps", "composed", "column") == wrote(read("twice"))
    if count == 1:
        assert tool("merge", "a", "b", "c", "-o", "flat") == DONE and files_in("flat") == outer.files()


def test_folders_that_are_written_again(tool):
    """Shards of another set are replaced. Equal parts have one set, and one map."""
    made()
    same = merge_of([ONE] * 3)
    put("same", ONE.files(5, 6))
    assert tool("merge", "0", "same", "0", "-o", "whole", "--maps", "others") == DONE
    assert files_in("whole") == same.files() and files_in("others") == maps_of([ONE], same)
    assert tool("merge", "1", "0", "-o", "whole") == DONE and files_in("whole") == OTHER.files()
    for shard, told in ((0, OF_ANOTHER_SET), (1, OF_ANOTHER_SET.replace("1", "2")), (2, None)):
        assert tool("merge", "--shard", str(shard), "0", "1", "-o", "whole") == DONE
        assert tool("check", "whole") == (said(1, told) if told else DONE)
    assert files_in("whole") == WHOLE.files()
    # (one shard alone is a table with symbols of its own, and has no column)
    check_commands(tool, "whole/2.dict", WHOLE, 2)


# What becomes of whole/1.dict, what is said of it, which is a pattern, and what by a merge, which reads shard by shard.
SHARD = WHOLE.files()["1.dict"]
DAMAGED: list[tuple[Any, ...]] = [
    (None, f"whole/1.dict: {NO_FILE}"), (b"x" * 100, "whole/1.dict: not a frozen table"),
    (OTHER.files()["1.dict"], OF_ANOTHER_SET), (merge_of([ONE]).files()["1.dict"], OF_ANOTHER_SET),
    (dictionary_of(WHOLE.strings, 3).files()["1.dict"], OF_ANOTHER_SET),
    (dictionary_of(WHOLE.strings, 5).files()["1.dict"], OF_ANOTHER_SET, "0: shard 1 of 3, and whole has 5 shards"),
    (WHOLE._replace(kind=TEXT).files()["1.dict"], OF_ANOTHER_SET),
    (WHOLE.files()["0.dict"], "whole/1.dict: shard 0 of 3, not shard 1"),
    (SHARD[:-1], f"whole/1.dict: {CUT}"), (SHARD[:70], f"whole/1.dict: {CUT}"),
    (SHARD[:-1] + b"x", r"whole/1.dict: (the identity isn't that of the strings|string \d+ isn't found at its symbol)"),
    (placed(freeze(WHOLE.shards[2]), WHOLE.set, 3, 1),
     "whole/1.dict: string 0 belongs to another shard, or there is another number of shards"),
]
READERS = [
    "decode whole whole.column -o out", "encode whole -o out", "find whole", "get whole 0", "list whole", "check whole",
    "stat whole", "rows whole whole.column 0", "match whole whole.column a",
]


@pytest.mark.parametrize("data, message, of_merge", [(*it, it[1])[:3] for it in DAMAGED], ids=itertools.count())
def test_damaged_folders(tool, data, message, of_merge):
    made()
    put("whole", {"1.dict": data}) if data else os.remove("whole/1.dict")
    with pytest.raises((Damaged, FileNotFoundError)):
        read_dictionary("whole")
    for words in READERS:
        assert not refused(tool, 2 if words.startswith(("find", "match")) else 1, message, words)
    # (a merge names a part as it was named)
    told = of_merge.replace("whole/1.dict", "whole(/1.dict)?")
    assert refused(tool, 1, told, "merge whole 0 -o new") == {"new/0.dict"}


def test_each_byte_of_a_header(tool):
    """Each is checked on an opening, where the folder has other shards."""
    made()
    for at, change in itertools.product(range(128), (1, 0x80)):
        put("whole", {"1.dict": SHARD[:at] + bytes([SHARD[at] ^ change]) + SHARD[at + 1 :]})
        status, written, told = tool("check", "whole")
        assert (status, written, told[0].startswith(f"{NAME}: whole/1.dict: ")) == (1, b"", True), (at, told)


def test_a_damaged_set(tool):
    """One shard of a part says that it is of another set: it is merged, and the folder of what is written is refused."""
    made()
    put("0", {"1.dict": placed(read("0/1.dict"), OTHER_SET, 3, 1)})
    assert tool("merge", "--shard", "1", "0", "1", "-o", "whole", "--maps", "maps") == DONE
    assert not refused(tool, 1, OF_ANOTHER_SET, "list whole")
    assert refused(tool, 1, OF_ANOTHER_SET.replace("whole", "0"), "merge 0 1 -o new") == {"new/0.dict"}
    assert files_in("maps").keys() > maps_of([ONE], WHOLE).keys()


RENUMBER, MAP, MAP_NAME = "renumber --maps maps 0.column -o out", map_of(ONE, WHOLE, 1), f"maps/{ONE.map_name(1)}"
# Maps to as many strings as a dictionary can have.
LARGE = {it: read_column(data)._replace(id=Id(BYTES, 2**31, WHOLE.set)) for it, data in maps_of([ONE], WHOLE).items()}
# What becomes of the map of shard 1 of the first part, and what is then said.
CHANGED_MAPS = [
    (None, f"{MAP_NAME}: no such file; the dictionary of 0.column wasn't merged"), (b"x" * 200, f"{MAP_NAME}: not a column.*"),
    (MAP[:-1], f"{MAP_NAME}: the codes are cut short"), (MAP[:-1] + b"\0", f"{MAP_NAME}: damaged: it has another checksum"),
    *((it, f"{MAP_NAME}: leads from another dictionary than that in its name")
      for it in (map_of(TWO, WHOLE, 1), map_of(ONE, WHOLE, 2), ONE.column(ONE.strings))),
    *((map_of(ONE, it, 1), f"{MAP_NAME}: a map of another merge than maps/{ONE.map_name()}")
      for it in (OTHER, dictionary_of(WHOLE.strings, 3))),
    (column(*read_column(MAP)._replace(codes=read_column(MAP).codes[:-1])),
     "0.column: the maps are those of another number of strings"),
]


def test_maps_of_another_merge(tool):
    """If all maps are those of another merge, the column is one of its dictionary, and says so."""
    made()
    assert tool("merge", "1", "0", "-o", "other", "--maps", "maps") == DONE and files_in("maps") == maps_of([TWO, ONE], OTHER)
    assert not refused(tool, 1, "maps: its maps lead to another dictionary than whole", f"{RENUMBER} --into whole")
    assert tool(*RENUMBER.split(), "--into", "other") == DONE and read("out") == OTHER.column(ROWS)
    assert tool("decode", "whole", "out") == said(1, other_dictionary("out", "whole"))


# Commands, the status, what is said, which is a pattern, and files that are others before, or aren't there. Nothing is written.
REFUSED: list[tuple] = [
    *((RENUMBER, 1, message, {MAP_NAME: data}) for data, message in CHANGED_MAPS),
    (RENUMBER, 1, "0.column: damaged: it has another checksum", {"0.column": ONE.column(ROWS)[:-1] + b"\0"}),
    (RENUMBER, 1, "0.column: too many strings", {f"maps/{name}": column(*it) for name, it in LARGE.items()}),
    ("check whole", 1, OF_ANOTHER_SET, {"whole/0.dict": placed(WHOLE.files()["0.dict"], OTHER_SET, 4, 0)}),
    *((words, 1, "whole/2.dict: shard 2 of 3; name its folder") for words in (
        "decode whole/2.dict whole.column", "rows whole/2.dict whole.column 0", "rows --trusted whole/2.dict whole.column 0",
        "encode whole/2.dict 2.lines -o out",
    )),
    ("merge five 0 -o new", 1, "0: shard 0 of 3, and five has 5 shards"),
    ("merge --shard 1 0 five -o new", 1, "five: shard 1 of 5, and 0 has 3 shards"),
    ("merge 0 plain -o new", 1, "plain: shard 0 of 1, and 0 has 3 shards"),
    ("merge 0/1.dict 1/2.dict -o new --shard 1", 1, "1/2.dict: shard 2 of 3, not shard 1"),
    *((it, 1, "0: shard 0 of 3; merge it by --shard, or name folders of as many shards each, without --shards")
      for it in ("merge plain 0 -o new", "merge 0 1 --shards 3 -o new")),
    ("merge --shard 3 0 1 -o new", 1, f"0/3.dict: {NO_FILE}"), ("merge 0 absent -o new", 1, f"absent: {NO_FILE}"),
    ("merge --shard 1 0 . -o new", 1, f"\\./1\\.dict: {NO_FILE}"),
    ("renumber --maps maps absent -o out", 1, f"absent: {NO_FILE}"),
    ("renumber --maps absent 0.column -o out", 1, "absent/.*: no such file; the dictionary of 0.column wasn't merged"),
    ("renumber --maps maps 0/0.dict -o out", 1, "0/0.dict: not a column.*"),
    *((f"merge --shard {it} 0 1 -o new", 2, f"--shard '{re.escape(it)}': the number of a shard is needed, counted from 0")
      for it in ("x", "1x", "1.", "0x1")),
    *((f"{command} --shards {it} -o new", 2, f"--shards '{re.escape(it)}': a number from 1 to 4294967295 is needed")
      for it in ("0", "x", "4294967296", "1.5", "03x") for command in ("merge plain", "freeze")),
    # Inputs in folders that are written, each of which is named.
    *((words, 2, f".*{re.escape(name)}.*") for words, name in (
        ("merge 0 1 -o 1", "1"), ("merge --shard 1 0 1 -o 0", "0"), ("merge --shard 1 0/1.dict 1 -o 0", "0/1.dict"),
        ("merge 0 1 -o new --maps 1", "1"), ("freeze --shards 3 -o 0 0/lines", "0/lines"), ("merge link 1 -o 0", "link"),
        ("merge plain 0/0.dict -o new --maps 0", "0/0.dict"), ("merge --shards 2 0/0.dict -o 0", "0/0.dict"),
        ("renumber --maps maps 0.column -o 0.column", "0.column"), (f"renumber --maps maps 0.column -o {MAP_NAME}", MAP_NAME),
        ("renumber --maps maps 0.column --into whole -o whole/0.dict", "whole/0.dict"),
        ("encode whole lines -o whole/0.dict", "whole/0.dict"), ("decode whole whole.column -o whole/1.dict", "whole/1.dict"),
    )),
]


@pytest.mark.parametrize("words, status, message, others", [(*it, {})[:4] for it in REFUSED], ids=itertools.count())
def test_refusals(tool, words, status, message, others):
    made()
    put("five", dictionary_of(ONE.strings, 5).files())
    put(".", {"plain": freeze(ONE.strings), "0/lines": b"a\n", "lines": b"w1\n", "2.lines": ended(WHOLE.shards[2])})
    os.symlink("0", "link")
    for name, data in others.items():
        put(".", {name: data}) if data else os.remove(name)
    assert not refused(tool, status, message, words) and not os.path.exists("new")


class History:
    """Random steps, some killed, on folders a, b, c of parts and g, v, w of merges. Whatever opens gives a column's lines."""

    def __init__(self, tool, seed):
        self.tool, self.chance, self.lines, self.decoded = tool, random.Random(seed), {}, 0
        self.counts = self.chance.choice(([1], [2], [3], [2, 3], [1, 4], [5]))
        self.words = [b"w%d" % it for it in range(self.chance.choice((1, 3, 12)))]

    def run(self, *words):
        """Runs a command, of which one of ten is killed, or fails to write."""
        how = self.chance.random()
        if how < 0.05:
            with contextlib.suppress(subprocess.TimeoutExpired):
                subprocess.run([self.tool.path, *words], stderr=subprocess.DEVNULL, timeout=self.chance.random() * 0.01)
            return
        failing = {"LD_PRELOAD": self.tool.library, "FULL": str(self.chance.randrange(1, 6))} if how < 0.1 else {}
        status, _, told = self.tool(*words, **failing)
        assert status in (0, 1, 2) and bool(told) == bool(status), (words, status, told)

    def make(self, column, lines, *words):
        """Runs a command that makes a column of lines, unless it is killed or fails."""
        before = read(column)
        self.run(*words)
        # (the old column is that of the same dictionary if nothing of it changes, and then of the same lines)
        if read(column) != before:
            self.lines[column] = lines

    def count(self):
        return str(self.chance.choice([self.counts[0]] * 3 + self.counts))

    def freeze(self):
        part, lines = self.chance.choice("abc"), self.chance.choices(self.words, k=self.chance.randrange(8))
        put(".", {"lines": ended(lines)})
        words = ["freeze", "--kind", self.chance.choice(("text", "text", "bytes")), "--shards", self.count(), "-o", part, "lines"]
        self.make(f"{part}.column", lines, *words, "--column", f"{part}.column")

    def merge(self):
        out = self.chance.choice("gvw")
        parts, maps = self.chance.choices(sorted({*"abcgvw"} - {out}), k=self.chance.randrange(1, 4)), ["--maps", self.maps(0.85)]
        count = self.count()
        shards = [f"--shard {it}" for it in range(int(count))]
        for words in self.chance.choices(([f"--shards {count}"], [""], shards[:1], shards[-1:], shards), (4, 4, 1, 1, 10))[0]:
            self.run("merge", *words.split(), *parts, "-o", out, *maps)

    def maps(self, share):
        return "maps" if self.chance.random() < share else "other"

    def some(self, pattern):
        """The path of a file, or of one that isn't there."""
        return self.chance.choice(sorted(map(str, Path().glob(pattern))) or ["absent"])

    def move(self):
        """A file is put in the place of another one of its kind."""
        pattern = self.chance.choice(("*/*.dict", "*/*.map", "*.column"))
        one, other = self.some(pattern), self.some(pattern)
        if os.path.exists(one) and one != other:
            shutil.copy(one, other)
            self.lines[other] = self.lines.get(one)

    def compose(self):
        """A map is composed with the next one, which replaces it."""
        path = self.some("maps/*.map")
        Path("composed").unlink(missing_ok=True)
        self.run("renumber", "--maps", "maps", path, "-o", "composed")
        if os.path.exists("composed"):
            os.replace("composed", path)

    def renumber(self):
        path, new = self.some("*.column"), self.chance.choice("abc") + self.chance.choice("12") + ".column"
        self.make(new, self.lines.get(path), "renumber", "--maps", self.maps(0.75), path, "-o", new)

    def decode(self):
        path, folder = self.some("*.column"), self.chance.choice("abcgvw")
        status, written, _ = self.tool("decode", folder, path)
        if status == 0:
            assert written == ended(self.lines[path]), (folder, path)
            self.decoded += 1
        is_there = False
        with contextlib.suppress(Damaged, OSError):
            is_there = bool(read_dictionary(folder))
        assert is_there == (self.tool("check", folder)[0] == 0), folder

    def go(self):
        steps = {self.freeze: 10, self.merge: 40, self.move: 5, self.compose: 5, self.renumber: 15, self.decode: 25}
        for step in self.chance.choices([*steps], [*steps.values()], k=60):
            step()
        return self.decoded


@pytest.mark.parametrize("seed", range(8))
def test_histories(tool, folder, seed):
    decoded = 0
    for turn in range(7):
        os.chdir(tempfile.mkdtemp(dir=folder))
        decoded += History(tool, 1000 * seed + turn).go()
    assert decoded
