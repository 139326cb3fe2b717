"""Replaces a file as the `freeze` of the Python module does, by the module's function `replace`, without the library: PATH by
standard input. Or PATH --noisy FILE, by FILE: then it writes to the standard streams meanwhile, as the rest of a program may."""

import contextlib
import os
import sys
import types

sys.dont_write_bytecode = True
# The function comes from a package in which nothing else is imported.
package, table = types.ModuleType("intaglio"), types.ModuleType("intaglio._table")
package.__path__ = [f"{os.path.dirname(os.path.abspath(__file__))}/../bindings/python/intaglio"]
setattr(table, "__getattr__", lambda name: None)
sys.modules.update({"intaglio": package, "intaglio._table": table})
from intaglio.frozen import replace


def noisy_sync(file, sync=os.fsync):
    for stream in (1, 2):
        with contextlib.suppress(OSError):
            os.write(stream, b"noise")
    sync(file)


def main():
    path, *words = sys.argv[1:]
    if words:
        os.fsync = noisy_sync
    try:
        with open(words[1] if words else "/dev/stdin", "rb") as source:
            replace(os.fsencode(path), source.read())
    except OSError as e:
        sys.exit(f"{os.fsdecode(e.filename2 or e.filename)}: {e.strerror}")


main()
