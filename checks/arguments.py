"""The arguments of the scripts of checks and of bench, and how a check ends.

A script's docstring is what its --help prints. The first line of it that is indented shows how the script is called.
"""

import argparse
import re
import sys


def parser(page, *flags, **words):
    """A parser for a script with this docstring, these flags, and words by their `nargs`: -h and --help print the docstring, with
    status 0; wrong arguments end the script with status 2."""
    usage = re.findall(r"(?m)^ {4}(\S.*?)(?: {2,}|$)", page)[0]
    script, shape = re.findall(r"\S+/\S+", usage)[0], argparse.RawDescriptionHelpFormatter
    made = argparse.ArgumentParser(prog=script, usage=usage, description=page, formatter_class=shape, allow_abbrev=False)
    for flag in flags:
        made.add_argument(flag, action="store_true")
    for name, nargs in words.items():
        made.add_argument(name, metavar=name.removesuffix("s").upper(), nargs=nargs)
    return made


def end(wrong, *summary):
    """Prints what is wrong, a line for each, and then a summary. The status is 1 if something is wrong."""
    print(*wrong, *summary, sep="\n")
    sys.exit(1 if wrong else 0)
