"""Packages of Debian that checks run: installs them, by apt-get, and finds the Python that has them."""

import os
import shutil
import subprocess
import sys


def install(script, packages):
    """Installs the packages of a script, as root."""
    environment = {**os.environ, "DEBIAN_FRONTEND": "noninteractive"}
    subprocess.run(["apt-get", "update"], env=environment)
    if subprocess.run(["apt-get", "install", "--yes", "--no-install-recommends", *packages], env=environment).returncode:
        sys.exit(f"{script}: the packages weren't installed")


def python(*modules):
    """An interpreter that has these modules, or nothing: Debian's needn't be the first on the PATH."""
    there = filter(shutil.which, ("python3", "/usr/bin/python3"))
    asked = ("-c", f"import {', '.join(modules)}")
    return next((it for it in there if not subprocess.run([it, *asked], capture_output=True).returncode), None)
