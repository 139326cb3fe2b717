"""Builds the wheel (PEP 517) with a C compiler and Python's standard library, so that pip downloads nothing.

The extension contains libintaglio.a, which bindings/build makes. It is taken from the folder that INTAGLIO_LIB_DIR names, or else
from bindings/out. The header is bindings/c/intaglio.h, CC may name the compiler, and CFLAGS more of its flags.
"""
import base64
import hashlib
import os
import shlex
import subprocess
import sys
import sysconfig
import tempfile
import tomllib
import zipfile
from pathlib import Path

HERE = Path(__file__).resolve().parent
HEADERS = HERE.parent / "c"
MODULE = "intaglio/_table" + str(sysconfig.get_config_var("EXT_SUFFIX"))
FLAGS = [
    "-O2", "-g0", "-fPIC", "-shared", "-fvisibility=hidden", "-Wall", "-Wextra", "-Wno-missing-field-initializers",
    "-Wno-cast-function-type",
]
# The library's names stay inside the extension.
LINKED = ["-Wl,--exclude-libs,ALL", "-Wl,-z,now"]
MISSING = """libintaglio.a isn't in {}.
Build it with bindings/build, or set INTAGLIO_LIB_DIR to the folder that it is in."""


def project():
    return tomllib.loads((HERE / "pyproject.toml").read_text())["project"]


def archive():
    folder = Path(os.environ.get("INTAGLIO_LIB_DIR") or HERE.parent / "out").resolve()
    if not (folder / "libintaglio.a").exists():
        sys.exit(MISSING.format(folder))
    return folder / "libintaglio.a"


def compile_to(path):
    compiler = os.environ.get("CC") or str(sysconfig.get_config_var("CC"))
    includes = [f"-I{sysconfig.get_path('include')}", f"-I{HEADERS}"]
    version = f'-DVERSION="{project()["version"]}"'
    flags = [*FLAGS, *shlex.split(os.environ.get("CFLAGS", ""))]
    subprocess.run(
        [*shlex.split(compiler), *flags, *includes, version, *sorted((HERE / "src").glob("*.c")), archive(), *LINKED, "-o", path],
        check=True,
    )


def metadata():
    it = project()
    lines = [
        "Metadata-Version: 2.1", f"Name: {it['name']}", f"Version: {it['version']}", f"Summary: {it['description']}",
        f"License: {it['license']['text']}",
    ]
    lines += [f"Classifier: {classifier}" for classifier in it["classifiers"]]
    return "\n".join([*lines, f"Requires-Python: {it['requires-python']}", ""])


def tag():
    python = f"cp{sys.version_info.major}{sys.version_info.minor}"
    return f"{python}-{python}{sys.abiflags}-{sysconfig.get_platform().replace('-', '_').replace('.', '_')}"


def recorded(name, content):
    digest = base64.urlsafe_b64encode(hashlib.sha256(content).digest()).rstrip(b"=").decode()
    return f"{name},sha256={digest},{len(content)}"


def build_wheel(wheel_directory, config_settings=None, metadata_directory=None):
    it = project()
    stem = f"{it['name'].replace('-', '_')}-{it['version']}"
    info = f"{stem}.dist-info"
    files = {
        f"intaglio/{path.name}": path.read_bytes()
        for path in sorted((HERE / "intaglio").iterdir())
        if path.suffix in (".py", ".pyi", ".typed")
    }
    with tempfile.TemporaryDirectory() as folder:
        compile_to(Path(folder) / "module.so")
        files[MODULE] = (Path(folder) / "module.so").read_bytes()
    files[f"{info}/METADATA"] = metadata().encode()
    files[f"{info}/WHEEL"] = f"Wheel-Version: 1.0\nGenerator: build_backend\nRoot-Is-Purelib: false\nTag: {tag()}\n".encode()
    record = f"{info}/RECORD"
    files[record] = "\n".join([*(recorded(*file) for file in files.items()), f"{record},,", ""]).encode()
    name = f"{stem}-{tag()}.whl"
    with zipfile.ZipFile(Path(wheel_directory) / name, "w", zipfile.ZIP_DEFLATED) as wheel:
        for path, content in files.items():
            wheel.writestr(path, content)
    return name


class UnsupportedOperation(Exception):
    """What PEP 517 asks for."""


def build_sdist(sdist_directory, config_settings=None):
    raise UnsupportedOperation("the sources need the library of this repository: install from bindings/python, or build a wheel")
