"""Lays the Rust crate's own tests and examples out as a crate over `intaglio_proved`.

    upstream.py UPSTREAM FOLDER CRATE

UPSTREAM is the folder of the Rust crate's sources, FOLDER is written, CRATE is the folder of `intaglio_proved`. Left out are the
tests of private items, which that hasn't, and tests and examples with a hasher, since the library has its own: a line says how
many. Byte strings are those of `intaglio_proved::bstr`. Properties are tried on fixed values, as quickcheck isn't there.
"""
import re
import sys
from pathlib import Path

MODULES = ["str", "bstr", "bytes", "cstr", "osstr", "path"]
PRIVATE = ["src/rollback.rs", "src/internal.rs"]
HASHERS = ["tests/unwind_safety.rs"]

MANIFEST = """[package]
name = "upstream"
version = "0.0.0"
edition = "2024"

[features]
default = ["bstr", "bytes", "cstr", "osstr", "path"]
bstr = []
bytes = []
cstr = []
osstr = []
path = []

[dependencies]
intaglio_proved = {{ path = "{}" }}
"""

# What stands in for quickcheck and for the vectors of the tests.
STAND_INS = '''
use std::ffi::{CString, OsString};
use std::path::PathBuf;

pub trait Values: Sized {
    fn values() -> Vec<Self>;
}

fn texts() -> Vec<String> {
    let mut texts: Vec<String> = ["", "a", "ab c", "\\u{e9}", "\\u{1f600}", "a/./b//", "../..", "/"].map(String::from).to_vec();
    texts.extend((0..200).map(|size: usize| "xyz".repeat(size)));
    texts
}

macro_rules! values {
    ($($kind:ty => $values:expr;)*) => {$(
        impl Values for $kind {
            fn values() -> Vec<Self> {
                $values
            }
        }
    )*};
}

values! {
    String => texts().into_iter().chain(["\\0".to_owned()]).collect();
    Vec<u8> => texts().into_iter().map(String::into_bytes).chain([vec![0], vec![255, 0, 128]]).collect();
    CString => texts().into_iter().map(|text| CString::new(text).unwrap()).collect();
    OsString => Vec::<u8>::values().into_iter().map(std::os::unix::ffi::OsStringExt::from_vec).collect();
    PathBuf => texts().into_iter().map(PathBuf::from).collect();
    u32 => vec![0, 1, 2, 255, 4096, 1 << 31, u32::MAX - 1, u32::MAX];
}

#[macro_export]
macro_rules! quickcheck {
    ($(fn $name:ident($value:ident: $kind:ty) -> bool $body:block)*) => {$(
        #[test]
        fn $name() {
            fn holds($value: $kind) -> bool $body
            for value in <$kind as $crate::Values>::values() {
                assert!(holds(value.clone()), "{value:?}");
            }
        }
    )*};
}

pub mod vectors {
    pub fn symbols() -> impl Iterator<Item = String> {
        (0..1_000).map(|number| format!("{number:0100}"))
    }

    pub fn byte_symbols() -> impl Iterator<Item = Vec<u8>> {
        (0..1_000).map(|number| [format!("{number:099}").as_bytes(), &[255]].concat())
    }

    pub fn byte_symbols_no_nul() -> impl Iterator<Item = Vec<u8>> {
        byte_symbols()
    }
}
'''


def renamed(text):
    """A text of the crate `intaglio`, as one of `intaglio_proved`."""
    text = re.sub(r"\buse (?:::)?bstr::", "use intaglio_proved::bstr::", text)
    return re.sub(r"\bintaglio::", "intaglio_proved::", text)


def module_of(file):
    """The path of the module of a source file."""
    stem = Path(file).stem
    return f"intaglio_proved::{stem}" if stem in MODULES[1:] else "intaglio_proved"


def parts(upstream):
    """Each file of tests, with its text."""
    text = "".join(file.read_text() for file in sorted(upstream.glob("src--tests--tests--part*.rs.txt")))
    pieces = re.split(r"^// ===== (\S+).* =====$", text, flags=re.M)
    return list(zip(pieces[1::2], pieces[2::2]))


def unit_tests(upstream):
    """Each part of the tests with the file that it comes from."""
    for file, part in parts(upstream):
        if file not in PRIVATE + HASHERS:
            part = part.replace("quickcheck::quickcheck", "upstream::quickcheck").replace("crate::vectors", "upstream::vectors")
            part = re.sub(r"\bcrate::", "intaglio_proved::", part).replace("super::", f"{module_of(file)}::")
            yield file, renamed(part)


def documentation(text):
    """The lines of the documentation of a source. A line of code between them is a page break."""
    return "\n".join(re.sub(r"^ *//[/!] ?", "", line) if re.match(r" *//[/!]", line) else "\f" for line in text.splitlines())


def examples(upstream):
    """The examples of the documentation and of the README, each with a name."""
    pages = {name: documentation((upstream / f"src--src--{name}.rs.txt").read_text()) for name in ["lib", *MODULES]}
    pages["readme"] = (upstream / "src--README.md").read_text()
    for name, text in pages.items():
        blocks = re.findall(r"^```(\w*)\n([^\f]*?)^```$", text, re.M)
        for number, example in enumerate(example for language, example in blocks if language in ("", "rust")):
            yield f"{name}_{number}", renamed(example)


def has_hasher(example):
    return re.search("hasher|RandomState", example, re.I)


def left_out(upstream):
    """What isn't tried, and why."""

    def tests(files):
        return sum(part.count("#[test]") for file, part in parts(upstream) if file in files)

    with_hasher = sum(1 for _, example in examples(upstream) if has_hasher(example))
    return f"left out: {tests(PRIVATE)} tests of private items, {tests(HASHERS)} tests and {with_hasher} examples with a hasher"


def main():
    upstream, folder, crate = map(Path, sys.argv[1:])
    (folder / "src").mkdir(parents=True)
    (folder / "tests").mkdir()
    (folder / "Cargo.toml").write_text(MANIFEST.format(crate.resolve()))
    for file, part in unit_tests(upstream):
        (folder / "tests" / file.replace("/", "_")).write_text(f"#![allow(unused)]\n{part}")
    docs = []
    for name, example in examples(upstream):
        lines = (f"/// {line}".rstrip() for line in ["```", *example.splitlines(), "```"])
        docs += [] if has_hasher(example) else ["\n".join(lines) + f"\npub mod {name} {{}}\n"]
    (folder / "src/lib.rs").write_text("\n".join([STAND_INS, *docs]))
    print(left_out(upstream))


main()
