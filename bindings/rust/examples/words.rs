//! Interns the lines of its input, and writes what the proved program writes: the symbol of each line, an empty line, and each
//! string once, in the order of the symbols.
//!
//!     words text|bytes|bstr|cstr|osstr|path|packed_text|packed_bytes
use std::borrow::Cow;
use std::env::args;
use std::error::Error;
use std::ffi::{CString, OsStr};
use std::io::{BufWriter, Read, Write, stdin, stdout};
use std::path::Path;

use intaglio_proved::bstr::{self, BStr};
use intaglio_proved::{Kind, SymbolTable, Table, bytes, cstr, osstr, packed, path};

fn encode<'a, K: Kind>(
    lines: impl Iterator<Item = &'a K::Content>,
    mut table: Table<K>,
    bytes: impl Fn(&K::Content) -> &[u8],
) -> Result<(), Box<dyn Error>>
where
    K::Content: 'a,
    <K::Content as ToOwned>::Owned: Into<Cow<'static, K::Content>>,
{
    let mut out = BufWriter::new(stdout().lock());
    for line in lines {
        let symbol = table.intern(line.to_owned())?;
        assert_eq!(table.check_interned(line), Some(symbol));
        writeln!(out, "{}", symbol.id())?;
    }
    writeln!(out)?;
    for (_, content) in &table {
        out.write_all(bytes(content))?;
        writeln!(out)?;
    }
    Ok(())
}

fn main() -> Result<(), Box<dyn Error>> {
    let mut input = Vec::new();
    stdin().read_to_end(&mut input)?;
    let input = input.strip_suffix(b"\n").unwrap_or(&input);
    let lines = || input.split(|byte| *byte == b'\n');
    match args().nth(1).as_deref() {
        Some("text") => encode(str::from_utf8(input)?.split('\n'), SymbolTable::new(), str::as_bytes),
        Some("bytes") => encode(lines(), bytes::SymbolTable::new(), |bytes| bytes),
        Some("bstr") => encode(lines().map(BStr::new), bstr::SymbolTable::new(), |bytes| bytes),
        Some("cstr") => {
            let lines = lines().map(CString::new).collect::<Result<Vec<_>, _>>()?;
            encode(lines.iter().map(CString::as_c_str), cstr::SymbolTable::new(), |line| line.to_bytes())
        }
        Some("osstr") => {
            encode(str::from_utf8(input)?.split('\n').map(OsStr::new), osstr::SymbolTable::new(), OsStr::as_encoded_bytes)
        }
        Some("path") => encode(str::from_utf8(input)?.split('\n').map(Path::new), path::SymbolTable::new(), |path| {
            path.as_os_str().as_encoded_bytes()
        }),
        Some("packed_text") => encode(str::from_utf8(input)?.split('\n'), packed::SymbolTable::new(), str::as_bytes),
        Some("packed_bytes") => encode(lines(), packed::bytes::SymbolTable::new(), |bytes| bytes),
        _ => Err("usage: words text|bytes|bstr|cstr|osstr|path|packed_text|packed_bytes".into()),
    }
}
