//! Frozen tables: a symbol table as one block of bytes, such as a mapped file.
//!
//! [`Table::freeze`](crate::Table::freeze) makes the bytes, and `docs/FORMATS.md` has the format.
use core::error::Error;
use core::fmt;

use crate::library::{Batch, Bytes, RawFrozen};
use crate::{AllSymbols, Symbol};

/// Why bytes are no frozen table.
#[derive(Debug, Clone, Copy, PartialEq, Eq, Hash)]
#[non_exhaustive]
pub enum FrozenError {
    /// A string isn't UTF-8, and the kind is text.
    NotUtf8,
    /// The number of the kind is none.
    NoKind,
    /// The bytes don't begin as a frozen table does.
    NotFrozen,
    /// The version isn't 2.
    OtherVersion,
    /// A reserved byte of the header isn't 0.
    Reserved,
    /// The header counts more strings than a frozen table can have.
    TooMany,
    /// The bytes end within the header or a section.
    Truncated,
    /// The strings don't fill the text.
    TextEnds,
    /// A place that no string has isn't empty.
    Unused,
    /// A string isn't found at its symbol.
    NotFound,
    /// There are more bytes than the header requires.
    TrailingBytes,
    /// The number of the shard isn't below the number of shards.
    BadShard,
    /// The identity in the header isn't that of the strings.
    OtherIdentity,
}

impl FrozenError {
    // The error of a code. The others aren't returned for a frozen table.
    fn check(code: u32) -> Result<(), FrozenError> {
        match code {
            0 => Ok(()),
            6 => Err(FrozenError::NotUtf8),
            12 => Err(FrozenError::NoKind),
            13 => Err(FrozenError::NotFrozen),
            14 => Err(FrozenError::OtherVersion),
            15 => Err(FrozenError::Reserved),
            16 => Err(FrozenError::TooMany),
            17 => Err(FrozenError::Truncated),
            18 => Err(FrozenError::TextEnds),
            19 => Err(FrozenError::Unused),
            20 => Err(FrozenError::NotFound),
            26 => Err(FrozenError::TrailingBytes),
            27 => Err(FrozenError::BadShard),
            28 => Err(FrozenError::OtherIdentity),
            _ => unreachable!("the library answered {code}"),
        }
    }
}

impl fmt::Display for FrozenError {
    fn fmt(&self, f: &mut fmt::Formatter<'_>) -> fmt::Result {
        f.write_str(match self {
            FrozenError::NotUtf8 => "a string of the frozen table isn't UTF-8",
            FrozenError::NoKind => "a frozen table of an unknown kind",
            FrozenError::NotFrozen => "not a frozen table",
            FrozenError::OtherVersion => "a frozen table of another version",
            FrozenError::Reserved => "a reserved byte of the frozen table isn't zero",
            FrozenError::TooMany => "too many strings for a frozen table",
            FrozenError::Truncated => "the frozen table is truncated",
            FrozenError::TextEnds => "the strings of the frozen table don't fill its text",
            FrozenError::Unused => "a place of the frozen table without a string isn't empty",
            FrozenError::NotFound => "a string of the frozen table isn't found at its symbol",
            FrozenError::TrailingBytes => "there are bytes behind the strings of the frozen table",
            FrozenError::BadShard => "the number of the shard isn't below the number of shards",
            FrozenError::OtherIdentity => "the identity isn't that of the strings",
        })
    }
}

impl Error for FrozenError {}

/// Why a table wasn't frozen.
#[derive(Debug, Clone, Copy, PartialEq, Eq, Hash)]
#[non_exhaustive]
pub enum FreezeError {
    /// Out of memory.
    NoMemory,
    /// There are more than 2^31 strings.
    TooMany,
    /// The strings have 2^32 bytes or more together.
    TooLong,
    /// No places were found for the strings: other keys are needed.
    NoPlaces,
}

impl FreezeError {
    // The error of a code. The others aren't returned for the strings of a table.
    pub(crate) fn of(code: u32) -> FreezeError {
        match code {
            3 => FreezeError::NoMemory,
            16 => FreezeError::TooMany,
            21 => FreezeError::TooLong,
            23 => FreezeError::NoPlaces,
            _ => unreachable!("the library answered {code}"),
        }
    }
}

impl fmt::Display for FreezeError {
    fn fmt(&self, f: &mut fmt::Formatter<'_>) -> fmt::Result {
        f.write_str(match self {
            FreezeError::NoMemory => "out of memory",
            FreezeError::TooMany => "too many strings for a frozen table",
            FreezeError::TooLong => "the strings are too long for a frozen table",
            FreezeError::NoPlaces => "no places were found for the strings under these keys",
        })
    }
}

impl Error for FreezeError {}

/// Why the strings of a frozen table weren't interned. The strings of the table are unchanged.
#[derive(Debug, Clone, Copy, PartialEq, Eq, Hash)]
#[non_exhaustive]
pub enum AbsorbError {
    /// A string is new, and the table holds as many as its limit.
    Full,
    /// Out of memory.
    NoMemory,
    /// A string isn't UTF-8, and the table is one of UTF-8 strings or of paths.
    NotUtf8,
    /// A string isn't a C string with its zero, and the table is one of C strings.
    NotCString,
    /// The bytes are no frozen table. They weren't checked when it was opened.
    NotFrozen(FrozenError),
}

impl AbsorbError {
    // The error of a code.
    pub(crate) fn of(code: u32) -> AbsorbError {
        match code {
            2 => AbsorbError::Full,
            3 => AbsorbError::NoMemory,
            6 => AbsorbError::NotUtf8,
            7 | 8 => AbsorbError::NotCString,
            _ => AbsorbError::NotFrozen(FrozenError::check(code).expect_err("the code of an error")),
        }
    }
}

impl fmt::Display for AbsorbError {
    fn fmt(&self, f: &mut fmt::Formatter<'_>) -> fmt::Result {
        match self {
            AbsorbError::Full => f.write_str("the table is full"),
            AbsorbError::NoMemory => f.write_str("out of memory"),
            AbsorbError::NotUtf8 => f.write_str("a string of the frozen table isn't UTF-8"),
            AbsorbError::NotCString => f.write_str("a string of the frozen table isn't a C string"),
            AbsorbError::NotFrozen(fault) => fault.fmt(f),
        }
    }
}

impl Error for AbsorbError {}

/// A read-only symbol table over bytes.
///
/// ```
/// # use intaglio_proved::SymbolTable;
/// # use intaglio_proved::frozen::Frozen;
/// let mut table = SymbolTable::new();
/// let name = table.intern("abc")?;
/// let bytes = table.freeze((0, 0))?;
/// let frozen = Frozen::open(&bytes)?;
/// assert_eq!(frozen.check_interned("abc"), Some(name));
/// assert_eq!(frozen.get(name), Some(&b"abc"[..]));
/// # Ok::<(), Box<dyn std::error::Error>>(())
/// ```
///
/// Calls only read the bytes, so threads may share it. None reads outside them.
#[derive(Clone, Copy)]
pub struct Frozen<'a> {
    raw: RawFrozen<'a>,
}

impl<'a> Frozen<'a> {
    /// The table of these bytes, after a check of all of them.
    ///
    /// # Errors
    ///
    /// What is wrong with the bytes, if they are no frozen table.
    pub fn open(bytes: &'a [u8]) -> Result<Self, FrozenError> {
        let table = Frozen::open_trusted(bytes);
        FrozenError::check(table.raw.check())?;
        Ok(table)
    }

    /// The table of bytes that were checked before, in constant time. If they aren't a frozen table, what is found is still equal
    /// to what was sought, but a string may not be found, and a symbol may have no string.
    #[must_use]
    pub fn open_trusted(bytes: &'a [u8]) -> Self {
        Frozen { raw: RawFrozen::new(bytes) }
    }

    pub(crate) fn raw(&self) -> RawFrozen<'a> {
        self.raw
    }

    /// The bytes.
    #[must_use]
    pub fn as_bytes(&self) -> &'a [u8] {
        self.raw.bytes()
    }

    /// How many strings there are.
    #[must_use]
    pub fn len(&self) -> usize {
        self.raw.len()
    }

    /// Whether there is no string.
    #[must_use]
    pub fn is_empty(&self) -> bool {
        self.len() == 0
    }

    /// Whether the table is one of UTF-8 strings, which [`open`](Frozen::open) has then found them to be.
    #[must_use]
    pub fn is_text(&self) -> bool {
        self.raw.is_text()
    }

    /// The string of a symbol.
    #[must_use]
    pub fn get(&self, id: Symbol) -> Option<&'a [u8]> {
        self.raw.get(id.id())
    }

    /// The symbol of a string, if it is in the table.
    #[must_use]
    pub fn check_interned(&self, string: impl AsRef<[u8]>) -> Option<Symbol> {
        self.raw.find(string.as_ref()).map(Symbol::new)
    }

    /// Whether a string is in the table.
    #[must_use]
    pub fn is_interned(&self, string: impl AsRef<[u8]>) -> bool {
        self.check_interned(string).is_some()
    }

    /// The symbol of each string of a batch, where it is in the table.
    #[must_use]
    pub fn check_all<T: AsRef<[u8]>>(&self, strings: impl IntoIterator<Item = T>) -> Vec<Option<Symbol>> {
        self.raw.find_all(&Batch::of::<Bytes, T>(strings)).into_iter().map(|id| id.map(Symbol::new)).collect()
    }

    /// All symbols with their strings, in order.
    pub fn iter(&self) -> impl DoubleEndedIterator<Item = (Symbol, &'a [u8])> + use<'a> {
        let table = *self;
        AllSymbols::new(table.len()).filter_map(move |id| Some((id, table.get(id)?)))
    }

    /// All strings, in the order of their symbols.
    pub fn strings(&self) -> impl DoubleEndedIterator<Item = &'a [u8]> + use<'a> {
        self.iter().map(|(_, string)| string)
    }
}

impl fmt::Debug for Frozen<'_> {
    fn fmt(&self, f: &mut fmt::Formatter<'_>) -> fmt::Result {
        f.debug_struct("Frozen").field("len", &self.len()).finish_non_exhaustive()
    }
}
