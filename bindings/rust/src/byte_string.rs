use core::borrow::Borrow;
use core::fmt::{self, Write};
use core::ops::Deref;
use std::borrow::Cow;

use crate::library::BStr;

/// An owned byte string. It dereferences to its vector of bytes, and is printed as a [`BStr`] is.
#[derive(Default, Clone, PartialEq, Eq, PartialOrd, Ord, Hash)]
#[repr(transparent)]
pub struct BString {
    bytes: Vec<u8>,
}

impl BStr {
    /// The byte string of these bytes.
    pub fn new<B: AsRef<[u8]> + ?Sized>(bytes: &B) -> &BStr {
        BStr::from_bytes(bytes.as_ref())
    }
}

impl BString {
    /// The byte string of these bytes, which aren't copied.
    #[must_use]
    pub const fn new(bytes: Vec<u8>) -> BString {
        BString { bytes }
    }
}

impl Deref for BStr {
    type Target = [u8];

    fn deref(&self) -> &[u8] {
        &self.bytes
    }
}

impl Deref for BString {
    type Target = Vec<u8>;

    fn deref(&self) -> &Vec<u8> {
        &self.bytes
    }
}

impl AsRef<[u8]> for BStr {
    fn as_ref(&self) -> &[u8] {
        self
    }
}

impl AsRef<BStr> for BStr {
    fn as_ref(&self) -> &BStr {
        self
    }
}

impl AsRef<[u8]> for BString {
    fn as_ref(&self) -> &[u8] {
        self
    }
}

impl AsRef<BStr> for BString {
    fn as_ref(&self) -> &BStr {
        BStr::new(self)
    }
}

impl Borrow<BStr> for BString {
    fn borrow(&self) -> &BStr {
        self.as_ref()
    }
}

impl ToOwned for BStr {
    type Owned = BString;

    fn to_owned(&self) -> BString {
        BString::new(self.to_vec())
    }
}

impl<'a> From<&'a [u8]> for &'a BStr {
    fn from(bytes: &'a [u8]) -> Self {
        BStr::new(bytes)
    }
}

impl<'a> From<&'a str> for &'a BStr {
    fn from(text: &'a str) -> Self {
        BStr::new(text)
    }
}

impl<'a> From<&'a BStr> for Cow<'a, BStr> {
    fn from(bytes: &'a BStr) -> Self {
        Cow::Borrowed(bytes)
    }
}

impl From<BString> for Cow<'_, BStr> {
    fn from(bytes: BString) -> Self {
        Cow::Owned(bytes)
    }
}

impl From<Vec<u8>> for BString {
    fn from(bytes: Vec<u8>) -> Self {
        BString::new(bytes)
    }
}

impl From<BString> for Vec<u8> {
    fn from(string: BString) -> Self {
        string.bytes
    }
}

impl From<String> for BString {
    fn from(text: String) -> Self {
        BString::new(text.into_bytes())
    }
}

impl From<&str> for BString {
    fn from(text: &str) -> Self {
        BString::from(text.as_bytes())
    }
}

impl From<&[u8]> for BString {
    fn from(bytes: &[u8]) -> Self {
        BString::new(bytes.to_vec())
    }
}

impl From<&BStr> for BString {
    fn from(bytes: &BStr) -> Self {
        bytes.to_owned()
    }
}

// Equality with what has the same bytes.
macro_rules! same_bytes {
    ($($left:ty, $right:ty;)*) => {$(
        impl PartialEq<$right> for $left {
            fn eq(&self, other: &$right) -> bool {
                AsRef::<[u8]>::as_ref(self) == AsRef::<[u8]>::as_ref(other)
            }
        }

        impl PartialEq<$left> for $right {
            fn eq(&self, other: &$left) -> bool {
                other == self
            }
        }
    )*};
}

same_bytes! {
    BStr, [u8];
    BStr, &[u8];
    BStr, str;
    BStr, &str;
    BStr, BString;
    &BStr, BString;
    BString, [u8];
    BString, &[u8];
    BString, Vec<u8>;
    BString, str;
    BString, &str;
}

impl fmt::Display for BStr {
    /// As text, with U+FFFD for what isn't UTF-8.
    fn fmt(&self, f: &mut fmt::Formatter<'_>) -> fmt::Result {
        f.pad(&String::from_utf8_lossy(self))
    }
}

impl fmt::Debug for BStr {
    /// As a literal of text, with `\xHH` for a byte that isn't part of UTF-8.
    fn fmt(&self, f: &mut fmt::Formatter<'_>) -> fmt::Result {
        f.write_char('"')?;
        for chunk in self.utf8_chunks() {
            write_escaped(f, chunk.valid())?;
            chunk.invalid().iter().try_for_each(|byte| write!(f, "\\x{byte:02X}"))?;
        }
        f.write_char('"')
    }
}

// Control characters as `\xHH`, except those that have an escape of one letter, and 0 as `\0`.
fn write_escaped(f: &mut fmt::Formatter<'_>, text: &str) -> fmt::Result {
    for letter in text.chars() {
        match letter {
            '\0' | '\t' | '\n' | '\r' => write!(f, "{}", letter.escape_debug())?,
            _ if letter.is_ascii_control() => write!(f, "\\x{:02x}", u32::from(letter))?,
            _ => write!(f, "{}", letter.escape_debug())?,
        }
    }
    Ok(())
}

impl fmt::Display for BString {
    fn fmt(&self, f: &mut fmt::Formatter<'_>) -> fmt::Result {
        fmt::Display::fmt(BStr::new(self), f)
    }
}

impl fmt::Debug for BString {
    fn fmt(&self, f: &mut fmt::Formatter<'_>) -> fmt::Result {
        fmt::Debug::fmt(BStr::new(self), f)
    }
}
