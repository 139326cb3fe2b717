//! The library, behind safe calls. All of this crate's `unsafe` is here.
//!
//! What the library asks of its callers is in its header, `bindings/c/intaglio.h`: valid pointers that aren't null and
//! don't overlap what is written, a handle that is zeros or was written by the library, and one call at a time on a handle.
//! Slices and references of Rust are such pointers.
//!
//! A [`RawTable`] owns its handle. A call that changes the table takes `&mut self`, and the handle itself. A call that only
//! reads takes a copy of the handle, which lasts as long as the call, since the library is declared to take a pointer through
//! which it may write. It borrows the table in place, and writes neither to the copy nor to the table, so threads may read at
//! once, without a lock. No contract says so: `bindings/tests/reads.c` makes all of these calls while the memory of the table
//! and of its handle can't be written.
use core::ffi::{CStr, c_void};
use core::fmt::{self, Debug};
use core::marker::PhantomData;
use core::ptr::null_mut;
use std::ffi::OsStr;
use std::os::unix::ffi::OsStrExt;

use crate::refusal::Refusal;

#[repr(C)]
#[derive(Clone, Copy)]
struct RawHandle {
    live: bool,
    ptr: *mut c_void,
}

#[repr(C)]
struct RawSpelling {
    at: *const u8,
    len: usize,
}

// Where the sections of a frozen table are.
#[repr(C)]
#[derive(Clone, Copy, Default)]
struct RawSections {
    key0: u64,
    key1: u64,
    count: usize,
    starts_at: usize,
    pilots_at: usize,
    tags_at: usize,
    text_at: usize,
    places: u32,
    groups: u32,
    kind: u32,
}

unsafe extern "C" {
    fn intaglio_with_capacity(table: *mut RawHandle, kind: u32, capacity: usize, key0: u64, key1: u64) -> u32;
    fn intaglio_with_limit(table: *mut RawHandle, kind: u32, limit: usize, key0: u64, key1: u64) -> u32;
    fn intaglio_free(table: *mut RawHandle);
    fn intaglio_intern(table: *mut RawHandle, bytes: *const u8, len: usize, symbol: *mut u32) -> u32;
    fn intaglio_intern_static(table: *mut RawHandle, bytes: *const u8, len: usize, symbol: *mut u32) -> u32;
    fn intaglio_check_interned(table: *mut RawHandle, bytes: *const u8, len: usize, symbol: *mut u32) -> bool;
    fn intaglio_get(table: *mut RawHandle, symbol: u32, out: *mut RawSpelling) -> bool;
    fn intaglio_len(table: *mut RawHandle) -> usize;
    fn intaglio_capacity(table: *mut RawHandle) -> usize;
    fn intaglio_reserve(table: *mut RawHandle, additional: usize) -> u32;
    fn intaglio_shrink_to(table: *mut RawHandle, min_capacity: usize) -> u32;
    fn intaglio_clear(table: *mut RawHandle);
    fn intaglio_take_back(table: *mut RawHandle, mark: usize) -> u32;
    fn intaglio_intern_all(
        table: *mut RawHandle,
        bytes: *const u8,
        len: usize,
        ends: *const usize,
        count: usize,
        symbols: *mut u32,
        symbols_count: usize,
    ) -> u32;
    fn intaglio_check_all(
        table: *mut RawHandle,
        bytes: *const u8,
        len: usize,
        ends: *const usize,
        count: usize,
        symbols: *mut u64,
        symbols_count: usize,
    ) -> u32;
    fn intaglio_absorb(table: *mut RawHandle, frozen: *const u8, len: usize, symbols: *mut u32, symbols_count: usize) -> u32;
    fn intaglio_freeze(table: *mut RawHandle, key0: u64, key1: u64, buffer: *mut u8, size: usize, len: *mut usize) -> u32;
    fn intaglio_frozen_check(bytes: *const u8, len: usize) -> u32;
    fn intaglio_frozen_find_all(
        bytes: *const u8,
        len: usize,
        strings: *const u8,
        strings_len: usize,
        ends: *const usize,
        count: usize,
        symbols: *mut u64,
        symbols_count: usize,
    ) -> u32;
    fn intaglio_frozen_sections(bytes: *const u8, len: usize, sections: *mut RawSections) -> u32;
    fn intaglio_frozen_find_in(
        bytes: *const u8,
        len: usize,
        sections: *const RawSections,
        string: *const u8,
        string_len: usize,
        symbol: *mut u32,
    ) -> bool;
    fn intaglio_frozen_get_in(
        bytes: *const u8,
        len: usize,
        sections: *const RawSections,
        symbol: u32,
        out: *mut RawSpelling,
    ) -> bool;
    fn intaglio_frozen_is_text(bytes: *const u8, len: usize) -> bool;
}

mod sealed {
    pub trait Sealed {}
}

/// A kind of tables: [`Text`], [`Bytes`], [`Bstr`], [`Cstr`], [`Osstr`], [`Path`], [`PackedText`] or [`PackedBytes`].
pub trait Kind: sealed::Sealed {
    /// The strings.
    type Content: ?Sized + ToOwned + Debug + 'static;

    /// The number that the library has for the kind.
    #[doc(hidden)]
    const NUMBER: u32;

    #[doc(hidden)]
    fn bytes(content: &Self::Content) -> &[u8];

    /// # Safety
    ///
    /// The bytes come from a table of this kind.
    #[doc(hidden)]
    unsafe fn content(bytes: &[u8]) -> &Self::Content;

    /// Prints a string as `intaglio` prints it in `{:#?}` of a table: most kinds as text, with U+FFFD for what isn't UTF-8.
    #[doc(hidden)]
    fn print_long(content: &Self::Content, f: &mut fmt::Formatter<'_>) -> fmt::Result {
        write!(f, "{:?}", String::from_utf8_lossy(Self::bytes(content)))
    }
}

/// UTF-8 strings.
#[derive(Debug)]
pub enum Text {}

impl sealed::Sealed for Text {}

impl Kind for Text {
    type Content = str;

    const NUMBER: u32 = 0;

    fn bytes(content: &str) -> &[u8] {
        content.as_bytes()
    }

    unsafe fn content(bytes: &[u8]) -> &str {
        // SAFETY: A table of strings accepts only UTF-8, which is proved. That `get` returns the bytes that were accepted is
        // tested.
        unsafe { core::str::from_utf8_unchecked(bytes) }
    }
}

/// Bytes.
#[derive(Debug)]
pub enum Bytes {}

impl sealed::Sealed for Bytes {}

impl Kind for Bytes {
    type Content = [u8];

    const NUMBER: u32 = 1;

    fn bytes(content: &[u8]) -> &[u8] {
        content
    }

    unsafe fn content(bytes: &[u8]) -> &[u8] {
        bytes
    }
}

/// A borrowed byte string: bytes that are text by convention, though they needn't be UTF-8. It dereferences to its bytes, and is
/// printed as text.
#[derive(PartialEq, Eq, PartialOrd, Ord, Hash)]
#[repr(transparent)]
pub struct BStr {
    pub(crate) bytes: [u8],
}

impl BStr {
    pub(crate) fn from_bytes(bytes: &[u8]) -> &BStr {
        // SAFETY: A `BStr` has the layout of its one field, a slice of bytes, and each slice of bytes is one.
        unsafe { &*(core::ptr::from_ref(bytes) as *const BStr) }
    }
}

/// Byte strings.
#[derive(Debug)]
pub enum Bstr {}

impl sealed::Sealed for Bstr {}

impl Kind for Bstr {
    type Content = BStr;

    const NUMBER: u32 = 5;

    fn bytes(content: &BStr) -> &[u8] {
        content
    }

    unsafe fn content(bytes: &[u8]) -> &BStr {
        BStr::from_bytes(bytes)
    }

    fn print_long(content: &BStr, f: &mut fmt::Formatter<'_>) -> fmt::Result {
        content.fmt(f)
    }
}

/// C strings.
#[derive(Debug)]
pub enum Cstr {}

impl sealed::Sealed for Cstr {}

impl Kind for Cstr {
    type Content = CStr;

    const NUMBER: u32 = 2;

    fn bytes(content: &CStr) -> &[u8] {
        content.to_bytes_with_nul()
    }

    unsafe fn content(bytes: &[u8]) -> &CStr {
        // SAFETY: A table of C strings accepts only bytes whose one zero is the last, which is proved, and returns them with it.
        unsafe { CStr::from_bytes_with_nul_unchecked(bytes) }
    }

    fn print_long(content: &CStr, f: &mut fmt::Formatter<'_>) -> fmt::Result {
        write!(f, "{:?}", content.to_string_lossy())
    }
}

/// Paths, which are equal if their components are. Only those that are UTF-8 can be interned.
#[derive(Debug)]
pub enum Path {}

impl sealed::Sealed for Path {}

impl Kind for Path {
    type Content = std::path::Path;

    const NUMBER: u32 = 3;

    fn bytes(content: &std::path::Path) -> &[u8] {
        content.as_os_str().as_encoded_bytes()
    }

    unsafe fn content(bytes: &[u8]) -> &std::path::Path {
        std::path::Path::new(OsStr::from_bytes(bytes))
    }
}

/// OS strings. They are bytes to the library, so that those that aren't UTF-8 can be interned too.
#[derive(Debug)]
pub enum Osstr {}

impl sealed::Sealed for Osstr {}

impl Kind for Osstr {
    type Content = OsStr;

    const NUMBER: u32 = Bytes::NUMBER;

    fn bytes(content: &OsStr) -> &[u8] {
        content.as_encoded_bytes()
    }

    unsafe fn content(bytes: &[u8]) -> &OsStr {
        OsStr::from_bytes(bytes)
    }
}

/// UTF-8 strings in one buffer.
#[derive(Debug)]
pub enum PackedText {}

impl sealed::Sealed for PackedText {}

impl Kind for PackedText {
    type Content = str;

    const NUMBER: u32 = 6;

    fn bytes(content: &str) -> &[u8] {
        content.as_bytes()
    }

    unsafe fn content(bytes: &[u8]) -> &str {
        // SAFETY: As in `Text`.
        unsafe { core::str::from_utf8_unchecked(bytes) }
    }
}

/// Bytes in one buffer.
#[derive(Debug)]
pub enum PackedBytes {}

impl sealed::Sealed for PackedBytes {}

impl Kind for PackedBytes {
    type Content = [u8];

    const NUMBER: u32 = 7;

    fn bytes(content: &[u8]) -> &[u8] {
        content
    }

    unsafe fn content(bytes: &[u8]) -> &[u8] {
        bytes
    }
}

/// A batch of strings: their concatenated bytes, and the end of each.
#[derive(Default)]
pub struct Batch {
    bytes: Vec<u8>,
    ends: Vec<usize>,
}

impl Batch {
    /// The strings in order.
    pub fn of<K: Kind, T: AsRef<K::Content>>(contents: impl IntoIterator<Item = T>) -> Batch {
        let mut batch = Batch::default();
        for content in contents {
            batch.bytes.extend_from_slice(K::bytes(content.as_ref()));
            batch.ends.push(batch.bytes.len());
        }
        batch
    }
}

/// A table of the library.
pub struct RawTable<K: Kind> {
    handle: RawHandle,
    kind: PhantomData<K>,
}

// SAFETY: A table is a few blocks of memory that nothing else points to. The library's only other data are constants and a
// byte of which only the address is used, and C's allocator accepts a block from any thread.
unsafe impl<K: Kind> Send for RawTable<K> {}

// SAFETY: What takes `&self` calls the library with a handle of its own, and only reads the table.
unsafe impl<K: Kind> Sync for RawTable<K> {}

impl<K: Kind> RawTable<K> {
    // A table that the call makes.
    fn made(make: impl FnOnce(*mut RawHandle) -> u32) -> Result<RawTable<K>, Refusal> {
        let mut table = RawTable { handle: RawHandle { live: false, ptr: null_mut() }, kind: PhantomData };
        Refusal::check(make(&mut table.handle))?;
        Ok(table)
    }

    pub fn with_capacity(capacity: usize, keys: (u64, u64)) -> Result<RawTable<K>, Refusal> {
        // SAFETY: The handle is zeros, and nobody else has it.
        RawTable::made(|handle| unsafe { intaglio_with_capacity(handle, K::NUMBER, capacity, keys.0, keys.1) })
    }

    pub fn with_limit(limit: usize, keys: (u64, u64)) -> Result<RawTable<K>, Refusal> {
        // SAFETY: As in `with_capacity`.
        RawTable::made(|handle| unsafe { intaglio_with_limit(handle, K::NUMBER, limit, keys.0, keys.1) })
    }

    // Makes a call that only reads, with a copy of the handle.
    fn read<R>(&self, call: impl FnOnce(*mut RawHandle) -> R) -> R {
        let mut copy = self.handle;
        call(&mut copy)
    }

    pub fn len(&self) -> usize {
        // SAFETY: The handle is a copy of one that the library wrote, for this one call, which only reads.
        self.read(|handle| unsafe { intaglio_len(handle) })
    }

    pub fn capacity(&self) -> usize {
        // SAFETY: As in `len`.
        self.read(|handle| unsafe { intaglio_capacity(handle) })
    }

    pub fn intern(&mut self, content: &K::Content) -> Result<u32, Refusal> {
        let bytes = K::bytes(content);
        let mut symbol = 0;
        // SAFETY: The handle is one that the library wrote, and this is the one call on it. A slice's pointer isn't null even if
        // the slice is empty, and `symbol` isn't in it.
        Refusal::check(unsafe { intaglio_intern(&mut self.handle, bytes.as_ptr(), bytes.len(), &mut symbol) })?;
        Ok(symbol)
    }

    pub fn intern_static(&mut self, content: &'static K::Content) -> Result<u32, Refusal> {
        let bytes = K::bytes(content);
        let mut symbol = 0;
        // SAFETY: As in `intern`. The bytes stay as they are for `'static`.
        Refusal::check(unsafe { intaglio_intern_static(&mut self.handle, bytes.as_ptr(), bytes.len(), &mut symbol) })?;
        Ok(symbol)
    }

    pub fn check_interned(&self, content: &K::Content) -> Option<u32> {
        let bytes = K::bytes(content);
        let mut symbol = 0;
        // SAFETY: As in `len`, and for the slice as in `intern`.
        let found = self.read(|handle| unsafe { intaglio_check_interned(handle, bytes.as_ptr(), bytes.len(), &mut symbol) });
        found.then_some(symbol)
    }

    pub fn get(&self, symbol: u32) -> Option<&K::Content> {
        let mut out = RawSpelling { at: core::ptr::null(), len: 0 };
        // SAFETY: As in `len`. `out` is the library's struct.
        if !self.read(|handle| unsafe { intaglio_get(handle, symbol, &mut out) }) {
            return None;
        }
        let bytes = match out.len {
            0 => &[],
            // SAFETY: `out` leads to the string of the symbol, which stays where it is until the table is cleared, rolled back,
            // or freed. Both are only tested. Each of those calls takes `&mut self` or `self`, so not while the slice is
            // borrowed from `self`.
            len => unsafe { core::slice::from_raw_parts(out.at, len) },
        };
        // SAFETY: The bytes are those that the table accepted, which are of its kind. That they are these is only tested.
        Some(unsafe { K::content(bytes) })
    }

    pub fn reserve(&mut self, additional: usize) -> Result<(), Refusal> {
        // SAFETY: As in `intern`.
        Refusal::check(unsafe { intaglio_reserve(&mut self.handle, additional) })
    }

    pub fn shrink_to(&mut self, min_capacity: usize) -> Result<(), Refusal> {
        // SAFETY: As in `intern`.
        Refusal::check(unsafe { intaglio_shrink_to(&mut self.handle, min_capacity) })
    }

    pub fn clear(&mut self) {
        // SAFETY: As in `len`. No slice is borrowed, since this takes `&mut self`.
        unsafe { intaglio_clear(&mut self.handle) }
    }

    pub fn take_back(&mut self, mark: usize) -> Result<(), Refusal> {
        // SAFETY: As in `clear`.
        Refusal::check(unsafe { intaglio_take_back(&mut self.handle, mark) })
    }

    pub fn intern_all(&mut self, batch: &Batch) -> Result<Vec<u32>, Refusal> {
        let Batch { bytes, ends } = batch;
        let mut symbols = vec![0; ends.len()];
        // SAFETY: As in `intern`. The three are vectors of their own.
        let code = unsafe {
            intaglio_intern_all(
                &mut self.handle,
                bytes.as_ptr(),
                bytes.len(),
                ends.as_ptr(),
                ends.len(),
                symbols.as_mut_ptr(),
                symbols.len(),
            )
        };
        Refusal::check(code)?;
        Ok(symbols)
    }

    pub fn check_all(&self, batch: &Batch) -> Vec<Option<u32>> {
        let Batch { bytes, ends } = batch;
        let mut symbols = vec![0; ends.len()];
        // SAFETY: As in `len`. The three are vectors of their own.
        let code = self.read(|handle| unsafe {
            intaglio_check_all(
                handle,
                bytes.as_ptr(),
                bytes.len(),
                ends.as_ptr(),
                ends.len(),
                symbols.as_mut_ptr(),
                symbols.len(),
            )
        });
        assert!(code == 0, "the ends ascend, and there is a place for each symbol");
        symbols.into_iter().map(|symbol| u32::try_from(symbol).ok()).collect()
    }

    /// Interns all strings of a frozen table, or returns the error's code.
    pub fn absorb(&mut self, frozen: RawFrozen<'_>) -> Result<Vec<u32>, u32> {
        let mut symbols = vec![0; frozen.len()];
        // SAFETY: As in `intern`. `symbols` is a vector of its own.
        let code = unsafe {
            intaglio_absorb(&mut self.handle, frozen.bytes.as_ptr(), frozen.bytes.len(), symbols.as_mut_ptr(), symbols.len())
        };
        if code == 0 { Ok(symbols) } else { Err(code) }
    }

    // Freezes the table into a buffer of this size. Returns the code, and how many bytes there are.
    fn freeze_into(&self, keys: (u64, u64), buffer: &mut [u8]) -> (u32, usize) {
        let mut len = 0;
        // SAFETY: As in `len`. The buffer is a slice that nothing else has.
        let code =
            self.read(|handle| unsafe { intaglio_freeze(handle, keys.0, keys.1, buffer.as_mut_ptr(), buffer.len(), &mut len) });
        (code, len)
    }

    /// The bytes of a frozen table of the strings, or the error's code.
    pub fn freeze(&self, keys: (u64, u64)) -> Result<Vec<u8>, u32> {
        let text =
            (0..self.len()).filter_map(|id| self.get(u32::try_from(id).ok()?)).map(|content| K::bytes(content).len()).sum();
        let mut bytes = vec![0; frozen_size(self.len(), text)];
        let (mut code, mut len) = self.freeze_into(keys, &mut bytes);
        if code == NO_SPACE {
            bytes.resize(len, 0);
            (code, len) = self.freeze_into(keys, &mut bytes);
        }
        bytes.truncate(len);
        if code == 0 { Ok(bytes) } else { Err(code) }
    }
}

// The code for a buffer that is too short.
const NO_SPACE: u32 = 11;

// How many bytes a frozen table has, of so many strings and bytes of text, by docs/FORMATS.md.
fn frozen_size(count: usize, text: usize) -> usize {
    let (places, groups) = (count + count / 19 + 2, count / 3 + 1);
    128 + 5 * places + 4 * count + 2 * groups + text
}

impl<K: Kind> Drop for RawTable<K> {
    fn drop(&mut self) {
        // SAFETY: As in `clear`. Nothing uses the handle afterwards.
        unsafe { intaglio_free(&mut self.handle) }
    }
}

/// The bytes of a frozen table, or any others, and where its sections are, if the header says it. Nothing outside is read.
#[derive(Clone, Copy)]
pub struct RawFrozen<'a> {
    bytes: &'a [u8],
    sections: Option<RawSections>,
}

impl<'a> RawFrozen<'a> {
    pub fn new(bytes: &'a [u8]) -> RawFrozen<'a> {
        let mut sections = RawSections::default();
        // SAFETY: A slice's pointer isn't null, the library only reads the bytes, and `sections` is its struct.
        let code = unsafe { intaglio_frozen_sections(bytes.as_ptr(), bytes.len(), &mut sections) };
        RawFrozen { bytes, sections: (code == 0).then_some(sections) }
    }

    pub fn bytes(self) -> &'a [u8] {
        self.bytes
    }

    pub fn check(self) -> u32 {
        // SAFETY: A slice's pointer isn't null, and the library only reads.
        unsafe { intaglio_frozen_check(self.bytes.as_ptr(), self.bytes.len()) }
    }

    pub fn find(self, string: &[u8]) -> Option<u32> {
        let (bytes, sections, mut symbol) = (self.bytes, self.sections?, 0);
        // SAFETY: As in `check`. `symbol` is in neither slice, and the sections are those of the bytes.
        let found = unsafe {
            intaglio_frozen_find_in(bytes.as_ptr(), bytes.len(), &sections, string.as_ptr(), string.len(), &mut symbol)
        };
        found.then_some(symbol)
    }

    pub fn find_all(self, batch: &Batch) -> Vec<Option<u32>> {
        let Batch { bytes, ends } = batch;
        let mut symbols = vec![u64::MAX; ends.len()];
        // SAFETY: As in `check`. The three are vectors of their own.
        let _code = unsafe {
            intaglio_frozen_find_all(
                self.bytes.as_ptr(),
                self.bytes.len(),
                bytes.as_ptr(),
                bytes.len(),
                ends.as_ptr(),
                ends.len(),
                symbols.as_mut_ptr(),
                symbols.len(),
            )
        };
        symbols.into_iter().map(|symbol| u32::try_from(symbol).ok()).collect()
    }

    pub fn get(self, symbol: u32) -> Option<&'a [u8]> {
        let (sections, mut out) = (self.sections?, RawSpelling { at: core::ptr::null(), len: 0 });
        // SAFETY: As in `find`. `out` is the library's struct.
        if !unsafe { intaglio_frozen_get_in(self.bytes.as_ptr(), self.bytes.len(), &sections, symbol, &mut out) } {
            return None;
        }
        if out.len == 0 {
            return Some(&[]);
        }
        // Where the string begins in the bytes. A wrong address panics here, since no contract says which it is.
        let start = out.at as usize - self.bytes.as_ptr() as usize;
        Some(&self.bytes[start..start + out.len])
    }

    pub fn len(self) -> usize {
        self.sections.map_or(0, |sections| sections.count)
    }

    pub fn is_text(self) -> bool {
        // SAFETY: As in `check`.
        unsafe { intaglio_frozen_is_text(self.bytes.as_ptr(), self.bytes.len()) }
    }
}
