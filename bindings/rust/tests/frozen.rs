//! Frozen tables. The bytes were written by `checks/formats.py`, from `docs/FORMATS.md` alone.
use std::thread;

use intaglio_proved::frozen::{AbsorbError, Frozen, FrozenError};
use intaglio_proved::{Symbol, SymbolTable, bytes, cstr};

/// The texts "a", "bc" and "", under the keys 1 and 2.
#[rustfmt::skip]
const TEXTS: [u8; 172] = [
    73, 78, 84, 65, 71, 76, 73, 79, 2, 0, 0, 0, 1, 0, 0, 0, 1, 0, 0, 0, 0, 0, 0, 0, 2, 0, 0, 0, 0, 0, 0, 0,
    3, 0, 0, 0, 0, 0, 0, 0, 3, 0, 0, 0, 0, 0, 0, 0, 93, 185, 73, 97, 173, 140, 110, 32, 19, 205, 61, 32, 240, 160, 73, 25,
    93, 185, 73, 97, 173, 140, 110, 32, 19, 205, 61, 32, 240, 160, 73, 25, 1, 0, 0, 0, 0, 0, 0, 0, 0, 0, 0, 0, 0, 0, 0, 0,
    0, 0, 0, 0, 0, 0, 0, 0, 0, 0, 0, 0, 0, 0, 0, 0, 0, 0, 0, 0, 0, 0, 0, 0, 0, 0, 0, 0, 0, 0, 0, 0,
    1, 0, 0, 0, 2, 0, 0, 0, 0, 0, 0, 0, 255, 255, 255, 255, 255, 255, 255, 255, 1, 0, 0, 0, 3, 0, 0, 0,
    3, 0, 0, 0, 0, 0, 0, 0, 159, 160, 132, 0, 0, 97, 98, 99,
];

fn changed(at: usize, to: u8) -> FrozenError {
    let mut bytes = TEXTS;
    bytes[at] = to;
    Frozen::open(&bytes).expect_err("a changed byte")
}

#[test]
fn strings_are_found_at_their_symbols() {
    let table = Frozen::open(&TEXTS).unwrap();
    let strings: [&[u8]; 3] = [b"a", b"bc", b""];
    assert_eq!((table.len(), table.is_empty(), table.is_text()), (3, false, true));
    assert_eq!(table.strings().collect::<Vec<_>>(), strings);
    for (id, string) in table.iter() {
        assert_eq!((table.get(id), table.check_interned(string)), (Some(string), Some(id)));
    }
    assert_eq!(table.get(Symbol::new(3)), None);
    assert!(table.is_interned("bc") && !table.is_interned("b"));
    assert_eq!(table.check_all(["", "b", "a"]), [Some(Symbol::new(2)), None, Some(Symbol::new(0))]);
    assert_eq!(table.iter().next_back(), Some((Symbol::new(2), &b""[..])));
}

#[test]
fn the_strings_live_as_long_as_the_bytes() {
    let bytes = TEXTS.to_vec();
    let string = Frozen::open(&bytes).unwrap().get(Symbol::new(1)).unwrap();
    assert_eq!(string, b"bc");
}

#[test]
fn threads_may_read_at_once() {
    let table = Frozen::open(&TEXTS).unwrap();
    thread::scope(|scope| {
        for _ in 0..4 {
            scope.spawn(|| assert_eq!(table.check_interned("bc"), Some(Symbol::new(1))));
        }
    });
}

#[test]
fn damaged_bytes_are_refused_by_name() {
    assert_eq!(changed(0, b'J'), FrozenError::NotFrozen);
    assert_eq!(changed(8, 3), FrozenError::OtherVersion);
    assert_eq!(changed(12, 2), FrozenError::NoKind);
    assert_eq!(changed(127, 1), FrozenError::Reserved);
    assert_eq!(changed(84, 1), FrozenError::BadShard);
    assert_eq!(changed(64, 1), FrozenError::OtherIdentity);
    assert_eq!(changed(40, 2), FrozenError::TrailingBytes);
    assert_eq!(changed(39, 1), FrozenError::TooMany);
    assert_eq!(changed(32, 4), FrozenError::Truncated);
    assert_eq!(changed(156, 2), FrozenError::TextEnds);
    assert_eq!(changed(TEXTS.len() - 3, 0xff), FrozenError::NotFound);
    assert_eq!(Frozen::open(&TEXTS[..TEXTS.len() - 4]).unwrap_err(), FrozenError::Truncated);
    assert_eq!(Frozen::open(b"").unwrap_err(), FrozenError::NotFrozen);
    assert_eq!(FrozenError::NotFrozen.to_string(), "not a frozen table");
}

#[test]
fn trusted_bytes_are_not_checked() {
    let mut bytes = TEXTS;
    *bytes.last_mut().unwrap() = 0xff;
    let table = Frozen::open_trusted(&bytes);
    assert_eq!((table.get(Symbol::new(0)), table.get(Symbol::new(1))), (Some(&b"a"[..]), Some(&b"b\xff"[..])));
    assert!(!table.is_interned("bc") && table.is_interned("a"));
    assert!(Frozen::open_trusted(b"").is_empty());
}

#[test]
fn a_table_is_frozen_to_the_bytes_of_the_writer_in_python() {
    let mut table = SymbolTable::new();
    table.intern_all(["a", "bc", ""]).unwrap();
    let data = table.freeze((1, 2)).unwrap();
    // The room was right at once, so that nothing was frozen a second time.
    assert_eq!((&data[..], data.capacity()), (&TEXTS[..], TEXTS.len()));
    assert_eq!(table.strings().collect::<Vec<_>>(), ["a", "bc", ""]);
}

#[test]
fn a_table_interns_the_strings_of_a_frozen_one() {
    let frozen = Frozen::open(&TEXTS).unwrap();
    let mut table = SymbolTable::new();
    table.intern("bc").unwrap();
    assert_eq!(table.absorb(&frozen).unwrap(), [1, 0, 2].map(Symbol::new));
    assert_eq!(table.strings().collect::<Vec<_>>(), ["bc", "a", ""]);
    assert_eq!(table.absorb(&frozen).unwrap(), [1, 0, 2].map(Symbol::new));
    let nothing = Frozen::open_trusted(b"");
    assert_eq!(table.absorb(&nothing), Err(AbsorbError::NotFrozen(FrozenError::NotFrozen)));
    assert_eq!(table.len(), 3);
}

#[test]
fn a_table_interns_all_strings_of_a_frozen_one_or_none() {
    let frozen = Frozen::open(&TEXTS).unwrap();
    let mut small = SymbolTable::with_limit(2).unwrap();
    assert_eq!(small.absorb(&frozen), Err(AbsorbError::Full));
    assert!(small.is_empty());
    assert_eq!(cstr::SymbolTable::new().absorb(&frozen), Err(AbsorbError::NotCString));
    let mut others = bytes::SymbolTable::new();
    others.intern(b"\xff".to_vec()).unwrap();
    let data = others.freeze((0, 0)).unwrap();
    assert_eq!(SymbolTable::new().absorb(&Frozen::open(&data).unwrap()), Err(AbsorbError::NotUtf8));
}

#[test]
fn each_string_keeps_its_symbol() {
    let mut table = bytes::SymbolTable::new();
    for number in 0..5000u32 {
        table.intern(number.to_le_bytes()[..(number % 4) as usize + 1].to_vec()).unwrap();
    }
    let data = table.freeze((0, 0)).unwrap();
    let frozen = Frozen::open(&data).unwrap();
    assert_eq!((frozen.len(), frozen.is_text()), (table.len(), false));
    assert!(table.iter().eq(frozen.iter()));
    assert!(Frozen::open(&SymbolTable::new().freeze((0, 0)).unwrap()).unwrap().is_empty());
}

#[test]
fn a_c_string_keeps_its_zero() {
    let mut table = cstr::SymbolTable::new();
    table.intern(c"a").unwrap();
    let data = table.freeze((0, 0)).unwrap();
    assert_eq!(Frozen::open(&data).unwrap().get(Symbol::new(0)), Some(&b"a\0"[..]));
}
