//! The calls that the crate adds, and what the library requires of its handle. Expected values are worked out by hand.
use std::borrow::Cow;
use std::collections::{BTreeMap, HashSet};
use std::ffi::{CStr, CString, OsStr, OsString};
use std::mem::ManuallyDrop;
use std::os::unix::ffi::OsStrExt;
use std::panic::RefUnwindSafe;
use std::path::{Path, PathBuf};
use std::thread;

use intaglio_proved::bstr::{self, BStr, BString};
use intaglio_proved::{Refusal, Symbol, SymbolTable, bytes, cstr, osstr, packed, path};

fn symbols(ids: &[u32]) -> Vec<Symbol> {
    ids.iter().copied().map(Symbol::new).collect()
}

#[test]
fn symbols_count_up_from_0_and_give_their_text_back() {
    let mut table = SymbolTable::new();
    assert_eq!(table.intern("b"), Ok(Symbol::new(0)));
    assert_eq!(table.intern(String::from("a")), Ok(Symbol::new(1)));
    assert_eq!(table.intern_copy("b"), Ok(Symbol::new(0)));
    assert_eq!(table.intern(""), Ok(Symbol::new(2)));
    assert_eq!(table.iter().collect::<Vec<_>>(), [(Symbol::new(0), "b"), (Symbol::new(1), "a"), (Symbol::new(2), "")]);
    assert_eq!(table.strings().rev().collect::<Vec<_>>(), ["", "a", "b"]);
    assert_eq!(&table[Symbol::new(1)], "a");
    assert_eq!(table.get(Symbol::new(3)), None);
    assert_eq!(table.get_interned("a"), Some((Symbol::new(1), "a")));
}

#[test]
fn bytes_need_not_be_utf8() {
    let mut table = bytes::SymbolTable::default();
    assert_eq!(table.intern(&b"\xff\x00"[..]), Ok(Symbol::new(0)));
    assert_eq!(table.intern(vec![0xff, 0]), Ok(Symbol::new(0)));
    assert_eq!(table.bytestrings().collect::<Vec<_>>(), [b"\xff\x00"]);
}

#[test]
fn packed_tables_hold_texts_and_bytes() {
    let mut table = packed::SymbolTable::with_limit(3).unwrap();
    assert_eq!(table.intern("b"), Ok(Symbol::new(0)));
    assert_eq!(table.intern_all(["a", "b", ""]), Ok(symbols(&[1, 0, 2])));
    assert_eq!(table.try_intern("c"), Err(Refusal::Full));
    assert_eq!(table.strings().collect::<Vec<_>>(), ["b", "a", ""]);
    assert_eq!((table.take_back(1), table.check_all(["a", "b"])), (Ok(()), vec![None, Some(Symbol::new(0))]));
    let mut table = packed::bytes::SymbolTable::default();
    assert_eq!(table.intern(&b"\xff\x00"[..]), Ok(Symbol::new(0)));
    assert_eq!(table.intern(vec![0xff]), Ok(Symbol::new(1)));
    assert_eq!(table.intern_copy(b"\xff\x00"), Ok(Symbol::new(0)));
    assert_eq!(table.bytestrings().collect::<Vec<_>>(), [&b"\xff\x00"[..], b"\xff"]);
}

#[test]
fn byte_strings_need_not_be_utf8() {
    let mut table = bstr::SymbolTable::new();
    assert_eq!(table.intern(BStr::new(b"a\xff")), Ok(Symbol::new(0)));
    assert_eq!(table.intern(BString::from(vec![b'a', 0xff])), Ok(Symbol::new(0)));
    assert_eq!(table.intern(Cow::from(BStr::new(""))), Ok(Symbol::new(1)));
    assert_eq!(table.intern_all([BString::from("b"), BString::from("")]), Ok(symbols(&[2, 1])));
    assert_eq!(table.check_interned(BStr::new("b")), Some(Symbol::new(2)));
    assert_eq!(table.bstrings().collect::<Vec<_>>(), [BStr::new(b"a\xff"), BStr::new(""), BStr::new("b")]);
    assert_eq!(table[Symbol::new(0)], b"a\xff"[..]);
}

#[test]
fn byte_strings_are_compared_hashed_and_converted_as_their_bytes() {
    let (string, bytes) = (BString::from("a"), BStr::new(b"a"));
    assert!(string == bytes && string == "a" && *bytes == b"a"[..] && string == vec![b'a']);
    assert!(bytes == string && "a" == string);
    assert!(bytes < BStr::new("b") && string != "b" && BString::default().is_empty());
    assert_eq!((bytes.to_owned(), Vec::from(string.clone())), (BString::new(vec![b'a']), vec![b'a']));
    assert!(HashSet::from([string]).contains(bytes));
}

// Bytes that aren't part of UTF-8 are printed one by one; E2 82 begins a letter of three bytes.
#[test]
fn byte_strings_are_printed_as_text() {
    let bytes = BStr::new(b"\xe2\x82a\0\n\x1b\"\xc3\xa9");
    assert_eq!(format!("{bytes:?}"), r#""\xE2\x82a\0\n\x1b\"é""#);
    assert_eq!(format!("{:?}", BString::from(bytes)), format!("{bytes:?}"));
    assert_eq!(format!("{:>4}|{}", BStr::new(b"a\xff"), BString::from("b")), "  a\u{fffd}|b");
    let mut table = bstr::SymbolTable::default();
    table.intern(BStr::new(b"a\xff")).unwrap();
    assert!(format!("{table:#?}").contains(&format!("{:?},\n", BStr::new(b"a\xff"))));
}

#[test]
fn a_group_is_interned_all_or_none() {
    let mut table = SymbolTable::with_limit(3).unwrap();
    assert_eq!(table.intern_all(["b", "a", "b"]), Ok(symbols(&[0, 1, 0])));
    assert_eq!(table.intern_all(["a", "c", "d"]), Err(Refusal::Full));
    assert_eq!(table.strings().collect::<Vec<_>>(), ["b", "a"]);
    assert_eq!(table.intern_all(Vec::<String>::new()), Ok(vec![]));
    assert_eq!(table.intern_all([String::from("c")]), Ok(symbols(&[2])));
    assert_eq!(table.check_all(["c", "d", "a"]), [Some(Symbol::new(2)), None, Some(Symbol::new(1))]);
}

#[test]
fn a_full_table_refuses_what_is_new() {
    let mut table = SymbolTable::with_limit(1).unwrap();
    table.intern("a").unwrap();
    assert!(table.intern("b").is_err());
    assert_eq!(table.intern("a"), Ok(Symbol::new(0)));
    assert!(table.try_reserve(1).is_err());
    assert_eq!(SymbolTable::with_limit(0).unwrap_err(), Refusal::TooLarge);
}

#[test]
fn a_rollback_drops_what_came_later() {
    let mut table = SymbolTable::new();
    table.intern_all(["a", "b", "c"]).unwrap();
    assert_eq!(table.take_back(4), Err(Refusal::Stale));
    assert_eq!(table.take_back(1), Ok(()));
    assert_eq!(table.check_interned("b"), None);
    assert_eq!(table.intern("c"), Ok(Symbol::new(1)));
}

#[test]
fn room_is_as_it_was_asked_for() {
    let mut table = SymbolTable::with_capacity(10);
    assert_eq!(table.capacity(), 10);
    table.intern("a").unwrap();
    table.shrink_to_fit();
    assert_eq!(table.capacity(), 1);
    table.reserve(5);
    assert!(table.capacity() >= 6);
    table.clear();
    assert!(table.is_empty() && table.capacity() >= 6);
}

#[test]
fn a_table_goes_to_another_thread() {
    let mut table = SymbolTable::new();
    table.intern("a").unwrap();
    let mut table = thread::spawn(move || {
        table.intern("b").unwrap();
        table
    })
    .join()
    .unwrap();
    assert_eq!(table.intern("b"), Ok(Symbol::new(1)));
}

#[test]
fn c_strings_keep_their_zero() {
    let mut table = cstr::SymbolTable::new();
    assert_eq!(table.intern(c"b"), Ok(Symbol::new(0)));
    assert_eq!(table.intern(CString::new("").unwrap()), Ok(Symbol::new(1)));
    assert_eq!(table.intern_copy(c"b"), Ok(Symbol::new(0)));
    assert_eq!(table.c_strings().collect::<Vec<&CStr>>(), [c"b", c""]);
}

#[test]
fn platform_strings_need_not_be_utf8() {
    let mut table = osstr::SymbolTable::new();
    let odd = OsStr::from_bytes(b"a\xff");
    assert_eq!(table.intern(OsString::from(odd)), Ok(Symbol::new(0)));
    assert_eq!(table.intern(OsStr::new("a")), Ok(Symbol::new(1)));
    assert_eq!(table.check_interned(odd), Some(Symbol::new(0)));
    assert_eq!(table.os_strings().collect::<Vec<_>>(), [odd, OsStr::new("a")]);
}

#[test]
fn paths_are_equal_by_their_components() {
    let mut table = path::SymbolTable::new();
    assert_eq!(table.intern(Path::new("a//b")), Ok(Symbol::new(0)));
    assert_eq!(table.intern(PathBuf::from("a/./b/")), Ok(Symbol::new(0)));
    assert_eq!(table.paths().map(Path::as_os_str).collect::<Vec<_>>(), ["a//b"]);
}

#[test]
fn a_path_that_is_not_utf8_is_an_error() {
    let mut table = path::SymbolTable::new();
    let odd = Path::new(OsStr::from_bytes(b"a\xff"));
    assert_eq!(table.try_intern(odd), Err(Refusal::NotUtf8));
    assert_eq!(table.intern_all([Path::new("a"), odd]), Err(Refusal::NotUtf8));
    assert_eq!((table.check_interned(odd), table.check_all([odd]), table.len()), (None, vec![None], 0));
}

#[test]
fn tables_may_be_shared_and_survive_panics() {
    fn holds<T: Send + Sync + RefUnwindSafe + Unpin>(_: T) {}
    holds((SymbolTable::default(), bytes::SymbolTable::default(), cstr::SymbolTable::default()));
    holds((osstr::SymbolTable::default(), path::SymbolTable::default(), bstr::SymbolTable::default()));
    holds((packed::SymbolTable::default(), packed::bytes::SymbolTable::default()));
}

#[test]
fn threads_read_at_once() {
    let words: Vec<String> = (0..1_000).map(|number| format!("word {number}")).collect();
    let mut table = SymbolTable::new();
    table.intern_all(&words).unwrap();
    thread::scope(|scope| {
        for seed in 0..4 {
            let (table, words) = (&table, &words);
            scope.spawn(move || {
                for step in 0..50_000 {
                    let number = (step * 7919 + seed * 131) % words.len();
                    let symbol = Symbol::new(number as u32);
                    assert_eq!(table.check_interned(&words[number]), Some(symbol));
                    assert_eq!((table.get(symbol), table.len()), (Some(&words[number][..]), words.len()));
                    assert_eq!(table.check_interned("absent"), None);
                }
            });
        }
    });
}

// How std prints a `ManuallyDrop` depends on its version.
#[test]
fn debug_prints_a_map_and_a_list() {
    let mut table = bytes::SymbolTable::default();
    table.intern_all([&b"a\xff"[..], b"b"]).unwrap();
    let map = BTreeMap::from([(&b"a\xff"[..], Symbol::new(0)), (b"b", Symbol::new(1))]);
    let (map, list) = (ManuallyDrop::new(map), ManuallyDrop::new([&b"a\xff"[..], b"b"]));
    assert_eq!(format!("{table:?}"), format!("SymbolTable {{ map: {map:?}, vec: {list:?} }}"));
    let long = format!("{table:#?}");
    assert!(long.contains("\"a\u{fffd}\",\n") && long.contains("255"), "{long}");
}

#[test]
#[should_panic = "no string has this symbol"]
fn an_index_without_a_string_panics() {
    let _ = &SymbolTable::new()[Symbol::new(0)];
}
