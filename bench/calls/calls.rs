//! Times calls of the Rust crate as calls.c does, with the same arguments and output; with the feature `upstream` those of the
//! crate `intaglio`, which has the same names.
#[cfg(feature = "upstream")]
use intaglio::SymbolTable;
#[cfg(not(feature = "upstream"))]
use intaglio_proved::SymbolTable;
use std::hint::black_box;
use std::time::Instant;

const ROW: &str = if cfg!(feature = "upstream") { "the crate `intaglio`" } else { "Rust" };

fn lines(path: &str) -> Vec<String> {
    let text = std::fs::read_to_string(path).expect("a file of lines");
    text.lines().map(String::from).collect()
}

fn measure(column: &str, lines: &[String], call: impl FnMut(&String) -> u32) {
    let start = Instant::now();
    black_box(lines.iter().map(call).fold(0, u32::wrapping_add));
    println!("{ROW};{column};{:.1}", start.elapsed().as_secs_f64() * 1e9 / lines.len() as f64);
}

/// The symbol of a borrowed line. The crate `intaglio` has no call that copies only what is new.
fn intern(table: &mut SymbolTable, line: &str) -> u32 {
    #[cfg(feature = "upstream")]
    let symbol = table.intern(line.to_owned());
    #[cfg(not(feature = "upstream"))]
    let symbol = table.intern_copy(line);
    symbol.unwrap().id()
}

fn turn(fresh: &[String], shuffled: &[String], absent: &[String]) {
    let mut table = SymbolTable::new();
    measure("new", fresh, |line| intern(&mut table, line));
    measure("again", fresh, |line| intern(&mut table, line));
    measure("found", fresh, |line| table.check_interned(line).unwrap().id());
    measure("again, shuffled", shuffled, |line| intern(&mut table, line));
    measure("found, shuffled", shuffled, |line| table.check_interned(line).unwrap().id());
    measure("absent", absent, |line| u32::from(table.check_interned(line).is_some()));
    let mut symbols = table.all_symbols();
    measure("get", fresh, |_| table.get(symbols.next().unwrap()).unwrap().len() as u32);
    table.clear();
    measure("new after clear", fresh, |line| intern(&mut table, line));
}

fn main() {
    let words: Vec<String> = std::env::args().collect();
    let [fresh, shuffled, absent] = [1, 2, 3].map(|word| lines(&words[word]));
    for _ in 0..words[4].parse().expect("a number of turns") {
        turn(&fresh, &shuffled, &absent);
    }
}
