//! One turn: each operation once, on a table that is empty at first.

use crate::operations::{clear, get, hash, intern, intern_forms, iterate, look_up, read};
use crate::plan::{Plan, Task};
use crate::table::Table;
use crate::words::{numbers, shuffle};
use std::io::{self, Write, stdin, stdout};
use std::time::Instant;

/// Prints a line for each operation: its name, how many words, the nanoseconds for each of them unless the task is a check,
/// and the operation's sum.
pub fn turn<T: Table>(table: &mut T, plan: Plan<'_>) {
    let in_order = numbers(0, plan.size);
    let mut shuffled = numbers(0, plan.size);
    shuffle(&mut shuffled);
    let fresh = plan.source.words(&in_order);
    measure(plan, "new", || intern(table, fresh));
    let known = plan.source.words(&shuffled);
    measure(plan, "hit", || look_up(table, &known));
    measure(plan, "borrowed", || intern_forms(table, &known));
    measure(plan, "again", || intern(table, known));
    let absent = plan.source.words(&numbers(plan.size, plan.size));
    measure(plan, "miss", || look_up(table, &absent));
    measure(plan, "get", || get(table, &shuffled));
    measure(plan, "read", || read(table, &shuffled));
    measure(plan, "iterate", || iterate(table));
    measure(plan, "clear", || clear(table));
    measure(plan, "refill", || intern(table, absent));
}

fn measure(plan: Plan<'_>, name: &str, operation: impl FnOnce() -> u64) {
    let start = Instant::now();
    let sum = operation();
    let seconds = start.elapsed().as_secs_f64();
    let size = plan.size;
    if plan.task == Task::Check {
        println!("{name} {size} {sum}");
    } else {
        let nanoseconds = seconds * 1e9 / f64::from(size);
        println!("{name} {size} {nanoseconds:.2} {sum}");
    }
}

/// Prints the same line for hashing alone. The sum is that of the hashes.
pub fn hash_alone<T: Table>(table: &T, plan: Plan<'_>) {
    let fresh = plan.source.words(&numbers(0, plan.size));
    measure(plan, "hash", || hash(table, &fresh));
}

/// Prints the same line for new words that are interned by their borrowed forms.
pub fn copy<T: Table>(table: &mut T, plan: Plan<'_>) {
    let fresh = plan.source.words(&numbers(0, plan.size));
    measure(plan, "copied", || intern_forms(table, &fresh));
}

/// Fills the table with words that it makes one at a time, prints how many texts there are and how many bytes they have,
/// and ends when the input ends.
pub fn hold<T: Table>(table: &mut T, plan: Plan<'_>) -> io::Result<()> {
    let mut bytes = 0u64;
    for number in 0..plan.size {
        let text = plan.source.word(number);
        bytes = bytes.wrapping_add(text.len() as u64);
        table.intern(text);
    }
    println!("held {} {bytes}", table.len());
    stdout().flush()?;
    for line in stdin().lines() {
        line?;
    }
    Ok(())
}
