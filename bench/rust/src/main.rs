//! Measures tables of texts, on generated words or on lines of the input: that of the Rust crate `intaglio`, two over hashbrown,
//! `IndexSet`, and std's map beside an arena. The program in `crates/bench` makes the same calls on the same words, and prints
//! the same lines.

mod arena;
mod fold;
#[cfg(feature = "index_set")]
mod index_set;
mod operations;
mod plan;
#[cfg(feature = "rivals")]
mod rivals;
mod table;
mod turn;
mod words;

use fold::FoldState;
use intaglio::SymbolTable;
use plan::{Hashing, Kind, Plan, Task};
use std::hash::{BuildHasher, RandomState};
use std::io;
use table::Table;
use turn::{copy, hash_alone, hold, turn};

const USAGE: &str = "check|time|hold|hash|copy crate|boxes|buffer|index_set|arena fold|std|hashbrown CAPACITY SIZE|- TURNS";

fn main() -> io::Result<()> {
    let arguments: Vec<String> = std::env::args().collect();
    let from_input = arguments.get(5).is_some_and(|size| size == "-");
    let lines: Vec<String> = if from_input { io::stdin().lines().collect::<Result<_, _>>()? } else { Vec::new() };
    let Some(plan) = Plan::read(&arguments, &lines) else {
        println!("usage: {USAGE}");
        return Ok(());
    };
    match plan.hashing {
        Hashing::Fold => with_builder(plan, || FoldState),
        Hashing::Std => with_builder(plan, RandomState::new),
        #[cfg(feature = "rivals")]
        Hashing::Hashbrown => with_builder(plan, hashbrown::hash_map::DefaultHashBuilder::default),
    }
}

fn with_builder<S: BuildHasher>(plan: Plan<'_>, builder: impl Fn() -> S) -> io::Result<()> {
    let capacity = plan.capacity;
    match plan.kind {
        Kind::Crate => run(plan, || SymbolTable::with_capacity_and_hasher(capacity, builder())),
        #[cfg(feature = "rivals")]
        Kind::Boxes => run(plan, || rivals::Rival::<rivals::Boxes, S>::new(capacity, builder())),
        #[cfg(feature = "rivals")]
        Kind::Buffer => run(plan, || rivals::Rival::<rivals::Buffer, S>::new(capacity, builder())),
        #[cfg(feature = "index_set")]
        Kind::IndexSet => run(plan, || index_set::Indexed::<S>::new(capacity, builder())),
        Kind::Arena => run(plan, || arena::Arena::new(capacity, builder())),
    }
}

fn run<T: Table>(plan: Plan<'_>, make: impl Fn() -> T) -> io::Result<()> {
    for _ in 0..plan.turns {
        let mut table = make();
        match plan.task {
            Task::Check | Task::Time => turn(&mut table, plan),
            Task::Hold => hold(&mut table, plan)?,
            Task::Hash => hash_alone(&table, plan),
            Task::Copy => copy(&mut table, plan),
        }
    }
    Ok(())
}
