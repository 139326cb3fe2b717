//! What the arguments ask for.

use crate::words::Source;

/// What is done with each table.
#[derive(Clone, Copy, PartialEq)]
pub enum Task {
    /// Each operation once.
    Check,
    /// The same, and times are printed.
    Time,
    /// The table is filled, and held until the input ends.
    Hold,
    /// Words are hashed alone, and the time is printed.
    Hash,
    /// New words are interned by their borrowed forms, and the time is printed.
    Copy,
}

/// Which table.
#[derive(Clone, Copy)]
pub enum Kind {
    /// That of the Rust crate `intaglio`.
    Crate,
    #[cfg(feature = "rivals")]
    Boxes,
    #[cfg(feature = "rivals")]
    Buffer,
    #[cfg(feature = "index_set")]
    IndexSet,
    Arena,
}

/// Which hashers.
#[derive(Clone, Copy)]
pub enum Hashing {
    /// `FoldHasher`, with a fixed seed.
    Fold,
    /// std's `RandomState`.
    Std,
    /// The default builder of hashbrown.
    #[cfg(feature = "rivals")]
    Hashbrown,
}

#[derive(Clone, Copy)]
pub struct Plan<'a> {
    pub task: Task,
    pub kind: Kind,
    pub hashing: Hashing,
    /// The capacity that each table begins with.
    pub capacity: usize,
    pub source: Source<'a>,
    /// How many distinct words.
    pub size: u32,
    /// How many tables, one after the other.
    pub turns: u32,
}

impl<'a> Plan<'a> {
    /// Reads `check|time|hold|hash|copy crate|boxes|buffer|index_set|arena fold|std|hashbrown CAPACITY SIZE|- TURNS`. For `-` the
    /// words are these lines: the first half of them is interned, and the others are absent.
    pub fn read(arguments: &[String], lines: &'a [String]) -> Option<Plan<'a>> {
        let [_, task, kind, hashing, capacity, size, turns] = arguments else {
            return None;
        };
        Some(Plan {
            task: match task.as_str() {
                "check" => Task::Check,
                "time" => Task::Time,
                "hold" => Task::Hold,
                "hash" => Task::Hash,
                "copy" => Task::Copy,
                _ => return None,
            },
            kind: match kind.as_str() {
                "crate" => Kind::Crate,
                #[cfg(feature = "rivals")]
                "boxes" => Kind::Boxes,
                #[cfg(feature = "rivals")]
                "buffer" => Kind::Buffer,
                #[cfg(feature = "index_set")]
                "index_set" => Kind::IndexSet,
                "arena" => Kind::Arena,
                _ => return None,
            },
            hashing: match hashing.as_str() {
                "fold" => Hashing::Fold,
                "std" => Hashing::Std,
                #[cfg(feature = "rivals")]
                "hashbrown" => Hashing::Hashbrown,
                _ => return None,
            },
            capacity: capacity.parse().ok()?,
            source: if size == "-" { Source::Listed(lines) } else { Source::Generated },
            size: if size == "-" { u32::try_from(lines.len() / 2).ok()? } else { size.parse().ok()? },
            turns: turns.parse().ok()?,
        })
    }
}
