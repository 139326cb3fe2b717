//! What programs write by hand: std's map from strings in an arena to numbers, and a list of these strings.

use crate::table::Table;
use std::collections::HashMap;
use std::hash::BuildHasher;
use std::mem;

/// The most bytes of a block of the arena, but for one that a longer string needs.
const BLOCK: usize = 1 << 20;

/// The strings are in the blocks, which aren't moved while the table is there, and leave it only for as long as it is borrowed.
pub struct Arena<S> {
    numbers: HashMap<&'static str, u32, S>,
    texts: Vec<&'static str>,
    block: String,
    full: Vec<String>,
}

impl<S: BuildHasher> Arena<S> {
    pub fn new(capacity: usize, builder: S) -> Self {
        Arena {
            numbers: HashMap::with_capacity_and_hasher(capacity, builder),
            texts: Vec::with_capacity(capacity),
            block: String::with_capacity(4096),
            full: Vec::new(),
        }
    }

    #[inline]
    fn copy(&mut self, text: &str) -> &'static str {
        if self.block.capacity() - self.block.len() < text.len() {
            let room = (2 * self.block.capacity()).min(BLOCK).max(text.len());
            self.full.push(mem::replace(&mut self.block, String::with_capacity(room)));
        }
        let start = self.block.len();
        self.block.push_str(text);
        let copied: &str = &self.block[start..];
        // The block is never reallocated, and it is cleared and dropped only with what points into it.
        unsafe { &*(copied as *const str) }
    }
}

impl<S: BuildHasher> Table for Arena<S> {
    type Builder = S;

    #[inline]
    fn hasher(&self) -> &S {
        self.numbers.hasher()
    }

    #[inline]
    fn intern(&mut self, text: String) -> Option<u32> {
        self.intern_form(&text)
    }

    /// std's map has no entry by a borrowed form: a new string is hashed twice.
    #[inline]
    fn intern_form(&mut self, text: &str) -> Option<u32> {
        if let Some(number) = self.numbers.get(text) {
            return Some(*number);
        }
        let number = u32::try_from(self.texts.len()).ok()?;
        let copied = self.copy(text);
        self.numbers.insert(copied, number);
        self.texts.push(copied);
        Some(number)
    }

    #[inline]
    fn find(&self, text: &str) -> Option<u32> {
        self.numbers.get(text).copied()
    }

    #[inline]
    fn get(&self, number: u32) -> Option<&str> {
        self.texts.get(number as usize).copied()
    }

    #[inline]
    fn iter(&self) -> impl Iterator<Item = (u32, &str)> {
        (0..).zip(self.texts.iter().copied())
    }

    fn clear(&mut self) {
        self.numbers.clear();
        self.texts.clear();
        self.full.clear();
        self.block.clear();
    }

    fn len(&self) -> usize {
        self.texts.len()
    }
}
