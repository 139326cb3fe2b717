//! `IndexSet` of the crate `indexmap`, version 1, over boxed strings: what a user picks who wants no interner's own crate.

use crate::table::Table;
use indexmap::IndexSet;
use std::hash::BuildHasher;

pub struct Indexed<S>(IndexSet<Box<str>, S>);

impl<S> Indexed<S> {
    pub fn new(capacity: usize, builder: S) -> Self {
        Indexed(IndexSet::with_capacity_and_hasher(capacity, builder))
    }
}

impl<S: BuildHasher> Table for Indexed<S> {
    type Builder = S;

    #[inline]
    fn hasher(&self) -> &S {
        self.0.hasher()
    }

    #[inline]
    fn intern(&mut self, text: String) -> Option<u32> {
        u32::try_from(self.0.insert_full(text.into_boxed_str()).0).ok()
    }

    /// There is no entry by a borrowed form: a new text is hashed twice.
    #[inline]
    fn intern_form(&mut self, text: &str) -> Option<u32> {
        let found = self.0.get_index_of(text);
        u32::try_from(found.unwrap_or_else(|| self.0.insert_full(text.into()).0)).ok()
    }

    #[inline]
    fn find(&self, text: &str) -> Option<u32> {
        self.0.get_index_of(text).and_then(|number| u32::try_from(number).ok())
    }

    #[inline]
    fn get(&self, number: u32) -> Option<&str> {
        self.0.get_index(number as usize).map(|text| &**text)
    }

    #[inline]
    fn iter(&self) -> impl Iterator<Item = (u32, &str)> {
        (0..).zip(self.0.iter().map(|text| &**text))
    }

    fn clear(&mut self) {
        self.0.clear();
    }

    fn len(&self) -> usize {
        self.0.len()
    }
}
