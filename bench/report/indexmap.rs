//! Stands in for `indexmap`: different keys in the order in which they came, found by their hashes.
use crate::net_core::{Global, NoMemory};
use std::collections::HashMap;
use std::hash::Hash;

pub struct IndexSet<K> {
    places: HashMap<K, usize>,
}

impl<'a, B: ?Sized + Hash + Eq> IndexSet<&'a B> {
    pub fn new(_alloc: Global) -> IndexSet<&'a B> {
        IndexSet { places: HashMap::new() }
    }

    pub fn len(&self) -> usize {
        self.places.len()
    }

    pub fn contains(&self, key: &B) -> bool {
        self.places.contains_key(key)
    }

    pub fn insert(&mut self, key: &'a B) -> Result<bool, NoMemory> {
        Ok(self.insert_full(key)?.1)
    }

    pub fn get_index_of(&self, key: &B) -> Option<usize> {
        self.places.get(key).copied()
    }

    pub fn insert_full(&mut self, key: &'a B) -> Result<(usize, bool), NoMemory> {
        let last = self.places.len();
        let place = *self.places.entry(key).or_insert(last);
        Ok((place, place == last))
    }
}
