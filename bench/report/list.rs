//! Stands in for the module `list` of `net_core` where crates are built as plain Rust: lists over Rust's own vectors, which don't run
//! out of memory.
use std::ops::{Deref, DerefMut};

/// The allocator, of which there is one.
#[derive(Clone, Copy)]
pub struct Global;

#[derive(Clone, Copy, Debug, PartialEq, Eq)]
pub struct NoMemory;

impl<T> From<(T, NoMemory)> for NoMemory {
    fn from(_refused: (T, NoMemory)) -> NoMemory {
        NoMemory
    }
}

/// A vector whose calls take an allocator and may fail.
#[derive(PartialEq, Eq, Hash)]
pub struct Vec<T>(std::vec::Vec<T>);

impl<T> Vec<T> {
    pub fn new(_alloc: Global) -> Vec<T> {
        Vec(std::vec::Vec::new())
    }

    pub fn with_capacity(_alloc: Global, count: usize) -> Result<Vec<T>, NoMemory> {
        Ok(Vec(std::vec::Vec::with_capacity(count)))
    }

    pub fn push(&mut self, item: T) -> Result<(), NoMemory> {
        self.0.push(item);
        Ok(())
    }

    pub fn as_slice(&self) -> &[T] {
        &self.0
    }

    pub fn shrink_to_fit(&mut self) {
        self.0.shrink_to_fit();
    }
}

impl<T: Clone> Vec<T> {
    pub fn extend_from_slice(&mut self, items: &[T]) -> Result<(), NoMemory> {
        self.0.extend_from_slice(items);
        Ok(())
    }
}

impl<T> Deref for Vec<T> {
    type Target = [T];

    fn deref(&self) -> &[T] {
        &self.0
    }
}

impl<T> DerefMut for Vec<T> {
    fn deref_mut(&mut self) -> &mut [T] {
        &mut self.0
    }
}

pub fn filled<T: Clone>(item: T, count: usize) -> Result<Vec<T>, NoMemory> {
    Ok(Vec(vec![item; count]))
}

#[derive(PartialEq, Eq, Hash)]
pub struct List<T>(Vec<T>);

impl<T> List<T> {
    pub fn new(_alloc: Global) -> List<T> {
        List(Vec(std::vec::Vec::new()))
    }

    pub fn into_vec(self) -> Vec<T> {
        self.0
    }

    pub fn from_vec(items: Vec<T>) -> List<T> {
        List(items)
    }

    pub fn push(&mut self, item: T) -> Result<(), (T, NoMemory)> {
        self.0.0.push(item);
        Ok(())
    }

    pub fn items(&self) -> &[T] {
        &self.0
    }

    pub fn items_mut(&mut self) -> &mut [T] {
        &mut self.0
    }

    pub fn len(&self) -> usize {
        self.0.len()
    }

    pub fn remove(&mut self, at: usize) -> T {
        self.0.0.remove(at)
    }

    pub fn clear(&mut self) {
        self.0.0.clear();
    }
}

impl<T: Copy> List<T> {
    pub fn filled(_alloc: Global, item: T, count: usize) -> Result<List<T>, NoMemory> {
        Ok(List(Vec(vec![item; count])))
    }

    pub fn append(&mut self, items: &[T]) -> Result<(), NoMemory> {
        self.0.0.extend_from_slice(items);
        Ok(())
    }
}

pub trait Copied: Sized {
    fn copy(&self) -> Result<Self, NoMemory>;
}

impl<T: Copy> Copied for T {
    fn copy(&self) -> Result<T, NoMemory> {
        Ok(*self)
    }
}

impl<T: Copied> List<T> {
    pub fn from_slice(alloc: Global, items: &[T]) -> Result<List<T>, NoMemory> {
        let mut all = List(Vec::with_capacity(alloc, items.len())?);
        for item in items {
            all.push(item.copy()?)?;
        }
        Ok(all)
    }
}

impl<T: Copied> Copied for List<T> {
    fn copy(&self) -> Result<List<T>, NoMemory> {
        List::from_slice(Global, self.items())
    }
}

impl<T> IntoIterator for Vec<T> {
    type Item = T;
    type IntoIter = std::vec::IntoIter<T>;

    fn into_iter(self) -> Self::IntoIter {
        self.0.into_iter()
    }
}
