//! Stands in for `net_core` where crates are built as plain Rust: lists over Rust's own vectors, which don't run out of memory.

pub mod limits;

/// The allocator, of which there is one.
#[derive(Clone, Copy)]
pub struct Global;

#[derive(Clone, Copy, Debug, PartialEq, Eq)]
pub struct NoMemory;

pub struct List<T> {
    items: Vec<T>,
}

pub fn filled<T: Clone>(item: T, count: usize) -> Result<Vec<T>, NoMemory> {
    Ok(vec![item; count])
}

impl<T> From<(T, NoMemory)> for NoMemory {
    fn from(_refused: (T, NoMemory)) -> NoMemory {
        NoMemory
    }
}

impl<T> List<T> {
    pub fn new(_alloc: Global) -> List<T> {
        List { items: Vec::new() }
    }

    pub fn push(&mut self, item: T) -> Result<(), (T, NoMemory)> {
        self.items.push(item);
        Ok(())
    }

    pub fn items(&self) -> &[T] {
        &self.items
    }

    pub fn items_mut(&mut self) -> &mut [T] {
        &mut self.items
    }

    pub fn len(&self) -> usize {
        self.items.len()
    }

    pub fn from_vec(items: Vec<T>) -> List<T> {
        List { items }
    }
}

impl<T: Clone> List<T> {
    pub fn filled(_alloc: Global, item: T, count: usize) -> Result<List<T>, NoMemory> {
        Ok(List { items: vec![item; count] })
    }

    pub fn from_slice(_alloc: Global, items: &[T]) -> Result<List<T>, NoMemory> {
        Ok(List { items: items.to_vec() })
    }
}

#[derive(Clone, Copy, Debug, PartialEq, Eq)]
pub struct LinkId(pub u32);

/// What of a basis is too wide.
#[derive(Debug)]
pub enum WideKind<C> {
    Number(C),
    Row(u32),
    Product(u32, C),
    Sum(u32),
    Common,
    Value,
    Length(LinkId),
}

/// The names by which the crates reach these items.
pub mod list {
    pub use super::{List, NoMemory};
}

pub mod columns {
    pub use super::WideKind;
}
