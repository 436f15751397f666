// What boards need of `net_core`, `turn_lock` and std, after what `bench/rounds/net_core.rs` has with named nodes and demands.
#[derive(Clone, PartialEq)]
pub struct Name(pub std::vec::Vec<u8>);

#[derive(Clone)]
pub enum Edit {
    Set { name: Name, need: u64 },
    Add { name: Name, from: Name, to: Name, need: u64 },
    Drop { name: Name },
}

#[derive(Clone, Copy, Debug, PartialEq, Eq)]
pub enum Reply {
    Accepted(u64),
    UnknownDemand,
    KnownDemand,
    UnknownNode,
    SelfDemand,
    TooMany,
    TooMuch(u64),
}

pub enum Entry {
    Edited { caller: u32, edit: Edit, reply: Reply },
    Pooled { index: u32, state: StateId, lengths: Lengths },
}

pub trait Chronicle {
    type Item;
    type Origin;

    fn count(&self) -> u64;
}

/// A value that only contracts read.
pub struct Remembered<T>(std::marker::PhantomData<T>);

impl<T> Remembered<T> {
    pub fn of(_value: &T) -> Remembered<T> {
        Remembered(std::marker::PhantomData)
    }
}

impl<T> Vec<T> {
    pub fn as_slice(&self) -> &[T] {
        &self.items
    }

    pub fn reserve(&mut self, more: usize) -> Result<(), NoMemory> {
        self.items.reserve(more);
        Ok(())
    }

    pub fn push_reserved(&mut self, item: T) {
        self.items.push(item);
    }
}
