//! Stands in for `net_core` where crates are built as plain Rust: lists over Rust's own vectors, which don't run out of memory, and
//! networks that nothing checks.

pub mod limits;

use std::ops::{Deref, DerefMut};

/// The allocator, of which there is one.
#[derive(Clone, Copy)]
pub struct Global;

#[derive(Clone, Copy, Debug, PartialEq, Eq)]
pub struct NoMemory;

/// Lets a value go.
pub fn discard<T>(_value: T) {}

/// A vector whose calls take an allocator and may fail.
pub struct Vec<T> {
    items: std::vec::Vec<T>,
}

impl<T: PartialEq> PartialEq for List<T> {
    fn eq(&self, other: &List<T>) -> bool {
        self.items == other.items
    }
}

impl<T> Vec<T> {
    pub fn new(_alloc: Global) -> Vec<T> {
        Vec { items: std::vec::Vec::new() }
    }

    pub fn insert(&mut self, at: usize, item: T) -> Result<(), NoMemory> {
        self.items.insert(at, item);
        Ok(())
    }

    pub fn truncate(&mut self, len: usize) {
        self.items.truncate(len)
    }

    pub fn retain(&mut self, keep: impl FnMut(&T) -> bool) {
        self.items.retain(keep)
    }

    pub fn pop(&mut self) -> Option<T> {
        self.items.pop()
    }

    pub fn with_capacity(_alloc: Global, count: usize) -> Result<Vec<T>, NoMemory> {
        Ok(Vec { items: std::vec::Vec::with_capacity(count) })
    }

    pub fn push(&mut self, item: T) -> Result<(), NoMemory> {
        self.items.push(item);
        Ok(())
    }

    pub fn sort_by_key<K: Ord>(&mut self, key: impl FnMut(&T) -> K) -> Result<(), NoMemory> {
        self.items.sort_by_key(key);
        Ok(())
    }

    pub fn sort_by(&mut self, compare: impl FnMut(&T, &T) -> std::cmp::Ordering) -> Result<(), NoMemory> {
        self.items.sort_by(compare);
        Ok(())
    }
}

impl<T: Clone> Vec<T> {
    pub fn extend_from_slice(&mut self, items: &[T]) -> Result<(), NoMemory> {
        self.items.extend_from_slice(items);
        Ok(())
    }
}

impl<T> IntoIterator for Vec<T> {
    type Item = T;
    type IntoIter = std::vec::IntoIter<T>;

    fn into_iter(self) -> std::vec::IntoIter<T> {
        self.items.into_iter()
    }
}

impl<T> Deref for Vec<T> {
    type Target = [T];

    fn deref(&self) -> &[T] {
        &self.items
    }
}

impl<T> DerefMut for Vec<T> {
    fn deref_mut(&mut self) -> &mut [T] {
        &mut self.items
    }
}

impl<T> From<Vec<T>> for std::vec::Vec<T> {
    fn from(all: Vec<T>) -> std::vec::Vec<T> {
        all.items
    }
}

pub struct List<T> {
    items: std::vec::Vec<T>,
}

pub fn filled<T: Clone>(item: T, count: usize) -> Result<Vec<T>, NoMemory> {
    Ok(Vec { items: vec![item; count] })
}

impl<T> From<(T, NoMemory)> for NoMemory {
    fn from(_refused: (T, NoMemory)) -> NoMemory {
        NoMemory
    }
}

impl<T> List<T> {
    pub fn new(_alloc: Global) -> List<T> {
        List { items: std::vec::Vec::new() }
    }

    pub fn push(&mut self, item: T) -> Result<(), (T, NoMemory)> {
        self.items.push(item);
        Ok(())
    }

    pub fn items(&self) -> &[T] {
        &self.items
    }

    pub fn items_mut(&mut self) -> &mut [T] {
        &mut self.items
    }

    pub fn len(&self) -> usize {
        self.items.len()
    }

    pub fn remove(&mut self, at: usize) -> T {
        self.items.remove(at)
    }

    pub fn clear(&mut self) {
        self.items.clear();
    }

    pub fn into_vec(self) -> Vec<T> {
        Vec { items: self.items }
    }
    pub fn from_vec(items: impl Into<std::vec::Vec<T>>) -> List<T> {
        List { items: items.into() }
    }
}

impl<T: Clone> List<T> {
    pub fn filled(_alloc: Global, item: T, count: usize) -> Result<List<T>, NoMemory> {
        Ok(List { items: vec![item; count] })
    }

    pub fn append(&mut self, items: &[T]) -> Result<(), NoMemory> {
        self.items.extend_from_slice(items);
        Ok(())
    }

    pub fn from_slice(_alloc: Global, items: &[T]) -> Result<List<T>, NoMemory> {
        Ok(List { items: items.to_vec() })
    }
}

#[derive(Clone, Copy, Debug, PartialEq, Eq)]
pub struct LinkId(pub u32);

#[derive(Clone, Copy, Debug, PartialEq, Eq)]
pub struct NodeId(pub u32);

#[derive(Clone, Copy, Debug, PartialEq, Eq)]
pub struct StateId(pub u32);

pub trait Copied: Sized {
    fn copy(&self) -> Result<Self, NoMemory>;
}

impl<T: Clone> Clone for List<T> {
    fn clone(&self) -> List<T> {
        List { items: self.items.clone() }
    }
}

impl<T: Copied> Copied for List<T> {
    fn copy(&self) -> Result<List<T>, NoMemory> {
        let items: Result<std::vec::Vec<T>, NoMemory> = self.items.iter().map(|item| item.copy()).collect();
        Ok(List { items: items? })
    }
}

macro_rules! copied {
    ($($kind:ty)*) => {
        $(impl Copied for $kind {
            fn copy(&self) -> Result<$kind, NoMemory> {
                Ok(self.clone())
            }
        })*
    };
}

copied!(() u32 u64 u128 i64 i128 usize LinkId NodeId StateId Module Link Demand Flow Routing Caps RouteColumn CutLine MasterColumn Evidence);

impl<C: Copied> Copied for WideKind<C> {
    fn copy(&self) -> Result<WideKind<C>, NoMemory> {
        Ok(match self {
            WideKind::Number(c) => WideKind::Number(c.copy()?),
            WideKind::Row(r) => WideKind::Row(*r),
            WideKind::Product(r, c) => WideKind::Product(*r, c.copy()?),
            WideKind::Sum(r) => WideKind::Sum(*r),
            WideKind::Common => WideKind::Common,
            WideKind::Value => WideKind::Value,
            WideKind::Length(e) => WideKind::Length(*e),
        })
    }
}


#[derive(Clone, Copy, Debug, PartialEq, Eq)]
pub struct Module {
    pub capacity: u64,
    pub cost: u64,
}

#[derive(Clone)]
pub struct Link {
    pub a: NodeId,
    pub b: NodeId,
    pub fixed: u64,
    pub setup: u64,
    pub modules: List<Module>,
}

pub struct Network {
    pub nodes: List<()>,
    pub links: List<Link>,
}

impl Network {
    pub fn nodes(&self) -> &List<()> {
        &self.nodes
    }

    pub fn links(&self) -> &List<Link> {
        &self.links
    }
}

/// The state without failures, and each single-link failure.
pub struct States {
    pub links: u32,
}

impl States {
    pub fn count(&self) -> u32 {
        self.links + 1
    }

    pub fn fails(&self, state: StateId, link: LinkId) -> bool {
        state.0 == link.0 + 1
    }
}

#[derive(Clone, Copy)]
pub struct Surviving<'a> {
    pub net: &'a Network,
    pub states: &'a States,
    pub state: StateId,
}

impl<'a> Surviving<'a> {
    pub fn has(&self, link: LinkId) -> bool {
        !self.states.fails(self.state, link)
    }
}

#[derive(Clone)]
pub struct Demand {
    pub from: NodeId,
    pub to: NodeId,
    pub need: u64,
}

pub type Demands = List<Demand>;

#[derive(Clone, Copy)]
pub struct Instance<'a> {
    pub net: &'a Network,
    pub states: &'a States,
    pub demands: &'a Demands,
}

pub type Path = List<LinkId>;
pub type Lengths = List<u32>;

#[derive(Clone)]
pub struct Flow {
    pub demand: u32,
    pub path: Path,
    pub num: u128,
}

#[derive(Clone)]
pub struct Routing {
    pub den: u64,
    pub flows: List<Flow>,
}

#[derive(Clone)]
pub struct Caps {
    pub scale: u64,
    pub nums: List<u128>,
}

#[derive(Clone)]
pub enum RouteColumn {
    LinkSlack(LinkId),
    DemandSlack(u32),
    Carry(u32, Path),
}

#[derive(Clone)]
pub enum Evidence {
    Route {
        state: StateId,
        caps: Caps,
        basis: List<RouteColumn>,
        kind: WideKind<RouteColumn>,
    },
    Master {
        basis: List<MasterColumn>,
        kind: WideKind<MasterColumn>,
    },
}

#[derive(Clone)]
pub enum MasterColumn {
    LinkSlack(LinkId),
    Metric(StateId, Lengths),
}

#[derive(Clone)]
pub struct CutLine {
    pub state: StateId,
    pub lengths: Lengths,
    pub right: u128,
}

pub type Counts = List<List<u64>>;

/// What of a basis is too wide.
#[derive(Clone, Debug)]
pub enum WideKind<C> {
    Number(C),
    Row(u32),
    Product(u32, C),
    Sum(u32),
    Common,
    Value,
    Length(LinkId),
}

/// The names by which the crates reach these items.
pub mod list {
    pub use super::{Copied, List, NoMemory};
}

pub mod columns {
    pub use super::WideKind;
}

/// What a state's routing program is of.
#[derive(Clone, Copy)]
pub struct RouteTask<'a> {
    pub graph: Surviving<'a>,
    pub demands: &'a Demands,
    pub caps: &'a Caps,
}

impl<'a> Instance<'a> {
    pub fn in_state(&self, state: StateId) -> Surviving<'a> {
        Surviving { net: self.net, states: self.states, state }
    }

    pub fn task(&self, state: StateId, caps: &'a Caps) -> RouteTask<'a> {
        RouteTask { graph: self.in_state(state), demands: self.demands, caps }
    }
}
