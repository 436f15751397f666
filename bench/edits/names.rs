// Names, demands and edits as `net_core` has them, after what `bench/plain/net_core.rs` has.
pub trait Copied: Sized {
    fn copy(&self) -> Result<Self, NoMemory>;
}

pub struct Name(pub Vec<u8>);

impl PartialEq for Name {
    fn eq(&self, other: &Name) -> bool {
        self.0.as_slice() == other.0.as_slice()
    }
}

impl Copied for Name {
    fn copy(&self) -> Result<Name, NoMemory> {
        Ok(Name(self.0.clone()))
    }
}

impl Copied for List<Name> {
    fn copy(&self) -> Result<List<Name>, NoMemory> {
        Ok(List::from_vec(self.items().iter().map(|n| Name(n.0.clone())).collect()))
    }
}

impl<T> List<T> {
    pub fn remove(&mut self, at: usize) -> T {
        self.items.remove(at)
    }
}

#[derive(Clone, Copy)]
pub struct NodeId(pub u32);

pub struct Network(pub List<Name>);

impl Network {
    pub fn nodes(&self) -> &List<Name> {
        &self.0
    }
}

pub struct Demand {
    pub name: Name,
    pub from: NodeId,
    pub to: NodeId,
    pub need: u64,
}

pub type Demands = List<Demand>;

pub enum Edit {
    Set { name: Name, need: u64 },
    Add { name: Name, from: Name, to: Name, need: u64 },
    Drop { name: Name },
}

#[derive(Clone, Copy, Debug, PartialEq, Eq)]
pub enum Reply {
    Accepted(u64),
    UnknownDemand,
    KnownDemand,
    UnknownNode,
    SelfDemand,
    TooMany,
    TooMuch(u64),
}
