
#[derive(Clone, Copy, PartialEq, Eq)]
pub struct Module {
    pub capacity: u64,
    pub cost: u64,
}

pub struct Link {
    pub a: NodeId,
    pub b: NodeId,
    pub fixed: u64,
    pub modules: List<Module>,
}

pub struct Network {
    pub nodes: List<()>,
    pub links: List<Link>,
}

impl Network {
    pub fn nodes(&self) -> &List<()> {
        &self.nodes
    }

    pub fn links(&self) -> &List<Link> {
        &self.links
    }
}

/// The links that a state fails.
pub struct Listed {
    pub links: List<LinkId>,
}

pub struct States {
    pub listed: List<Listed>,
}

impl States {
    pub fn count(&self) -> u32 {
        self.listed.len() as u32 + 1
    }
}

#[derive(Clone, Copy)]
pub struct Surviving<'a> {
    pub net: &'a Network,
    pub states: &'a States,
    pub state: StateId,
}

impl<'a> Surviving<'a> {
    pub fn has(&self, link: LinkId) -> bool {
        let fails = || self.states.listed.items()[self.state.0 as usize - 1].links.items().iter().any(|e| *e == link);
        self.net.links.items()[link.0 as usize].modules.len() > 0 && !(self.state.0 > 0 && fails())
    }
}

#[derive(Clone, Copy)]
pub struct Instance<'a> {
    pub net: &'a Network,
    pub states: &'a States,
    pub demands: &'a Demands,
}

pub type Counts = List<List<u64>>;
