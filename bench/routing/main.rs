// Routes a network's demands in the state without failures by the code of the crates without its contracts, at the least capacity,
// the same on each link, that carries them, and at a thousandth less. Prints processor time.
// Usage: routing NETWORK FOLDER, with a network as sample.py prints it and a folder for the programs in CPLEX LP format
#![allow(dead_code, unused)]
mod checked_fraction;
mod flow_router;
mod greedy_router;
mod key_paths;
mod key_rows;
mod net_core;
mod short_paths;
mod simplex_core;

impl net_core::Copied for simplex_core::columns::Entry {
    fn copy(&self) -> Result<Self, net_core::NoMemory> {
        Ok(*self)
    }
}

mod metric_cut {
    pub mod cut;
    pub mod kept_lengths;

    pub use cut::{Cut, CutFault};
}

/// What run.sh has the crates count.
pub mod counts {
    use crate::net_core::RouteColumn;
    use std::cell::RefCell;

    #[derive(Default)]
    pub struct Counts {
        pub turns: u64,
        pub searches: u64,
        /// The processor time of the searches, in millionths of a second.
        pub searching: i64,
        /// The columns that entered: a demand and the links of its path.
        pub columns: Vec<(u32, Vec<u32>)>,
    }

    thread_local! {
        pub static COUNTS: RefCell<Counts> = RefCell::default();
    }

    pub fn turn(name: &RouteColumn) {
        COUNTS.with_borrow_mut(|c| {
            c.turns += 1;
            if let RouteColumn::Carry(demand, path) = name {
                c.columns.push((*demand, path.items().iter().map(|e| e.0).collect()));
            }
        });
    }

    pub fn search() {
        COUNTS.with_borrow_mut(|c| c.searches += 1);
    }

    /// Takes the time until it is dropped.
    pub struct Timer(i64);

    impl Timer {
        pub fn new() -> Timer {
            Timer(crate::clock())
        }
    }

    impl Drop for Timer {
        fn drop(&mut self) {
            let time = crate::clock() - self.0;
            COUNTS.with_borrow_mut(|c| c.searching += time);
        }
    }
}

use counts::{COUNTS, Counts};
use flow_router::{RouteAnswer, route_state};
use net_core::{Caps, Demand, Demands, Global, Link, List, Network, NodeId, StateId, States};
use std::fmt::Write;

// Processor time of the process, in millionths of a second.
unsafe extern "C" {
    safe fn clock() -> i64;
}

/// The number that a name such as n12 ends with.
fn number(word: &str) -> u32 {
    word[1..].parse().unwrap()
}

fn read(text: &str) -> (Network, Demands) {
    let (mut links, mut demands, mut nodes) = (Vec::new(), Vec::new(), 0);
    for line in text.lines().skip(1) {
        let words: Vec<&str> = line.split(' ').collect();
        let (a, b) = (NodeId(number(words[1])), NodeId(number(words[2])));
        nodes = nodes.max(a.0 + 1).max(b.0 + 1);
        if words[0].starts_with('l') {
            links.push(Link { a, b, fixed: 0, setup: 0, modules: List::new(Global) });
        } else {
            let need = words[3].replace('.', "").parse().unwrap();
            demands.push(Demand { from: a, to: b, need });
        }
    }
    let nodes = List::from_vec(vec![(); nodes as usize]);
    (Network { nodes, links: List::from_vec(links) }, List::from_vec(demands))
}

fn route(net: &Network, demands: &Demands, capacity: u128) -> RouteAnswer {
    let caps = Caps { scale: 1, nums: List::from_vec(vec![capacity; net.links.len()]) };
    route_state(Global, net, &States { links: 0 }, StateId(0), demands, &caps).unwrap()
}

/// The least capacity of each link that carries all demands.
fn least_capacity(net: &Network, demands: &Demands) -> u128 {
    let (mut low, mut high) = (0, demands.items().iter().map(|d| d.need as u128).sum());
    while low < high {
        let mid = (low + high) / 2;
        match route(net, demands, mid) {
            RouteAnswer::Routed(_) => high = mid,
            RouteAnswer::Violated(_) => low = mid + 1,
            RouteAnswer::Wide(_) => panic!("wide"),
        }
    }
    low
}

/// The routing program of the columns that entered, in CPLEX LP format.
fn program(net: &Network, demands: &Demands, capacity: u128, columns: &[(u32, Vec<u32>)]) -> String {
    let names = |has: &dyn Fn(&(u32, Vec<u32>)) -> bool| {
        let of: Vec<String> = (0..columns.len()).filter(|c| has(&columns[*c])).map(|c| format!("x{c}")).collect();
        of.join("\n  + ")
    };
    let mut text = format!("Maximize\n flow: {}\nSubject To\n", names(&|_| true));
    for e in 0..net.links.len() as u32 {
        let of = names(&|c| c.1.contains(&e));
        if !of.is_empty() {
            writeln!(text, " l{e}: {of} <= {capacity}").unwrap();
        }
    }
    for (k, d) in demands.items().iter().enumerate() {
        let of = names(&|c| c.0 == k as u32);
        if !of.is_empty() {
            writeln!(text, " d{k}: {of} <= {}", d.need).unwrap();
        }
    }
    text + "End\n"
}

fn main() {
    let words: Vec<String> = std::env::args().collect();
    let (net, demands) = read(&std::fs::read_to_string(&words[1]).unwrap());
    let least = least_capacity(&net, &demands);
    for capacity in [least, least - 1] {
        COUNTS.set(Counts::default());
        let begin = clock();
        let answer = route(&net, &demands, capacity);
        let time = clock() - begin;
        let counts = COUNTS.take();
        let said = match answer {
            RouteAnswer::Routed(r) => format!("routed over {}", r.den),
            RouteAnswer::Violated(cut) => format!("violated, lengths up to {}", cut.lengths().items().iter().max().unwrap()),
            RouteAnswer::Wide(_) => "wide".into(),
        };
        println!(
            "{} nodes, {} links, {} demands, capacity {capacity}: {said}; {} turns, {} searches, {:.1} ms, {:.1} of them in searches, {:.0} microseconds a turn, {:.0} without searches",
            net.nodes.len(),
            net.links.len(),
            demands.len(),
            counts.turns,
            counts.searches,
            time as f64 / 1000.0,
            counts.searching as f64 / 1000.0,
            time as f64 / counts.turns.max(1) as f64,
            (time - counts.searching) as f64 / counts.turns.max(1) as f64,
        );
        let file = format!("{}/{}-{}.lp", words[2], net.nodes.len(), capacity);
        std::fs::write(file, program(&net, &demands, capacity, &counts.columns)).unwrap();
    }
}
