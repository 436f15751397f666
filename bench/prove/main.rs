// Branch trees of plans of networks with every single-link failure, by the code of the crates without its contracts.
// Usage: prove LIMIT NAME NETWORK ..      prints a line for each network file, whose nodes are n0, n1 ..
#![allow(dead_code, unused)]
mod able_counts;
mod box_program;
mod tree_boxes;
mod tree_search;
mod checked_fraction;
mod flow_mending;
mod flow_router;
mod greedy_router;
mod key_paths;
mod key_rows;
mod line_check;
mod line_maker;
mod master_bound;
mod module_choice;
mod module_prices;
mod net_core;
mod node_sets;
mod plan_swaps;
mod share_covers;
mod row_cuts;
mod short_paths;
mod simplex_core;
mod table_maker;
mod tree_check;
mod trim_plan;
mod warm_basis;
mod warm_routing;

mod plan_checker {
    pub mod local_cuts;
}

mod outside_io {
    pub mod figures;
    pub mod gate;

    pub use figures::{RoundFigures, TreeFigures};
    pub use gate::{Gate, OpenGate};
}

mod plan_types {
    pub mod certificate;
    pub mod plan;
    pub mod quality;

    pub use certificate::{CertLine, Certificate, Spot};
    pub use plan::Plan;
    pub use quality::{Cause, Fractional, Quality, Share};
}

mod metric_cut {
    pub mod cut;
    pub mod kept_lengths;
    pub mod multiplier;
    pub mod openings;
    pub mod own_bounds;
    pub mod ratio;
    pub mod violation;

    pub use cut::{Cut, CutFault};
    pub use kept_lengths::divisor_of_lengths;
    pub use openings::opening;
    pub use own_bounds::{fixed_along, own_bound};
    pub use violation::{are_narrow, violated_by};
}

mod separator {
    pub mod one_state;
    pub mod question;
    pub mod ranges;

    pub use one_state::{answer_of, separate_state};
}

use checked_fraction::gcd;
use flow_router::RouteAnswer;
use master_bound::{Best, master};
use metric_cut::opening;
use module_choice::{Fallback, fallback_plan};
use module_prices::unit_pair;
use net_core::{Caps, Copied, CutLine, Demand, Demands, Global, Instance, Link, List, Module, Network, NodeId, StateId, States};
use outside_io::OpenGate;
use tree_search::prove_instance;
use plan_types::{CertLine, Cause, Certificate, Plan, Quality, Spot};
use separator::separate_state;
use share_covers::{Chosen, choose};
use tree_check::{Node, check_tree};

impl Copied for master_bound::answer::Multiplier {
    fn copy(&self) -> Result<Self, net_core::NoMemory> {
        Ok(*self)
    }
}

impl Copied for tree_check::Span {
    fn copy(&self) -> Result<Self, net_core::NoMemory> {
        Ok(*self)
    }
}

/// A queue whose calls take an allocator and may fail.
pub struct VecDeque<T> {
    items: std::collections::VecDeque<T>,
}

impl<T> VecDeque<T> {
    pub fn new(_alloc: Global) -> VecDeque<T> {
        VecDeque { items: std::collections::VecDeque::new() }
    }

    pub fn push_front(&mut self, item: T) -> Result<(), net_core::NoMemory> {
        self.items.push_front(item);
        Ok(())
    }

    pub fn pop_front(&mut self) -> Option<T> {
        self.items.pop_front()
    }

    pub fn len(&self) -> usize {
        self.items.len()
    }
}

impl Copied for simplex_core::columns::Entry {
    fn copy(&self) -> Result<Self, net_core::NoMemory> {
        Ok(*self)
    }
}

// Processor time of the process, in millionths of a second.
unsafe extern "C" {
    safe fn clock() -> i64;
}

/// The number that a name such as n12 ends with.
fn number(word: &str) -> u32 {
    word[1..].parse().unwrap()
}

/// An amount in thousandths.
fn amount(word: &str) -> u64 {
    let (whole, part) = word.split_once('.').unwrap_or((word, ""));
    format!("{whole}{part:0<3}").parse().unwrap()
}

fn read(text: &str) -> (Network, Demands) {
    let (mut links, mut demands, mut nodes) = (vec![], vec![], 0);
    let rest = text.split_once("LINKS").unwrap().1;
    let (first, second) = rest.split_once("DEMANDS").unwrap();
    let words: std::vec::Vec<&str> = first.split_whitespace().filter(|w| !"()".contains(w)).collect();
    let mut at = 0;
    while at < words.len() {
        let mut end = at + 7;
        while end < words.len() && !words[end].starts_with('l') {
            end += 1;
        }
        let (a, b) = (NodeId(number(words[at + 1])), NodeId(number(words[at + 2])));
        nodes = nodes.max(a.0 + 1).max(b.0 + 1);
        let module = |m: &[&str]| Module { capacity: amount(m[0]), cost: amount(m[1]) };
        let modules = List::from_vec(words[at + 7..end].chunks(2).map(module).collect::<std::vec::Vec<_>>());
        links.push(Link { a, b, fixed: 0, setup: 0, modules });
        at = end;
    }
    let words: std::vec::Vec<&str> = second.split_whitespace().filter(|w| !"()".contains(w)).collect();
    for d in words.chunks(6) {
        demands.push(Demand { from: NodeId(number(d[1])), to: NodeId(number(d[2])), need: amount(d[4]) });
    }
    let nodes = List::from_vec(vec![(); nodes as usize]);
    (Network { nodes, links: List::from_vec(links) }, List::from_vec(demands))
}

/// The capacities of a share, in lowest terms.
fn caps_of(net: &Network, best: &Best) -> Caps {
    let share = &best.share;
    let links = net.links.items().iter().zip(share.units.items());
    let capacity = |(l, units): (&Link, &u64)| {
        let pair = unit_pair(l.modules.items()).unwrap();
        l.fixed as u128 * share.scale as u128 + pair.capacity as u128 * *units as u128
    };
    let nums: std::vec::Vec<u128> = links.map(capacity).collect();
    let common = nums.iter().fold(share.scale as u128, |d, n| gcd(d, *n));
    let nums = nums.iter().map(|n| n / common).collect::<std::vec::Vec<_>>();
    Caps { scale: (share.scale as u128 / common) as u64, nums: List::from_vec(nums) }
}

/// What a planning comes to: a plan and its cuts.
fn planned(instance: &Instance) -> (Plan, List<CutLine>) {
    let Instance { net, states, demands } = *instance;
    let fallback = fallback_plan(Global, net, states, demands).unwrap();
    let mut cuts = List::new(Global);
    for s in 0..states.count() {
        for cut in opening(Global, net, states, StateId(s)).unwrap().items() {
            cuts.push(cut.line(demands).unwrap()).ok();
        }
    }
    let mut known: std::vec::Vec<_> = (0..states.count()).map(|_| List::new(Global)).collect();
    loop {
        let Ok(best) = master(Global, net, &cuts) else { panic!("the master program is wide") };
        let caps = caps_of(net, &best);
        let mut further = vec![];
        for s in 0..states.count() {
            match separate_state(Global, instance, StateId(s), &caps, &mut known[s as usize]).unwrap() {
                RouteAnswer::Routed(_) => {}
                RouteAnswer::Violated(cut) => further.push(cut.line(demands).unwrap()),
                RouteAnswer::Wide(_) => panic!("state {s} is wide"),
            }
        }
        if further.is_empty() {
            let chosen = choose(Global, instance, fallback, &best.share, Quality::Loose(Cause::Cuts)).unwrap();
            return (plan_of(instance, chosen, &best, &cuts), cuts);
        }
        for cut in further {
            cuts.push(cut).ok();
        }
    }
}

fn plan_of(instance: &Instance, chosen: Chosen, best: &Best, cuts: &List<CutLine>) -> Plan {
    let line = |m: &master_bound::answer::Multiplier| CertLine { num: m.num, spot: Spot::Local, cut: cuts.items()[m.cut as usize].clone() };
    let lines: std::vec::Vec<CertLine> = best.multipliers.items().iter().map(line).collect();
    Plan {
        version: 0,
        position: 0,
        demands: instance.demands.clone(),
        counts: chosen.counts,
        cost: chosen.cost,
        routings: chosen.routings,
        certificate: Certificate { den: best.den, lines: List::from_vec(lines) },
        raw_num: best.raw_num,
        raw_den: best.raw_den,
        bound: module_prices::bound_of(instance.net.links.items(), best.raw_num, best.raw_den),
        quality: chosen.quality,
    }
}

fn splits(tree: &List<Node>) -> usize {
    tree.items().iter().filter(|n| matches!(n, Node::Split { .. })).count()
}

/// Writes the integer program over cuts in the LP format, with a whole count for each module.
fn write_model(net: &Network, cuts: &List<CutLine>) {
    let links = net.links.items();
    let names = || links.iter().enumerate().flat_map(|(e, l)| l.modules.items().iter().enumerate().map(move |(m, module)| (e, m, module)));
    println!("Minimize");
    for (e, m, module) in names() {
        println!(" + {} x{e}_{m}", module.cost);
    }
    println!("Subject To");
    for cut in cuts.items() {
        let sum: std::vec::Vec<String> = names()
            .filter(|(e, _, _)| cut.lengths.items()[*e] > 0)
            .map(|(e, m, module)| format!(" + {} x{e}_{m}", cut.lengths.items()[e] as u128 * module.capacity as u128))
            .collect();
        if !sum.is_empty() {
            println!("{} >= {}", sum.join("\n"), cut.right);
        }
    }
    println!("General");
    for (e, m, _) in names() {
        println!(" x{e}_{m}");
    }
    println!("End");
}

fn main() {
    let words: std::vec::Vec<String> = std::env::args().skip(1).collect();
    if words[0] == "model" {
        let (net, demands) = read(&std::fs::read_to_string(&words[1]).unwrap());
        let states = States { links: net.links.len() as u32 };
        let instance = Instance { net: &net, states: &states, demands: &demands };
        return write_model(&net, &planned(&instance).1);
    }
    let by_lines = words[0] == "lines";
    let words = &words[by_lines as usize..];
    let limit = words[0].parse().unwrap();
    for pair in words[1..].chunks(2) {
        let (net, demands) = read(&std::fs::read_to_string(&pair[1]).unwrap());
        let states = States { links: net.links.len() as u32 };
        let instance = Instance { net: &net, states: &states, demands: &demands };
        let (plan, cuts) = planned(&instance);
        let (first, bound, handed) = (plan.cost, plan.bound, cuts.len());
        let start = clock();
        let proof = prove_instance(Global, &instance, plan, cuts, limit, by_lines, &OpenGate).unwrap();
        let middle = clock();
        let answer = check_tree(Global, &net, &states, &demands, &proof);
        let end = clock();
        let (proving, checking) = ((middle - start) as f64 / 1e3, (end - middle) as f64 / 1e3);
        println!(
            "{} plan {first} bound {bound} cost {} {:?} splits {} cuts {handed} further {} {answer:?} ms {proving:.1} {checking:.1}",
            pair[0], proof.plan.cost, proof.verdict, splits(&proof.tree), proof.cuts.len() - handed
        );
    }
}
