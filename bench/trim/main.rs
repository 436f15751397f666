// Plans of networks with every single-link failure, trimmed and made cheaper by swaps, by the code of the crates without its contracts.
// Usage: trim NAME NETWORK ..      prints a line for each network file, whose nodes are n0, n1 ..
#![allow(dead_code, unused)]
mod able_counts;
mod checked_fraction;
mod flow_mending;
mod flow_router;
mod greedy_router;
mod key_paths;
mod key_rows;
mod master_bound;
mod module_choice;
mod module_prices;
mod net_core;
mod node_sets;
mod plan_swaps;
mod share_covers;
mod row_cuts;
mod short_paths;
mod simplex_core;
mod trim_plan;
mod warm_basis;
mod warm_routing;

mod plan_types {
    pub mod certificate;
    pub mod plan;
    pub mod quality;

    pub use certificate::{CertLine, Certificate, Spot};
    pub use plan::Plan;
    pub use quality::{Cause, Fractional, Quality, Share};
}

mod metric_cut {
    pub mod cut;
    pub mod kept_lengths;
    pub mod multiplier;
    pub mod openings;
    pub mod own_bounds;
    pub mod ratio;
    pub mod violation;

    
    pub use cut::{Cut, CutFault};
    pub use kept_lengths::divisor_of_lengths;
    pub use openings::opening;
    pub use own_bounds::{fixed_along, own_bound};
    pub use violation::{are_narrow, violated_by};
}

mod separator {
    pub mod one_state;
    pub mod question;
    pub mod ranges;

    pub use one_state::{answer_of, separate_state};
}

use checked_fraction::gcd;
use flow_router::RouteAnswer;
use master_bound::{Best, master};
use metric_cut::opening;
use module_choice::{Fallback, fallback_plan};
use module_prices::unit_pair;
use net_core::{Caps, Copied, CutLine, Demand, Demands, Global, Instance, Link, List, Module, Network, NodeId, StateId, States};
use plan_swaps::swap;
use plan_types::{Cause, CertLine, Certificate, Plan, Quality, Spot};
use separator::separate_state;
use share_covers::{Chosen, choose};
use trim_plan::trim;

impl Copied for master_bound::answer::Multiplier {
    fn copy(&self) -> Result<Self, net_core::NoMemory> {
        Ok(*self)
    }
}

impl Copied for simplex_core::columns::Entry {
    fn copy(&self) -> Result<Self, net_core::NoMemory> {
        Ok(*self)
    }
}

// Processor time of the process, in millionths of a second.
unsafe extern "C" {
    safe fn clock() -> i64;
}

/// How often counts were asked about, how many of these a known cut refused, how many states had their routing mended, how many were
/// asked from the kept basis, and how many by a routing program.
pub static WORK: [std::sync::atomic::AtomicU64; 5] = [const { std::sync::atomic::AtomicU64::new(0) }; 5];

pub fn work(kind: usize) {
    WORK[kind].fetch_add(1, std::sync::atomic::Ordering::Relaxed);
}

fn taken() -> [u64; 5] {
    [0, 1, 2, 3, 4].map(|kind| WORK[kind].swap(0, std::sync::atomic::Ordering::Relaxed))
}

/// The number that a name such as n12 ends with.
fn number(word: &str) -> u32 {
    word[1..].parse().unwrap()
}

/// An amount in thousandths.
fn amount(word: &str) -> u64 {
    let (whole, part) = word.split_once('.').unwrap_or((word, ""));
    format!("{whole}{part:0<3}").parse().unwrap()
}

fn read(text: &str) -> (Network, Demands) {
    let (mut links, mut demands, mut nodes) = (vec![], vec![], 0);
    let rest = text.split_once("LINKS").unwrap().1;
    let (first, second) = rest.split_once("DEMANDS").unwrap();
    let words: std::vec::Vec<&str> = first.split_whitespace().filter(|w| !"()".contains(w)).collect();
    let mut at = 0;
    while at < words.len() {
        let mut end = at + 7;
        while end < words.len() && !words[end].starts_with('l') {
            end += 1;
        }
        let (a, b) = (NodeId(number(words[at + 1])), NodeId(number(words[at + 2])));
        nodes = nodes.max(a.0 + 1).max(b.0 + 1);
        let module = |m: &[&str]| Module { capacity: amount(m[0]), cost: amount(m[1]) };
        let modules = List::from_vec(words[at + 7..end].chunks(2).map(module).collect::<std::vec::Vec<_>>());
        links.push(Link { a, b, fixed: 0, setup: 0, modules });
        at = end;
    }
    let words: std::vec::Vec<&str> = second.split_whitespace().filter(|w| !"()".contains(w)).collect();
    for d in words.chunks(6) {
        demands.push(Demand { from: NodeId(number(d[1])), to: NodeId(number(d[2])), need: amount(d[4]) });
    }
    let nodes = List::from_vec(vec![(); nodes as usize]);
    (Network { nodes, links: List::from_vec(links) }, List::from_vec(demands))
}

/// The capacities of a share, in lowest terms.
fn caps_of(net: &Network, best: &Best) -> Caps {
    let share = &best.share;
    let links = net.links.items().iter().zip(share.units.items());
    let capacity = |(l, units): (&Link, &u64)| {
        let pair = unit_pair(l.modules.items()).unwrap();
        l.fixed as u128 * share.scale as u128 + pair.capacity as u128 * *units as u128
    };
    let nums: std::vec::Vec<u128> = links.map(capacity).collect();
    let common = nums.iter().fold(share.scale as u128, |d, n| gcd(d, *n));
    let nums = nums.iter().map(|n| n / common).collect::<std::vec::Vec<_>>();
    Caps { scale: (share.scale as u128 / common) as u64, nums: List::from_vec(nums) }
}

/// The certificate of a share: its cuts with their numerators.
fn certificate_of(best: &Best, cuts: &List<CutLine>) -> Certificate {
    let lines = best.multipliers.items().iter().map(|m| CertLine { num: m.num, spot: Spot::Local, cut: cuts.items()[m.cut as usize].clone() });
    Certificate { den: best.den, lines: List::from_vec(lines.collect::<std::vec::Vec<_>>()) }
}

/// The counts of a planning, and the certificate of its bound.
fn planned(instance: &Instance) -> (Chosen, Certificate) {
    let Instance { net, states, demands } = *instance;
    let fallback = fallback_plan(Global, net, states, demands).unwrap();
    let mut cuts = List::new(Global);
    for s in 0..states.count() {
        for cut in opening(Global, net, states, StateId(s)).unwrap().items() {
            cuts.push(cut.line(demands).unwrap()).ok();
        }
    }
    let mut known: std::vec::Vec<_> = (0..states.count()).map(|_| List::new(Global)).collect();
    loop {
        let Ok(best) = master(Global, net, &cuts) else { panic!("the master program is wide") };
        let caps = caps_of(net, &best);
        let mut further = vec![];
        for s in 0..states.count() {
            match separate_state(Global, instance, StateId(s), &caps, &mut known[s as usize]).unwrap() {
                RouteAnswer::Routed(_) => {}
                RouteAnswer::Violated(cut) => further.push(cut.line(demands).unwrap()),
                RouteAnswer::Wide(_) => panic!("state {s} is wide"),
            }
        }
        if further.is_empty() {
            let chosen = choose(Global, instance, fallback, &best.share, Quality::Loose(Cause::Cuts)).unwrap();
            return (chosen, certificate_of(&best, &cuts));
        }
        for cut in further {
            cuts.push(cut).ok();
        }
    }
}

fn plan_of(instance: &Instance, (chosen, certificate): (Chosen, Certificate)) -> Plan {
    Plan {
        version: 0,
        position: 0,
        demands: instance.demands.clone(),
        counts: chosen.counts,
        cost: chosen.cost,
        routings: chosen.routings,
        certificate,
        raw_num: 0,
        raw_den: 1,
        bound: 0,
        quality: chosen.quality,
    }
}

fn main() {
    let words: std::vec::Vec<String> = std::env::args().skip(1).collect();
    for pair in words.chunks(2) {
        let (net, demands) = read(&std::fs::read_to_string(&pair[1]).unwrap());
        let states = States { links: net.links.len() as u32 };
        let instance = Instance { net: &net, states: &states, demands: &demands };
        let mut times = vec![clock()];
        let plan = plan_of(&instance, planned(&instance));
        times.push(clock());
        taken();
        let first = plan.cost;
        let trimmed = trim(Global, &net, &states, plan).unwrap();
        times.push(clock());
        let (trimming, second, blocks) = (taken(), trimmed.plan.cost, trimmed.blocks.len());
        let swapped = swap(Global, &instance, trimmed.plan).unwrap();
        times.push(clock());
        let swapping = taken();
        let ms: std::vec::Vec<String> = times.windows(2).map(|t| format!("{:.3}", (t[1] - t[0]) as f64 / 1e3)).collect();
        println!("{} {first} {second} {} {blocks} ms {} trim {trimming:?} swap {swapping:?}", pair[0], swapped.cost, ms.join(" "));
    }
}
