// The rounds of a planning with every single-link failure, by the code of the crates without its contracts: the best certificate of
// the cuts so far, states at its share, and the cuts that they find, until no state finds one. Prints processor time.
// Usage: rounds NETWORK [each | grown | kept | room], with a network file whose nodes are n0, n1 ..; with `each` every state is asked in each round,
// else rounds stop early; with `grown` the sets of nodes grow for each state anew; with `kept` a certificate begins with the basis of the last one;
// and with `room` sets of nodes are looked for at capacities with room too
#![allow(dead_code, unused)]
mod checked_fraction;
mod flow_mending;
mod flow_router;
mod greedy_router;
mod key_paths;
mod key_rows;
mod length_master;
mod master_bound;
mod module_choice;
mod module_prices;
mod net_core;
mod node_sets;
mod row_cuts;
mod share_covers;
mod short_paths;
mod simplex_core;
mod warm_basis;
mod warm_routing;

mod plan_types {
    pub mod certificate;
    pub mod plan;
    pub mod quality;

    pub use certificate::{CertLine, Certificate, Spot};
    pub use plan::Plan;
    pub use quality::{Cause, Fractional, Quality, Share};
}

mod metric_cut {
    pub mod cut;
    pub mod kept_lengths;
    pub mod multiplier;
    pub mod openings;
    pub mod own_bounds;
    pub mod ratio;
    pub mod violation;

    pub use cut::{Cut, CutFault};
    pub use kept_lengths::divisor_of_lengths;
    pub use openings::opening;
    pub use own_bounds::{fixed_along, own_bound};
    pub use violation::{are_narrow, violated_by};
}

mod separator {
    pub mod known_state;
    pub mod one_state;
    pub mod question;
    pub mod ranges;
    pub mod roomy_sets;
    pub mod warm_start;
}

use checked_fraction::gcd;
use flow_router::RouteAnswer;
use length_master::KeptMaster;
use master_bound::{Best, master};
use metric_cut::{Cut, opening};
use module_prices::unit_pair;
use net_core::{Caps, Copied, CutLine, Demand, Demands, Global, Instance, Link, List, Module, Network, NodeId, RouteTask, Routing, StateId, States};
use plan_types::{Fractional, Quality, Share};
use share_covers::shared_routes::route_covers;
use share_covers::{InstalledRoutes, cover_share};
use node_sets::{RoundSets, grown_set, round_set};
use separator::roomy_sets::{NO_ROOM, set_in_state, sets_of_round};
use separator::question::StateQuestion;
use separator::warm_start::KnownStates;

impl Copied for master_bound::answer::Multiplier {
    fn copy(&self) -> Result<Self, net_core::NoMemory> {
        Ok(*self)
    }
}

impl Copied for simplex_core::columns::Entry {
    fn copy(&self) -> Result<Self, net_core::NoMemory> {
        Ok(*self)
    }
}

// Processor time of the process, in millionths of a second.
unsafe extern "C" {
    safe fn clock() -> i64;
}

/// The number that a name such as n12 ends with.
fn number(word: &str) -> u32 {
    word[1..].parse().unwrap()
}

/// An amount in thousandths.
fn amount(word: &str) -> u64 {
    let (whole, part) = word.split_once('.').unwrap_or((word, ""));
    format!("{whole}{part:0<3}").parse().unwrap()
}

fn read(text: &str) -> (Network, Demands) {
    let (mut links, mut demands, mut nodes) = (vec![], vec![], 0);
    let rest = text.split_once("LINKS").unwrap().1;
    let (first, second) = rest.split_once("DEMANDS").unwrap();
    let words: std::vec::Vec<&str> = first.split_whitespace().filter(|w| !"()".contains(w)).collect();
    let mut at = 0;
    while at < words.len() {
        let mut end = at + 7;
        while end < words.len() && !words[end].starts_with('l') {
            end += 1;
        }
        let (a, b) = (NodeId(number(words[at + 1])), NodeId(number(words[at + 2])));
        nodes = nodes.max(a.0 + 1).max(b.0 + 1);
        let module = |m: &[&str]| Module { capacity: amount(m[0]), cost: amount(m[1]) };
        let modules = List::from_vec(words[at + 7..end].chunks(2).map(module).collect::<std::vec::Vec<_>>());
        links.push(Link { a, b, fixed: 0, setup: 0, modules });
        at = end;
    }
    let words: std::vec::Vec<&str> = second.split_whitespace().filter(|w| !"()".contains(w)).collect();
    for d in words.chunks(6) {
        demands.push(Demand { from: NodeId(number(d[1])), to: NodeId(number(d[2])), need: amount(d[4]) });
    }
    let nodes = List::from_vec(vec![(); nodes as usize]);
    (Network { nodes, links: List::from_vec(links) }, List::from_vec(demands))
}

/// The capacities of a share, in lowest terms.
fn caps_of(net: &Network, best: &Best) -> Caps {
    let share = &best.share;
    let links = net.links.items().iter().zip(share.units.items());
    let capacity = |(l, units): (&Link, &u64)| {
        let pair = unit_pair(l.modules.items()).unwrap();
        l.fixed as u128 * share.scale as u128 + pair.capacity as u128 * *units as u128
    };
    let nums: std::vec::Vec<u128> = links.map(capacity).collect();
    let common = nums.iter().fold(share.scale as u128, |d, n| gcd(d, *n));
    let nums = nums.iter().map(|n| n / common).collect::<std::vec::Vec<_>>();
    Caps { scale: (share.scale as u128 / common) as u64, nums: List::from_vec(nums) }
}

/// Capacities in lowest terms.
fn lowest(caps: Caps) -> Caps {
    let common = caps.nums.items().iter().fold(caps.scale as u128, |d, n| gcd(d, *n));
    let nums = caps.nums.items().iter().map(|n| n / common).collect::<std::vec::Vec<_>>();
    Caps { scale: (caps.scale as u128 / common) as u64, nums: List::from_vec(nums) }
}

/// The time of modules that cover the share and of routings within them, in millionths of a second.
fn covering(instance: &Instance, best: Best, caps: &Caps, routings: std::vec::Vec<(u32, Routing)>) -> i64 {
    let begin = clock();
    let installed = cover_share(Global, instance.net, &best.share).unwrap();
    let mut routings = routings;
    routings.sort_by_key(|(s, _)| *s);
    let routings = List::from_vec(routings.into_iter().map(|(_, routing)| routing).collect::<std::vec::Vec<_>>());
    let share = Share { units: List::new(Global), scale: caps.scale };
    let quality = Quality::Tight(Fractional { share, routings });
    let answer = route_covers(Global, instance, &quality, &installed.counts).unwrap();
    assert!(matches!(answer, InstalledRoutes::Routed(_)));
    clock() - begin
}

fn main() {
    let words: std::vec::Vec<String> = std::env::args().collect();
    let (net, demands) = read(&std::fs::read_to_string(&words[1]).unwrap());
    let states = States { links: net.links.len() as u32 };
    let instance = Instance { net: &net, states: &states, demands: &demands };
    let mut cuts = List::new(Global);
    for s in 0..states.count() {
        for cut in opening(Global, &net, &states, StateId(s)).unwrap().items() {
            cuts.push(cut.line(&demands).unwrap()).ok();
        }
    }
    let way = words.get(2).map_or("", |word| word.as_str());
    let mut basis = KeptMaster::new();
    let mut kept = KnownStates::new(Global);
    let (opening, mut rounds, mut bounding, mut separating) = (cuts.len(), 0, 0, 0);
    let (mut first, mut tests, mut level, mut wide) = (0, 0, 0, 0);
    loop {
        let begin = clock();
        let answer = if way == "kept" || way == "room" { basis.best(Global, &net, &cuts) } else { master(Global, &net, &cuts) };
        let found = clock();
        let caps = match &answer {
            Ok(best) => caps_of(&net, best),
            Err(_) => {
                wide += 1;
                let found = basis.least_capacities(Global, &net, &cuts).unwrap();
                lowest(found.expect("the master program is wide"))
            }
        };
        let mut routings = vec![];
        let mut further = vec![];
        if way == "each" || rounds == 0 {
            for s in 0..states.count() {
                tests += 1;
                match kept.separate_state(&instance, StateId(s), &caps, StateQuestion::SetsFirst).unwrap() {
                    RouteAnswer::Routed(routing) => routings.push((s, routing)),
                    answer => further.extend(cut_in(answer)),
                }
            }
        } else {
            further = if way == "room" { roomy_sets_at(&instance, &caps, &mut level) } else { sets_at(&instance, &caps, way == "grown") };
            if further.is_empty() {
                for k in 0..states.count() {
                    let s = (first + k) % states.count();
                    tests += 1;
                    match kept.separate_state(&instance, StateId(s), &caps, StateQuestion::RoutingAlone).unwrap() {
                        RouteAnswer::Routed(routing) => routings.push((s, routing)),
                        answer => further.extend(cut_in(answer)),
                    }
                    if !further.is_empty() {
                        first = s;
                        break;
                    }
                }
            }
        }
        rounds += 1;
        bounding += found - begin;
        separating += clock() - found;
        if further.is_empty() {
            let Ok(best) = answer else { panic!("the last master program is wide") };
            let (raw, ms) = (format!("{}/{}", best.raw_num, best.raw_den), |t: i64| t as f64 / 1e3);
            let (nodes, links, count, bits) = (net.nodes.len(), net.links.len(), demands.len(), best.share.scale.ilog2() + 1);
            let covering = covering(&instance, best, &caps, routings);
            println!(
                "| {nodes} | {links} | {count} | {raw} | {rounds} | {} ({opening}) | {bits} | {tests} | {wide} | {:.0} | {:.0} | {:.0} |",
                cuts.len(),
                ms(bounding),
                ms(separating),
                ms(covering)
            );
            return;
        }
        for cut in further {
            cuts.push(cut.line(&demands).unwrap()).ok();
        }
    }
}

/// The cut that an answer is, if it is one.
fn cut_in(answer: RouteAnswer) -> Option<Cut> {
    match answer {
        RouteAnswer::Routed(_) => None,
        RouteAnswer::Violated(cut) => Some(cut),
        RouteAnswer::Wide(_) => panic!("a state is wide"),
    }
}

/// The cuts of violated sets of nodes, at most one of a state.
fn sets_at(instance: &Instance, caps: &Caps, grown: bool) -> std::vec::Vec<Cut> {
    let task = |s| RouteTask { graph: instance.in_state(StateId(s)), demands: instance.demands, caps };
    if grown {
        return (0..instance.states.count()).filter_map(|s| grown_set(Global, &task(s)).unwrap()).collect();
    }
    let sets = RoundSets::grow(Global, &task(0)).unwrap();
    (0..instance.states.count()).filter_map(|s| round_set(Global, &task(s), &sets).unwrap()).collect()
}

/// The cuts of violated sets of nodes, with the most room from a level on with which some are found.
fn roomy_sets_at(instance: &Instance, caps: &Caps, level: &mut u32) -> std::vec::Vec<Cut> {
    loop {
        let sets = sets_of_round(Global, instance, caps, *level).unwrap();
        let found: std::vec::Vec<Cut> = (0..instance.states.count())
            .filter_map(|s| set_in_state(Global, instance, StateId(s), caps, &sets).unwrap())
            .collect();
        if !found.is_empty() || *level >= NO_ROOM {
            return found;
        }
        *level += 1;
    }
}
