//! The fallback plan of a network file with every single-link failure, by the code of the crates without its contracts. Prints
//! the least processor time of five runs, and what the plan costs. Usage: fallback NETWORK, with a network as generate.py writes it
#![allow(dead_code, unused)]

mod checked_fraction;
mod module_choice;
mod module_prices;
mod net_core;
mod short_paths;

use module_choice::fallback_plan;
use net_core::{Demand, Demands, Global, Link, LinkId, List, Listed, Module, Network, NodeId, States};

/// The processor time of this thread, in seconds.
fn processor_time() -> f64 {
    let told = std::fs::read_to_string("/proc/thread-self/schedstat").unwrap();
    told.split(' ').next().unwrap().parse::<f64>().unwrap() / 1e9
}

/// An amount in thousandths.
fn thousandths(word: &str) -> u64 {
    let (whole, places) = word.split_once('.').unwrap_or((word, ""));
    format!("{whole}{places:0<3}").parse().unwrap()
}

/// The node that a name such as n12 names.
fn node(word: &str) -> NodeId {
    NodeId(word[1..].parse().unwrap())
}

fn read(text: &str) -> (Network, Demands) {
    let (mut nodes, mut links, mut demands) = (0, List::new(Global), List::new(Global));
    for line in text.lines() {
        let words: Vec<&str> = line.split_whitespace().collect();
        match words.as_slice() {
            [name] if name.starts_with('n') => nodes += 1,
            [_, "(", a, b, ")", "0", "0", "0", "0", "(", kinds @ .., ")"] => {
                let module = |k: &[&str]| Module { capacity: thousandths(k[0]), cost: thousandths(k[1]) };
                let modules = List::from_vec(kinds.chunks(2).map(module).collect::<Vec<_>>());
                links.push(Link { a: node(a), b: node(b), fixed: 0, modules }).ok();
            }
            [_, "(", a, b, ")", "1", need, "UNLIMITED"] => {
                demands.push(Demand { from: node(a), to: node(b), need: thousandths(need) }).ok();
            }
            _ => {}
        }
    }
    (Network { nodes: List::from_vec(vec![(); nodes]), links }, demands)
}

fn main() {
    let (net, demands) = read(&std::fs::read_to_string(std::env::args().nth(1).unwrap()).unwrap());
    let singles: Vec<Listed> = (0..net.links.len()).map(|e| Listed { links: List::from_vec(vec![LinkId(e as u32)]) }).collect();
    let states = States { listed: List::from_vec(singles) };
    let (mut least, mut cost) = (f64::MAX, 0);
    for _ in 0..5 {
        let start = processor_time();
        let plan = fallback_plan(Global, &net, &states, &demands).unwrap();
        least = least.min(processor_time() - start);
        cost = plan.cost;
    }
    println!(
        "{} nodes, {} links, {} demands, {} states: {least:.2} s, cost {}.{:03}",
        net.nodes.len(),
        net.links.len(),
        demands.len(),
        states.count(),
        cost / 1000,
        cost % 1000
    );
}
