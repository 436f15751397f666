//! Covers of 256 links with 16 modules each, whose needs are up to 100,000 steps: by tables that links share, and by one kind.
#![allow(dead_code, unused_imports)]

#[path = "checked_fraction/fraction.rs"]
mod fraction;
mod checked_fraction {
    pub use crate::fraction::gcd;
}
mod net_core;
mod module_choice {
    pub mod alike;
    pub mod covers;
    pub mod tables;
    pub mod totals;
}

use module_choice::alike::cover_links;
use net_core::{Global, Link, List, Module};

/// Links with 16 modules of 1 to 16 times one capacity; as many lists of modules as `lists`.
fn links(lists: u64, capacity: u64) -> Vec<Link> {
    let link = |e: u64| {
        let mut modules = List::new(Global);
        for k in 1..=16 {
            let cost = 5000 * k + (e % lists * 7919 + k * 104729) % 10000;
            modules.push(Module { capacity: capacity * k, cost }).ok();
        }
        Link { fixed: 0, setup: 0, modules }
    };
    (0..256).map(link).collect()
}

/// The processor time of this thread, in seconds.
fn processor_time() -> f64 {
    let told = std::fs::read_to_string("/proc/thread-self/schedstat").unwrap();
    told.split(' ').next().unwrap().parse::<f64>().unwrap() / 1e9
}

fn main() {
    let peaks: Vec<u64> = (0..256).map(|e| 3_000_000 - e * 1000).collect();
    for (name, lists, capacity) in [
        ("256 lists of modules, 100,000 steps", 256, 30),
        ("16 lists of modules, 100,000 steps", 16, 30),
        ("one list of modules, 100,000 steps", 1, 30),
        ("256 lists of modules, 300 steps", 256, 10000),
        ("256 lists of modules, more than 100,000 steps: one kind each", 256, 10),
    ] {
        let links = links(lists, capacity);
        let best = (0..5).map(|_| {
            let start = processor_time();
            let counts = cover_links(Global, &links, &peaks).unwrap();
            assert_eq!(counts.len(), 256);
            processor_time() - start
        });
        println!("{name}: {:.4} s", best.fold(f64::MAX, f64::min));
    }
}
