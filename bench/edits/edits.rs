// The code of `demand_book` without its contracts: 1,000 edits of a book of 2,048 demands on 128 nodes, whose names have 10 and 8 bytes.
// Prints milliseconds for each kind of edit, the least of five rounds.
#![allow(dead_code, unused)]
mod demand_book;
mod net_core;

use demand_book::Book;
use net_core::{Demand, Edit, Global, List, Name, Network, NodeId, Reply};
use std::time::Instant;

const DEMANDS: usize = 2048;
const EDITS: usize = 1000;

fn demand(k: usize) -> Name {
    Name(format!("demand{k:04}").into_bytes())
}

fn node(k: usize) -> Name {
    Name(format!("node{k:04}").into_bytes())
}

fn book(demands: usize) -> Book {
    let net = Network(List::from_vec((0..128).map(node).collect()));
    let all = (0..demands)
        .map(|k| Demand { name: demand(k), from: NodeId(0), to: NodeId(1), need: 1000 })
        .collect();
    match Book::new(&net, List::from_vec(all)) {
        Ok(book) => book,
        Err(_) => panic!("no memory"),
    }
}

// The edits, which are all accepted: of the last demands, so that each is looked for through nearly the whole list.
fn edits(kind: &str) -> Vec<Edit> {
    (0..EDITS)
        .map(|k| match kind {
            "set" => Edit::Set { name: demand(DEMANDS - 1 - k), need: k as u64 },
            "drop" => Edit::Drop { name: demand(DEMANDS - 1 - k) },
            _ => Edit::Add { name: demand(DEMANDS - EDITS + k), from: node(126), to: node(127), need: 1 },
        })
        .collect()
}

fn main() {
    for kind in ["set", "drop", "add"] {
        let mut least = f64::MAX;
        for _ in 0..5 {
            let mut book = book(if kind == "add" { DEMANDS - EDITS } else { DEMANDS });
            let all = edits(kind);
            let begin = Instant::now();
            for edit in &all {
                assert!(matches!(book.apply(edit), Ok(Reply::Accepted(_))));
            }
            least = least.min(begin.elapsed().as_secs_f64() * 1000.0);
            assert_eq!(book.version(), EDITS as u64);
        }
        println!("{kind} {least:.2}");
    }
}
