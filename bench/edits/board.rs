// The code of `cut_pool` without its contracts: 1,000 edits that set the need of a demand, on a board with 4,096 cuts of random lengths.
// Beside it, a book takes the same edits, and after each one the right sides of all cuts are summed anew. Prints milliseconds of
// processor time for 1,000 edits: of the board, the least of five rounds; of the book, one round.
// Usage: board NODES LINKS DEMANDS
#![allow(dead_code, unused)]
mod checked_fraction;
mod cut_pool;
mod demand_book;
mod net_core;
mod short_paths;

mod metric_cut {
    pub mod cut;
    mod kept_lengths;

    pub use cut::{Cut, CutFault};
}

use cut_pool::{AdmitAnswer, Board, EditAnswer};
use demand_book::Book;
use metric_cut::Cut;
use net_core::{Copied, Demand, Demands, Edit, Global, Link, List, Name, Network, NodeId, Reply, StateId, States};

// Processor time of the process, in millionths of a second.
unsafe extern "C" {
    safe fn clock() -> i64;
}

/// Milliseconds since a reading of the clock.
fn since(begin: i64) -> f64 {
    (clock() - begin) as f64 / 1000.0
}

const CUTS: u32 = 4096;
const EDITS: usize = 1000;

/// Numbers of a linear congruential generator.
struct Draws(u64);

impl Draws {
    fn below(&mut self, most: u32) -> u32 {
        self.0 = self.0.wrapping_mul(6364136223846793005).wrapping_add(1442695040888963407);
        ((self.0 >> 33) % most as u64) as u32
    }
}

fn name(word: &str, k: u32) -> Name {
    Name(format!("{word}{k:04}").into_bytes())
}

fn two_nodes(draws: &mut Draws, nodes: u32) -> (NodeId, NodeId) {
    let from = draws.below(nodes);
    (NodeId(from), NodeId((from + 1 + draws.below(nodes - 1)) % nodes))
}

/// A ring with chords.
fn network(draws: &mut Draws, nodes: u32, links: u32) -> Network {
    let ring = (0..nodes).map(|k| (NodeId(k), NodeId((k + 1) % nodes))).collect::<Vec<_>>();
    let chords = (nodes..links).map(|_| two_nodes(draws, nodes)).collect::<Vec<_>>();
    let link = |(a, b): (NodeId, NodeId)| Link { a, b, fixed: 0, modules: List::from_vec(vec![]) };
    Network {
        nodes: List::from_vec((0..nodes).map(|k| name("node", k)).collect::<Vec<_>>()),
        links: List::from_vec(ring.into_iter().chain(chords).map(link).collect::<Vec<_>>()),
    }
}

fn opening(draws: &mut Draws, nodes: u32, demands: u32) -> Demands {
    let demand = |k| {
        let (from, to) = two_nodes(draws, nodes);
        Demand { name: name("demand", k), from, to, need: 1000 }
    };
    List::from_vec((0..demands).map(demand).collect::<Vec<_>>())
}

fn edits(draws: &mut Draws, demands: u32) -> Vec<Edit> {
    (0..EDITS)
        .map(|_| Edit::Set { name: name("demand", draws.below(demands)), need: draws.below(1_000_000) as u64 })
        .collect()
}

/// A board whose pool is full.
fn full<'a>(draws: &mut Draws, net: &'a Network, states: &'a States, opening: Demands) -> Board<'a> {
    let Ok(mut board) = Board::new(Global, net, states, opening) else { panic!("no memory") };
    while board.cuts() < CUTS {
        let lengths = (0..net.links.len()).map(|_| 1 + draws.below(1000)).collect::<Vec<_>>();
        let state = StateId(draws.below(states.count()));
        let cut = Cut::new(Global, net, states, state, List::from_vec(lengths)).unwrap();
        assert!(matches!(board.admit(cut), AdmitAnswer::Admitted { .. } | AdmitAnswer::Known(..)));
    }
    board
}

fn main() {
    let words = std::env::args().skip(1).map(|w| w.parse::<u32>().unwrap()).collect::<Vec<_>>();
    let (nodes, links, demands) = (words[0], words[1], words[2]);
    let mut draws = Draws(1);
    let net = network(&mut draws, nodes, links);
    let states = States { links };
    let opening = opening(&mut draws, nodes, demands);
    let mut board = full(&mut draws, &net, &states, opening.copy().unwrap());
    let Ok(mut book) = Book::new(&net, opening) else { panic!("no memory") };
    let mut least = f64::MAX;
    let mut all = vec![];
    for _ in 0..5 {
        let round = edits(&mut draws, demands);
        all = round.clone();
        board.reserve(EDITS as u32).unwrap();
        let begin = clock();
        for edit in round {
            assert!(matches!(board.edit(1, edit), EditAnswer::At { reply: Reply::Accepted(_), .. }));
        }
        least = least.min(since(begin));
        for edit in &all {
            book.apply(edit).unwrap();
        }
    }
    let mut sides = vec![0; CUTS as usize];
    let begin = clock();
    for edit in &all {
        book.apply(edit).unwrap();
        for k in 0..CUTS {
            sides[k as usize] = board.cut(k).right(book.demands());
        }
    }
    let anew = since(begin);
    assert!((0..CUTS).all(|k| sides[k as usize] == board.right(k)));
    println!("| {nodes} | {links} | {demands} | {least:.1} | {anew:.0} |");
}
