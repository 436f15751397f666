// Solves a packing program, as generate.py writes it for this driver, by the code of `simplex_core` without its contracts.
// Prints processor time. Usage: simplex FILE [SECONDS]
#![allow(dead_code, unused)]
mod checked_fraction;
mod net_core;
mod simplex_core;

use checked_fraction::Row;
use net_core::{Global, List};
use simplex_core::{Column, Columns, Entry, Price, SimplexFault, solve};

impl net_core::Copied for Entry {
    fn copy(&self) -> Result<Entry, net_core::NoMemory> {
        Ok(*self)
    }
}

// Processor time of the process, in millionths of a second.
unsafe extern "C" {
    safe fn clock() -> i64;
}

/// A program: the bound of each row, and the rows of each column's entries, all of which are 1, as is each gain.
struct Program {
    bounds: Vec<i64>,
    columns: Vec<Vec<u32>>,
    priced: u64,
    limit: i64,
}

impl Columns for Program {
    type Name = u32;

    fn rows(&self) -> u32 {
        self.bounds.len() as u32
    }

    fn bound(&self, row: u32) -> i64 {
        self.bounds[row as usize]
    }

    fn slack(&self, row: u32) -> u32 {
        row
    }

    // The column of greatest gain less its priced entries.
    fn price(&mut self, duals: &Row) -> Price<u32> {
        self.priced += 1;
        if clock() > self.limit {
            println!("stopped after {} columns", self.priced);
            std::process::exit(0);
        }
        let nums = duals.nums();
        let cost = |at: usize| self.columns[at].iter().map(|row| nums[*row as usize] as i128).sum::<i128>();
        let best = (0..self.columns.len()).min_by_key(|at| cost(*at));
        match best {
            Some(at) if cost(at) < duals.den() as i128 => {
                let entries = self.columns[at].iter().map(|row| Entry { row: *row, value: 1 }).collect::<Vec<_>>();
                Price::Gain(Column {
                    name: self.rows() + at as u32,
                    gain: 1,
                    entries: List::from_vec(entries),
                })
            }
            _ => Price::Optimal,
        }
    }
}

fn main() {
    let words: Vec<String> = std::env::args().collect();
    let text = std::fs::read_to_string(&words[1]).unwrap();
    let mut lines = text.lines();
    let bounds: Vec<i64> = lines.next().unwrap().split(' ').map(|word| word.parse().unwrap()).collect();
    let columns = lines.map(|line| line.split(' ').map(|word| word.parse().unwrap()).collect()).collect();
    let seconds: i64 = words.get(2).map_or(600, |word| word.parse().unwrap());
    let begin = clock();
    let mut program = Program { bounds, columns, priced: 0, limit: begin + seconds * 1_000_000 };
    let answer = solve(Global, &mut program);
    let time = (clock() - begin) as f64 / 1000.0;
    match answer {
        Ok(best) => {
            let rows = program.rows();
            let value: u128 = best.basis.items().iter().zip(best.values.items()).filter(|(name, _)| **name >= rows).map(|(_, value)| *value).sum();
            println!("{} columns entered by price, {time:.1} ms, optimum {value} / {}", program.priced - 1, best.den);
        }
        Err(SimplexFault::Wide { kind, .. }) => println!("wide after {} columns: {kind:?}", program.priced),
        Err(SimplexFault::NoMemory) => println!("out of memory"),
    }
}
