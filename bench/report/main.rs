// The code of `read_report`, `write_report` and `check_report` without its contracts.
//
// Usage: report FOLDER: reads the files network, failures and report there. Prints the report's MB, and for reading, writing and
// checking it the seconds of processor time, the MB held at most beyond what was held before, and how many times the file that is: a line of a table.
#![allow(dead_code, unused)]
mod checked_fraction;
mod demand_book;
mod failure_states;
mod indexmap;
mod itoa;
mod metric_cut;
mod model_reader;
mod module_choice;
mod module_prices;
mod net_core;
mod plan_checker;
mod plan_report;
mod plan_types;
mod report_checker;
mod report_parts;
mod report_reader;
mod report_words;
mod short_paths;
mod sndlib_reader;
mod snd_tokens;
mod text_kit;

use net_core::Global;
use std::alloc::{GlobalAlloc, Layout, System};
use std::sync::atomic::{AtomicUsize, Ordering};

/// The system's allocator, which counts the bytes that are held.
struct Counting;

static HELD: AtomicUsize = AtomicUsize::new(0);
static MOST: AtomicUsize = AtomicUsize::new(0);

unsafe impl GlobalAlloc for Counting {
    unsafe fn alloc(&self, layout: Layout) -> *mut u8 {
        let held = HELD.fetch_add(layout.size(), Ordering::Relaxed) + layout.size();
        MOST.fetch_max(held, Ordering::Relaxed);
        unsafe { System.alloc(layout) }
    }

    unsafe fn dealloc(&self, at: *mut u8, layout: Layout) {
        HELD.fetch_sub(layout.size(), Ordering::Relaxed);
        unsafe { System.dealloc(at, layout) }
    }
}

#[global_allocator]
static ALLOCATOR: Counting = Counting;

unsafe extern "C" {
    /// The microseconds of processor time so far.
    safe fn clock() -> i64;
}

/// The last answer of so many runs of a job. Prints the least of their times and the bytes that they held at most.
fn measured<X>(file: usize, runs: usize, job: impl Fn() -> X) -> X {
    let before = HELD.load(Ordering::Relaxed);
    let (mut seconds, mut most, mut answer) = (f64::MAX, 0, None);
    for _ in 0..runs {
        drop(answer.take());
        MOST.store(before, Ordering::Relaxed);
        let begin = clock();
        answer = Some(job());
        seconds = seconds.min((clock() - begin) as f64 / 1e6);
        most = most.max(MOST.load(Ordering::Relaxed) - before);
    }
    let times = most as f64 / file as f64;
    print!(" {seconds:.2} | {:.1} ({times:.1}) |", most as f64 / 1e6);
    answer.expect("a run")
}

fn main() {
    let folder = std::env::args().nth(1).expect("a folder");
    let file = |name: &str| std::fs::read(format!("{folder}/{name}")).expect("a file");
    let (network, failures, bytes) = (file("network"), file("failures"), file("report"));
    let (net, demands) = sndlib_reader::read_network(Global, &network).expect("a network");
    let states = model_reader::read_failures(Global, &net, &failures).ok().expect("failures");
    let size = bytes.len();
    print!(" {:.1} |", size as f64 / 1e6);
    let report = measured(size, 3, || report_reader::read_report(Global, &net, &states, &bytes));
    let report = report.unwrap_or_else(|e| panic!("{e:?}"));
    let written = measured(size, 3, || plan_report::write_report(Global, &net, &states, &report));
    assert!(written.expect("bytes").items() == bytes);
    let answer = measured(size, 1, || report_checker::check_report(Global, &net, &states, &demands, &report));
    assert!(matches!(answer, plan_checker::CheckAnswer::Accepted), "not accepted");
    println!();
}
