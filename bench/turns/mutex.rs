// Turns per second at std's mutex, with one, two and four threads. Each turn notes a number at the end of a list.
// Prints the threads, the notes and the microseconds that they took, five times.
use std::sync::Mutex;
use std::thread;
use std::time::Instant;

// The turns of all threads together.
const TURNS: u64 = 1_000_000;

fn push_often(list: &Mutex<Vec<u64>>, turns: u64) {
    for number in 0..turns {
        list.lock().unwrap().push(number);
    }
}

fn main() {
    for _ in 0..5 {
        for threads in [1u64, 2, 4] {
            let list = Mutex::new(Vec::new());
            let begin = Instant::now();
            thread::scope(|scope| {
                for _ in 0..threads {
                    scope.spawn(|| push_often(&list, TURNS / threads));
                }
            });
            let took = begin.elapsed();
            println!("rust {} {} {}", threads, list.lock().unwrap().len(), took.as_micros());
        }
    }
}
