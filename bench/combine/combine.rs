// The code of `combine` of `checked_fraction` without its contracts, beside the same loop written plainly, on the rows and
// in the cycles of the README. Prints nanoseconds of processor time per number of a row and call, and a digest of each row.
#![allow(dead_code, unused)]
mod checked_fraction;
mod net_core;

// Processor time of the process, in millionths of a second.
unsafe extern "C" {
    safe fn clock() -> i64;
}

#[derive(Clone)]
struct Row {
    nums: Vec<i64>,
    den: i64,
}

fn gcd(mut x: u128, mut y: u128) -> u128 {
    while y != 0 {
        if x <= u64::MAX as u128 && y <= u64::MAX as u128 {
            let (mut a, mut b) = (x as u64, y as u64);
            while b != 0 {
                (a, b) = (b, a % b);
            }
            return a as u128;
        }
        (x, y) = (y, x % y);
    }
    x
}

fn combine(row: &mut Row, p: i64, pivot: &Row, q: i64) -> Result<(), (usize, i128)> {
    if p == 0 {
        return Ok(());
    }
    let factor = gcd(p.unsigned_abs() as u128, q as u128) as i64;
    let (p, q) = (p / factor, q / factor);
    let raw = |a: i64, b: i64| a as i128 * q as i128 - p as i128 * b as i128;
    let whole = row.den as u128 * q as u128;
    let mut common = whole;
    let mut top = 0;
    for (a, b) in row.nums.iter().zip(&pivot.nums) {
        let size = raw(*a, *b).unsigned_abs();
        if common != 1 && size != 0 {
            common = gcd(size, common);
        }
        top = size.max(top);
    }
    let den = whole / common;
    if top / common >= 1 << 62 || den >= 1 << 62 {
        for (at, (a, b)) in row.nums.iter().zip(&pivot.nums).enumerate() {
            let value = raw(*a, *b) / common as i128;
            if value.unsigned_abs() >= 1 << 62 {
                return Err((at, value));
            }
        }
        return Err((row.nums.len(), den as i128));
    }
    for (a, b) in row.nums.iter_mut().zip(&pivot.nums) {
        *a = (raw(*a, *b) / common as i128) as i64;
    }
    row.den = den as i64;
    Ok(())
}

fn filled(n: usize, seed: u64, limit: u64) -> Row {
    let mut x = seed;
    let mut nums = vec![0; n];
    nums[0] = 1;
    for num in nums.iter_mut() {
        x = x.wrapping_mul(6364136223846793005).wrapping_add(1442695040888963407);
        let value = ((x >> 24) % limit) as i64;
        *num -= if x % 2 == 0 { value } else { -value };
    }
    Row { nums, den: 1 }
}

fn digest(nums: &[i64], den: i64) -> i64 {
    nums.iter().fold(den, |sum, num| sum.wrapping_mul(31).wrapping_add(*num))
}

// Runs a cycle, there and back, so often.
fn time(reps: u32, n: usize, mut call: impl FnMut(bool) -> bool) -> f64 {
    let start = clock();
    for _ in 0..reps {
        assert!(call(true) && call(false));
    }
    (clock() - start) as f64 * 1000.0 / (2 * reps) as f64 / n as f64
}

fn cycle(label: &str, row: &mut Row, pivot: &Row, (p, q, back): (i64, i64, i64), reps: u32) {
    let n = row.nums.len();
    let listed = |row: &Row| checked_fraction::Row { nums: net_core::List::from_vec(row.nums.clone()), den: row.den };
    let (mut crate_row, crate_pivot) = (listed(row), listed(pivot));
    let proved = time(reps, n, |there| {
        let (p, q) = if there { (p, q) } else { (-p, back) };
        checked_fraction::combine(&mut crate_row, p, &crate_pivot, q).is_ok()
    });
    let plain = time(reps, n, |there| {
        let (p, q) = if there { (p, q) } else { (-p, back) };
        combine(row, p, pivot, q).is_ok()
    });
    let (one, other) = (digest(crate_row.nums(), crate_row.den), digest(&row.nums, row.den));
    assert_eq!(one, other);
    println!("{label:5} n {n:4}: combine {proved:5.1}, plain {plain:5.1}, digest {one}");
}

fn main() {
    for (n, reps) in [(100, 20000), (400, 5000), (2000, 1000)] {
        let pivot = filled(n, 7, 1 << 25);
        let mut row = filled(n, 11, 1 << 40);
        let mut low = filled(n, 13, 1 << 25);
        let _ = combine(&mut low, -1012345678, &pivot, 1073741789);
        cycle("whole", &mut row, &pivot, (12345, 1, 1), reps);
        cycle("den", &mut row, &pivot, (12345, 1000003, 1), reps);
        cycle("wide", &mut low, &pivot, (1012345688307645113, 1000000007, 1073741789), reps);
    }
}
