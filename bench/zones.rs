// Closing, step and reading of one zone in plain Rust, for the benchmark alone: zones [ROUNDS]. It prints what crates/zone_bench
// prints.
mod zone;

use std::time::Instant;
use zone::{close, meet, step, Reading};

const BASINS: usize = 8;
const NUMBERS: usize = 81;

fn reading(k: usize) -> Reading {
    let first = (k % 8) as u8 + 1;
    if k % 16 < 8 {
        Reading { first, second: 0, low: 460, high: 540 }
    } else {
        Reading { first, second: first % 8 + 1, low: -30, high: 30 }
    }
}

fn first_zone() -> [i64; NUMBERS] {
    let mut zone = [0; NUMBERS];
    for i in 0..9 {
        for j in 0..9 {
            let most = if i == 0 { 0 } else { 900 };
            let least = if j == 0 { 0 } else { 100 };
            zone[i * 9 + j] = if i == j { 0 } else { most - least };
        }
    }
    zone
}

fn rough_zone() -> [i64; NUMBERS] {
    let mut zone = first_zone();
    for k in 0..12 {
        let r = reading(k);
        let at = usize::from(r.first) * 9 + usize::from(r.second);
        zone[at] = zone[at].min(r.high);
    }
    zone
}

fn trace(sum: i64, zone: &[i64; NUMBERS], round: usize) -> i64 {
    sum.wrapping_mul(31).wrapping_add(zone[round % NUMBERS])
}

fn rounds_of(rounds: usize, start: [i64; NUMBERS], mut work: impl FnMut(usize, &mut [i64])) -> i64 {
    let mut sum = 0;
    for round in 0..rounds {
        let mut zone = start;
        work(round, &mut zone);
        sum = trace(sum, &zone, round);
    }
    sum
}

fn main() {
    let rounds: Option<usize> = std::env::args().nth(1).map(|word| word.parse().expect("a number of rounds"));
    let n = rounds.unwrap_or(100);
    let rates = [(3, 2); BASINS];
    let mut closed = rough_zone();
    close(BASINS, &mut closed).unwrap();
    let mut works: Vec<(&str, [i64; NUMBERS], Box<dyn FnMut(usize, &mut [i64])>)> = vec![
        ("close", rough_zone(), Box::new(|_, zone| close(BASINS, zone).unwrap())),
        ("step", closed, Box::new(move |_, zone| step(BASINS, &rates, zone).unwrap())),
        ("meet", first_zone(), Box::new(|k, zone| meet(BASINS, reading(k), zone).unwrap())),
    ];
    for (what, start, work) in &mut works {
        let begin = Instant::now();
        let sum = rounds_of(n, *start, work);
        let nanos = begin.elapsed().as_nanos() / n as u128;
        match rounds {
            Some(_) => println!("{what} {nanos} ns {sum}"),
            None => println!("{what} {sum}"),
        }
    }
}
