// The zone table in plain Rust, for the benchmark alone: table [ROUNDS]. It prints what crates/table_bench prints.
mod zone;

use std::time::Instant;
use zone::{meet, step, Reading};

struct Plant {
    basins: usize,
    wrong: u32,
    ranges: Vec<(u32, u32)>,
    rates: Vec<(u32, u32)>,
    gauges: Vec<(u8, u8)>,
}

struct Observer {
    plant: Plant,
    steps: u32,
    sets: Vec<u16>,
    table: Vec<i64>,
}

// The sets of at most `wrong` gauges, by how many they have and then by value.
fn fault_sets(gauges: u32, wrong: u32) -> Vec<u16> {
    let of_size = |size| (0..1u16 << gauges).filter(move |set| set.count_ones() == size);
    (0..=wrong).flat_map(of_size).collect()
}

fn first_zone(plant: &Plant) -> Vec<i64> {
    let range = |i: usize| if i == 0 { (0, 0) } else { plant.ranges[i - 1] };
    let width = plant.basins + 1;
    let mut zone = vec![0; width * width];
    for i in 0..width {
        for j in 0..width {
            if i != j {
                zone[i * width + j] = i64::from(range(i).1) - i64::from(range(j).0);
            }
        }
    }
    zone
}

impl Observer {
    fn new(plant: Plant) -> Observer {
        let sets = fault_sets(plant.gauges.len() as u32, plant.wrong);
        let table = first_zone(&plant).repeat(sets.len());
        Observer { plant, steps: 0, sets, table }
    }

    fn size(&self) -> usize {
        (self.plant.basins + 1) * (self.plant.basins + 1)
    }

    #[inline(never)]
    fn step(&mut self) -> Result<(), ()> {
        if self.steps >= 1_000_000 {
            return Err(());
        }
        let size = self.size();
        for zone in self.table.chunks_exact_mut(size) {
            step(self.plant.basins, &self.plant.rates, zone)?;
        }
        self.steps += 1;
        Ok(())
    }

    #[inline(never)]
    fn read(&mut self, gauge: usize, low: i64, high: i64) -> Result<(), ()> {
        let &(first, second) = self.plant.gauges.get(gauge).ok_or(())?;
        if low > high || low < -1_000_000 || high > 1_000_000 {
            return Err(());
        }
        let size = self.size();
        for (set, zone) in self.sets.iter().zip(self.table.chunks_exact_mut(size)) {
            if set >> gauge & 1 == 0 {
                meet(self.plant.basins, Reading { first, second, low, high }, zone)?;
            }
        }
        Ok(())
    }
}

// Eight gauges of a basin each, and four between neighbours.
fn plant() -> Plant {
    let alone = (1..=8).map(|basin| (basin, 0));
    let between = (1..=4).map(|basin| (basin, basin + 1));
    Plant {
        basins: 8,
        wrong: 2,
        ranges: vec![(100, 900); 8],
        rates: vec![(3, 2); 8],
        gauges: alone.chain(between).collect(),
    }
}

// Reading k is of the gauges in turn. The ends move a little, so that readings keep sharpening.
fn read(observer: &mut Observer, k: usize) -> Result<(), ()> {
    let gauge = k % 12;
    let by = (k % 5) as i64;
    if gauge < 8 {
        observer.read(gauge, 460 + by, 530 + by)
    } else {
        observer.read(gauge, by - 30, by + 30)
    }
}

fn trace(sum: i64, number: i64) -> i64 {
    sum.wrapping_mul(31).wrapping_add(number)
}

// What is left after so many rounds: one number of the table for each, and the whole of it at the end.
fn rounds_of(rounds: usize, mut work: impl FnMut(usize, &mut Observer) -> Result<(), ()>) -> i64 {
    let mut observer = Observer::new(plant());
    for k in 0..12 {
        read(&mut observer, k).unwrap();
    }
    let mut sum = 0;
    for round in 0..rounds {
        work(round, &mut observer).unwrap();
        sum = trace(sum, observer.table[round % observer.table.len()]);
    }
    observer.table.iter().fold(sum, |sum, number| trace(sum, *number))
}

fn main() {
    let rounds: Option<usize> = std::env::args().nth(1).map(|word| word.parse().expect("a number of rounds"));
    let n = rounds.unwrap_or(20);
    let mut works: Vec<(&str, Box<dyn FnMut(usize, &mut Observer) -> Result<(), ()>>)> = vec![
        ("step", Box::new(|_, observer| observer.step())),
        ("read", Box::new(|k, observer| read(observer, k))),
        ("both", Box::new(|k, observer| observer.step().and_then(|()| read(observer, k)))),
    ];
    for (what, work) in &mut works {
        let begin = Instant::now();
        let sum = rounds_of(n, work);
        let nanos = begin.elapsed().as_nanos() / n as u128;
        match rounds {
            Some(_) => println!("{what} {nanos} ns {sum}"),
            None => println!("{what} {sum}"),
        }
    }
}
