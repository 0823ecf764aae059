// The algorithms of crate zones in plain Rust, for the benchmarks alone.
#![allow(dead_code)]

const NONE: i64 = i64::MAX;

#[derive(Clone, Copy)]
pub struct Reading {
    pub first: u8,
    pub second: u8,
    pub low: i64,
    pub high: i64,
}

// As in crate bounds: with saturating_add a closing takes a quarter longer.
fn sum(a: i64, b: i64) -> i64 {
    if a == NONE {
        NONE
    } else if a < 0 {
        if b == NONE {
            NONE
        } else if b < i64::MIN - a {
            i64::MIN
        } else {
            a + b
        }
    } else if b >= NONE - a {
        NONE
    } else {
        a + b
    }
}

fn settle(basins: usize, zone: &mut [i64]) -> bool {
    let width = basins + 1;
    for j in 0..width {
        zone[j] = zone[j].min(0);
        let at = j * width + j;
        if zone[at] < 0 {
            return false;
        }
        zone[at] = 0;
    }
    true
}

fn turn_all(basins: usize, zone: &mut [i64]) -> bool {
    let width = basins + 1;
    for k in 0..width {
        for i in 0..width {
            let to_k = zone[i * width + k];
            for j in 0..width {
                let through = sum(to_k, zone[k * width + j]);
                let at = i * width + j;
                if through < zone[at] {
                    zone[at] = through;
                    if i == j {
                        return false;
                    }
                }
            }
        }
    }
    true
}

fn close_square(basins: usize, zone: &mut [i64]) {
    if !settle(basins, zone) || !turn_all(basins, zone) {
        zone.fill(-1);
    }
}

#[inline(never)]
pub fn close(basins: usize, zone: &mut [i64]) -> Result<(), ()> {
    if !(1..=8).contains(&basins) || zone.len() != (basins + 1) * (basins + 1) {
        return Err(());
    }
    close_square(basins, zone);
    Ok(())
}

#[inline(never)]
pub fn step(basins: usize, rates: &[(u32, u32)], zone: &mut [i64]) -> Result<(), ()> {
    let width = basins + 1;
    if !(1..=8).contains(&basins) || zone.len() != width * width || rates.len() != basins {
        return Err(());
    }
    if rates.iter().any(|r| r.0 > 10_000 || r.1 > 10_000) {
        return Err(());
    }
    close_square(basins, zone);
    let rise = |i: usize| if i == 0 { 0 } else { i64::from(rates[i - 1].0) };
    let fall = |j: usize| if j == 0 { 0 } else { i64::from(rates[j - 1].1) };
    for i in 0..width {
        for j in 0..width {
            if i != j {
                let at = i * width + j;
                zone[at] = sum(rise(i) + fall(j), zone[at]);
            }
        }
    }
    close_square(basins, zone);
    Ok(())
}

#[inline(never)]
pub fn meet(basins: usize, reading: Reading, zone: &mut [i64]) -> Result<(), ()> {
    let width = basins + 1;
    let (first, second) = (usize::from(reading.first), usize::from(reading.second));
    if !(1..=8).contains(&basins) || zone.len() != width * width || reading.low > reading.high {
        return Err(());
    }
    if reading.low < -1_000_000 || reading.high > 1_000_000 || first > basins || second > basins || first == second {
        return Err(());
    }
    let above = first * width + second;
    zone[above] = zone[above].min(reading.high);
    let below = second * width + first;
    zone[below] = zone[below].min(-reading.low);
    close_square(basins, zone);
    Ok(())
}
