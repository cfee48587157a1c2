//! The work of the measure cases `table_*` in plain Rust: with `BTreeMap`, and look-ups in a sorted `Vec`.
//!
//! `table WORK SIZE` prints what the work computed to standard output and its time to standard error. What it
//! computes is what `measure table_WORK SIZE` computes.

use std::collections::BTreeMap;
use std::time::Instant;

const ROUNDS: u32 = 1_000_000;

fn next_number(seed: u64) -> u64 {
    seed.wrapping_mul(6_364_136_223_846_793_005).wrapping_add(1_442_695_040_888_963_407)
}

fn random_key(seed: u64, size: u32) -> u32 {
    let keys = size.saturating_mul(2).saturating_add(2);
    ((seed >> 20) % u64::from(keys)) as u32
}

fn ascending_rows(size: u32) -> Vec<(u32, u64)> {
    (0..size).map(|place| (place.wrapping_mul(2), u64::from(place))).collect()
}

fn sum_of_rows<'a>(rows: impl Iterator<Item = (&'a u32, &'a u64)>) -> u64 {
    rows.fold(0u64, |sum, (key, value)| sum.wrapping_mul(31).wrapping_add(u64::from(*key) ^ *value))
}

fn ascending_map(size: u32) -> BTreeMap<u32, u64> {
    ascending_rows(size).into_iter().collect()
}

fn random_puts(size: u32) -> u64 {
    let mut map = BTreeMap::new();
    let mut seed = 1;
    for place in 0..size {
        seed = next_number(seed);
        map.insert(random_key(seed, size), u64::from(place));
    }
    sum_of_rows(map.iter())
}

fn random_vec_puts(size: u32) -> u64 {
    let mut rows: Vec<(u32, u64)> = Vec::new();
    let mut seed = 1;
    for place in 0..size {
        seed = next_number(seed);
        let key = random_key(seed, size);
        match rows.binary_search_by(|row| row.0.cmp(&key)) {
            Ok(at) => rows[at].1 = u64::from(place),
            Err(at) => rows.insert(at, (key, u64::from(place))),
        }
    }
    sum_of_rows(rows.iter().map(|(key, value)| (key, value)))
}

fn sum_of_gets(size: u32, get: impl Fn(u32) -> Option<u64>) -> u64 {
    let mut sum = 0u64;
    let mut seed = 2;
    for _ in 0..ROUNDS {
        seed = next_number(seed);
        sum = sum.wrapping_add(get(random_key(seed, size)).unwrap_or(7));
    }
    sum
}

fn sum_of_changes(size: u32) -> u64 {
    let mut map = ascending_map(size);
    let mut sum = 0u64;
    let mut seed = 3;
    for round in 0..ROUNDS {
        seed = next_number(seed);
        let key = random_key(seed, size);
        sum = sum.wrapping_add(map.remove(&key).unwrap_or(7));
        map.insert(key, u64::from(round));
    }
    sum.wrapping_add(sum_of_rows(map.iter()))
}

fn outcome(work: &str, size: u32) -> u64 {
    match work {
        "ascending" => sum_of_rows(ascending_map(size).iter()),
        "puts" => random_puts(size),
        "gets" => {
            let map = ascending_map(size);
            sum_of_gets(size, |key| map.get(&key).copied())
        }
        "changes" => sum_of_changes(size),
        "vec_ascending" => sum_of_rows(ascending_rows(size).iter().map(|(key, value)| (key, value))),
        "vec_puts" => random_vec_puts(size),
        "vec_gets" => {
            let rows = ascending_rows(size);
            sum_of_gets(size, |key| rows.binary_search_by(|row| row.0.cmp(&key)).ok().map(|place| rows[place].1))
        }
        _ => panic!("work: ascending, puts, gets, changes, vec_ascending, vec_puts or vec_gets"),
    }
}

fn main() {
    let words: Vec<String> = std::env::args().collect();
    let size = words[2].parse().expect("a size");
    let start = Instant::now();
    let outcome = outcome(&words[1], size);
    let nanoseconds = start.elapsed().as_nanos();
    println!("{} {size} {outcome}", words[1]);
    eprintln!("{nanoseconds} ns");
}
