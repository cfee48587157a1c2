//! The work of the measure cases `versions_*` in plain Rust, with `BTreeMap`.
//!
//! `versions WORK SIZE` prints what the work computed to standard output and its time to standard error. What it computes is what
//! `measure versions_WORK SIZE` computes; the older versions are not made, but by `clone_put` and `clone_five_puts`, which make fewer, and by the works
//! `pieces_..`, which have a table whose copies share pieces.

mod pieces;

use std::collections::BTreeMap;
use std::sync::Arc;
use std::time::Instant;

const GETS: u32 = 1_000_000;
const VERSIONS: u32 = 100_000;
const HELD: usize = 16;
const CLONES: u32 = 20;

fn next_number(seed: u64) -> u64 {
    seed.wrapping_mul(6_364_136_223_846_793_005).wrapping_add(1_442_695_040_888_963_407)
}

fn random_key(seed: u64, size: u32) -> u32 {
    let keys = size.saturating_mul(2).saturating_add(2);
    ((seed >> 20) % u64::from(keys)) as u32
}

fn numbers(size: u32) -> BTreeMap<u32, u64> {
    (0..size).map(|place| (place.wrapping_mul(2), u64::from(place))).collect()
}

fn shared(size: u32) -> BTreeMap<u32, Arc<u64>> {
    numbers(size).into_iter().map(|(key, value)| (key, Arc::new(value))).collect()
}

fn sum_of_rows(rows: impl Iterator<Item = (u32, u64)>) -> u64 {
    rows.fold(0u64, |sum, (key, value)| sum.wrapping_mul(31).wrapping_add(u64::from(key) ^ value))
}

fn sum_of_shared(map: &BTreeMap<u32, Arc<u64>>) -> u64 {
    sum_of_rows(map.iter().map(|(key, value)| (*key, **value)))
}

fn sum_of_gets(size: u32) -> u64 {
    let map = numbers(size);
    let mut sum = 0u64;
    let mut seed = 2;
    for _ in 0..GETS {
        seed = next_number(seed);
        sum = sum.wrapping_add(map.get(&random_key(seed, size)).copied().unwrap_or(7));
    }
    sum
}

fn put_near(map: &mut BTreeMap<u32, Arc<u64>>, key: u32, puts: u32, value: u64) {
    for near in 0..puts {
        map.insert(key.wrapping_add(near.wrapping_mul(2)), Arc::new(value));
    }
}

fn sum_of_puts(size: u32, puts: u32, rounds: u32, keep_last: bool) -> u64 {
    let mut map = shared(size);
    let mut seed = 4;
    for round in 0..rounds {
        seed = next_number(seed);
        let _last = keep_last.then(|| map.clone());
        put_near(&mut map, random_key(seed, size), puts, u64::from(round));
    }
    sum_of_shared(&map)
}

/// The same works with a table whose copies share pieces.
mod with_pieces {
    use super::{next_number, random_key, Arc, GETS, HELD, VERSIONS};
    use crate::pieces::Table;

    fn numbers(size: u32) -> Table<u32, u64> {
        let mut table = Table::empty();
        for place in 0..size {
            table.put(place.wrapping_mul(2), u64::from(place));
        }
        table
    }

    fn shared(size: u32) -> Table<u32, Arc<u64>> {
        let mut table = Table::empty();
        for place in 0..size {
            table.put(place.wrapping_mul(2), Arc::new(u64::from(place)));
        }
        table
    }

    fn sum<V: Clone>(table: &Table<u32, V>, number: impl Fn(&V) -> u64) -> u64 {
        let mut sum = 0u64;
        table.each(&mut |key, value| sum = sum.wrapping_mul(31).wrapping_add(u64::from(key) ^ number(value)));
        sum
    }

    fn gets(size: u32) -> u64 {
        let table = numbers(size);
        let mut sum = 0u64;
        let mut seed = 2;
        for _ in 0..GETS {
            seed = next_number(seed);
            sum = sum.wrapping_add(table.get(random_key(seed, size)).copied().unwrap_or(7));
        }
        sum
    }

    fn versions(size: u32, puts: u32, copies: usize) -> u64 {
        let mut table = shared(size);
        let mut held: Vec<Table<u32, Arc<u64>>> = (0..copies).map(|_| table.share()).collect();
        let mut seed = 4;
        for round in 0..VERSIONS {
            seed = next_number(seed);
            let last = table.share();
            for near in 0..puts {
                let key = random_key(seed, size).wrapping_add(near.wrapping_mul(2));
                table.put(key, Arc::new(u64::from(round)));
            }
            if copies > 0 {
                held[round as usize % copies] = last;
            }
        }
        sum(&table, |value| **value)
    }

    pub fn outcome(work: &str, size: u32) -> u64 {
        match work {
            "ascending" => sum(&numbers(size), |value| *value),
            "gets" => gets(size),
            "shared" => sum(&shared(size), |value| **value),
            "put" => versions(size, 1, 0),
            "five_puts" => versions(size, 5, 0),
            "put_held" => versions(size, 1, HELD),
            "five_puts_held" => versions(size, 5, HELD),
            _ => panic!("work: pieces_ before ascending, gets, shared, put, five_puts, put_held or five_puts_held"),
        }
    }
}

fn outcome(work: &str, size: u32) -> u64 {
    if let Some(work) = work.strip_prefix("pieces_") {
        return with_pieces::outcome(work, size);
    }
    match work {
        "ascending" => sum_of_rows(numbers(size).into_iter()),
        "gets" => sum_of_gets(size),
        "shared" => sum_of_shared(&shared(size)),
        "put" | "put_held" => sum_of_puts(size, 1, VERSIONS, false),
        "five_puts" | "five_puts_held" => sum_of_puts(size, 5, VERSIONS, false),
        "clone_put" => sum_of_puts(size, 1, CLONES, true),
        "clone_five_puts" => sum_of_puts(size, 5, CLONES, true),
        _ => panic!("work: ascending, gets, shared, put, five_puts, clone_put or clone_five_puts"),
    }
}

fn main() {
    let words: Vec<String> = std::env::args().collect();
    let size = words[2].parse().expect("a size");
    let start = Instant::now();
    let outcome = outcome(&words[1], size);
    let nanoseconds = start.elapsed().as_nanos();
    println!("{} {size} {outcome}", words[1]);
    eprintln!("{nanoseconds} ns");
}
