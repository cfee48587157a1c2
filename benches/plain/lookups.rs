//! The work of the measure cases `lookups_*` in plain Rust, with `HashMap`.
//!
//! `lookups WORK SIZE` prints what the work computed to standard output and its time to standard error. What it
//! computes is what `measure lookups_WORK SIZE` computes.

use std::collections::HashMap;
use std::time::Instant;

const ROUNDS: u32 = 1_000_000;

#[derive(Clone, Copy, PartialEq, Eq, Hash)]
enum Kind {
    Vc,
    Ve,
    Fe,
}

#[derive(Clone, Copy, PartialEq, Eq, Hash)]
struct Name {
    kind: Kind,
    id: u32,
}

#[derive(Clone, Copy, PartialEq, Eq, Hash)]
struct Identifier {
    agen: u16,
    fidn: u32,
    fids: u16,
}

struct Feature {
    name: Name,
    foid: Identifier,
    places: Vec<Name>,
}

struct Maps<'a> {
    records: HashMap<Name, &'a Feature>,
    pointers: HashMap<Name, Vec<(Name, u32)>>,
    bearers: HashMap<Identifier, Vec<Name>>,
}

fn next_number(seed: u64) -> u64 {
    seed.wrapping_mul(6_364_136_223_846_793_005).wrapping_add(1_442_695_040_888_963_407)
}

fn number_below(seed: u64, bound: u32) -> u32 {
    ((seed >> 20) % u64::from(bound.max(1))) as u32
}

fn features(size: u32) -> Vec<Feature> {
    let feature = |id: u32| Feature {
        name: Name { kind: Kind::Fe, id },
        foid: Identifier { agen: 550, fidn: id / 2, fids: 1 },
        places: vec![
            Name { kind: Kind::Ve, id: number_below(next_number(u64::from(id)), size) },
            Name { kind: Kind::Vc, id: id / 4 },
        ],
    };
    (0..size).map(feature).collect()
}

fn maps(features: &[Feature]) -> Maps<'_> {
    let mut maps = Maps { records: HashMap::new(), pointers: HashMap::new(), bearers: HashMap::new() };
    for feature in features {
        maps.records.insert(feature.name, feature);
        for (place, to) in (1..).zip(&feature.places) {
            maps.pointers.entry(*to).or_default().push((feature.name, place));
        }
        maps.bearers.entry(feature.foid).or_default().push(feature.name);
    }
    maps
}

fn sum_of_gets(maps: &Maps, size: u32) -> u64 {
    let (mut sum, mut seed) = (0u64, 2);
    for _ in 0..ROUNDS {
        seed = next_number(seed);
        let name = Name { kind: Kind::Fe, id: number_below(seed, size.saturating_mul(2)) };
        sum = sum.wrapping_add(maps.records.get(&name).map_or(7, |feature| u64::from(feature.name.id)));
    }
    sum
}

fn sum_of_refs(maps: &Maps, size: u32) -> u64 {
    let (mut sum, mut seed) = (0u64, 3);
    for _ in 0..ROUNDS {
        seed = next_number(seed);
        let name = Name { kind: Kind::Ve, id: number_below(seed, size) };
        for (from, _) in maps.pointers.get(&name).map_or(&[][..], Vec::as_slice) {
            sum = sum.wrapping_add(u64::from(from.id));
        }
    }
    sum
}

fn sum_of_bearers(maps: &Maps, size: u32) -> u64 {
    let (mut sum, mut seed) = (0u64, 4);
    for _ in 0..ROUNDS {
        seed = next_number(seed);
        let foid = Identifier { agen: 550, fidn: number_below(seed, size), fids: 1 };
        for name in maps.bearers.get(&foid).map_or(&[][..], Vec::as_slice) {
            sum = sum.wrapping_add(u64::from(name.id));
        }
    }
    sum
}

fn main() {
    let words: Vec<String> = std::env::args().collect();
    let size: u32 = words[2].parse().unwrap();
    let start = Instant::now();
    let features = features(size);
    let maps = maps(&features);
    let sum = match words[1].as_str() {
        "build" => 0,
        "gets" => sum_of_gets(&maps, size),
        "refs" => sum_of_refs(&maps, size),
        "bearers" => sum_of_bearers(&maps, size),
        _ => panic!("no such work"),
    };
    let time = start.elapsed().as_nanos();
    println!("{} {size} {sum}", words[1]);
    eprintln!("{time} ns");
}
