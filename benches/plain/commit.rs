//! What the shape of a commit costs at least: the works that a commit of one moved node with versions, names and read sets is made of, in plain Rust.
//!
//! `commit WORK COUNT SIZE [COMMITS]` does a work for so many commits, 10,000 if left out, COUNT times each, in tables of SIZE rows, prints a sum to
//! standard output and the time to standard error, in all and in microseconds a commit. Orders of names and keys are written out (`names.rs`). The works:
//!
//! - `looks`: look-ups by a record's name in a table whose copies share pieces, each sought among the names of the edits first;
//! - `looks_by_number`: the same in a table that compares no names (`numbers.rs`);
//! - `rows`: look-ups by a subject in a table whose copies share pieces; `findings`: in one without rows, as that of a cell without findings;
//! - `puts`: versions of such tables, two with one put each, one with all other puts; `puts_by_number`: the same of a table that compares no names;
//! - `named`: subjects put behind others unless they are there;
//! - `near`: lists of 17 names put in order, each once;
//! - `pairs`: pairs whose two parts are found by halves and whose read sets of 5 keys are put together in order; `merged`: the same pairs where parts are
//!   taken by their places and read sets are merged;
//! - `features`: areas of 4 edges whose read set is put in order, each key once, and whose answers are found by halves; `coverage`: the same for the area
//!   of data coverage, with all edges along the border of the cell;
//! - `taken`: pieces of memory of 64 bytes taken, and given back together;
//! - `all`: these one after the other, as often as in a commit on a cell of SIZE records; `least`: those that compare no names and merge.

#[allow(dead_code)]
mod names;
mod numbers;
#[allow(dead_code)]
mod pieces;

use names::{Key, Kind, Name, Subject};
use numbers::ByNumber;
use pieces::Table;
use std::collections::BTreeSet;
use std::hint::black_box;
use std::sync::Arc;
use std::time::Instant;

/// How many names stand near a record that an edit reaches, before each is there once.
const NEAR: u32 = 17;
/// How many nodes and edges are judged in pairs in a commit, and how many of them are nodes.
const PARTS: u32 = 36;
const NODES: u32 = 12;

fn next_number(seed: u64) -> u64 {
    seed.wrapping_mul(6_364_136_223_846_793_005).wrapping_add(1_442_695_040_888_963_407)
}

/// A name among so many: a third of them nodes, as in a grid of squares.
fn name_below(seed: u64, size: u32) -> Name {
    let number = ((seed >> 20) % u64::from(size.max(1))) as u32;
    if number < size / 3 {
        Name { kind: Kind::Vc, id: number }
    } else {
        Name { kind: Kind::Ve, id: number - size / 3 }
    }
}

/// The names of a commit lie near one another.
fn near(seed: u64, place: u32, size: u32) -> Name {
    name_below(seed.wrapping_add(u64::from(place % 64) << 20), size)
}

fn records(size: u32) -> Table<Name, Arc<u64>> {
    let mut table = Table::empty();
    for number in 0..size {
        table.put(name_below(u64::from(number) << 20, size), Arc::new(u64::from(number)));
    }
    table
}

fn rows(size: u32) -> Table<Subject, Arc<u64>> {
    let mut table = Table::empty();
    for number in 0..size {
        table.put(Subject::Rec(name_below(u64::from(number) << 20, size)), Arc::new(u64::from(number)));
    }
    table
}

fn numbered(size: u32) -> ByNumber<Arc<u64>> {
    let mut table = ByNumber::empty();
    for number in 0..size {
        table.put(name_below(u64::from(number) << 20, size), Arc::new(u64::from(number)));
    }
    table
}

/// What the works of a commit stand on: the tables of a cell, and where the edit is.
struct Stand {
    records: Table<Name, Arc<u64>>,
    numbered: ByNumber<Arc<u64>>,
    rows: Table<Subject, Arc<u64>>,
    empty: Table<Subject, Arc<u64>>,
    size: u32,
    seed: u64,
}

#[inline(never)]
fn looks(stand: &Stand, count: u32) -> u64 {
    let edited = black_box([name_below(stand.seed, stand.size)]);
    let mut sum = 0u64;
    for place in 0..count {
        let name = near(stand.seed, place, stand.size);
        if edited.binary_search(&name).is_ok() {
            sum = sum.wrapping_add(1);
        } else {
            sum = sum.wrapping_add(stand.records.get(name).map_or(7, |number| **number));
        }
    }
    sum
}

/// The same look-ups in a table that compares no names.
#[inline(never)]
fn looks_by_number(stand: &Stand, count: u32) -> u64 {
    let edited = black_box([name_below(stand.seed, stand.size)]);
    let mut sum = 0u64;
    for place in 0..count {
        let name = near(stand.seed, place, stand.size);
        if edited[0] == name {
            sum = sum.wrapping_add(1);
        } else {
            sum = sum.wrapping_add(stand.numbered.get(name).map_or(7, |number| **number));
        }
    }
    sum
}

fn sum_of_rows(table: &Table<Subject, Arc<u64>>, stand: &Stand, count: u32) -> u64 {
    let look = |place| table.get(Subject::Rec(near(stand.seed, place, stand.size))).map_or(7, |number| **number);
    (0..count).fold(0, |sum, place| sum.wrapping_add(look(place)))
}

#[inline(never)]
fn looks_of_rows(stand: &Stand, count: u32) -> u64 {
    sum_of_rows(&stand.rows, stand, count)
}

/// Look-ups in a table without rows, as that of the findings of a cell that has none.
#[inline(never)]
fn looks_of_findings(stand: &Stand, count: u32) -> u64 {
    sum_of_rows(&stand.empty, stand, count)
}

#[inline(never)]
fn puts(stand: &mut Stand, count: u32) -> u64 {
    let mut last = stand.records.share();
    for place in 0..count {
        if place < 3 {
            last = stand.records.share();
        }
        stand.records.put(near(stand.seed, place * 7, stand.size), Arc::new(u64::from(place)));
    }
    black_box(&last);
    1
}

/// The same puts into a table that compares no names.
#[inline(never)]
fn puts_by_number(stand: &mut Stand, count: u32) -> u64 {
    let mut last = stand.numbered.clone();
    for place in 0..count {
        if place < 3 {
            last = stand.numbered.clone();
        }
        stand.numbered.put(near(stand.seed, place * 7, stand.size), Arc::new(u64::from(place)));
    }
    black_box(&last);
    1
}

fn subject(seed: u64, place: u32, size: u32) -> Subject {
    if place % 2 == 0 { Subject::Rec(near(seed, place, size)) } else { Subject::Side(near(seed, place, size)) }
}

#[inline(never)]
fn named(stand: &Stand, count: u32) -> u64 {
    let mut list = Vec::new();
    let mut there = BTreeSet::new();
    for place in 0..count {
        let subject = subject(stand.seed, place, stand.size);
        if there.insert(subject) {
            list.push(subject);
        }
    }
    black_box(&list).len() as u64
}

#[inline(never)]
fn lists_near(stand: &Stand, count: u32) -> u64 {
    let mut sum = 0;
    for list in 0..count {
        let mut names: Vec<Name> = (0..NEAR).map(|place| near(stand.seed, (list * 5 + place * 29) % 64, stand.size)).collect();
        names.sort_unstable();
        names.dedup();
        sum += black_box(&names).len() as u64;
    }
    sum
}

/// A node, or an edge with its two ends.
struct Part {
    name: Name,
    ends: Vec<Name>,
}

fn parts(first: u32) -> Vec<Part> {
    let node = |id| Name { kind: Kind::Vc, id: first.wrapping_add(id) };
    let nodes = (0..NODES).map(|id| Part { name: node(id), ends: Vec::new() });
    let edge = |id: u32| Part { name: Name { kind: Kind::Ve, id: first.wrapping_add(id) }, ends: vec![node(id % NODES), node(id % NODES + 1)] };
    nodes.chain((0..PARTS - NODES).map(edge)).collect()
}

fn part_named(parts: &[Part], name: Name) -> Option<&Part> {
    let place = parts.partition_point(|part| part.name < name);
    parts.get(place).filter(|part| part.name == name)
}

fn put_key(keys: &mut Vec<Key>, name: Name) {
    let key = Key::Name(name);
    if let Err(place) = keys.binary_search(&key) {
        keys.insert(place, key);
    }
}

fn pair_keys(a: &Part, b: &Part) -> Vec<Key> {
    let mut keys = Vec::with_capacity(2 + a.ends.len() + b.ends.len());
    for part in [a, b] {
        put_key(&mut keys, part.name);
        for end in &part.ends {
            put_key(&mut keys, *end);
        }
    }
    keys
}

#[inline(never)]
fn pairs(parts: &[Part], count: u32) -> u64 {
    let mut held = Vec::with_capacity(count as usize);
    for pair in 0..count as usize {
        let second = &parts[NODES as usize + pair % 24].name;
        let first = if pair % 5 < 3 { &parts[NODES as usize + (pair + 1) % 24].name } else { &parts[pair % 12].name };
        if let (Some(a), Some(b)) = (part_named(parts, *first), part_named(parts, *second)) {
            held.push((Subject::Pair(a.name, b.name), pair_keys(a, b)));
        }
    }
    black_box(&held).iter().map(|row| row.1.len() as u64).sum()
}

/// The keys of two parts in order, each once, where the ends of each ascend and stand before its own name.
fn merged_keys(a: &Part, b: &Part) -> Vec<Key> {
    let mut keys = Vec::with_capacity(2 + a.ends.len() + b.ends.len());
    let (mut first, mut second) = (a.ends.iter().chain([&a.name]).peekable(), b.ends.iter().chain([&b.name]).peekable());
    loop {
        let next = match (first.peek(), second.peek()) {
            (Some(one), Some(other)) if one > other => second.next(),
            (Some(one), Some(other)) if one == other => {
                second.next();
                first.next()
            }
            (Some(_), _) => first.next(),
            (None, _) => second.next(),
        };
        match next {
            Some(name) => keys.push(Key::Name(*name)),
            None => return keys,
        }
    }
}

#[inline(never)]
fn merged(parts: &[Part], count: u32) -> u64 {
    let mut held = Vec::with_capacity(count as usize);
    for pair in 0..count as usize {
        let b = &parts[NODES as usize + pair % 24];
        let a = if pair % 5 < 3 { &parts[NODES as usize + (pair + 1) % 24] } else { &parts[pair % 12] };
        held.push((Subject::Pair(a.name, b.name), merged_keys(a, b)));
    }
    black_box(&held).iter().map(|row| row.1.len() as u64).sum()
}

fn once(mut keys: Vec<Key>) -> Vec<Key> {
    keys.sort_unstable();
    keys.dedup();
    keys
}

/// The read set of an area: its name, that of the head, those of its edges, and those of their ends, which come in order mostly.
fn area_keys(stand: &Stand, edges: u32) -> Vec<Key> {
    let name = |kind, place| Key::Name(Name { kind, id: (stand.seed >> 40) as u32 / 2 + place });
    let mut named = Vec::with_capacity(edges as usize + 2);
    named.push(name(Kind::Fe, 0));
    named.push(Key::Name(Name { kind: Kind::Head, id: 0 }));
    named.extend((0..edges).map(|edge| name(Kind::Ve, edge * 7 % (edges * 8))));
    let named = once(named);
    let mut keys = Vec::with_capacity(3 * edges as usize + 2);
    keys.extend((0..edges).flat_map(|edge| [name(Kind::Vc, edge), name(Kind::Vc, (edge + 1) % edges)]));
    let mut keys = once(keys);
    keys.extend_from_slice(&named);
    once(keys)
}

/// Areas of so many edges, whose answers are sought three times for each edge and five times beside.
#[inline(never)]
fn areas(stand: &Stand, count: u32, edges: u32) -> u64 {
    let mut sum = 0u64;
    for _ in 0..count {
        let keys = area_keys(stand, edges);
        let answers: Vec<(Key, Option<&u64>)> = keys.iter().map(|key| (*key, None)).collect();
        for place in 0..(3 * edges + 5) as usize {
            let key = keys[place * 5 % keys.len()];
            sum += answers.binary_search_by(|answer| answer.0.cmp(&key)).map_or(0, |place| place as u64);
        }
        black_box(&answers);
    }
    sum
}

#[inline(never)]
fn taken(seed: u64, count: u32) -> u64 {
    let held: Vec<Box<[u64; 8]>> = (0..count).map(|place| Box::new([seed ^ u64::from(place); 8])).collect();
    black_box(&held).len() as u64
}

/// All works of a commit, as often as `callgrind` counts them on 25 and on 100 rows of squares. An area along the border is judged where a node
/// there is moved, by each seventh commit on 25 rows and each twenty-fifth on 100.
fn whole(stand: &mut Stand, parts: &[Part], round: u32) -> u64 {
    let (names, findings, edges, each, pieces) = if stand.size < 10_000 { (176, 81, 100, 7, 112) } else { (195, 83, 400, 25, 120) };
    let mut sum = looks(stand, names) ^ looks_of_rows(stand, 17) ^ looks_of_findings(stand, findings);
    sum ^= named(stand, 10) ^ lists_near(stand, 5) ^ pairs(parts, 72) ^ areas(stand, 4, 4);
    if round % each == 0 {
        sum ^= areas(stand, 1, edges);
    }
    sum ^ puts(stand, 7) ^ taken(stand.seed, pieces)
}

/// The same works where names are found by their numbers, and read sets of pairs are merged.
fn least(stand: &mut Stand, parts: &[Part], round: u32) -> u64 {
    let (names, findings, edges, each, pieces) = if stand.size < 10_000 { (176, 81, 100, 7, 112) } else { (195, 83, 400, 25, 120) };
    let mut sum = looks_by_number(stand, names) ^ looks_of_rows(stand, 17) ^ looks_of_findings(stand, findings);
    sum ^= named(stand, 10) ^ lists_near(stand, 5) ^ merged(parts, 72) ^ areas(stand, 4, 4);
    if round % each == 0 {
        sum ^= areas(stand, 1, edges);
    }
    sum ^ puts_by_number(stand, 7) ^ taken(stand.seed, pieces)
}

fn work(word: &str, stand: &mut Stand, parts: &[Part], count: u32, round: u32) -> u64 {
    match word {
        "looks" => looks(stand, count),
        "looks_by_number" => looks_by_number(stand, count),
        "puts_by_number" => puts_by_number(stand, count),
        "rows" => looks_of_rows(stand, count),
        "findings" => looks_of_findings(stand, count),
        "puts" => puts(stand, count),
        "named" => named(stand, count),
        "near" => lists_near(stand, count),
        "pairs" => pairs(parts, count),
        "merged" => merged(parts, count),
        "features" => areas(stand, count, 4),
        "coverage" => areas(stand, count, if stand.size < 10_000 { 100 } else { 400 }),
        "taken" => taken(stand.seed, count),
        "all" => (0..count).fold(0, |sum, _| sum ^ whole(stand, parts, round)),
        "least" => (0..count).fold(0, |sum, _| sum ^ least(stand, parts, round)),
        _ => panic!("a work that isn't there"),
    }
}

fn main() {
    let words: Vec<String> = std::env::args().collect();
    let count = words[2].parse().expect("a count");
    let size = words[3].parse().expect("a size");
    let commits: u32 = words.get(4).map_or(10_000, |word| word.parse().expect("a number of commits"));
    let mut stand = Stand { records: records(size), numbered: numbered(size), rows: rows(size), empty: rows(0), size, seed: 2 };
    let parts = parts(size / 3);
    let start = Instant::now();
    let mut sum = 0u64;
    for round in 0..commits {
        stand.seed = next_number(stand.seed);
        sum = sum.wrapping_add(work(&words[1], &mut stand, &parts, count, round));
    }
    let nanoseconds = start.elapsed().as_nanos();
    stand.records.each(&mut |_, number| sum = sum.wrapping_mul(31).wrapping_add(**number));
    stand.numbered.each(&mut |number| sum = sum.wrapping_mul(31).wrapping_add(**number));
    println!("{} {count} {size} {sum}", words[1]);
    eprintln!("{:.2} microseconds a commit", nanoseconds as f64 / 1e3 / f64::from(commits));
    eprintln!("{nanoseconds} ns");
}
