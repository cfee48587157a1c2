//! The case `segments` of `measure` in plain Rust: the same pairs and the same formula.
#[allow(dead_code)] // the shapes of edges
mod segments;

use segments::{Meeting, Point, meeting};
use std::time::Instant;

fn next_state(state: u64) -> u64 {
    let a = state ^ (state << 13);
    let b = a ^ (a >> 7);
    b ^ (b << 17)
}

fn coordinate(state: u64, is_small: bool) -> i32 {
    let bits = (state >> 32) as u32;
    if is_small {
        (bits % 16) as i32
    } else {
        (i64::from(bits) - 2_147_483_648) as i32
    }
}

fn point(state: u64, is_small: bool) -> (Point, u64) {
    let first = next_state(state);
    let second = next_state(first);
    (
        (coordinate(first, is_small), coordinate(second, is_small)),
        second,
    )
}

fn pairs() -> Vec<[Point; 4]> {
    let mut pairs = Vec::new();
    let mut state = 88_172_645_463_325_252;
    for place in 0..1_000_000u32 {
        let is_small = place % 2 == 1;
        let mut ends = [(0, 0); 4];
        for end in &mut ends {
            (*end, state) = point(state, is_small);
        }
        pairs.push(ends);
    }
    pairs
}

fn main() {
    let rounds: u32 = std::env::args().nth(2).unwrap().parse().unwrap();
    let start = Instant::now();
    let pairs = pairs();
    let mut sum = 0u64;
    for _ in 0..rounds {
        for [p, q, r, s] in &pairs {
            sum = sum.wrapping_add(match meeting((*p, *q), (*r, *s)) {
                Meeting::Apart => 0,
                Meeting::At => 1,
                Meeting::Along => 1_000_003,
            });
        }
    }
    let nanoseconds = start.elapsed().as_nanos();
    println!("segments {rounds} {sum}");
    eprintln!("{nanoseconds} ns");
}
