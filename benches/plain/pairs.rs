//! The work of the measure cases `pairs_*` in plain Rust: each segment of one edge with each of another.
//!
//! `pairs WORK SIZE` prints what the work computed to standard output and its time to standard error. What it computes is what
//! `measure pairs_WORK SIZE` computes.
mod segments;

use segments::{Meeting, Point, Segment, meeting, point, segments};
use std::time::Instant;

const CROSS: u64 = 7;

/// The shape of both edges, and how far the second is moved.
fn shape_and_move(work: &str, size: u32) -> (&str, Point) {
    let most_of_it = size as i32 * 99;
    match work {
        "stairs" => (work, (most_of_it, most_of_it + 60)),
        "north_south" => (work, (500_000, 0)),
        "east_west" => (work, (0, 500_000)),
        "slanting" => (work, (500_000, 500_000)),
        "crossed" => ("north_south", (0, 50)),
        _ => panic!("no such work"),
    }
}

/// The first two segments that meet, by their numbers. The edges have no node in common.
fn first_meeting(first: &[Segment], second: &[Segment]) -> Option<(usize, usize)> {
    for (i, a) in first.iter().enumerate() {
        for (j, b) in second.iter().enumerate() {
            if meeting(*a, *b) != Meeting::Apart {
                return Some((i + 1, j + 1));
            }
        }
    }
    None
}

fn main() {
    let words: Vec<String> = std::env::args().collect();
    let (work, size) = (words[1].as_str(), words[2].parse().unwrap());
    let start = Instant::now();
    let (shape, by) = shape_and_move(work, size);
    let first: Vec<Point> = (0..size).map(|place| point(shape, place)).collect();
    let second: Vec<Point> = first.iter().map(|(y, x)| (y + by.0, x + by.1)).collect();
    let outcome = first_meeting(&segments(&first), &segments(&second)).map_or(0, |(i, j)| CROSS + (i + j) as u64);
    let time = start.elapsed().as_nanos();
    println!("pairs_{work} {size} {outcome}");
    eprintln!("{time} ns");
}
