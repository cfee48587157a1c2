//! The work of the measure cases `edges_*` in plain Rust: each segment of an edge with each later one.
//!
//! `edges WORK SIZE` prints what the work computed to standard output and its time to standard error. What it computes is what
//! `measure edges_WORK SIZE` computes.
mod segments;

use segments::{Meeting, Point, Segment, meeting, point, segments};
use std::time::Instant;

const SELF_MEET: u64 = 5;

/// The points of the edge. A knotted edge goes back across all its strokes.
fn points(work: &str, size: u32) -> Vec<Point> {
    let is_knotted = work == "knotted";
    let shape = if is_knotted { "north_south" } else { work };
    let mut points: Vec<Point> = (0..size).map(|place| point(shape, place)).collect();
    if is_knotted {
        *points.last_mut().unwrap() = (1_000_000, -1_000);
    }
    points
}

/// The first two segments that meet as they may not, by their numbers. The edge isn't closed.
fn first_wrong_meeting(segments: &[Segment]) -> Option<(usize, usize)> {
    for (i, a) in segments.iter().enumerate() {
        for (j, b) in segments.iter().enumerate().skip(i + 1) {
            match meeting(*a, *b) {
                Meeting::Apart => {}
                Meeting::At if j == i + 1 => {}
                _ => return Some((i + 1, j + 1)),
            }
        }
    }
    None
}

fn main() {
    let words: Vec<String> = std::env::args().collect();
    let size: u32 = words[2].parse().unwrap();
    let start = Instant::now();
    let segments = segments(&points(&words[1], size));
    let outcome = first_wrong_meeting(&segments).map_or(0, |(i, j)| SELF_MEET + (i + j) as u64);
    let time = start.elapsed().as_nanos();
    println!("edges_{} {size} {outcome}", words[1]);
    eprintln!("{time} ns");
}
