//! Segments in plain Rust: what two have in common, and the edges of the cases `edges` and `pairs`. A point is (latitude, longitude).
use std::cmp::Ordering;

pub type Point = (i32, i32);
pub type Segment = (Point, Point);

/// The length of the strokes of an edge that goes to and fro.
const STROKE: i32 = 2_000_000;

/// What two segments have in common.
#[derive(Clone, Copy, PartialEq, Eq)]
pub enum Meeting {
    Apart,
    At,
    Along,
}

/// On which side of the line from `a` to `b` the point `c` is: 1, -1, or 0 on the line.
fn side(a: Point, b: Point, c: Point) -> i8 {
    let distance = |from: i32, to: i32| i64::from(to) - i64::from(from);
    let product = |a: i64, b: i64| i128::from(a) * i128::from(b);
    let determinant = product(distance(a.1, b.1), distance(a.0, c.0)) - product(distance(a.0, b.0), distance(a.1, c.1));
    determinant.signum() as i8
}

fn are_one_side(a: i8, b: i8) -> bool {
    (0 < a && 0 < b) || (a < 0 && b < 0)
}

/// Whether the boxes of two segments have no point in common.
fn are_disjoint((p, q): Segment, (r, s): Segment) -> bool {
    p.0.max(q.0) < r.0.min(s.0) || r.0.max(s.0) < p.0.min(q.0) || p.1.max(q.1) < r.1.min(s.1) || r.1.max(s.1) < p.1.min(q.1)
}

fn meeting_along_line((p, q): Segment, (r, s): Segment) -> Meeting {
    let from = p.min(q).max(r.min(s));
    let to = p.max(q).min(r.max(s));
    match from.cmp(&to) {
        Ordering::Less => Meeting::Along,
        Ordering::Equal => Meeting::At,
        Ordering::Greater => Meeting::Apart,
    }
}

/// Whether a point lies on a closed segment, by the formula of `geo_exact::on_segment`.
#[allow(dead_code)]
pub fn on_segment(w: Point, (p, q): Segment) -> bool {
    side(p, q, w) == 0 && p.min(q) <= w && w <= p.max(q)
}

/// What two segments have in common, by the formula of `geo_exact::meeting`.
pub fn meeting(a: Segment, b: Segment) -> Meeting {
    if are_disjoint(a, b) {
        return Meeting::Apart;
    }
    let (r_side, s_side) = (side(a.0, a.1, b.0), side(a.0, a.1, b.1));
    if are_one_side(r_side, s_side) {
        return Meeting::Apart;
    }
    let (p_side, q_side) = (side(b.0, b.1, a.0), side(b.0, b.1, a.1));
    if are_one_side(p_side, q_side) {
        return Meeting::Apart;
    }
    if r_side == 0 && s_side == 0 {
        return meeting_along_line(a, b);
    }
    Meeting::At
}

/// The point at a place of an edge of a shape: in short steps, or to and fro in long strokes.
pub fn point(shape: &str, place: u32) -> Point {
    let step = place as i32 * 100;
    let (stroke, bend) = if place % 2 == 1 { (STROKE, 30) } else { (0, 0) };
    match shape {
        "stairs" => (step, step + bend),
        "north_south" => (stroke, step),
        "east_west" => (step, stroke),
        "slanting" => (stroke + step, stroke - step),
        _ => panic!("no such shape"),
    }
}

/// The segments of a line of points.
pub fn segments(points: &[Point]) -> Vec<Segment> {
    points.windows(2).map(|ends| (ends[0], ends[1])).collect()
}
