//! Connected nodes and edges with their lines, and what two of them have in common, as in `cell_findings` and `check_pairs`.

use crate::boxes::{Extent, Leaf};
use crate::look::{Look, position_of};
use crate::names::{Kind, Name, Subject};
use crate::records::Vector;
use crate::segments::{Meeting, Point, Segment, meeting, on_segment};

/// A finding with so many numbers.
pub struct Finding {
    pub subject: Subject,
    kind: &'static str,
    numbers: [u32; 4],
    count: usize,
}

impl Finding {
    pub fn of(subject: Subject, kind: &'static str, some: &[u32]) -> Finding {
        let mut numbers = [0; 4];
        numbers[..some.len()].copy_from_slice(some);
        Finding { subject, kind, numbers, count: some.len() }
    }

    /// As `enc_cell check` tells it.
    pub fn text(&self) -> String {
        let name = |name: &Name| format!("{:?} {}", name.kind, name.id).to_lowercase();
        let subject = match &self.subject {
            Subject::Rec(rec) => format!("rec {}", name(rec)),
            Subject::Side(edge) => format!("side {}", name(edge)),
            Subject::Pair(first, second) => format!("pair {} {}", name(first), name(second)),
            Subject::Ident(foid) => format!("ident {} {} {}", foid.agen, foid.fidn, foid.fids),
        };
        let numbers: String = self.numbers[..self.count].iter().map(|number| format!(" {}", number)).collect();
        format!("{subject} {}{numbers}", self.kind)
    }
}

/// The segments of a line. The one of a line without inner points takes no memory beside.
enum Segments {
    One([Segment; 1]),
    More(Vec<Segment>),
}

impl Segments {
    fn between(begins: Point, points: &[Point], ends: Point) -> Segments {
        if points.is_empty() {
            return Segments::One([(begins, ends)]);
        }
        let mut segments = Vec::with_capacity(points.len() + 1);
        let mut last = begins;
        for point in points.iter().chain([&ends]) {
            segments.push((last, *point));
            last = *point;
        }
        Segments::More(segments)
    }

    fn list(&self) -> &[Segment] {
        match self {
            Segments::One(segments) => segments,
            Segments::More(segments) => segments,
        }
    }
}

/// The line of an edge: its nodes with their places, its segments, and the box around them.
pub struct Line {
    pub begins: (Name, Point),
    pub ends: (Name, Point),
    segments: Segments,
    around: Extent,
}

pub struct Part<'a> {
    pub name: Name,
    record: &'a Vector,
    pub line: Option<Line>,
}

impl Line {
    pub fn segments(&self) -> &[Segment] {
        self.segments.list()
    }
}

/// The one end of an edge with a topology indicator, if it is a connected node with one position.
fn line_end(look: &Look, topi: u8, edge: &Vector) -> Option<(Name, Point)> {
    let mut those = edge.ends.iter().filter(|end| end.topi == topi);
    let node = those.next()?.to;
    if those.next().is_some() {
        return None;
    }
    Some((node, look.position(node)?))
}

fn line_of(look: &Look, edge: &Vector) -> Option<Line> {
    let begins = line_end(look, 1, edge)?;
    let ends = line_end(look, 2, edge)?;
    let segments = Segments::between(begins.1, &edge.plane, ends.1);
    let around = segments.list().iter().map(|segment| Extent::of_segment(*segment)).reduce(Extent::united)?;
    Some(Line { begins, ends, segments, around })
}

impl<'a> Part<'a> {
    fn find(look: &Look<'a>, name: Name) -> Option<Part<'a>> {
        let record = look.vector(name)?;
        let line = if name.kind == Kind::Ve { line_of(look, record) } else { None };
        Some(Part { name, record, line })
    }

    fn extent(&self) -> Option<Extent> {
        match &self.line {
            Some(line) => Some(line.around),
            None => position_of(self.record).map(Extent::of_point),
        }
    }
}

/// The connected nodes and the edges of a cell, each in the order of names, and the boxes of those that have points.
pub struct Parts<'a> {
    pub nodes: Vec<Part<'a>>,
    pub edges: Vec<Part<'a>>,
    pub leaves: Vec<Leaf>,
}

impl<'a> Parts<'a> {
    #[inline(never)]
    pub fn of(look: &Look<'a>) -> Parts<'a> {
        let mut parts = Parts { nodes: Vec::new(), edges: Vec::new(), leaves: Vec::with_capacity(look.records.len()) };
        for rec in &look.records {
            let name = rec.name();
            if !matches!(name.kind, Kind::Vc | Kind::Ve) {
                continue;
            }
            let Some(part) = Part::find(look, name) else { continue };
            if let Some(around) = part.extent() {
                parts.leaves.push(Leaf { name, around });
            }
            if name.kind == Kind::Ve { parts.edges.push(part) } else { parts.nodes.push(part) }
        }
        parts
    }

    /// The part of a name, where its number says that it stands, or else found by halves.
    pub fn part(&self, name: Name) -> Option<&Part<'a>> {
        let parts = if name.kind == Kind::Ve { &self.edges } else { &self.nodes };
        let first = parts.first()?.name.id;
        match parts.get(name.id.wrapping_sub(first) as usize) {
            Some(part) if part.name == name => Some(part),
            _ => parts.binary_search_by(|part| part.name.cmp(&name)).ok().map(|place| &parts[place]),
        }
    }

    /// The first finding about two, the lesser name first.
    pub fn finding(&self, a: Name, b: Name) -> Option<Finding> {
        let (first, second) = (self.part(a)?, self.part(b)?);
        let pair = Subject::Pair(a, b);
        match (&first.line, &second.line) {
            (Some(first), Some(second)) => line_pair(first, second).map(|(kind, numbers)| Finding::of(pair, kind, &numbers)),
            (None, Some(line)) => node_and_line(first, second.record, line).map(|number| Finding::of(pair, "NodeOnEdge", &[number])),
            _ => same_place(first, second)?.then(|| Finding::of(pair, "SamePlace", &[])),
        }
    }
}

// ---- contacts

fn may_meet_at(places: &[Point], a: Segment, b: Segment) -> bool {
    places.iter().any(|place| on_segment(*place, a) && on_segment(*place, b))
}

fn is_illegal(places: &[Point], a: Segment, b: Segment) -> bool {
    match meeting(a, b) {
        Meeting::Apart => false,
        Meeting::At => !may_meet_at(places, a, b),
        Meeting::Along => true,
    }
}

/// The numbers of the first two segments that meet as they may not.
fn first_contact(places: &[Point], first: &Line, second: &Line) -> Option<(usize, usize)> {
    if first.around.is_apart(second.around) {
        return None;
    }
    for (i, a) in first.segments.list().iter().enumerate() {
        if Extent::of_segment(*a).is_apart(second.around) {
            continue;
        }
        if let Some(j) = second.segments.list().iter().position(|b| is_illegal(places, *a, *b)) {
            return Some((i, j));
        }
    }
    None
}

fn contact(places: &[Point], first: &Line, second: &Line) -> Option<(&'static str, [u32; 2])> {
    let (i, j) = first_contact(places, first, second)?;
    let (a, b) = (first.segments.list()[i], second.segments.list()[j]);
    let kind = match meeting(a, b) {
        Meeting::Along => "Coincide",
        _ if on_segment(a.0, b) || on_segment(a.1, b) || on_segment(b.0, a) || on_segment(b.1, a) => "Touch",
        _ => "Cross",
    };
    Some((kind, [i as u32 + 1, j as u32 + 1]))
}

fn shared_place(end: (Name, Point), other: &Line) -> Option<Point> {
    (end.0 == other.begins.0 || end.0 == other.ends.0).then_some(end.1)
}

/// Two lines may meet at the places of nodes that both name.
fn line_pair(first: &Line, second: &Line) -> Option<(&'static str, [u32; 2])> {
    match (shared_place(first.begins, second), shared_place(first.ends, second)) {
        (Some(p), Some(q)) => contact(&[p, q], first, second),
        (Some(p), None) | (None, Some(p)) => contact(&[p], first, second),
        (None, None) => contact(&[], first, second),
    }
}

/// The number of the first segment on which a node lies that the edge doesn't name.
fn node_and_line(node: &Part, edge: &Vector, line: &Line) -> Option<u32> {
    if edge.ends.iter().any(|end| end.to == node.name) {
        return None;
    }
    let place = position_of(node.record)?;
    let number = line.segments.list().iter().position(|segment| on_segment(place, *segment))?;
    Some(number as u32 + 1)
}

fn same_place(first: &Part, second: &Part) -> Option<bool> {
    Some(position_of(first.record)? == position_of(second.record)?)
}
