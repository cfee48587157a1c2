//! The rules on records, on the sides of edges and on identifiers, as in `check_record`, `check_feature`, `check_area` and `check_group1`. Edges' lines
//! are those of the parts.

use crate::boxes::Extent;
use crate::look::Look;
use crate::names::{Kind, Name, Ref, Subject};
use crate::parts::{Finding, Line, Parts};
use crate::records::{Attribute, Feature, Rec, Spot, Vector};
use crate::segments::{Meeting, Point, Segment, meeting};

const AREA: u8 = 3;
const NONE: u8 = 255;
/// How many segments stand behind one box.
const BLOCK: usize = 32;

/// What is judged, and what was found of it.
pub struct Rules<'a, 'b> {
    pub look: &'b Look<'a>,
    pub parts: &'b Parts<'a>,
    pub is_ascii: bool,
    pub findings: Vec<Finding>,
}

fn number(place: usize) -> u32 {
    place as u32 + 1
}

impl<'a, 'b> Rules<'a, 'b> {
    fn push_if(&mut self, is_wrong: bool, subject: Subject, kind: &'static str, numbers: &[u32]) {
        if is_wrong {
            self.findings.push(Finding::of(subject, kind, numbers));
        }
    }

    #[inline(never)]
    pub fn judge_records(&mut self) {
        let mut edges = self.parts.edges.iter();
        for rec in &self.look.records {
            match rec {
                Rec::F(feature) => self.judge_feature(feature),
                Rec::V(vector) if vector.name.kind == Kind::Ve => {
                    let line = edges.next().and_then(|part| part.line.as_ref());
                    self.judge_edge(vector, line);
                }
                Rec::V(vector) => self.judge_node(vector),
            }
        }
    }

    fn judge_node(&mut self, node: &Vector) {
        let (positions, soundings) = (node.plane.len(), node.deep.len());
        let is_one = positions == 1 && soundings == 0;
        let has_shape = is_one || (node.name.kind == Kind::Vi && positions == 0 && 0 < soundings);
        self.push_if(!has_shape, Subject::Rec(node.name), "BadShape", &[]);
        self.push_if(!node.ends.is_empty(), Subject::Rec(node.name), "NodePointer", &[]);
    }

    fn judge_edge(&mut self, edge: &Vector, line: Option<&Line>) {
        let subject = Subject::Rec(edge.name);
        self.push_if(!edge.deep.is_empty(), subject, "BadShape", &[]);
        let count = |topi| edge.ends.iter().filter(|end| end.topi == topi).count() as u32;
        let (begins, ends, all) = (count(1), count(2), edge.ends.len() as u32);
        self.push_if((begins, ends, all) != (1, 1, 2), subject, "EndCount", &[begins, ends, all]);
        for (place, end) in edge.ends.iter().enumerate() {
            self.push_if(self.look.record(end.to).is_none(), subject, "DanglingEnd", &[number(place)]);
        }
        if let Some(line) = line {
            self.judge_line(subject, line.segments());
        }
    }

    fn judge_line(&mut self, subject: Subject, segments: &[Segment]) {
        if let Some(place) = segments.iter().position(|segment| segment.0 == segment.1) {
            self.push_if(true, subject, "Stacked", &[number(place)]);
        } else if segments.len() > 1 {
            if let Some((i, j)) = first_wrong_meeting(segments) {
                self.push_if(true, subject, "SelfMeet", &[number(i), number(j)]);
            }
        }
    }

    fn judge_feature(&mut self, feature: &Feature) {
        let subject = Subject::Rec(feature.name);
        let before = self.findings.len();
        self.push_if(!fits_primitive(feature.prim, &feature.places), subject, "PrimRefs", &[]);
        for (place, spot) in feature.places.iter().enumerate() {
            self.push_if(self.look.record(spot.to).is_none(), subject, "DanglingRef", &[number(place)]);
        }
        for (place, spot) in feature.places.iter().enumerate() {
            self.push_if(!has_codes(feature.prim, spot), subject, "BadCodes", &[number(place)]);
        }
        if feature.prim == AREA && self.findings.len() == before {
            self.judge_boundary(feature);
        }
        for (place, partner) in feature.partners.iter().enumerate() {
            self.push_if(self.look.bearers_of(partner.to).is_empty(), subject, "DanglingFeature", &[number(place)]);
        }
        self.push_if(is_group1(feature) != (feature.grup == 1), subject, "WrongGroup", &[]);
        if self.is_ascii {
            let beyond = feature.attf.iter().position(|attr| attr.value.iter().any(|byte| *byte >= 0x80));
            self.push_if(beyond.is_some(), subject, "BadLevel", &[number(beyond.unwrap_or(0))]);
        }
    }

    /// The boundary of an area: loops one after the other, all of whose parts are interior or none, one of them exterior, each turning its way.
    fn judge_boundary(&mut self, feature: &Feature) {
        let subject = Subject::Rec(feature.name);
        let Some(strokes) = feature.places.iter().map(|spot| self.stroke(spot)).collect::<Option<Vec<Stroke>>>() else { return };
        let loops = match loops_of(&strokes) {
            Ok(loops) => loops,
            Err(place) => return self.push_if(true, subject, "OpenRing", &[number(place)]),
        };
        let before = self.findings.len();
        for (from, to) in &loops {
            let interior = strokes[*from..*to].iter().filter(|stroke| stroke.is_interior).count();
            self.push_if(0 < interior && interior < to - from, subject, "MixedRing", &[number(*from)]);
        }
        if self.findings.len() > before {
            return;
        }
        let outer = loops.iter().filter(|(from, _)| !strokes[*from].is_interior).count() as u32;
        self.push_if(outer != 1, subject, "OuterCount", &[outer]);
        for (from, to) in &loops {
            let turn: i128 = strokes[*from..*to].iter().map(|stroke| stroke.swept).sum();
            let is_right = if strokes[*from].is_interior { 0 < turn } else { turn < 0 };
            self.push_if(!is_right, subject, "WrongTurn", &[number(*from)]);
        }
    }

    /// The way along an edge that a spatial pointer names, if it has a line.
    fn stroke(&self, spot: &Spot) -> Option<Stroke> {
        let part = self.parts.part(spot.to).filter(|part| part.name.kind == Kind::Ve)?;
        let line = part.line.as_ref()?;
        let swept: i128 = line.segments().iter().map(|segment| twice_area_step(segment.0, segment.1)).sum();
        let is_interior = spot.usag == 2;
        Some(if spot.ornt == 2 {
            Stroke { begins: line.ends.0, ends: line.begins.0, swept: -swept, is_interior }
        } else {
            Stroke { begins: line.begins.0, ends: line.ends.0, swept, is_interior }
        })
    }

    #[inline(never)]
    pub fn judge_sides(&mut self) {
        for (place, rec) in self.look.records.iter().enumerate().filter(|(_, rec)| rec.name().kind == Kind::Ve) {
            let uses = self.uses(self.look.pointers_to(place));
            self.judge_uses(Subject::Side(rec.name()), &uses);
        }
    }

    /// The uses that features make of an edge, in the order of its pointers.
    fn uses(&self, pointers: &[Ref]) -> Vec<Use> {
        let mut uses = Vec::with_capacity(pointers.len());
        for pointer in pointers {
            let Some(Rec::F(feature)) = self.look.record(pointer.from) else { continue };
            let Some(spot) = feature.places.get(pointer.place as usize - 1) else { continue };
            let is_truncated = feature.prim == AREA && spot.usag == 3;
            uses.push(Use { pointer: *pointer, ornt: spot.ornt, is_truncated, is_group1: is_group1(feature), is_coverage: is_coverage(feature) });
        }
        uses
    }

    fn judge_uses(&mut self, subject: Subject, uses: &[Use]) {
        let count = |ornt, is_its: fn(&Use) -> bool| uses.iter().filter(|one| one.ornt == ornt && is_its(one)).count() as u32;
        let numbers = [
            count(1, |one| one.is_group1),
            count(2, |one| one.is_group1),
            count(1, |one| one.is_coverage),
            count(2, |one| one.is_coverage),
        ];
        let [forward, reverse, covered_forward, covered_reverse] = numbers;
        self.push_if(uses.is_empty(), subject, "Orphan", &[]);
        self.push_if(1 < forward || 1 < reverse, subject, "SideOverlap", &numbers);
        self.push_if(forward + covered_reverse != covered_forward + reverse, subject, "SideUnbalanced", &numbers);
        if covered_forward == covered_reverse {
            if let Some(first) = uses.iter().find(|one| one.is_truncated) {
                self.push_if(true, subject, "FalseTruncation", &[first.pointer.from.id, first.pointer.place]);
            }
        }
    }

    #[inline(never)]
    pub fn judge_identifiers(&mut self) {
        let mut rest = &self.look.bearers[..];
        while let Some((foid, _)) = rest.first().copied() {
            let count = rest.iter().take_while(|bearer| bearer.0 == foid).count();
            self.push_if(1 < count, Subject::Ident(foid), "TwiceFoid", &[count as u32]);
            rest = &rest[count..];
        }
    }
}

// ---- edges

fn is_bad_meeting(is_closed: bool, count: usize, (i, a): (usize, Segment), (j, b): (usize, Segment)) -> bool {
    let may_touch = i + 1 == j || (is_closed && i == 0 && j + 1 == count);
    i < j && match meeting(a, b) {
        Meeting::Apart => false,
        Meeting::At => !may_touch,
        Meeting::Along => true,
    }
}

/// The first two segments of a line that meet as they may not. Those of a block whose box is apart from a segment aren't looked at.
fn first_wrong_meeting(segments: &[Segment]) -> Option<(usize, usize)> {
    let around = |block: &[Segment]| block.iter().map(|segment| Extent::of_segment(*segment)).reduce(Extent::united);
    let blocks: Vec<Extent> = segments.chunks(BLOCK).filter_map(around).collect();
    let is_closed = segments[0].0 == segments[segments.len() - 1].1;
    for (i, a) in segments.iter().enumerate() {
        for (block, _) in blocks.iter().enumerate().filter(|(_, block)| !block.is_apart(Extent::of_segment(*a))) {
            let row = (block * BLOCK..segments.len().min((block + 1) * BLOCK)).zip(&segments[block * BLOCK..]);
            if let Some((j, _)) = row.into_iter().find(|(j, b)| is_bad_meeting(is_closed, segments.len(), (i, *a), (*j, **b))) {
                return Some((i, j));
            }
        }
    }
    None
}

// ---- areas

struct Stroke {
    begins: Name,
    ends: Name,
    swept: i128,
    is_interior: bool,
}

fn twice_area_step(a: Point, b: Point) -> i128 {
    i128::from(a.1) * i128::from(b.0) - i128::from(a.0) * i128::from(b.1)
}

fn loop_length(strokes: &[Stroke]) -> Option<usize> {
    let home = strokes.first()?.begins;
    let mut node = home;
    for (place, stroke) in strokes.iter().enumerate() {
        if stroke.begins != node {
            return None;
        }
        if stroke.ends == home {
            return Some(place + 1);
        }
        node = stroke.ends;
    }
    None
}

/// Where each loop begins and ends, or the place where none begins.
fn loops_of(strokes: &[Stroke]) -> Result<Vec<(usize, usize)>, usize> {
    let (mut loops, mut from) = (Vec::new(), 0);
    while from < strokes.len() {
        let length = loop_length(&strokes[from..]).ok_or(from)?;
        loops.push((from, from + length));
        from += length;
    }
    Ok(loops)
}

// ---- features

fn fits_primitive(prim: u8, places: &[Spot]) -> bool {
    let names_an_edge = || places.iter().any(|spot| spot.to.kind == Kind::Ve);
    let names_a_node = || places.iter().any(|spot| matches!(spot.to.kind, Kind::Vi | Kind::Vc));
    match prim {
        1 => places.len() == 1 && !names_an_edge(),
        2 | AREA => !places.is_empty() && !names_a_node(),
        NONE => places.is_empty(),
        _ => false,
    }
}

fn has_area_codes(spot: &Spot) -> bool {
    let is_shown = matches!(spot.usag, 1 | 2) && matches!(spot.mask, 1 | 2 | NONE);
    matches!(spot.ornt, 1 | 2) && (is_shown || (spot.usag == 3 && spot.mask == NONE))
}

fn has_codes(prim: u8, spot: &Spot) -> bool {
    match prim {
        1 => spot.ornt == NONE && spot.usag == NONE && spot.mask == NONE,
        2 => matches!(spot.ornt, 1 | 2 | NONE) && spot.usag == NONE && matches!(spot.mask, 1 | 2 | NONE),
        AREA => has_area_codes(spot),
        _ => true,
    }
}

fn is_group1(feature: &Feature) -> bool {
    feature.prim == AREA && matches!(feature.objl, 42 | 46 | 57 | 65 | 71 | 95 | 154)
}

fn says_covered(attr: &Attribute) -> bool {
    attr.code == 18 && attr.value == b"1"
}

fn is_coverage(feature: &Feature) -> bool {
    feature.prim == AREA && feature.objl == 302 && feature.attf.iter().any(says_covered)
}

/// A use of an edge by a feature.
struct Use {
    pointer: Ref,
    ornt: u8,
    is_truncated: bool,
    is_group1: bool,
    is_coverage: bool,
}
