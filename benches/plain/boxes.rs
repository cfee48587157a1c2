//! A tree of boxes around what has names, as in `box_tree`: leaves in the order of a curve, in halves with a box around each.

use crate::names::Name;
use crate::segments::{Point, Segment};

/// A range of latitudes and a range of longitudes.
#[derive(Clone, Copy)]
pub struct Extent {
    pub south: i32,
    pub west: i32,
    pub north: i32,
    pub east: i32,
}

impl Extent {
    pub fn of_point(at: Point) -> Extent {
        Extent { south: at.0, west: at.1, north: at.0, east: at.1 }
    }

    pub fn of_segment((p, q): Segment) -> Extent {
        Extent { south: p.0.min(q.0), west: p.1.min(q.1), north: p.0.max(q.0), east: p.1.max(q.1) }
    }

    pub fn united(self, other: Extent) -> Extent {
        Extent {
            south: self.south.min(other.south),
            west: self.west.min(other.west),
            north: self.north.max(other.north),
            east: self.east.max(other.east),
        }
    }

    /// Whether two boxes have no point in common.
    pub fn is_apart(self, other: Extent) -> bool {
        self.north < other.south || other.north < self.south || self.east < other.west || other.east < self.west
    }
}

#[derive(Clone, Copy)]
pub struct Leaf {
    pub name: Name,
    pub around: Extent,
}

/// How many leaves are looked at one by one.
const FEW: usize = 8;

enum Node {
    Few(Vec<Leaf>),
    Halves(Extent, Box<Node>, Extent, Box<Node>),
}

fn around(leaves: &[Leaf]) -> Extent {
    leaves.iter().fold(leaves[0].around, |extent, leaf| extent.united(leaf.around))
}

impl Node {
    fn of(leaves: &[Leaf]) -> Node {
        if leaves.len() <= FEW {
            return Node::Few(leaves.to_vec());
        }
        let (front, back) = leaves.split_at(leaves.len() / 2);
        Node::Halves(around(front), Box::new(Node::of(front)), around(back), Box::new(Node::of(back)))
    }

    fn push_meeting(&self, leaf: Leaf, out: &mut Vec<Name>) {
        match self {
            Node::Few(leaves) => {
                out.extend(leaves.iter().filter(|other| !leaf.around.is_apart(other.around) && leaf.name < other.name).map(|other| other.name));
            }
            Node::Halves(front_box, front, back_box, back) => {
                if !leaf.around.is_apart(*front_box) {
                    front.push_meeting(leaf, out);
                }
                if !leaf.around.is_apart(*back_box) {
                    back.push_meeting(leaf, out);
                }
            }
        }
    }
}

/// Visits each two leaves of one node whose boxes meet.
fn each_within(node: &Node, visit: &mut impl FnMut(Name, Name)) {
    match node {
        Node::Few(leaves) => {
            for (place, leaf) in leaves.iter().enumerate() {
                each_with(*leaf, &leaves[place + 1..], visit);
            }
        }
        Node::Halves(front_box, front, back_box, back) => {
            each_within(front, visit);
            each_within(back, visit);
            if !front_box.is_apart(*back_box) {
                each_between((*front_box, front), (*back_box, back), visit);
            }
        }
    }
}

/// Visits each leaf of one node with each of another whose box meets its own.
fn each_between(first: (Extent, &Node), second: (Extent, &Node), visit: &mut impl FnMut(Name, Name)) {
    match (first.1, second.1) {
        (Node::Few(leaves), Node::Few(others)) => {
            for leaf in leaves.iter().filter(|leaf| !leaf.around.is_apart(second.0)) {
                each_with(*leaf, others, visit);
            }
        }
        (Node::Halves(front_box, front, back_box, back), _) => {
            if !front_box.is_apart(second.0) {
                each_between(second, (*front_box, front), visit);
            }
            if !back_box.is_apart(second.0) {
                each_between(second, (*back_box, back), visit);
            }
        }
        _ => each_between(second, first, visit),
    }
}

/// Visits a leaf with each of some others whose box meets its own, the lesser name first.
fn each_with(leaf: Leaf, others: &[Leaf], visit: &mut impl FnMut(Name, Name)) {
    for other in others.iter().filter(|other| !leaf.around.is_apart(other.around)) {
        if leaf.name < other.name { visit(leaf.name, other.name) } else { visit(other.name, leaf.name) }
    }
}

/// The bits of a number, a zero bit above each.
fn spread(number: u32) -> u64 {
    let mut bits = u64::from(number);
    bits = (bits | (bits << 16)) & 0x0000_FFFF_0000_FFFF;
    bits = (bits | (bits << 8)) & 0x00FF_00FF_00FF_00FF;
    bits = (bits | (bits << 4)) & 0x0F0F_0F0F_0F0F_0F0F;
    bits = (bits | (bits << 2)) & 0x3333_3333_3333_3333;
    (bits | (bits << 1)) & 0x5555_5555_5555_5555
}

fn middle(first: i32, last: i32) -> u32 {
    (first / 2 + last / 2).cast_unsigned() ^ (1 << 31)
}

fn place_on_curve(around: Extent) -> u64 {
    (spread(middle(around.south, around.north)) << 1) | spread(middle(around.west, around.east))
}

pub struct Tree {
    root: Node,
}

impl Tree {
    #[inline(never)]
    pub fn of(leaves: &[Leaf]) -> Tree {
        let mut leaves = leaves.to_vec();
        leaves.sort_by_cached_key(|leaf| place_on_curve(leaf.around));
        Tree { root: Node::of(&leaves) }
    }

    /// Visits each two leaves whose boxes meet, the lesser name first, in one pass over the tree and itself.
    pub fn each_pair(&self, visit: &mut impl FnMut(Name, Name)) {
        each_within(&self.root, visit);
    }

    /// The names above a leaf's own whose boxes meet its box, ascending, behind others.
    pub fn push_near(&self, leaf: Leaf, out: &mut Vec<Name>) {
        let from = out.len();
        self.root.push_meeting(leaf, out);
        out[from..].sort_unstable();
    }
}
