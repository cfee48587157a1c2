//! Names, identifiers, keys and subjects, whose orders are written out as in `s57_types` and `cell_spec`: whether kinds are equal is told sooner than
//! their order.

use std::cmp::Ordering;

#[derive(Clone, Copy, Debug, PartialEq, Eq, PartialOrd, Ord)]
pub enum Kind {
    Vi,
    Vc,
    Ve,
    Fe,
    Head,
}

#[derive(Clone, Copy, Debug, PartialEq, Eq)]
pub struct Name {
    pub kind: Kind,
    pub id: u32,
}

impl Ord for Name {
    fn cmp(&self, other: &Name) -> Ordering {
        if self.kind == other.kind {
            self.id.cmp(&other.id)
        } else {
            self.kind.cmp(&other.kind)
        }
    }
}

impl PartialOrd for Name {
    fn partial_cmp(&self, other: &Name) -> Option<Ordering> {
        Some(self.cmp(other))
    }
}

/// A feature object identifier.
#[derive(Clone, Copy, Debug, PartialEq, Eq, PartialOrd, Ord)]
pub struct Identifier {
    pub agen: u16,
    pub fidn: u32,
    pub fids: u16,
}

#[derive(Clone, Copy, Debug, PartialEq, Eq)]
pub enum Key {
    Name(Name),
    Refs(Name),
    Foid(Identifier),
}

impl Ord for Key {
    fn cmp(&self, other: &Key) -> Ordering {
        match (self, other) {
            (Key::Name(name), Key::Name(second)) => name.cmp(second),
            (Key::Refs(name), Key::Refs(second)) => name.cmp(second),
            (Key::Foid(foid), Key::Foid(second)) => foid.cmp(second),
            (Key::Name(_), _) | (_, Key::Foid(_)) => Ordering::Less,
            _ => Ordering::Greater,
        }
    }
}

impl PartialOrd for Key {
    fn partial_cmp(&self, other: &Key) -> Option<Ordering> {
        Some(self.cmp(other))
    }
}

/// A pointer, seen from the record pointed to: the record that has it and its place there, from 1.
#[derive(Clone, Copy, Debug, PartialEq, Eq, PartialOrd, Ord)]
pub struct Ref {
    pub from: Name,
    pub place: u32,
}

#[derive(Clone, Copy, Debug, PartialEq, Eq)]
pub enum Subject {
    Rec(Name),
    Side(Name),
    Pair(Name, Name),
    Ident(Identifier),
}

impl Subject {
    fn rank(&self) -> u8 {
        match self {
            Subject::Rec(_) => 0,
            Subject::Side(_) => 1,
            Subject::Pair(..) => 2,
            Subject::Ident(_) => 3,
        }
    }
}

impl Ord for Subject {
    fn cmp(&self, other: &Subject) -> Ordering {
        match (self, other) {
            (Subject::Rec(name), Subject::Rec(second)) | (Subject::Side(name), Subject::Side(second)) => name.cmp(second),
            (Subject::Pair(a, b), Subject::Pair(c, d)) => a.cmp(c).then_with(|| b.cmp(d)),
            (Subject::Ident(foid), Subject::Ident(second)) => foid.cmp(second),
            _ => self.rank().cmp(&other.rank()),
        }
    }
}

impl PartialOrd for Subject {
    fn partial_cmp(&self, other: &Subject) -> Option<Ordering> {
        Some(self.cmp(other))
    }
}
