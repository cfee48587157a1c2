//! Vector and feature records as in `s57_types`, with a list for each kind of row, and how long they are when they are written.

use crate::names::{Identifier, Name};

pub type Point = (i32, i32);

pub struct Attribute {
    pub code: u16,
    pub value: Vec<u8>,
}

#[derive(Clone, Copy)]
pub struct End {
    pub to: Name,
    pub ornt: u8,
    pub usag: u8,
    pub topi: u8,
    pub mask: u8,
}

#[derive(Clone, Copy)]
pub struct Spot {
    pub to: Name,
    pub ornt: u8,
    pub usag: u8,
    pub mask: u8,
}

pub struct Partner {
    pub to: Identifier,
    pub rind: u8,
    pub comt: Vec<u8>,
}

pub struct Vector {
    pub name: Name,
    pub rver: u16,
    pub attrs: Vec<Attribute>,
    pub ends: Vec<End>,
    pub plane: Vec<Point>,
    pub deep: Vec<(i32, i32, i32)>,
}

pub struct Feature {
    pub name: Name,
    pub prim: u8,
    pub grup: u8,
    pub objl: u16,
    pub rver: u16,
    pub foid: Identifier,
    pub attf: Vec<Attribute>,
    pub natf: Vec<Attribute>,
    pub partners: Vec<Partner>,
    pub places: Vec<Spot>,
}

pub enum Rec {
    V(Vector),
    F(Feature),
}

impl Rec {
    pub fn name(&self) -> Name {
        match self {
            Rec::V(vector) => vector.name,
            Rec::F(feature) => feature.name,
        }
    }
}

const LENGTH_LIMIT: usize = 99_999;

fn terminated(bytes: usize) -> usize {
    if bytes == 0 { 0 } else { bytes + 1 }
}

fn attributes_length(attrs: &[Attribute]) -> usize {
    terminated(attrs.iter().map(|attr| attr.value.len() + 3).sum())
}

fn digit_count(number: usize) -> usize {
    number.checked_ilog10().map_or(1, |digits| digits as usize + 1)
}

fn record_length(lengths: &[usize]) -> usize {
    let (mut count, mut longest, mut last_begins, mut total) = (0, 0, 0, 0);
    for &field in lengths.iter().filter(|field| **field > 0) {
        count += 1;
        longest = field.max(longest);
        last_begins = total;
        total += field;
    }
    25 + count * (4 + digit_count(longest) + digit_count(last_begins)) + total
}

/// Whether a record has at most 99,999 bytes when it is written, with national attributes of one byte a character.
pub fn is_short(rec: &Rec) -> bool {
    let length = match rec {
        Rec::V(vector) => record_length(&[
            3,
            9,
            attributes_length(&vector.attrs),
            terminated(vector.ends.len() * 9),
            terminated(vector.plane.len() * 8),
            terminated(vector.deep.len() * 12),
        ]),
        Rec::F(feature) => record_length(&[
            3,
            13,
            9,
            attributes_length(&feature.attf),
            attributes_length(&feature.natf),
            terminated(feature.partners.iter().map(|partner| partner.comt.len() + 10).sum()),
            terminated(feature.places.len() * 8),
        ]),
    };
    length <= LENGTH_LIMIT
}
