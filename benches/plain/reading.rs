//! A cell's file read, as in `s57_fields` and `cell_read`: each field is looked for among the tags of its record, cut and decoded into lists of its own,
//! and the first fault is told with the number of its record and where that begins.

use crate::frames::{Frame, FrameFault, next_record};
use crate::names::{Identifier, Kind, Name};
use crate::records::{Attribute, End, Feature, Partner, Rec, Spot, Vector, is_short};
use std::collections::BTreeSet;

const ROW_LIMIT: usize = 12_500;
const RECORD_LIMIT: usize = 262_144;

#[derive(Clone, Copy, Debug, PartialEq, Eq)]
pub enum Fault {
    Frame(FrameFault),
    BadField,
    BadText,
    ForeignTag,
    MissingField,
    RepeatedField,
    NotBase,
    HeadOrder,
    TwiceName,
    TooLong,
    TooMany,
}

/// A fault, the number of the record that has it, from 1, and where it begins.
#[derive(Clone, Copy, Debug)]
pub struct Refusal {
    pub fault: Fault,
    pub number: u32,
    pub at: u32,
}

/// The records of a cell in the order of the file, those of each kind by themselves.
#[derive(Default)]
pub struct Cell {
    pub vi: Vec<Rec>,
    pub vc: Vec<Rec>,
    pub ve: Vec<Rec>,
    pub fe: Vec<Rec>,
    /// The lexical level of attributes, which the head says.
    pub aall: u8,
}

// ---- subfields

fn take<const N: usize>(bytes: &mut &[u8]) -> Result<[u8; N], Fault> {
    let (front, rest) = bytes.split_first_chunk::<N>().ok_or(Fault::BadField)?;
    *bytes = rest;
    Ok(*front)
}

fn take_u8(bytes: &mut &[u8]) -> Result<u8, Fault> {
    Ok(take::<1>(bytes)?[0])
}

fn take_u16(bytes: &mut &[u8]) -> Result<u16, Fault> {
    Ok(u16::from_le_bytes(take(bytes)?))
}

fn take_u32(bytes: &mut &[u8]) -> Result<u32, Fault> {
    Ok(u32::from_le_bytes(take(bytes)?))
}

fn take_i32(bytes: &mut &[u8]) -> Result<i32, Fault> {
    Ok(i32::from_le_bytes(take(bytes)?))
}

/// A text of one byte a character, and whether it has no control byte.
fn take_text(bytes: &mut &[u8]) -> Result<(Vec<u8>, bool), Fault> {
    let end = bytes.iter().position(|byte| *byte == 0x1f).ok_or(Fault::BadField)?;
    let text = bytes[..end].to_vec();
    *bytes = &bytes[end + 1..];
    let is_plain = text.iter().all(|byte| *byte >= 0x20);
    Ok((text, is_plain))
}

fn vector_kind(rcnm: u8) -> Result<Kind, Fault> {
    match rcnm {
        110 => Ok(Kind::Vi),
        120 => Ok(Kind::Vc),
        130 => Ok(Kind::Ve),
        _ => Err(Fault::BadField),
    }
}

fn take_vector_name(bytes: &mut &[u8]) -> Result<Name, Fault> {
    let rcnm = take_u8(bytes)?;
    let id = take_u32(bytes)?;
    Ok(Name { kind: vector_kind(rcnm)?, id })
}

fn take_identifier(bytes: &mut &[u8]) -> Result<Identifier, Fault> {
    Ok(Identifier { agen: take_u16(bytes)?, fidn: take_u32(bytes)?, fids: take_u16(bytes)? })
}

fn body(bytes: &[u8]) -> Result<&[u8], Fault> {
    match bytes {
        [body @ .., 0x1e] => Ok(body),
        _ => Err(Fault::BadField),
    }
}

// ---- fields

/// The rows of a field whose rows take so many bytes, behind those that are there, with the memory for all taken at once.
fn read_rows<T, const N: usize>(bytes: &[u8], rows: &mut Vec<T>, row: impl Fn(&mut &[u8]) -> Result<T, Fault>) -> Result<(), Fault> {
    let (chunks, rest) = body(bytes)?.as_chunks::<N>();
    if !rest.is_empty() {
        return Err(Fault::BadField);
    }
    if rows.len() >= ROW_LIMIT {
        chunks.iter().try_for_each(|chunk| row(&mut &chunk[..]).map(|_| ()))?;
        return Ok(());
    }
    rows.reserve_exact(chunks.len());
    for chunk in chunks {
        rows.push(row(&mut &chunk[..])?);
    }
    Ok(())
}

fn read_attributes(bytes: &[u8]) -> Result<Vec<Attribute>, Fault> {
    let mut rest = body(bytes)?;
    let (mut attrs, mut all_plain) = (Vec::new(), true);
    while !rest.is_empty() {
        let code = take_u16(&mut rest)?;
        let (value, is_plain) = take_text(&mut rest)?;
        attrs.push(Attribute { code, value });
        all_plain &= is_plain;
    }
    if all_plain { Ok(attrs) } else { Err(Fault::BadText) }
}

fn read_partners(bytes: &[u8], partners: &mut Vec<Partner>) -> Result<(), Fault> {
    let mut rest = body(bytes)?;
    let mut all_plain = true;
    while !rest.is_empty() {
        let (to, rind) = (take_identifier(&mut rest)?, take_u8(&mut rest)?);
        let (comt, is_plain) = take_text(&mut rest)?;
        all_plain &= is_plain;
        if partners.len() < ROW_LIMIT {
            partners.push(Partner { to, rind, comt });
        }
    }
    if all_plain { Ok(()) } else { Err(Fault::BadText) }
}

fn take_end(bytes: &mut &[u8]) -> Result<End, Fault> {
    let to = take_vector_name(bytes)?;
    let [ornt, usag, topi, mask] = take(bytes)?;
    Ok(End { to, ornt, usag, topi, mask })
}

fn take_spot(bytes: &mut &[u8]) -> Result<Spot, Fault> {
    let to = take_vector_name(bytes)?;
    let [ornt, usag, mask] = take(bytes)?;
    Ok(Spot { to, ornt, usag, mask })
}

fn take_last<T>(bytes: &[u8], row: impl Fn(&mut &[u8]) -> Result<T, Fault>) -> Result<T, Fault> {
    let mut rest = body(bytes)?;
    let value = row(&mut rest)?;
    if rest.is_empty() { Ok(value) } else { Err(Fault::BadField) }
}

// ---- records

/// Whether a field with the tag of one at a place, which may stand once, stands before it.
fn stands_twice(frame: &Frame<'_>, tag: [u8; 4], place: usize) -> bool {
    (0..place).any(|before| frame.tag(before) == tag)
}

fn need_first(frame: &Frame<'_>, tag: [u8; 4], place: usize) -> Result<(), Fault> {
    if stands_twice(frame, tag, place) { Err(Fault::RepeatedField) } else { Ok(()) }
}

/// What the identifier of a vector record says: its name, version and instruction.
fn take_vrid(bytes: &mut &[u8]) -> Result<(Name, u16, u8), Fault> {
    Ok((take_vector_name(bytes)?, take_u16(bytes)?, take_u8(bytes)?))
}

fn read_vector(frame: &Frame<'_>) -> Result<Rec, Fault> {
    let mut identifier = None;
    let (mut attrs, mut ends, mut plane, mut deep) = (Vec::new(), Vec::new(), Vec::new(), Vec::new());
    for place in 0..frame.count() {
        let (tag, bytes) = (frame.tag(place), frame.field(place));
        if matches!(&tag, b"VRID" | b"ATTV") {
            need_first(frame, tag, place)?;
        }
        match &tag {
            b"0001" => {}
            b"VRID" => identifier = Some(take_last(bytes, take_vrid)?),
            b"ATTV" => attrs = read_attributes(bytes)?,
            b"VRPT" => read_rows::<End, 9>(bytes, &mut ends, take_end)?,
            b"SG2D" => read_rows::<_, 8>(bytes, &mut plane, |rest| Ok((take_i32(rest)?, take_i32(rest)?)))?,
            b"SG3D" => read_rows::<_, 12>(bytes, &mut deep, |rest| Ok((take_i32(rest)?, take_i32(rest)?, take_i32(rest)?)))?,
            _ => return Err(Fault::ForeignTag),
        }
    }
    let (name, rver, ruin) = identifier.ok_or(Fault::MissingField)?;
    if ruin != 1 {
        return Err(Fault::NotBase);
    }
    Ok(Rec::V(Vector { name, rver, attrs, ends, plane, deep }))
}

/// What the identifier of a feature record says, and its instruction.
fn take_frid(bytes: &mut &[u8]) -> Result<(u32, [u8; 2], u16, u16, u8), Fault> {
    if take_u8(bytes)? != 100 {
        return Err(Fault::BadField);
    }
    Ok((take_u32(bytes)?, take(bytes)?, take_u16(bytes)?, take_u16(bytes)?, take_u8(bytes)?))
}

fn read_feature(frame: &Frame<'_>) -> Result<Rec, Fault> {
    let (mut identifier, mut bearer) = (None, None);
    let (mut attf, mut natf, mut partners, mut places) = (Vec::new(), Vec::new(), Vec::new(), Vec::new());
    for place in 0..frame.count() {
        let (tag, bytes) = (frame.tag(place), frame.field(place));
        if matches!(&tag, b"FRID" | b"FOID" | b"ATTF" | b"NATF") {
            need_first(frame, tag, place)?;
        }
        match &tag {
            b"0001" => {}
            b"FRID" => identifier = Some(take_last(bytes, take_frid)?),
            b"FOID" => bearer = Some(take_last(bytes, take_identifier)?),
            b"ATTF" => attf = read_attributes(bytes)?,
            b"NATF" => natf = read_attributes(bytes)?,
            b"FFPT" => read_partners(bytes, &mut partners)?,
            b"FSPT" => read_rows::<_, 8>(bytes, &mut places, take_spot)?,
            _ => return Err(Fault::ForeignTag),
        }
    }
    let (Some((id, [prim, grup], objl, rver, ruin)), Some(foid)) = (identifier, bearer) else {
        return Err(Fault::MissingField);
    };
    if ruin != 1 {
        return Err(Fault::NotBase);
    }
    Ok(Rec::F(Feature { name: Name { kind: Kind::Fe, id }, prim, grup, objl, rver, foid, attf, natf, partners, places }))
}

/// The record of a frame, whose kind the first tag behind the record's number says.
fn read_record(frame: &Frame<'_>) -> Result<Rec, Fault> {
    let leading = (0..frame.count()).map(|place| frame.tag(place)).find(|tag| tag != b"0001").ok_or(Fault::MissingField)?;
    match &leading {
        b"VRID" => read_vector(frame),
        b"FRID" => read_feature(frame),
        b"DSID" | b"DSPM" => Err(Fault::HeadOrder),
        _ => Err(Fault::ForeignTag),
    }
}

// ---- the file

/// Names, each once. Those that come in ascending order take no search.
#[derive(Default)]
struct Names {
    ascending: Vec<Name>,
    others: BTreeSet<Name>,
}

impl Names {
    /// Adds a name, and says whether it is new.
    fn add(&mut self, name: Name) -> bool {
        if self.ascending.last().is_none_or(|last| *last < name) {
            if self.others.contains(&name) {
                return false;
            }
            self.ascending.push(name);
            return true;
        }
        self.ascending.binary_search(&name).is_err() && self.others.insert(name)
    }
}

impl Cell {
    pub fn len(&self) -> usize {
        self.vi.len() + self.vc.len() + self.ve.len() + self.fe.len()
    }

    fn add(&mut self, names: &mut Names, rec: Rec) -> Result<(), Fault> {
        let name = rec.name();
        if !names.add(name) {
            return Err(Fault::TwiceName);
        }
        if !is_short(&rec) {
            return Err(Fault::TooLong);
        }
        if self.len() >= RECORD_LIMIT {
            return Err(Fault::TooMany);
        }
        match name.kind {
            Kind::Vi => self.vi.push(rec),
            Kind::Vc => self.vc.push(rec),
            Kind::Ve => self.ve.push(rec),
            Kind::Fe | Kind::Head => self.fe.push(rec),
        }
        Ok(())
    }
}

fn read_next(bytes: &[u8], number: u32, cell: &mut Cell, names: &mut Names) -> Result<usize, Fault> {
    let frame = next_record(bytes, number == 1).map_err(Fault::Frame)?;
    if number == 2 {
        cell.aall = (0..frame.count()).find(|place| frame.tag(*place) == *b"DSSI").map_or(0, |place| frame.field(place)[1]);
    }
    if number > 3 {
        cell.add(names, read_record(&frame)?)?;
    }
    Ok(frame.length())
}

/// The cell of a file, or its first fault. Of the three records of its head, which are cut, the level of attributes is read.
#[inline(never)]
pub fn read_cell(bytes: &[u8]) -> Result<Cell, Refusal> {
    let (mut cell, mut names) = (Cell::default(), Names::default());
    let (mut at, mut number) = (0, 1);
    while at < bytes.len() {
        match read_next(&bytes[at..], number, &mut cell, &mut names) {
            Ok(length) => at += length,
            Err(fault) => return Err(Refusal { fault, number, at: at as u32 }),
        }
        number += 1;
    }
    Ok(cell)
}
