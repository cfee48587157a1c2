//! The work of the measure cases `cell_read` and `cell_write` in plain Rust: a cell of 100 by 100 squares, read from its
//! file and written as its file.
//!
//! `cell WORK ROUNDS` prints what the work computed to standard output and its time to standard error; `cell file`
//! writes the file to standard output. The data descriptive record is that of the stored cell.
use std::collections::BTreeSet;
use std::io::Write;
use std::time::Instant;

const STORED: &[u8] = include_bytes!("../../crates/enc_cell/data/minimal.000");
const SIDE: u32 = 100;

#[derive(Clone, Copy, PartialEq, Eq, PartialOrd, Ord)]
struct Name {
    kind: u8,
    id: u32,
}

struct End {
    to: Name,
    flags: [u8; 4],
}

struct Spot {
    to: Name,
    flags: [u8; 3],
}

type Attrs = Vec<(u16, Vec<u8>)>;

struct Vector {
    name: Name,
    version: u16,
    attrs: Attrs,
    ends: Vec<End>,
    plane: Vec<(i32, i32)>,
    deep: Vec<(i32, i32, i32)>,
}

struct Feature {
    id: u32,
    codes: [u8; 2],
    class: u16,
    version: u16,
    foid: (u16, u32, u16),
    attf: Attrs,
    natf: Attrs,
    partners: Vec<(u16, u32, u16, u8, Vec<u8>)>,
    places: Vec<Spot>,
}

struct Cell {
    vectors: Vec<Vector>,
    features: Vec<Feature>,
}

// ---- the generated cell

fn coordinate(place: u32) -> i32 {
    40_000 * place as i32
}

fn node_name(row: u32, column: u32) -> Name {
    Name { kind: 120, id: 1 + row * (SIDE + 1) + column }
}

fn east(row: u32, column: u32) -> Name {
    Name { kind: 130, id: 1 + row * SIDE + column }
}

fn north(row: u32, column: u32) -> Name {
    Name { kind: 130, id: 1 + SIDE * (SIDE + 1) + row * (SIDE + 1) + column }
}

fn vector(name: Name, ends: Vec<End>, plane: Vec<(i32, i32)>) -> Vector {
    Vector { name, version: 1, attrs: Vec::new(), ends, plane, deep: Vec::new() }
}

fn edge(name: Name, from: Name, to: Name) -> Vector {
    let end = |to, topi| End { to, flags: [255, 255, topi, 255] };
    vector(name, vec![end(from, 1), end(to, 2)], Vec::new())
}

fn spot(to: Name, orientation: u8) -> Spot {
    Spot { to, flags: [orientation, 1, 255] }
}

fn area(id: u32, group: u8, class: u16, attf: Attrs, places: Vec<Spot>) -> Feature {
    Feature {
        id,
        codes: [3, group],
        class,
        version: 1,
        foid: (1, id, 1),
        attf,
        natf: Vec::new(),
        partners: Vec::new(),
        places,
    }
}

fn generated() -> Cell {
    let mut vectors = Vec::new();
    for row in 0..=SIDE {
        for column in 0..=SIDE {
            vectors.push(vector(node_name(row, column), Vec::new(), vec![(coordinate(row), coordinate(column))]));
        }
    }
    for row in 0..=SIDE {
        for column in 0..SIDE {
            vectors.push(edge(east(row, column), node_name(row, column), node_name(row, column + 1)));
        }
    }
    for row in 0..SIDE {
        for column in 0..=SIDE {
            vectors.push(edge(north(row, column), node_name(row, column), node_name(row + 1, column)));
        }
    }
    let mut features = Vec::new();
    for row in 0..SIDE {
        for column in 0..SIDE {
            let places = vec![
                spot(north(row, column), 1),
                spot(east(row + 1, column), 1),
                spot(north(row, column + 1), 2),
                spot(east(row, column), 2),
            ];
            features.push(area(1 + row * SIDE + column, 1, 42, Vec::new(), places));
        }
    }
    let mut places: Vec<Spot> = (0..SIDE).map(|row| spot(north(row, 0), 1)).collect();
    places.extend((0..SIDE).map(|column| spot(east(SIDE, column), 1)));
    places.extend((0..SIDE).rev().map(|row| spot(north(row, SIDE), 2)));
    places.extend((0..SIDE).rev().map(|column| spot(east(0, column), 2)));
    features.push(area(SIDE * SIDE + 1, 2, 302, vec![(18, b"1".to_vec())], places));
    Cell { vectors, features }
}

// ---- writing

type Field = ([u8; 4], Vec<u8>);

fn push_name(out: &mut Vec<u8>, name: Name) {
    out.push(name.kind);
    out.extend_from_slice(&name.id.to_le_bytes());
}

fn push_attrs(fields: &mut Vec<Field>, tag: [u8; 4], attrs: &Attrs) {
    if attrs.is_empty() {
        return;
    }
    let mut bytes = Vec::new();
    for (code, value) in attrs {
        bytes.extend_from_slice(&code.to_le_bytes());
        bytes.extend_from_slice(value);
        bytes.push(0x1f);
    }
    bytes.push(0x1e);
    fields.push((tag, bytes));
}

fn push_rows<T>(fields: &mut Vec<Field>, tag: [u8; 4], rows: &[T], push: impl Fn(&mut Vec<u8>, &T)) {
    if rows.is_empty() {
        return;
    }
    let mut bytes = Vec::new();
    for row in rows {
        push(&mut bytes, row);
    }
    bytes.push(0x1e);
    fields.push((tag, bytes));
}

fn vector_fields(number: u16, vector: &Vector) -> Vec<Field> {
    let mut fields = number_field(number);
    let mut bytes = Vec::new();
    push_name(&mut bytes, vector.name);
    bytes.extend_from_slice(&vector.version.to_le_bytes());
    bytes.extend_from_slice(&[1, 0x1e]);
    fields.push((*b"VRID", bytes));
    push_attrs(&mut fields, *b"ATTV", &vector.attrs);
    push_rows(&mut fields, *b"VRPT", &vector.ends, |out, end: &End| {
        push_name(out, end.to);
        out.extend_from_slice(&end.flags);
    });
    push_rows(&mut fields, *b"SG2D", &vector.plane, |out, (y, x): &(i32, i32)| {
        out.extend_from_slice(&y.to_le_bytes());
        out.extend_from_slice(&x.to_le_bytes());
    });
    push_rows(&mut fields, *b"SG3D", &vector.deep, |out, (y, x, z): &(i32, i32, i32)| {
        out.extend_from_slice(&y.to_le_bytes());
        out.extend_from_slice(&x.to_le_bytes());
        out.extend_from_slice(&z.to_le_bytes());
    });
    fields
}

fn number_field(number: u16) -> Vec<Field> {
    let mut bytes = number.to_le_bytes().to_vec();
    bytes.push(0x1e);
    vec![(*b"0001", bytes)]
}

fn push_identity(out: &mut Vec<u8>, (agency, number, subdivision): (u16, u32, u16)) {
    out.extend_from_slice(&agency.to_le_bytes());
    out.extend_from_slice(&number.to_le_bytes());
    out.extend_from_slice(&subdivision.to_le_bytes());
}

fn feature_fields(number: u16, feature: &Feature) -> Vec<Field> {
    let mut fields = number_field(number);
    let mut bytes = Vec::new();
    push_name(&mut bytes, Name { kind: 100, id: feature.id });
    bytes.extend_from_slice(&feature.codes);
    bytes.extend_from_slice(&feature.class.to_le_bytes());
    bytes.extend_from_slice(&feature.version.to_le_bytes());
    bytes.extend_from_slice(&[1, 0x1e]);
    fields.push((*b"FRID", bytes));
    let mut bytes = Vec::new();
    push_identity(&mut bytes, feature.foid);
    bytes.push(0x1e);
    fields.push((*b"FOID", bytes));
    push_attrs(&mut fields, *b"ATTF", &feature.attf);
    push_attrs(&mut fields, *b"NATF", &feature.natf);
    push_rows(&mut fields, *b"FFPT", &feature.partners, |out, partner: &(u16, u32, u16, u8, Vec<u8>)| {
        push_identity(out, (partner.0, partner.1, partner.2));
        out.push(partner.3);
        out.extend_from_slice(&partner.4);
        out.push(0x1f);
    });
    push_rows(&mut fields, *b"FSPT", &feature.places, |out, spot: &Spot| {
        push_name(out, spot.to);
        out.extend_from_slice(&spot.flags);
    });
    fields
}

fn digits(n: usize) -> usize {
    n.to_string().len()
}

fn push_record(out: &mut Vec<u8>, fields: &[Field]) {
    let area: usize = fields.iter().map(|(_, bytes)| bytes.len()).sum();
    let lengths = fields.iter().map(|(_, bytes)| digits(bytes.len())).max().unwrap_or(1);
    let last = area - fields.last().map_or(0, |(_, bytes)| bytes.len());
    let places = digits(last);
    let base = 25 + fields.len() * (4 + lengths + places);
    let _ = write!(out, "{:05} D     {:05}   {}{}04", base + area, base, lengths, places);
    let mut place = 0;
    for (tag, bytes) in fields {
        out.extend_from_slice(tag);
        let _ = write!(out, "{:0lengths$}{:0places$}", bytes.len(), place);
        place += bytes.len();
    }
    out.push(0x1e);
    for (_, bytes) in fields {
        out.extend_from_slice(bytes);
    }
}

#[inline(never)]
fn write_cell(cell: &Cell) -> Vec<u8> {
    let mut out = STORED[..1785].to_vec();
    let nodes = cell.vectors.iter().filter(|vector| vector.name.kind == 120).count() as u32;
    let edges = cell.vectors.len() as u32 - nodes;
    // M_COVR is a meta feature, the areas are geo features
    let meta = cell.features.iter().filter(|feature| feature.class == 302).count() as u32;
    let geo = cell.features.len() as u32 - meta;
    for (place, count) in [(1684, meta), (1692, geo), (1704, nodes), (1708, edges)] {
        out[place..place + 4].copy_from_slice(&count.to_le_bytes());
    }
    let mut number = 3u16;
    for vector in &cell.vectors {
        push_record(&mut out, &vector_fields(number, vector));
        number = number.wrapping_add(1);
    }
    for feature in &cell.features {
        push_record(&mut out, &feature_fields(number, feature));
        number = number.wrapping_add(1);
    }
    out
}

// ---- reading

fn number(bytes: &[u8]) -> Option<usize> {
    bytes.iter().try_fold(0, |sum, byte| byte.is_ascii_digit().then(|| sum * 10 + usize::from(byte - b'0')))
}

fn take<const N: usize>(bytes: &mut &[u8]) -> Option<[u8; N]> {
    let (front, rest) = bytes.split_first_chunk::<N>()?;
    *bytes = rest;
    Some(*front)
}

fn take_name(bytes: &mut &[u8]) -> Option<Name> {
    let [kind] = take(bytes)?;
    Some(Name { kind, id: u32::from_le_bytes(take(bytes)?) })
}

fn take_text(bytes: &mut &[u8]) -> Option<Vec<u8>> {
    let end = bytes.iter().position(|byte| *byte == 0x1f)?;
    let text = bytes[..end].to_vec();
    *bytes = &bytes[end + 1..];
    Some(text)
}

fn take_attrs(mut bytes: &[u8]) -> Option<Attrs> {
    let mut attrs = Vec::new();
    while bytes != [0x1e] {
        attrs.push((u16::from_le_bytes(take(&mut bytes)?), take_text(&mut bytes)?));
    }
    Some(attrs)
}

fn take_rows<T>(mut bytes: &[u8], rows: &mut Vec<T>, row: impl Fn(&mut &[u8]) -> Option<T>) -> Option<()> {
    while bytes != [0x1e] {
        rows.push(row(&mut bytes)?);
    }
    Some(())
}

fn take_vector(fields: &[([u8; 4], &[u8])]) -> Option<Vector> {
    let mut read = vector(Name { kind: 0, id: 0 }, Vec::new(), Vec::new());
    for (tag, bytes) in fields {
        let mut rest = *bytes;
        match tag {
            b"VRID" => {
                read.name = take_name(&mut rest)?;
                read.version = u16::from_le_bytes(take(&mut rest)?);
                if rest != [1, 0x1e] {
                    return None;
                }
            }
            b"ATTV" => read.attrs = take_attrs(rest)?,
            b"VRPT" => take_rows(rest, &mut read.ends, |rest| Some(End { to: take_name(rest)?, flags: take(rest)? }))?,
            b"SG2D" => take_rows(rest, &mut read.plane, |rest| {
                Some((i32::from_le_bytes(take(rest)?), i32::from_le_bytes(take(rest)?)))
            })?,
            b"SG3D" => take_rows(rest, &mut read.deep, |rest| {
                Some((i32::from_le_bytes(take(rest)?), i32::from_le_bytes(take(rest)?), i32::from_le_bytes(take(rest)?)))
            })?,
            _ => return None,
        }
    }
    Some(read)
}

fn take_identity(rest: &mut &[u8]) -> Option<(u16, u32, u16)> {
    Some((u16::from_le_bytes(take(rest)?), u32::from_le_bytes(take(rest)?), u16::from_le_bytes(take(rest)?)))
}

fn take_feature(fields: &[([u8; 4], &[u8])]) -> Option<Feature> {
    let mut read = area(0, 0, 0, Vec::new(), Vec::new());
    for (tag, bytes) in fields {
        let mut rest = *bytes;
        match tag {
            b"FRID" => {
                read.id = take_name(&mut rest)?.id;
                read.codes = take(&mut rest)?;
                read.class = u16::from_le_bytes(take(&mut rest)?);
                read.version = u16::from_le_bytes(take(&mut rest)?);
                if rest != [1, 0x1e] {
                    return None;
                }
            }
            b"FOID" => read.foid = take_identity(&mut rest)?,
            b"ATTF" => read.attf = take_attrs(rest)?,
            b"NATF" => read.natf = take_attrs(rest)?,
            b"FFPT" => take_rows(rest, &mut read.partners, |rest| {
                let (agency, number, subdivision) = take_identity(rest)?;
                let [indicator] = take(rest)?;
                Some((agency, number, subdivision, indicator, take_text(rest)?))
            })?,
            b"FSPT" => take_rows(rest, &mut read.places, |rest| Some(Spot { to: take_name(rest)?, flags: take(rest)? }))?,
            _ => return None,
        }
    }
    Some(read)
}

#[inline(never)]
fn read_cell(bytes: &[u8]) -> Option<Cell> {
    let mut cell = Cell { vectors: Vec::new(), features: Vec::new() };
    let mut names = BTreeSet::new();
    let mut rest = bytes.get(1785..)?;
    while !rest.is_empty() {
        let length = number(rest.get(..5)?)?;
        let (record, after) = rest.split_at_checked(length)?;
        rest = after;
        let base = number(record.get(12..17)?)?;
        let lengths = usize::from(*record.get(20)? - b'0');
        let places = usize::from(*record.get(21)? - b'0');
        let mut fields = Vec::new();
        for entry in record.get(24..base - 1)?.chunks_exact(4 + lengths + places) {
            let from = base + number(&entry[4 + lengths..])?;
            let field = record.get(from..from + number(&entry[4..4 + lengths])?)?;
            let tag = [entry[0], entry[1], entry[2], entry[3]];
            if tag != *b"0001" {
                fields.push((tag, field));
            }
        }
        if fields.first()?.0 == *b"VRID" {
            let vector = take_vector(&fields)?;
            if !names.insert(vector.name) {
                return None;
            }
            cell.vectors.push(vector);
        } else {
            let feature = take_feature(&fields)?;
            if !names.insert(Name { kind: 100, id: feature.id }) {
                return None;
            }
            cell.features.push(feature);
        }
    }
    Some(cell)
}

fn read_cells(rounds: u32) -> u64 {
    let bytes = write_cell(&generated());
    (0..rounds).map(|_| read_cell(&bytes).map_or(0, |cell| (cell.vectors.len() + cell.features.len()) as u64)).sum()
}

fn write_cells(rounds: u32) -> u64 {
    let cell = generated();
    let mut sum = 0u64;
    for round in 0..rounds {
        let bytes = write_cell(&cell);
        let byte = bytes.get(bytes.len() - round as usize - 1).copied().unwrap_or(0);
        sum = sum.wrapping_add(bytes.len() as u64 + u64::from(byte));
    }
    sum
}

fn main() {
    let words: Vec<String> = std::env::args().collect();
    if words.len() == 2 && words[1] == "file" {
        std::io::stdout().write_all(&write_cell(&generated())).expect("standard output");
        return;
    }
    let rounds: u32 = words[2].parse().expect("a number of rounds");
    let start = Instant::now();
    let outcome = match words[1].as_str() {
        "read" => read_cells(rounds),
        "write" => write_cells(rounds),
        other => panic!("no work {}", other),
    };
    let nanoseconds = start.elapsed().as_nanos();
    println!("cell_{} {} {}", words[1], rounds, outcome);
    eprintln!("{nanoseconds} ns");
}
