//! The work of the measure cases `fields_*` in plain Rust, over `from_le_bytes` and `to_le_bytes`.
//!
//! `fields WORK ROUNDS` prints what the work computed to standard output and its time to standard error. What it
//! computes is what `measure fields_WORK ROUNDS` computes. Fields are read subfield by subfield, as the program reads
//! every field; `fields chunks_read_plane` and `fields chunks_read_deep` cut them into rows of their length.
use std::time::Instant;

const ROWS: u32 = 8_000;
const FIELD_TERMINATOR: u8 = 0x1e;

fn coordinate(place: u32) -> i32 {
    place.wrapping_mul(2_654_435_761) as i32
}

fn points() -> Vec<(i32, i32)> {
    (0..ROWS).map(|row| (coordinate(2 * row), coordinate(2 * row + 1))).collect()
}

fn soundings() -> Vec<(i32, i32, i32)> {
    (0..ROWS).map(|row| (coordinate(3 * row), coordinate(3 * row + 1), coordinate(3 * row + 2))).collect()
}

fn take_i32(bytes: &[u8]) -> Option<(i32, &[u8])> {
    let (number, rest) = bytes.split_first_chunk::<4>()?;
    Some((i32::from_le_bytes(*number), rest))
}

fn body(bytes: &[u8]) -> Option<&[u8]> {
    match bytes {
        [body @ .., FIELD_TERMINATOR] => Some(body),
        _ => None,
    }
}

#[inline(never)]
fn read_plane(bytes: &[u8]) -> Option<Vec<(i32, i32)>> {
    let mut rest = body(bytes)?;
    let mut rows = Vec::new();
    while !rest.is_empty() {
        let (y, after) = take_i32(rest)?;
        let (x, after) = take_i32(after)?;
        rows.push((y, x));
        rest = after;
    }
    Some(rows)
}

#[inline(never)]
fn read_deep(bytes: &[u8]) -> Option<Vec<(i32, i32, i32)>> {
    let mut rest = body(bytes)?;
    let mut rows = Vec::new();
    while !rest.is_empty() {
        let (y, after) = take_i32(rest)?;
        let (x, after) = take_i32(after)?;
        let (z, after) = take_i32(after)?;
        rows.push((y, x, z));
        rest = after;
    }
    Some(rows)
}

fn i32_at(row: &[u8], place: usize) -> i32 {
    i32::from_le_bytes([row[place], row[place + 1], row[place + 2], row[place + 3]])
}

#[inline(never)]
fn read_plane_in_chunks(bytes: &[u8]) -> Option<Vec<(i32, i32)>> {
    let rows = body(bytes)?.chunks_exact(8);
    if !rows.remainder().is_empty() {
        return None;
    }
    Some(rows.map(|row| (i32_at(row, 0), i32_at(row, 4))).collect())
}

#[inline(never)]
fn read_deep_in_chunks(bytes: &[u8]) -> Option<Vec<(i32, i32, i32)>> {
    let rows = body(bytes)?.chunks_exact(12);
    if !rows.remainder().is_empty() {
        return None;
    }
    Some(rows.map(|row| (i32_at(row, 0), i32_at(row, 4), i32_at(row, 8))).collect())
}

#[inline(never)]
fn write_plane(rows: &[(i32, i32)], out: &mut Vec<u8>) {
    for (y, x) in rows {
        out.extend_from_slice(&y.to_le_bytes());
        out.extend_from_slice(&x.to_le_bytes());
    }
    out.push(FIELD_TERMINATOR);
}

#[inline(never)]
fn write_deep(rows: &[(i32, i32, i32)], out: &mut Vec<u8>) {
    for (y, x, z) in rows {
        out.extend_from_slice(&y.to_le_bytes());
        out.extend_from_slice(&x.to_le_bytes());
        out.extend_from_slice(&z.to_le_bytes());
    }
    out.push(FIELD_TERMINATOR);
}

fn number_of(bytes: &[u8], round: u32) -> u64 {
    bytes.len() as u64 + u64::from(bytes.get(round as usize).copied().unwrap_or(0))
}

fn outcome(work: &str, rounds: u32) -> u64 {
    let mut bytes = Vec::new();
    let mut sum = 0u64;
    match work {
        "read_plane" | "chunks_read_plane" => {
            let read = if work == "read_plane" { read_plane } else { read_plane_in_chunks };
            write_plane(&points(), &mut bytes);
            for round in 0..rounds {
                let plane = read(&bytes).unwrap();
                let (y, x) = plane.get(round as usize).copied().unwrap_or((0, 0));
                sum = sum.wrapping_add(u64::from(y as u32) + u64::from(x as u32));
            }
        }
        "write_plane" => {
            let plane = points();
            for round in 0..rounds {
                let mut bytes = Vec::new();
                write_plane(&plane, &mut bytes);
                sum = sum.wrapping_add(number_of(&bytes, round));
            }
        }
        "read_deep" | "chunks_read_deep" => {
            let read = if work == "read_deep" { read_deep } else { read_deep_in_chunks };
            write_deep(&soundings(), &mut bytes);
            for round in 0..rounds {
                let deep = read(&bytes).unwrap();
                let (y, x, z) = deep.get(round as usize).copied().unwrap_or((0, 0, 0));
                sum = sum.wrapping_add(u64::from(y as u32) + u64::from(x as u32) + u64::from(z as u32));
            }
        }
        "write_deep" => {
            let deep = soundings();
            for round in 0..rounds {
                let mut bytes = Vec::new();
                write_deep(&deep, &mut bytes);
                sum = sum.wrapping_add(number_of(&bytes, round));
            }
        }
        _ => panic!("no such work"),
    }
    sum
}

fn main() {
    let mut words = std::env::args().skip(1);
    let work = words.next().unwrap();
    let rounds = words.next().unwrap().parse().unwrap();
    let start = Instant::now();
    let outcome = outcome(&work, rounds);
    let nanoseconds = start.elapsed().as_nanos();
    let work = work.trim_start_matches("chunks_");
    println!("fields_{work} {rounds} {outcome}");
    eprintln!("{nanoseconds} ns");
}
