//! What `enc_cell check` is made of at least, in plain Rust of the same shape and on one thread.
//!
//! `check WORK FILE` does the works in turn, up to and with WORK, prints what each gave to standard output and its time to standard error. The works:
//! `read`, the file cut and decoded into records of their own, each fault told from the next; `look`, records by name, pointers grouped by target,
//! features by identifier; `parts`, the lines of edges with boxes; `tree`, the tree of boxes, asked for each part for those above it that are near;
//! `pairs`, what each two that are near have in common; `rules`, the rules on records, sides and identifiers; `all`, the same, with the findings in the
//! order and the words of `enc_cell check`, and all given back. `pass` does in place of `tree` and `pairs` one pass of the tree over itself, which judges
//! each pair as it comes and puts the findings in order at last, then `rules` and all the rest: the least that was found for the same findings.

mod boxes;
mod frames;
mod look;
#[allow(dead_code)]
mod names;
mod parts;
mod reading;
#[allow(dead_code)]
mod records;
mod rules;
#[allow(dead_code)]
mod segments;

use boxes::{Leaf, Tree};
use look::Look;
use names::Name;
use parts::{Finding, Parts};
use reading::{Cell, read_cell};
use rules::Rules;
use std::time::Instant;

const WORKS: [&str; 8] = ["read", "look", "parts", "tree", "pairs", "rules", "all", "pass"];

/// The names near each leaf, one list behind the other, and where the list of each ends.
struct Near {
    names: Vec<Name>,
    ends: Vec<usize>,
}

#[inline(never)]
fn near_of(tree: &Tree, leaves: &[Leaf]) -> Near {
    let mut near = Near { names: Vec::new(), ends: Vec::with_capacity(leaves.len()) };
    for leaf in leaves {
        tree.push_near(*leaf, &mut near.names);
        near.ends.push(near.names.len());
    }
    near
}

#[inline(never)]
fn findings_of(parts: &Parts, near: &Near) -> Vec<Finding> {
    let mut findings = Vec::new();
    let mut from = 0;
    for (leaf, end) in parts.leaves.iter().zip(&near.ends) {
        findings.extend(near.names[from..*end].iter().filter_map(|other| parts.finding(leaf.name, *other)));
        from = *end;
    }
    findings
}

/// The findings of all pairs, in order, and how many pairs there are.
#[inline(never)]
fn findings_in_one_pass(parts: &Parts) -> (Vec<Finding>, usize) {
    let (mut findings, mut count) = (Vec::new(), 0);
    Tree::of(&parts.leaves).each_pair(&mut |a, b| {
        count += 1;
        findings.extend(parts.finding(a, b));
    });
    findings.sort_by_key(|finding: &Finding| finding.subject);
    (findings, count)
}

/// Tells what a work gave and how long it took, and whether it was the last one.
fn is_last(work: &str, done: &str, start: &mut Instant, said: &str) -> bool {
    println!("{done} {said}");
    eprintln!("{done} {} microseconds", start.elapsed().as_micros());
    *start = Instant::now();
    work == done
}

/// The findings of all pairs, if WORK goes on behind them.
fn pairs_of(work: &str, parts: &Parts, start: &mut Instant) -> Option<Vec<Finding>> {
    if work == "pass" {
        let (findings, count) = findings_in_one_pass(parts);
        is_last(work, "pairs in one pass", start, &format!("{count} pairs, {} findings", findings.len()));
        return Some(findings);
    }
    let tree = Tree::of(&parts.leaves);
    let near = near_of(&tree, &parts.leaves);
    if is_last(work, "tree", start, &format!("{} pairs", near.names.len())) {
        return None;
    }
    let findings = findings_of(parts, &near);
    if is_last(work, "pairs", start, &format!("{} findings", findings.len())) { None } else { Some(findings) }
}

/// All findings in the order of subjects.
fn judged(look: &Look, parts: &Parts, is_ascii: bool, pairs: Vec<Finding>) -> Vec<Finding> {
    let mut rules = Rules { look, parts, is_ascii, findings: Vec::new() };
    rules.judge_records();
    rules.judge_sides();
    rules.findings.extend(pairs);
    rules.judge_identifiers();
    rules.findings
}

fn look_into(work: &str, cell: &Cell, start: &mut Instant) {
    let look = Look::of(cell);
    let pointers = look.pointers.len() + look.strays.len();
    if is_last(work, "look", start, &format!("{} records, {pointers} pointers, {} features", look.records.len(), look.bearers.len())) {
        return;
    }
    let parts = Parts::of(&look);
    let said = format!("{} nodes, {} edges, {} boxes", parts.nodes.len(), parts.edges.len(), parts.leaves.len());
    if is_last(work, "parts", start, &said) {
        return;
    }
    let Some(pairs) = pairs_of(work, &parts, start) else { return };
    let findings = judged(&look, &parts, cell.aall == 0, pairs);
    is_last(work, "rules", start, &format!("{} findings", findings.len()));
    if work != "rules" {
        findings.iter().for_each(|finding| println!("{}", finding.text()));
    }
}

fn main() {
    let words: Vec<String> = std::env::args().collect();
    let work = words[1].as_str();
    assert!(WORKS.contains(&work), "work: read, look, parts, tree, pairs or all");
    let begun = Instant::now();
    let mut start = begun;
    let bytes = std::fs::read(&words[2]).expect("a file");
    let cell = match read_cell(&bytes) {
        Ok(cell) => cell,
        Err(refusal) => {
            println!("{:?} of record {} at byte {}", refusal.fault, refusal.number, refusal.at);
            return;
        }
    };
    drop(bytes);
    if !is_last(work, "read", &mut start, &format!("{} records", cell.len())) {
        look_into(work, &cell, &mut start);
    }
    drop(cell);
    is_last(work, "all", &mut start, "done");
    eprintln!("{} ns", begun.elapsed().as_nanos());
}
