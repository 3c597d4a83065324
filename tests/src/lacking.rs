//! Queries with a label whose total is 0 (document 02, Four), in every kind of memory and beside each other refusal,
//! and the same queries without one. Worked out by hand, and in random layouts.

use crate::calls::{keyed, repeats_itself, Check, Memory, EDGES};
use crate::compare::{Tester, YES};
use crate::gen::{self, Layout};
use crate::handed::{memory_of, LENT, MOST};
use crate::record::{Header, Record};
use crate::records;
use crate::reference::*;
use crate::trials::LAYOUT_A;

pub fn run(t: &mut Tester) {
    t.part = "lacking";
    for totals in LENT {
        for (start, destination) in [(0, 2), (0, 0), (2, 1)] {
            queries(t, totals, start, destination);
        }
    }
    refused_first(t);
    every_label(t);
}

pub fn round(t: &mut Tester) {
    t.part = "lacking";
    for _ in 0..3 {
        let layout = gen::layout(&mut t.rng);
        let count = t.rng.from_to(1, 16);
        let edges = gen::edges(&mut t.rng, &layout, count);
        any_walks(t, &layout, &edges);
    }
}

/// Patterns of A's labels and of label 8, written once and more than once.
const PATTERNS: [&[u8]; 16] = [
    &[1],
    &[2],
    &[8],
    &[1, 2],
    &[2, 1],
    &[1, 8],
    &[8, 1],
    &[1, 2, 1],
    &[1, 2, 8],
    &[1, 1, 2, 8],
    &[1, 1],
    &[2, 2],
    &[8, 8],
    &[1, 2, 1, 2],
    &[1, 8, 1, 8],
    &[1, 1, 1, 1],
];

/// Queries in A, k 4, with index and edge memory that are right and that are not, and work memory long enough and too
/// short: first a total of 0 decides, and leaves all as found; then 12, 3 and 4; then whether there is a walk.
fn queries(t: &mut Tester, totals: Totals, start: u32, destination: u32) {
    let record = Record { header: [3, 4], totals };
    for case in 0..PATTERNS.len() * 2 * 3 * 3 {
        let (pattern, case) = (PATTERNS[case % PATTERNS.len()], case / PATTERNS.len());
        let (index_right, edges, work) = (case % 2 == 0, case / 2 % 3, [0, 4095, 4096][case / 6]);
        let mut lent = memory_of(t, &LAYOUT_A, 4, if edges == 2 { EDGES + 1 } else { 4 }, 40);
        lent.work = t.rng.words(work);
        if !index_right {
            lent.index[39] = 18; // A's first entry, behind the others
        }
        if edges == 1 {
            lent.edges.swap(0, 1);
        }
        let lacks = pattern.iter().any(|label| totals[*label as usize - 1] == 0);
        let expected = match (lacks, index_right, repeats_itself(pattern)) {
            (true, _, _) => 0,
            (_, false, _) => 12,
            (_, _, true) if edges > 0 => 3,
            (_, _, true) if work < 4096 => 4,
            _ if runs(&LAYOUT_A, start, destination, &keyed(pattern)) => YES,
            _ => 0,
        };
        let mut left = lent.clone();
        let reply = t.query(record, start, destination, pattern, &mut left);
        t.expect("a query in A", reply, expected);
        t.expect("all as found after a total of 0", left == lent || !lacks, true);
    }
}

/// 1, 2, 10 and 11 come before a total of 0, in right memory and in noise.
fn refused_first(t: &mut Tester) {
    let trials: [(Header, u32, u32, &[u8], u32); 14] = [
        ([0, 2], 0, 0, &[1], 1),
        ([257, 2], 0, 0, &[3], 1),
        ([3, 0], 0, 0, &[1], 2),
        ([3, 5], 0, 0, &[3, 3], 2),
        ([3, 2], 3, 0, &[1], 10),
        ([3, 2], 0, 3, &[3], 10),
        ([3, 2], 256, 0, &[3, 3], 10),
        ([3, 2], 0, 0, &[], 11),
        ([3, 2], 0, 0, &[1, 2, 1], 11),
        ([3, 2], 0, 0, &[3, 3, 3, 3], 11),
        ([3, 2], 0, 0, &[0], 11),
        ([3, 2], 0, 0, &[9], 11),
        ([3, 2], 0, 0, &[1, 9], 11),
        ([3, 2], 0, 0, &[255, 3], 11),
    ];
    for (header, start, destination, pattern, number) in trials {
        for right in [true, false] {
            let lent = if right { memory_of(t, &LAYOUT_A, 2, 3, 5) } else { gen::noise(&mut t.rng, 3, 5, 7) };
            let mut left = lent.clone();
            let reply = t.query(Record { header, totals: [0; 8] }, start, destination, pattern, &mut left);
            t.expect("a refusal before a total of 0", reply, number);
            t.expect("all as found after it", left == lent, true);
        }
    }
}

/// One vertex with an edge of each label, so that a walk runs any pattern: no total of 0, each one alone, and all.
fn every_label(t: &mut Tester) {
    let edges: Vec<Edge> = (1..=8).map(|label| (0, label, 0)).collect();
    let index = determined(&edges, 2);
    for check in gen::every_question(1, 8, 2) {
        for zero in 0..=9 {
            let is_zero = |label: u8| zero == 9 || label as usize == zero;
            let totals = std::array::from_fn(|i| if is_zero(i as u8 + 1) { 0 } else { [1, 256, MOST][i % 3] });
            let expected = if check.pattern.iter().any(|label| is_zero(*label)) { 0 } else { YES };
            let edges = gen::edge_memory(&edges, 8);
            let mut memory = Memory { edges, index: index.clone(), work: t.rng.words(4096) };
            let reply = t.query(Record { header: [1, 2], totals }, 0, 0, &check.pattern, &mut memory);
            t.expect("a query that only a total of 0 makes a no", reply, expected);
        }
    }
}

/// Queries that some walk answers: yes, but no with a total of 0.
fn any_walks(t: &mut Tester, layout: &Layout, edges: &[Edge]) {
    for again in [false, true] {
        let length = t.rng.from_to(1, layout.header[1] as usize);
        let walks: Vec<Check> = (0..10).filter_map(|_| gen::along(&mut t.rng, edges, length)).collect();
        let Some(check) = walks.iter().find(|check| repeats_itself(&check.pattern) == again) else { continue };
        let room = determined(edges, layout.header[1]).len();
        let mut memory = memory_of(t, edges, layout.header[1], edges.len(), room);
        let lacking = records::lacking(&mut t.rng, layout.header, edges, &check.pattern);
        let having = records::having(&mut t.rng, layout.header, edges, &check.pattern);
        for (record, expected) in [(lacking, 0), (having, YES)] {
            let reply = t.query(record, check.start, check.destination, &check.pattern, &mut memory);
            t.expect("a query that some walk answers", reply, expected);
        }
    }
}
