//! Calls on memory that was left by calls, that holds other right content, and that is damaged, with right and
//! wrong arguments.

use crate::calls::{Check, Memory, Two};
use crate::compare::Tester;
use crate::gen::{self, Layout};
use crate::record::{Header, Record};
use crate::records;
use crate::reference::*;
use crate::routes;

pub fn round(t: &mut Tester) {
    t.part = "damaged";
    let layout = gen::layout(&mut t.rng);
    let count = t.rng.below(40);
    let edges = gen::edges(&mut t.rng, &layout, count);
    let entries = determined(&edges, layout.header[1]);
    for _ in 0..12 {
        let memory = memory(t, &layout, &edges, &entries);
        let header = header(t, &layout);
        let record = records::any(&mut t.rng, header, &edges);
        questions(t, &layout, record, &edges, &memory);
        changes(t, &layout, record, &edges, &memory);
    }
}

/// Mostly right, sometimes another layout's, sometimes none's.
fn header(t: &mut Tester, layout: &Layout) -> Header {
    let mut header = layout.header;
    match t.rng.below(12) {
        0 => header[0] = gen::no_vertices(&mut t.rng),
        1 => header[1] = gen::no_longest(&mut t.rng),
        2 => header[0] = t.rng.from_to(1, header[0] as usize) as u32,
        3 => header[1] = t.rng.from_to(1, 4) as u32,
        4 => header = [gen::no_vertices(&mut t.rng), gen::no_longest(&mut t.rng)],
        _ => {}
    }
    header
}

fn memory(t: &mut Tester, layout: &Layout, edges: &[Edge], entries: &[u64]) -> Memory {
    let more = t.rng.pick(&[0, 0, 1, 5]);
    let mut slots = gen::edge_memory(edges, edges.len() + more);
    if t.rng.one_in(3) {
        gen::damage_edges(&mut t.rng, layout.header[0], &mut slots);
    }
    if t.rng.one_in(20) {
        slots.resize(t.rng.pick(&[1024, 1025, 1100]), 0);
    }
    let mut index = entries.to_vec();
    if t.rng.one_in(3) {
        let count = t.rng.below(200);
        index = gen::any_index(&mut t.rng, layout, count);
    }
    let more = t.rng.pick(&[0, 0, 1, 5]);
    index.resize(index.len() + more, 0);
    if t.rng.one_in(3) {
        gen::damage_index(&mut t.rng, layout.header, &mut index);
    }
    let work = t.rng.pick(&[0, 4095, 4096, 4096, 4097, 4096 + index.len(), 4096 + index.len()]);
    Memory { edges: slots, index, work: t.rng.words(work) }
}

/// Mostly right, often one that repeats itself, and sometimes too long or of labels that are none.
fn any_pattern(t: &mut Tester, layout: &Layout) -> Vec<u8> {
    let longest = layout.header[1] as usize;
    match t.rng.below(10) {
        0 => gen::bad_pattern(&mut t.rng, layout),
        1 => gen::repeating_pattern(&mut t.rng, layout, longest + 1),
        2..=5 if longest > 1 => {
            let length = t.rng.from_to(2, longest);
            gen::repeating_pattern(&mut t.rng, layout, length)
        }
        _ => gen::pattern(&mut t.rng, layout),
    }
}

/// Any totals; those of a query's labels are mostly not 0, so that index, edge and work memory are looked at.
fn questions(t: &mut Tester, layout: &Layout, record: Record, edges: &[Edge], memory: &Memory) {
    for _ in 0..6 {
        let mut start = gen::vertex(&mut t.rng, layout);
        let mut destination = gen::vertex(&mut t.rng, layout);
        match t.rng.below(16) {
            0 => start = gen::no_vertex(&mut t.rng, layout.header[0]),
            1 => destination = gen::no_vertex(&mut t.rng, layout.header[0]),
            _ => {}
        }
        let pattern = any_pattern(t, layout);
        let mut asked = record;
        if !t.rng.one_in(4) {
            asked = records::having(&mut t.rng, record.header, edges, &pattern);
        }
        t.query(asked, start, destination, &pattern, &mut memory.clone());
        let mut dirty = gen::dirty(&mut t.rng, &memory.index);
        t.query(asked, start, destination, &pattern, &mut dirty);
        let allowed = t.rng.pick(&[0, 1, 2, 3, 4, 7, 1024, 1025, u32::MAX]);
        let check = Check { start, destination, pattern, allowed };
        t.search(record, &check, &mut memory.clone());
        if t.rng.one_in(2) {
            routes::ask_in(t, record, &check, memory);
        }
        if t.rng.one_in(3) {
            two_patterns(t, layout, record, edges, memory, check);
        }
    }
}

/// By the same pattern and another one, in either order.
fn two_patterns(t: &mut Tester, layout: &Layout, record: Record, edges: &[Edge], memory: &Memory, check: Check) {
    let Check { start, destination, pattern: mut first, .. } = check;
    let mut second = any_pattern(t, layout);
    if t.rng.one_in(2) {
        (first, second) = (second, first);
    }
    let mut asked = record;
    if !t.rng.one_in(4) {
        asked = records::having(&mut t.rng, record.header, edges, &[&first[..], &second].concat());
    }
    let two = Two { start, destination, first, second };
    t.query_two(asked, &two, &mut memory.clone());
    let mut dirty = gen::dirty(&mut t.rng, &memory.index);
    t.query_two(asked, &two, &mut dirty);
}

fn changes(t: &mut Tester, layout: &Layout, record: Record, edges: &[Edge], memory: &Memory) {
    for insertion in [true, false] {
        let (mut record, mut memory) = (record, memory.clone());
        let mut edge = gen::edge(&mut t.rng, layout);
        if !edges.is_empty() && t.rng.one_in(if insertion { 6 } else { 1 }) {
            edge = t.rng.pick(edges);
        }
        match t.rng.below(16) {
            0 => edge.0 = gen::no_vertex(&mut t.rng, layout.header[0]),
            1 => edge.1 = gen::no_wide_label(&mut t.rng),
            2 => edge.2 = gen::no_vertex(&mut t.rng, layout.header[0]),
            _ => {}
        }
        t.change(insertion, &mut record, edge, &mut memory);
    }
    let room = t.rng.pick(&[0, 8, 9 + 3 * memory.edges.len(), 200]);
    let mut output = t.rng.bytes(room);
    t.write_card(record, &memory.edges, &mut output);
    if t.rng.one_in(3) {
        t.open(&mut record.clone(), &mut memory.clone());
    }
}
