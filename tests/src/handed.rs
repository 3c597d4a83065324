//! The totals that the changing calls hand back (document 02, Four), whatever they are given; and that the plain check,
//! the route and the writing of a card do not look at them. Worked out by hand, and in random layouts.

use crate::calls::{card_of, keyed, Check, Memory, EDGES};
use crate::compare::{Tester, YES};
use crate::gen::{self, Layout};
use crate::record::{Header, Record};
use crate::records;
use crate::reference::*;
use crate::trials::{CARD_A, LAYOUT_A, TOTALS_A};

pub const MOST: u32 = u32::MAX;

/// Totals lent in layout A: right; 0 though edges stand, of all labels, of 1 and of 2; not 0 though none do; 2^32 - 1.
pub const LENT: [Totals; 8] = [
    TOTALS_A,
    [0; 8],
    [0, 1, 0, 0, 0, 0, 0, 0],
    [2, 0, 0, 0, 0, 0, 0, 1],
    [2, 1, 1, 7, 256, 65_536, 1 << 31, 1],
    [MOST; 8],
    [MOST, 0, 0, 0, 0, 0, 0, MOST],
    [0, 0, MOST, 1, 1, 1, 1, 0],
];

pub fn run(t: &mut Tester) {
    t.part = "handed";
    for totals in LENT {
        changes(t, totals);
        refused_for_memory(t, totals);
        openings(t, totals);
        cards(t, totals);
        no_part(t, totals);
    }
    step_by_step(t);
    many_of_one_label(t);
}

pub fn round(t: &mut Tester) {
    t.part = "handed";
    for _ in 0..3 {
        let layout = gen::layout(&mut t.rng);
        let count = t.rng.from_to(1, 16);
        let edges = gen::edges(&mut t.rng, &layout, count);
        any_changes(t, &layout, &edges);
    }
}

/// Edge and index memory of these edges in so many slots, which are enough, and just enough work memory.
pub fn memory_of(t: &mut Tester, edges: &[Edge], longest: u32, edge_slots: usize, index_slots: usize) -> Memory {
    let mut index = determined(edges, longest);
    assert!(index.len() <= index_slots);
    index.resize(index_slots, 0);
    Memory { edges: gen::edge_memory(edges, edge_slots), index, work: t.rng.words(4096 + index_slots) }
}

/// Each insertion and removal in A, with the totals it hands back.
fn changes(t: &mut Tester, lent: Totals) {
    let trials: [(bool, Edge, u32, Totals); 11] = [
        (true, (2, 8, 0), 0, [2, 1, 0, 0, 0, 0, 0, 1]),
        (true, (0, 1, 0), 0, [3, 1, 0, 0, 0, 0, 0, 0]),
        (true, (2, 3, 2), 0, [2, 1, 1, 0, 0, 0, 0, 0]),
        (true, (0, 1, 1), 7, lent),
        (true, (3, 1, 0), 5, lent),
        (true, (0, 9, 0), 6, lent),
        (false, (1, 2, 0), 0, [2, 0, 0, 0, 0, 0, 0, 0]),
        (false, (0, 1, 1), 0, [1, 1, 0, 0, 0, 0, 0, 0]),
        (false, (2, 8, 0), 8, lent),
        (false, (0, 1, 3), 5, lent),
        (false, (0, 0, 1), 6, lent),
    ];
    for (insertion, edge, number, totals) in trials {
        let mut memory = memory_of(t, &LAYOUT_A, 2, 5, 40);
        let mut record = Record { header: [3, 2], totals: lent };
        let reply = t.change(insertion, &mut record, edge, &mut memory);
        t.expect("a change in A", reply, number);
        t.expect("the record handed back", record, Record { header: [3, 2], totals });
        if reply == 0 {
            let label = edge.1 as u8;
            let reply = t.query(record, edge.0, edge.2, &[label], &mut memory);
            t.expect("a query by the label of the change", reply, if insertion { YES } else { 0 });
        }
    }
}

/// Refusals that the header and the memory bring about: the totals come back as they were.
fn refused_for_memory(t: &mut Tester, totals: Totals) {
    let trials: [(Header, usize, usize, usize, u32); 7] = [
        ([0, 2], 5, 40, 4136, 1),
        ([3, 5], 5, 40, 4136, 2),
        ([2, 2], 5, 40, 4136, 3), // A has edges at vertex 2
        ([3, 2], 1025, 40, 4136, 3),
        ([3, 2], 5, 40, 4135, 4),
        ([3, 2], 3, 40, 4136, 9),
        ([3, 2], 5, 1, 4097, 13),
    ];
    for (header, edges, index, work, number) in trials {
        for insertion in [true, false] {
            if number == 9 && !insertion {
                continue;
            }
            let mut memory = gen::noise(&mut t.rng, 0, index, work);
            memory.edges = gen::edge_memory(&LAYOUT_A, edges);
            let given = Record { header, totals };
            let mut record = given;
            // Either needs more than one entry.
            let edge = if insertion { (2, 8, 0) } else { (1, 2, 0) };
            let reply = t.change(insertion, &mut record, edge, &mut memory);
            t.expect("a change refused for its memory", reply, number);
            t.expect("the record as given", record, given);
        }
    }
}

/// An opening over A's edges.
fn openings(t: &mut Tester, lent: Totals) {
    let trials: [(Header, usize, u32, Totals); 5] = [
        ([3, 2], 5, 0, [0; 8]),
        ([256, 4], 1024, 0, [0; 8]),
        ([257, 4], 5, 1, lent),
        ([3, 0], 5, 2, lent),
        ([3, 2], 1025, 3, lent),
    ];
    for (header, slots, number, totals) in trials {
        let mut memory = memory_of(t, &LAYOUT_A, 2, slots, 40);
        let mut record = Record { header, totals: lent };
        let reply = t.open(&mut record, &mut memory);
        t.expect("an opening over A", reply, number);
        t.expect("the record handed back", record, Record { header, totals });
    }
}

/// Card A, whole and refused, read into a record of which no number is right; and written from it.
fn cards(t: &mut Tester, lent: Totals) {
    let given = Record { header: [77, MOST], totals: lent };
    for (length, edges, index, work, number) in [
        (18, 3, 5, 4101, 0),
        (8, 3, 5, 4101, 14),
        (15, 3, 5, 4101, 16),
        (18, 1025, 5, 4101, 3),
        (18, 2, 5, 4101, 9),
        (18, 3, 5, 4100, 4),
        (18, 3, 4, 4100, 13),
    ] {
        let mut memory = gen::noise(&mut t.rng, edges, index, work);
        let mut record = given;
        let reply = t.read_card_into(&mut record, &CARD_A[..length], &mut memory);
        t.expect("card A", reply, number);
        let left = if number == 0 { Record { header: [3, 2], totals: TOTALS_A } } else { given };
        t.expect("the card's record, or the one lent if refused", record, left);
    }
    for (header, reply) in [([3, 2], (0, 18)), ([0, 2], (1, 0)), ([3, 5], (2, 0)), ([2, 2], (3, 0))] {
        let edges = gen::edge_memory(&LAYOUT_A, 3);
        let mut output = vec![7; 18];
        let replied = t.write_card(Record { header, totals: lent }, &edges, &mut output);
        t.expect("card A written", replied, reply);
        t.expect("its bytes, or none if refused", output, if reply.0 == 0 { CARD_A.to_vec() } else { vec![7; 18] });
    }
}

/// The plain check and the route reply alike whatever the totals.
fn no_part(t: &mut Tester, totals: Totals) {
    let record = Record { header: [3, 2], totals };
    let trials: [(u32, u32, &[u8], (u32, u32), (u32, u32)); 5] = [
        (0, 2, &[1], (YES, 2), (YES, 2)),
        (0, 0, &[1, 2], (YES, 2), (YES, 2)),
        (0, 1, &[1, 1], (0, 3), (0, 0)),
        (0, 0, &[3], (0, 1), (0, 0)),
        (0, 0, &[8, 8], (0, 1), (0, 0)),
    ];
    for (start, destination, pattern, found, route) in trials {
        let check = Check { start, destination, pattern: pattern.to_vec(), allowed: 1025 };
        let mut memory = memory_of(t, &LAYOUT_A, 2, 3, 5);
        let reply = t.search(record, &check, &mut memory);
        t.expect("a plain check, whatever the totals", reply, found);
        let (mut memory, mut walk) = (memory_of(t, &LAYOUT_A, 2, 3, 5), t.rng.short_words(2));
        let reply = t.route(record, &check, &mut memory, &mut walk);
        t.expect("a route, whatever the totals", reply, route);
    }
}

/// An edge of each label inserted, then each removed. The record is handed on: every total but the one is as before.
fn step_by_step(t: &mut Tester) {
    let mut memory = gen::noise(&mut t.rng, 8, 8, 0);
    let mut record = Record { header: [1, 1], totals: [MOST; 8] };
    t.open(&mut record, &mut memory);
    let mut totals = [0; 8];
    t.expect("totals after an opening", record.totals, totals);
    for (insertion, label) in (1..=8).map(|label| (true, label)).chain((1..=8).map(|label| (false, label))) {
        memory.work = t.rng.words(4104);
        let reply = t.change(insertion, &mut record, (0, label, 0), &mut memory);
        totals[label as usize - 1] = u32::from(insertion);
        t.expect("a change", reply, 0);
        t.expect("totals after it", record.totals, totals);
        for asked in 1..=8 {
            let reply = t.query(record, 0, 0, &[asked], &mut memory);
            t.expect("a query", reply, if totals[asked as usize - 1] == 1 { YES } else { 0 });
        }
    }
}

/// 1,023 edges of one label on a card; one more; one less.
fn many_of_one_label(t: &mut Tester) {
    for label in [1, 8] {
        let of = |count: u32| -> Totals { std::array::from_fn(|i| if i + 1 == label { count } else { 0 }) };
        let mut edges: Vec<Edge> =
            (0..256).flat_map(|v| (0..4).map(move |i| (v, label as u32, (v + 64 * i) % 256))).collect();
        edges.sort();
        let needed = determined(&edges, 1).len() + 4;
        let last = edges.pop().unwrap();
        let mut memory = gen::noise(&mut t.rng, EDGES, needed, 4096 + needed);
        let (reply, record) = t.read_card(&card_of([256, 1], &edges), &mut memory);
        t.expect("a card of 1,023 edges", (reply, record.map(|record| record.totals)), (0, Some(of(1023))));
        let mut record = record.unwrap();
        for (insertion, edge, count) in [(true, last, 1024), (false, edges[0], 1023)] {
            memory.work = t.rng.words(4096 + needed);
            let reply = t.change(insertion, &mut record, edge, &mut memory);
            t.expect("a change", (reply, record.totals), (0, of(count)));
        }
    }
}

/// An insertion and a removal that there is room for, with any totals, and a query on what each leaves.
fn any_changes(t: &mut Tester, layout: &Layout, edges: &[Edge]) {
    let longest = layout.header[1];
    let new = gen::edge(&mut t.rng, layout);
    let old = t.rng.pick(edges);
    for (insertion, edge) in [(true, new), (false, old)] {
        let others = edges.iter().copied().filter(|other| *other != edge);
        let mut after: Vec<Edge> = others.chain(Some(edge).filter(|_| insertion)).collect();
        after.sort();
        let room = determined(edges, longest).len().max(determined(&after, longest).len());
        let mut memory = memory_of(t, edges, longest, edges.len() + 1, room);
        let mut record = records::any(&mut t.rng, layout.header, edges);
        let given = record;
        let reply = t.change(insertion, &mut record, edge, &mut memory);
        t.expect("a change", reply, if insertion && edges.contains(&edge) { 7 } else { 0 });
        let counted = Record::counted(layout.header, &after);
        t.expect("totals counted anew, or as given", record, if reply == 0 { counted } else { given });
        let (start, destination) = (gen::vertex(&mut t.rng, layout), gen::vertex(&mut t.rng, layout));
        let pattern = gen::pattern(&mut t.rng, layout);
        let expected = if runs(&after, start, destination, &keyed(&pattern)) { YES } else { 0 };
        let reply = t.query(counted, start, destination, &pattern, &mut memory);
        t.expect("a query on what a change left", reply, expected);
    }
}
