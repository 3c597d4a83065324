//! The trial runs of documents 01 and 02, with their own expectations, and Table II of document 004.

use crate::calls::{card_of, repeats_itself, Check, Memory};
use crate::compare::{Tester, SPENT, YES};
use crate::gen;
use crate::record::{Header, Record};
use crate::records;
use crate::reference::*;
use crate::two::{reply_of, two};

pub const CARD_A: [u8; 18] =
    [0x50, 0x52, 0x43, 0x00, 0x01, 0x02, 0x02, 0x00, 0x03, 0x00, 0x01, 0x01, 0x01, 0x01, 0x02, 0x01, 0x02, 0x00];
pub const LAYOUT_A: [Edge; 3] = [(0, 1, 1), (1, 1, 2), (1, 2, 0)];
pub const TOTALS_A: Totals = [2, 1, 0, 0, 0, 0, 0, 0];
pub const SLOTS_A: [u64; 5] = [18, 65537, 16842785, 4295032834, 4328587265];
pub const LAYOUT_B: [Edge; 7] = [(0, 1, 2), (0, 1, 3), (0, 2, 4), (1, 1, 0), (5, 2, 1), (6, 2, 1), (7, 2, 1)];

/// The graph of document 004's Fig. 2 with vertex v1 as 0, and its Table II: side, owner, hub, labels.
pub const FIGURE_2: [Edge; 11] = [
    (0, 1, 1),
    (0, 2, 2),
    (1, 1, 4),
    (1, 2, 4),
    (2, 1, 1),
    (2, 1, 5),
    (2, 2, 0),
    (2, 2, 3),
    (3, 1, 0),
    (3, 3, 5),
    (4, 1, 0),
];
#[rustfmt::skip]
pub const TABLE_2: [(u64, u32, u32, &[u32]); 26] = [
    (0, 1, 1, &[2]), (0, 1, 1, &[1]), (0, 1, 1, &[2, 1]),
    (1, 2, 1, &[1]), (1, 2, 1, &[2, 1]), (0, 2, 1, &[2, 1]), (0, 2, 1, &[1]),
    (1, 3, 1, &[2]), (1, 3, 1, &[1, 2]), (0, 3, 1, &[2]), (0, 3, 1, &[2, 1]), (0, 3, 1, &[1]), (0, 3, 3, &[1, 2]),
    (1, 4, 1, &[2]), (0, 4, 1, &[1]), (0, 4, 3, &[1, 2]),
    (1, 5, 1, &[1, 2]), (1, 5, 1, &[1]), (1, 5, 3, &[1, 2]), (1, 5, 2, &[2]), (0, 5, 1, &[1]), (0, 5, 3, &[1, 2]),
    (1, 6, 1, &[2, 1]), (1, 6, 3, &[1]), (1, 6, 3, &[2, 3]), (1, 6, 4, &[3]),
];

/// Vertices and k, edges, start, destination, pattern, and the plain check's reply and levels.
pub type KeyedTwice = (Header, &'static [Edge], u32, u32, &'static [u8], (u32, u32));

const PATH: &[Edge] = &[(0, 1, 1), (1, 1, 2), (2, 1, 3), (3, 1, 4)];
const TRIANGLE: &[Edge] = &[(0, 1, 1), (1, 1, 2), (2, 1, 0)];

/// Document 02, Two. Behind each is what its levels hold from level 1 on: (vertex, labels used).
pub const KEYED_TWICE: [KeyedTwice; 22] = [
    ([2, 2], &[(0, 1, 1)], 0, 1, &[1], (YES, 1)),                     // (1, 0)
    ([2, 2], &[(0, 1, 1)], 0, 1, &[1, 1], (0, 2)),                    // (1, 1); none
    ([3, 2], &[(0, 1, 1), (1, 1, 2)], 0, 2, &[1], (YES, 2)),          // (1, 0); (2, 0)
    ([3, 2], &[(0, 1, 1), (1, 1, 2)], 0, 2, &[1, 1], (YES, 2)),       // (1, 1); (2, 0)
    ([3, 2], &[(0, 1, 1), (1, 1, 2)], 0, 1, &[1, 1], (0, 3)),         // (1, 1); (2, 0); none
    ([3, 4], &[(0, 1, 1), (1, 1, 2)], 0, 2, &[1, 1, 1, 1], (0, 3)),   // (1, 1); (2, 2); none
    ([5, 4], PATH, 0, 4, &[1, 1, 1, 1], (YES, 4)),                    // (1, 1); (2, 2); (3, 3); (4, 0)
    ([5, 4], PATH, 0, 4, &[1, 1], (YES, 4)),                          // (1, 1); (2, 0); (3, 1); (4, 0)
    ([5, 4], PATH, 0, 3, &[1, 1], (0, 5)),                            // the same, then none
    ([1, 2], &[(0, 1, 0)], 0, 0, &[1], (YES, 1)),                     // (0, 0)
    ([1, 2], &[(0, 1, 0)], 0, 0, &[1, 1], (YES, 2)),                  // (0, 1); (0, 0)
    ([1, 4], &[(0, 1, 0)], 0, 0, &[1, 1, 1, 1], (YES, 4)),            // (0, 1); (0, 2); (0, 3); (0, 0)
    ([3, 4], TRIANGLE, 0, 1, &[1], (YES, 1)),                         // (1, 0)
    ([3, 4], TRIANGLE, 0, 1, &[1, 1], (YES, 4)),                      // (1, 1); (2, 0); (0, 1); (1, 0)
    ([3, 4], TRIANGLE, 0, 1, &[1, 1, 1], (0, 4)),                     // (1, 1); (2, 2); (0, 0); none that is new
    ([3, 4], TRIANGLE, 0, 0, &[1, 1, 1], (YES, 3)),                   // (1, 1); (2, 2); (0, 0)
    ([3, 4], TRIANGLE, 0, 1, &[1, 1, 1, 1], (YES, 4)),                // (1, 1); (2, 2); (0, 3); (1, 0)
    ([3, 4], &[(0, 1, 1), (1, 2, 2)], 0, 2, &[1, 2], (YES, 2)),       // (1, 1); (2, 0)
    ([3, 4], &[(0, 1, 1), (1, 2, 2)], 0, 2, &[1, 2, 1, 2], (0, 3)),   // (1, 1); (2, 2); none
    ([2, 4], &[(0, 1, 1), (1, 2, 0)], 0, 0, &[1, 2, 1, 2], (YES, 4)), // (1, 1); (0, 2); (1, 3); (0, 0)
    ([2, 4], &[(0, 1, 1), (1, 2, 0)], 0, 1, &[1, 2, 1, 2], (0, 5)),   // the same, then none that is new
    ([2, 4], &[(0, 1, 1), (1, 2, 0)], 0, 1, &[1, 2, 1], (YES, 3)),    // (1, 1); (0, 2); (1, 0)
];

/// Vertices and k, edges, start, destination, pattern, and the route's edges, none for a no.
pub type Route = (Header, &'static [Edge], u32, u32, &'static [u8], &'static [u32]);

const SQUARE: &[Edge] = &[(0, 1, 1), (0, 1, 2), (1, 1, 3), (2, 1, 3)];
const CROSSED: &[Edge] = &[(0, 1, 1), (0, 1, 2), (1, 1, 4), (2, 1, 3), (3, 1, 5), (4, 1, 5)];
const ASTRAY: &[Edge] = &[(0, 1, 1), (0, 1, 2), (1, 1, 3), (2, 1, 4), (3, 1, 4)];
const LATE: &[Edge] = &[(0, 1, 1), (1, 1, 2), (1, 1, 3), (2, 1, 4), (3, 1, 4)];
const LOOP: &[Edge] = &[(0, 1, 0), (0, 1, 1), (0, 2, 1), (1, 1, 0), (1, 2, 1)];

/// Document 02, Three, worked out by hand. Behind each is what else there is.
pub const ROUTES: [Route; 21] = [
    ([3, 2], &LAYOUT_A, 0, 0, &[1, 2], &[257, 4608]),
    ([3, 2], &LAYOUT_A, 0, 2, &[1], &[257, 4354]),
    ([3, 2], &LAYOUT_A, 2, 0, &[1], &[]),
    ([3, 2], &LAYOUT_A, 0, 2, &[1, 1], &[257, 4354]),
    ([3, 2], &LAYOUT_A, 0, 1, &[1, 1], &[]),            // only by 1
    ([4, 1], SQUARE, 0, 3, &[1], &[257, 4355]),         // 258, 8451
    ([6, 4], CROSSED, 0, 5, &[1], &[257, 4356, 16645]), // 258, 8451, 12549, of which the last is lower
    ([6, 4], CROSSED, 0, 5, &[1, 1], &[]),
    ([5, 4], ASTRAY, 0, 4, &[1], &[258, 8452]), // 257, 4355, 12548, one more
    ([5, 4], ASTRAY, 0, 4, &[1, 1, 1], &[257, 4355, 12548]), // 258, 8452, not three
    ([5, 1], LATE, 0, 4, &[1], &[257, 4354, 8452]), // 257, 4355, 12548
    ([3, 4], TRIANGLE, 0, 0, &[1], &[257, 4354, 8448]),
    ([3, 4], TRIANGLE, 0, 1, &[1, 1], &[257, 4354, 8448, 257]), // at 1 after one edge, with one label used
    ([3, 4], TRIANGLE, 0, 1, &[1, 1, 1, 1], &[257, 4354, 8448, 257]),
    ([3, 4], TRIANGLE, 0, 1, &[1, 1, 1], &[]),  // three edges end at 0
    ([2, 4], LOOP, 0, 0, &[1, 1], &[256, 256]), // 257, 4352
    ([2, 4], LOOP, 0, 1, &[1, 2], &[256, 513]), // 257, 4609
    ([2, 4], LOOP, 1, 1, &[1, 2], &[4352, 513]),
    ([2, 4], LOOP, 1, 0, &[2, 1], &[4609, 4352]),
    ([1, 4], &[(0, 1, 0)], 0, 0, &[1, 1, 1, 1], &[256, 256, 256, 256]),
    ([256, 4], &[(255, 8, 255)], 255, 255, &[8], &[1046783]),
];

/// Vertices and k, edges, start, destination, the two patterns, and the lowest middle, none for a no.
pub type TwoPatterns = (Header, &'static [Edge], u32, u32, &'static [u8], &'static [u8], Option<u32>);

const PAIR: &[Edge] = &[(0, 1, 1), (1, 2, 2)];
const FORK: &[Edge] = &[(0, 1, 1), (0, 1, 2), (1, 2, 3), (2, 2, 3)];
const FURTHER: &[Edge] = &[(0, 1, 3), (1, 2, 2), (3, 1, 1), (3, 2, 2)];
const BACK: &[Edge] = &[(0, 2, 2), (1, 1, 1), (1, 1, 2), (2, 2, 2)];
const FAR: &[Edge] = &[(254, 1, 255), (255, 2, 253)];

/// Document 02, Five, worked out by hand. Behind each is where the walks by the first pattern end; from where those by
/// the second lead to the destination.
pub const TWO_PATTERNS: [TwoPatterns; 45] = [
    ([3, 2], &LAYOUT_A, 0, 0, &[1], &[2], Some(1)),       // 1, 2; 1
    ([3, 2], &LAYOUT_A, 0, 2, &[1, 2], &[1], Some(0)),    // 0; 0, 1
    ([3, 2], &LAYOUT_A, 0, 0, &[1], &[1], None),          // 1, 2; none
    ([3, 2], &LAYOUT_A, 0, 2, &[1], &[1], Some(1)),       // 1, 2; 0, 1
    ([3, 2], &LAYOUT_A, 0, 2, &[1, 1], &[1], None),       // 2; 0, 1
    ([3, 2], &LAYOUT_A, 0, 2, &[1], &[1, 1], None),       // 1, 2; 0
    ([3, 2], &LAYOUT_A, 1, 2, &[2], &[1, 1], Some(0)),    // 0; 0
    ([3, 2], &LAYOUT_A, 1, 2, &[2], &[1], Some(0)),       // 0; 0, 1
    ([3, 2], &LAYOUT_A, 0, 0, &[2], &[1], None),          // none; none
    ([3, 2], &LAYOUT_A, 0, 1, &[2], &[1], None),          // none; 0: the start, to which no walk leads
    ([3, 2], &LAYOUT_A, 0, 1, &[1], &[2], None),          // 1, 2; none: 1 is the destination
    ([3, 2], &LAYOUT_A, 0, 1, &[1, 2], &[1], Some(0)),    // 0; 0: the start, to which a walk leads back
    ([3, 2], &LAYOUT_A, 0, 1, &[1], &[2, 1], Some(1)),    // 1, 2; 1: the destination
    ([3, 2], &LAYOUT_A, 1, 1, &[2], &[1], Some(0)),       // 0; 0
    ([3, 2], &LAYOUT_A, 1, 1, &[2, 1], &[2, 1], Some(1)), // 1; 1
    ([3, 2], &LAYOUT_A, 0, 0, &[1, 2], &[1, 2], Some(0)), // 0; 0
    ([3, 2], &LAYOUT_A, 0, 0, &[1, 2], &[2, 1], None),    // 0; none
    ([3, 2], &LAYOUT_A, 2, 0, &[1], &[2], None),          // none; 1
    ([3, 2], &LAYOUT_A, 0, 0, &[3], &[2], None),          // no edge has label 3
    ([3, 2], &LAYOUT_A, 0, 0, &[1], &[3, 3], None),
    ([3, 2], PAIR, 0, 2, &[1], &[2], Some(1)),              // 1; 1
    ([3, 2], PAIR, 0, 2, &[1, 1], &[2], None),              // none; 1: one edge, the label keyed twice
    ([3, 2], PAIR, 0, 2, &[1], &[2, 2], None),              // 1; none
    ([3, 2], PAIR, 0, 2, &[1, 1], &[2, 2], None),           // none; none
    ([3, 2], PAIR, 0, 2, &[2], &[1], None),                 // none; none
    ([4, 1], FORK, 0, 3, &[1], &[2], Some(1)),              // 1, 2; 1, 2
    ([4, 1], FURTHER, 0, 2, &[1], &[2], Some(1)),           // 1, 3; 1, 3: 1 is the further one
    ([4, 2], FURTHER, 0, 2, &[1, 1], &[2], Some(1)),        // 1; 1, 3
    ([3, 2], BACK, 0, 2, &[2], &[2], Some(2)),              // 2; 0, 2: the start is lower, and no walk leads to it
    ([3, 2], BACK, 1, 1, &[1], &[1], Some(1)),              // 1, 2; 1
    ([3, 2], BACK, 0, 2, &[2, 2], &[2], Some(2)),           // 2; 0, 2
    ([3, 2], BACK, 1, 2, &[1], &[1, 1], Some(1)),           // 1, 2; 1: by the loop, then on
    ([3, 2], BACK, 1, 2, &[1, 1], &[2, 2], Some(2)),        // 1, 2; 0, 2
    ([5, 4], PATH, 0, 4, &[1], &[1], Some(1)),              // 1, 2, 3, 4; 0, 1, 2, 3
    ([5, 4], PATH, 0, 4, &[1, 1], &[1], Some(2)),           // 2, 4; 0, 1, 2, 3
    ([5, 4], PATH, 0, 4, &[1], &[1, 1], Some(2)),           // 1, 2, 3, 4; 0, 2
    ([5, 4], PATH, 0, 4, &[1, 1, 1], &[1, 1], None),        // 3; 0, 2
    ([5, 4], PATH, 0, 4, &[1, 1, 1], &[1], Some(3)),        // 3; 0, 1, 2, 3
    ([3, 4], TRIANGLE, 0, 1, &[1, 1, 1], &[1, 1, 1], None), // 0; 1
    ([3, 4], TRIANGLE, 0, 0, &[1, 1, 1], &[1, 1, 1], Some(0)),
    ([3, 4], TRIANGLE, 2, 1, &[1, 1, 1], &[1], Some(2)), // 2; 0, 1, 2
    ([1, 2], &[(0, 1, 0)], 0, 0, &[1], &[1, 1], Some(0)),
    ([1, 2], &[(0, 1, 0)], 0, 0, &[1], &[2], None),
    ([256, 1], FAR, 254, 253, &[1], &[2], Some(255)),
    ([256, 4], &[(255, 8, 255)], 255, 255, &[8, 8, 8, 8], &[8], Some(255)),
];

/// Table II as index memory: vertices numbered from 0, rising.
pub fn table_2_slots() -> Vec<u64> {
    let mut slots: Vec<u64> =
        TABLE_2.iter().map(|(side, owner, hub, l)| entry_number(*side, owner - 1, hub - 1, l)).collect();
    slots.sort();
    slots
}

pub fn run(t: &mut Tester) {
    t.part = "trials";
    layout_a(t);
    layout_b(t);
    limits(t);
    table_2(t);
    keyed_twice(t);
    routes(t);
    two_patterns(t);
    two_refused(t);
}

fn memory(t: &mut Tester, edges: usize, index: usize) -> Memory {
    gen::noise(&mut t.rng, edges, index, 4096 + index)
}

fn layout_a(t: &mut Tester) {
    let mut record = Record { header: [3, 2], totals: TOTALS_A };
    let mut a = memory(t, 1024, 1024);
    let reply = t.read_card(&CARD_A, &mut a);
    t.expect("card A", reply, (0, Some(record)));
    t.expect("the edges of A", &a.edges[..4], &[257, 4354, 4608, 0]);
    t.expect("the slots of A", &a.index[..5], &SLOTS_A[..]);
    t.expect("the rest of index memory", a.index[5..].iter().all(|slot| *slot == 0), true);

    queries_in_a(t, record, &mut a);
    checks_in_a(t, record, &mut a);
    labels_in_a(t, record, &a);

    a.work = t.rng.words(5120);
    let reply = t.change(true, &mut record, (0, 1, 1), &mut a);
    t.expect("laying 0-1-1 in A", reply, 7);

    for (slots, expected) in [(5, 0), (4, 13)] {
        let mut a = memory(t, 3, slots);
        let reply = t.read_card(&CARD_A, &mut a).0;
        t.expect("card A in few index slots", reply, expected);
        t.expect("work memory zero afterwards", a.work.iter().all(|word| *word == 0), true);
    }

    let mut output = t.rng.bytes(20);
    let reply = t.write_card(record, &a.edges, &mut output);
    t.expect("card A written", reply, (0, 18));
    t.expect("card A's bytes", &output[..18], &CARD_A[..]);

    repeats(t);
}

fn queries_in_a(t: &mut Tester, record: Record, a: &mut Memory) {
    let queries: [(u32, u32, &[u8], u32); 13] = [
        (0, 2, &[1], YES),
        (2, 0, &[1], 0),
        (0, 0, &[1, 2], YES),
        (0, 0, &[1], 0),
        (0, 0, &[2, 1], 0),
        (0, 2, &[1, 1], YES), // 0-1-1, 1-1-2
        (0, 1, &[1], YES),
        (0, 1, &[1, 1], 0), // asked as 1 before document 02
        (2, 2, &[1], 0),
        (0, 3, &[1], 10),
        (3, 0, &[1, 1], 10),
        (0, 0, &[1, 2, 1], 11),
        (0, 0, &[], 11),
    ];
    for (start, destination, pattern, expected) in queries {
        a.work = t.rng.words(4096);
        let found = a.work.clone();
        let reply = t.query(record, start, destination, pattern, a);
        t.expect("a query in A", reply, expected);
        let left = if pattern == [1, 1] && expected != 10 { vec![0; 4096] } else { found };
        t.expect("work memory zero after an answer by 1,1, else as found", a.work == left, true);
    }
}

/// Document 02, Four, by labels that A lacks: no, also with index memory that 12 refuses. A record that gives label 3 a
/// total of 1 though no edge has it is taken at its word, and so is one that gives label 1 none though two have it.
fn labels_in_a(t: &mut Tester, record: Record, a: &Memory) {
    let mut damaged = a.clone();
    damaged.index.swap(0, 1);
    let mut overstated = record;
    overstated.totals[2] = 1;
    let mut understated = record;
    understated.totals[0] = 0;
    let queries: [(Record, u32, u32, &[u8], u32, u32); 14] = [
        (record, 0, 2, &[3], 0, 0),
        (record, 0, 2, &[8], 0, 0),
        (record, 0, 2, &[3, 3], 0, 0),
        (record, 0, 2, &[1, 3], 0, 0),
        (record, 0, 2, &[3, 1], 0, 0),
        (record, 0, 2, &[1], YES, 12),
        (overstated, 0, 2, &[3], 0, 12),
        (overstated, 0, 2, &[3, 3], 0, 12),
        (overstated, 0, 2, &[1, 3], 0, 12),
        (overstated, 0, 2, &[4], 0, 0),
        (understated, 0, 2, &[1], 0, 0),
        (understated, 0, 2, &[1, 1], 0, 0),
        (understated, 0, 0, &[1, 2], 0, 0),
        (understated, 1, 0, &[2], YES, 12),
    ];
    for (record, start, destination, pattern, right, wrong) in queries {
        for (memory, expected) in [(a, right), (&damaged, wrong)] {
            let mut lent = Memory { work: t.rng.words(4096), ..memory.clone() };
            let found = lent.work.clone();
            let reply = t.query(record, start, destination, pattern, &mut lent);
            t.expect("a query in A by its totals", reply, expected);
            let used = pattern == [3, 3] && record == overstated && expected == 0;
            t.expect("work memory as found, unless edges are searched", lent.work == found, !used);
        }
    }
}

fn checks_in_a(t: &mut Tester, record: Record, a: &mut Memory) {
    let checks: [(u32, u32, &[u8], u32, (u32, u32)); 9] = [
        (0, 2, &[1], 0, (SPENT, 0)),
        (0, 2, &[1], 1, (SPENT, 1)),
        (0, 2, &[1], 2, (YES, 2)),
        (2, 0, &[1], 1, (0, 1)),
        (0, 2, &[1, 1], 2, (YES, 2)), // levels (1, 1); (2, 0)
        (0, 1, &[1, 1], 3, (0, 3)),   // levels (1, 1); (2, 0); none
        (0, 3, &[1], 2, (10, 0)),
        (2, 2, &[1], 2, (0, 1)),
        (0, 0, &[1, 2, 1], 2, (11, 0)),
    ];
    for (start, destination, pattern, allowed, expected) in checks {
        a.work = t.rng.words(4096);
        let check = Check { start, destination, pattern: pattern.to_vec(), allowed };
        let reply = t.search(record, &check, a);
        t.expect("a plain check in A", reply, expected);
        let zero = a.work.iter().all(|word| *word == 0);
        t.expect(
            "work memory zero after a plain check, unless it is refused",
            zero,
            expected.1 != 0 || expected.0 == SPENT,
        );
    }
}

/// Minimum repeats, their lengths and how many times they were written.
fn repeats(t: &mut Tester) {
    let patterns: [(&[u8], (u32, u32)); 8] = [
        (&[1, 2, 1, 2], (2, 2)),
        (&[1, 2, 1], (3, 1)),
        (&[1], (1, 1)),
        (&[1, 1], (1, 2)),
        (&[1, 1, 1], (1, 3)),
        (&[1, 2, 1, 1], (4, 1)),
        (&[7, 7, 7, 7], (1, 4)),
        (&[1, 2, 2, 1], (4, 1)),
    ];
    for (pattern, expected) in patterns {
        let reply = t.minimum_repeat(pattern);
        t.expect("a minimum repeat", reply, expected);
    }
}

fn layout_b(t: &mut Tester) {
    let card = card_of([8, 1], &LAYOUT_B);
    for (slots, read, removed) in [(6, 13, 8), (7, 0, 13), (8, 0, 0)] {
        let mut b = memory(t, 7, slots);
        let (reply, record) = t.read_card(&card, &mut b);
        t.expect("layout B", reply, read);
        if let Some(mut record) = record {
            let filled = b.index.iter().filter(|slot| **slot != 0).count();
            t.expect("the entries of layout B", filled, 7);
            b.work = t.rng.words(4096 + slots);
            let reply = t.change(false, &mut record, (0, 2, 4), &mut b);
            t.expect("lifting 0-2-4 in layout B", reply, removed);
            let twos = if removed == 0 { 3 } else { 4 };
            t.expect("the totals of layout B", record.totals, [3, twos, 0, 0, 0, 0, 0, 0]);
        }
    }

    // One vertex, k 1, edge 0-1-0: one slot, 1.
    let mut one = memory(t, 1, 1);
    let mut record = records::any(&mut t.rng, [1, 1], &[]);
    let reply = t.open(&mut record, &mut one);
    t.expect("one vertex", reply, 0);
    let reply = t.change(true, &mut record, (0, 1, 0), &mut one);
    t.expect("one edge", reply, 0);
    t.expect("its slot", one.index[0], 1);
}

fn limits(t: &mut Tester) {
    for (header, expected) in [([256, 4], 0), ([257, 4], 1), ([256, 5], 2), ([257, 5], 1)] {
        let mut memory = memory(t, 4, 4);
        let mut record = records::any(&mut t.rng, header, &[]);
        let reply = t.open(&mut record, &mut memory);
        t.expect("an opening at the limits", reply, expected);
        if expected == 0 {
            let reply = t.change(true, &mut record, (255, 8, 255), &mut memory);
            t.expect("an insertion at the limits", reply, 0);
            t.expect("its slots", &memory.index[..], &[0xFFFF_0008, 0, 0, 0]);
            memory.work = t.rng.words(4096);
            let reply = t.query(record, 255, 255, &[8, 8, 8, 8], &mut memory);
            t.expect("a query at the limits", reply, YES);
        }
    }
}

/// Read as a card, as the counted access order of this graph is the paper's.
fn table_2(t: &mut Tester) {
    let card = card_of([6, 2], &FIGURE_2);
    for (slots, expected) in [(25, 13), (26, 0)] {
        let mut memory = memory(t, 11, slots);
        let reply = t.read_card(&card, &mut memory).0;
        t.expect("the graph of Fig. 2", reply, expected);
        if expected == 0 {
            t.expect("Table II", &memory.index, &table_2_slots());
        }
    }
}

/// Laid edge by edge, asked, and checked plainly with every allowance up to one more than the levels.
fn keyed_twice(t: &mut Tester) {
    for (header, edges, start, destination, pattern, (answer, levels)) in KEYED_TWICE {
        let mut memory = memory(t, edges.len(), 40);
        let mut record = records::any(&mut t.rng, header, edges);
        let reply = t.open(&mut record, &mut memory);
        t.expect("an opening", reply, 0);
        for edge in edges {
            memory.work = t.rng.words(4136);
            let reply = t.change(true, &mut record, *edge, &mut memory);
            t.expect("an insertion", reply, 0);
        }
        memory.work = t.rng.words(4096);
        let reply = t.query(record, start, destination, pattern, &mut memory);
        t.expect("a query by the pattern as keyed", reply, answer);
        for allowed in 0..=levels + 1 {
            memory.work = t.rng.words(4096);
            let check = Check { start, destination, pattern: pattern.to_vec(), allowed };
            let reply = t.search(record, &check, &mut memory);
            let expected = if allowed < levels { (SPENT, allowed) } else { (answer, levels) };
            t.expect("a plain check of the pattern as keyed", reply, expected);
        }
        memory.work = t.rng.words(4096);
        let check = Check { start, destination, pattern: pattern.to_vec(), allowed: 0 };
        let mut walk = t.rng.short_words(4);
        let reply = t.route(record, &check, &mut memory, &mut walk);
        t.expect("a route by the pattern as keyed", reply, if answer == YES { (YES, levels) } else { (0, 0) });
    }
}

/// Each route with walk memory of every length up to two slots more, all of it dirty.
fn routes(t: &mut Tester) {
    for (header, edges, start, destination, pattern, route) in ROUTES {
        let check = Check { start, destination, pattern: pattern.to_vec(), allowed: 0 };
        for slots in 0..=route.len() + 2 {
            let mut memory = Memory { edges: gen::edge_memory(edges, edges.len()), ..memory(t, 0, 0) };
            let mut walk = t.rng.short_words(slots);
            let found = walk.clone();
            let record = records::any(&mut t.rng, header, edges);
            let reply = t.route(record, &check, &mut memory, &mut walk);
            let (expected, written) = match route.len() {
                0 => ((0, 0), 0),
                count if slots < count => ((18, 0), 0),
                count => ((YES, count as u32), count),
            };
            t.expect("a route worked out by hand", reply, expected);
            t.expect("its edges", &walk[..written], &route[..written]);
            t.expect("the slots behind it, or all if there is none", &walk[written..], &found[written..]);
            t.expect("work memory zero, also after 18", memory.work.iter().all(|word| *word == 0), true);
        }
    }
}

/// Laid edge by edge, and asked with dirty work memory, with zeroed, and with none: 4 if a pattern repeats itself.
fn two_patterns(t: &mut Tester) {
    for (header, edges, start, destination, first, second, middle) in TWO_PATTERNS {
        let mut memory = memory(t, edges.len(), 40);
        let mut record = records::any(&mut t.rng, header, edges);
        let reply = t.open(&mut record, &mut memory);
        t.expect("an opening", reply, 0);
        for edge in edges {
            memory.work = t.rng.words(4136);
            let reply = t.change(true, &mut record, *edge, &mut memory);
            t.expect("an insertion", reply, 0);
        }
        let asked = two(start, destination, first, second);
        let searched = (repeats_itself(first) || repeats_itself(second)) && !record.lacks(&[first, second].concat());
        for found in [t.rng.words(4096), vec![0; 4096], t.rng.words(5000), vec![]] {
            let short = searched && found.is_empty();
            let mut lent = Memory { work: found.clone(), ..memory.clone() };
            let reply = t.query_two(record, &asked, &mut lent);
            t.expect("a query by two patterns", reply, if short { (4, 0) } else { reply_of(middle) });
            let left = if searched { vec![0; found.len()] } else { found };
            t.expect("work memory zero after a search, else as found", lent.work == left, true);
        }
    }
}

/// In A, with all as the card left it but for one thing.
fn two_refused(t: &mut Tester) {
    let record = Record { header: [3, 2], totals: TOTALS_A };
    let mut a = memory(t, 3, 5);
    let reply = t.read_card(&CARD_A, &mut a).0;
    t.expect("card A", reply, 0);
    let no_edges = Memory { edges: vec![4354, 257, 4608], ..a.clone() };
    let no_index = Memory { index: vec![65537, 18, 0, 0, 0], ..a.clone() };
    let no_work = Memory { work: vec![7; 4095], ..a.clone() };
    let trials: [(&Memory, u32, u32, &[u8], &[u8], (u32, u32)); 20] = [
        (&a, 2, 2, &[1], &[1], (0, 0)),
        (&a, 3, 0, &[1], &[2], (10, 0)),
        (&a, 0, 3, &[1], &[2], (10, 0)),
        (&a, 3, 0, &[], &[], (10, 0)),
        (&a, 0, 0, &[1, 2, 1], &[2], (11, 0)),
        (&a, 0, 0, &[1], &[1, 2, 1], (11, 0)),
        (&a, 0, 0, &[], &[3], (11, 0)),
        (&a, 0, 0, &[3], &[], (11, 0)),
        (&a, 0, 0, &[3], &[9], (11, 0)),
        (&no_index, 0, 0, &[1], &[2], (12, 0)),
        (&no_index, 1, 2, &[2, 2], &[1, 1], (12, 0)),
        (&no_index, 0, 0, &[1], &[3], (0, 0)),
        (&no_index, 0, 0, &[3], &[1, 1], (0, 0)),
        (&no_edges, 0, 0, &[1], &[2], (YES, 1)),
        (&no_edges, 1, 2, &[2], &[1, 1], (3, 0)),
        (&no_edges, 0, 2, &[1, 1], &[1], (3, 0)),
        (&no_edges, 0, 2, &[1, 1], &[3], (0, 0)),
        (&no_work, 0, 0, &[1], &[2], (YES, 1)),
        (&no_work, 1, 2, &[2], &[1, 1], (4, 0)),
        (&no_work, 0, 2, &[1, 1], &[1], (4, 0)),
    ];
    for (lent, start, destination, first, second, expected) in trials {
        let mut left = lent.clone();
        let reply = t.query_two(record, &two(start, destination, first, second), &mut left);
        t.expect("a query by two patterns in A", reply, expected);
        t.expect("all as found", &left == lent, true);
    }
}
