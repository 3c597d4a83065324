//! The boundaries: numbers of vertices, longest patterns, slots and bytes at which an answer changes, and the
//! largest layouts.

use crate::calls::{card_of, Check, Memory, EDGES};
use crate::compare::{Tester, SPENT, YES};
use crate::gen::{self, Layout};
use crate::library::*;
use crate::record::{Record, RECORD_N};
use crate::records;
use crate::reference::*;
use crate::routes;
use crate::trials::{CARD_A, LAYOUT_A, SLOTS_A};
use crate::two;

pub fn run(t: &mut Tester) {
    t.part = "bounds";
    headers(t);
    small_memories(t);
    cards(t);
    damaged_cards(t);
    largest(t);
    longest_search(t);
    longest_again(t);
    query_memories(t);
    no_memory(t);
    joins(t);
    aliases(t);
}

fn headers(t: &mut Tester) {
    for vertices in [0, 1, 2, 255, 256, 257, 258, 511, 512, 65_536, 65_537, 1 << 31, u32::MAX] {
        for longest in [0, 1, 2, 3, 4, 5, 6, 256, 257, 260, u32::MAX] {
            for slots in [0, 1, 1023, 1024, 1025, 2048] {
                let mut memory = gen::noise(&mut t.rng, slots, 3, 0);
                let expected = match (vertices, longest) {
                    (0 | 257.., _) => 1,
                    (_, 0 | 5..) => 2,
                    _ if slots > 1024 => 3,
                    _ => 0,
                };
                let mut record = records::any(&mut t.rng, [vertices, longest], &[]);
                let given = record;
                let reply = t.open(&mut record, &mut memory);
                t.expect("an opening", reply, expected);
                let left = if expected == 0 { Record::counted([vertices, longest], &[]) } else { given };
                t.expect("its record, totals 0 unless refused", record, left);
            }
        }
    }
}

/// Card A and an insertion in every small memory, from 0 slots up.
fn small_memories(t: &mut Tester) {
    for edges in 0..=5 {
        for index in 0..=8 {
            for work in [0, 1, 4095, 4095 + index, 4096 + index, 4097 + index] {
                let memory = gen::noise(&mut t.rng, edges, index, work);
                in_small(t, memory);
            }
        }
    }
}

/// The record goes on from call to call, with the totals of A's card or ones that lie. The question is put with it, and
/// with a total for label 1 that is not 0.
fn in_small(t: &mut Tester, mut memory: Memory) {
    let work = memory.work.len();
    let mut record = records::any(&mut t.rng, [3, 2], &LAYOUT_A);
    t.read_card_into(&mut record, &CARD_A, &mut memory);
    for (insertion, edge) in [(true, (2, 1, 0)), (false, (0, 1, 1))] {
        memory.work = t.rng.words(work);
        t.change(insertion, &mut record, edge, &mut memory);
    }
    t.open(&mut record, &mut memory);
    memory.work = t.rng.words(work);
    t.change(true, &mut record, (2, 1, 0), &mut memory);
    for pattern in [vec![1], vec![1, 1]] {
        for record in [record, records::having(&mut t.rng, [3, 2], &[], &[1])] {
            memory.work = t.rng.words(work);
            t.query(record, 2, 0, &pattern, &mut memory);
        }
        memory.work = t.rng.words(work);
        t.search(record, &Check { start: 2, destination: 0, pattern, allowed: 3 }, &mut memory);
    }
}

fn cards(t: &mut Tester) {
    // 4,096 bytes are no card's length; 4,095 are, with 1,362 edges, and no edge memory has room for them.
    for (count, slots, expected) in [
        (1024, 1024, 0),
        (1024, 1023, 9),
        (1025, 1024, 9),
        (1025, 1025, 3),
        (1362, 1024, 9),
        (65_535, 1024, 9),
        (65_535, 65_535, 3),
    ] {
        let edges = gen::many_edges(&mut t.rng, count);
        let card = card_of([256, 1], &edges);
        let mut memory = gen::noise(&mut t.rng, slots, 60_000, 64_096);
        let reply = t.read_card(&card, &mut memory).0;
        t.expect("a card of many edges", reply, expected);
        if expected == 0 {
            for room in [card.len() - 1, card.len(), 4096] {
                let mut output = t.rng.bytes(room);
                let record = records::any(&mut t.rng, [256, 1], &edges);
                t.write_card(record, &memory.edges, &mut output);
            }
        }
        if count == 1362 {
            let mut longer = card.clone();
            longer.push(1);
            t.expect("a card's length", longer.len(), 4096);
            let reply = t.read_card(&longer, &mut memory).0;
            t.expect("a card of 4,096 bytes", reply, 16);
        }
    }
}

/// Card A cut off everywhere, and with every byte changed.
fn damaged_cards(t: &mut Tester) {
    for length in 0..CARD_A.len() {
        let mut memory = gen::noise(&mut t.rng, 3, 5, 4101);
        t.read_card(&CARD_A[..length], &mut memory);
        for byte in 0..=255 {
            let mut card = CARD_A;
            card[length] = byte;
            let mut memory = gen::noise(&mut t.rng, 4, 60, 4156);
            t.read_card(&card, &mut memory);
        }
    }
}

/// 256 vertices and 1,024 edges, k 4: an index of some hundred thousand entries, one slot too few, and full
/// edge memory.
fn largest(t: &mut Tester) {
    for labels in [8, 2] {
        let edges: Vec<Edge> = {
            let mut all = std::collections::BTreeSet::new();
            while all.len() < EDGES {
                all.insert((t.rng.below(256) as u32, t.rng.from_to(1, labels) as u32, t.rng.below(256) as u32));
            }
            all.into_iter().collect()
        };
        let needed = determined(&edges, 4).len();
        println!("largest layout, {labels} labels: {needed} entries");
        let card = card_of([256, 4], &edges);
        for (index, expected) in [(needed - 1, 13), (needed, 0)] {
            let mut memory = gen::noise(&mut t.rng, EDGES, index, 4096 + index);
            let reply = t.read_card(&card, &mut memory).0;
            t.expect("the largest layout", reply, expected);
            if expected == 0 {
                of_largest(t, &edges, &mut memory);
            }
        }
    }
}

fn of_largest(t: &mut Tester, edges: &[Edge], memory: &mut Memory) {
    let mut record = records::any(&mut t.rng, [256, 4], edges);
    let absent = (0..).map(|i| (255, 1, i)).find(|edge| !edges.contains(edge)).unwrap();
    memory.work = t.rng.words(memory.index.len() + 4096);
    let reply = t.change(true, &mut record, absent, memory);
    t.expect("an edge for which there is no slot", reply, 9);
    let layout = Layout { header: [256, 4], labels: vec![1, 2] };
    for _ in 0..300 {
        let (start, destination) = (t.rng.below(256) as u32, t.rng.below(256) as u32);
        let length = t.rng.from_to(1, 4);
        let pattern: Vec<u8> = (0..length).map(|_| t.rng.from_to(1, 2) as u8).collect();
        if t.rng.one_in(20) {
            let length = t.rng.from_to(2, 4);
            let again = gen::repeating_pattern(&mut t.rng, &layout, length);
            for pattern in [&pattern, &again] {
                memory.work = t.rng.words(4096);
                t.query(Record::counted([256, 4], edges), start, destination, pattern, memory);
            }
        }
        let check = Check { start, destination, pattern, allowed: t.rng.pick(&[3, 1025]) };
        let mut lent = Memory { edges: memory.edges.clone(), index: vec![], work: t.rng.words(4096) };
        t.search(record, &check, &mut lent);
        if t.rng.one_in(4) {
            lent.work = t.rng.words(4096);
            routes::ask_in(t, record, &check, &lent);
        }
    }
    two_in_largest(t, edges, memory);
    memory.work = t.rng.words(memory.index.len() + 4096);
    t.change(false, &mut record, edges[500], memory);
}

/// By two patterns that lead somewhere: written once, the first or the second keyed twice, and both.
fn two_in_largest(t: &mut Tester, edges: &[Edge], memory: &Memory) {
    for (out, home) in [(1, 1), (2, 1), (1, 2), (2, 2)] {
        let check = loop {
            if let Some(check) = gen::along(&mut t.rng, edges, 4) {
                break check;
            }
        };
        let (first, second) = (check.pattern[..2].repeat(out), check.pattern[2..].repeat(home));
        let asked = two::two(check.start, check.destination, &first, &second);
        let mut lent = Memory { work: t.rng.words(4096), ..memory.clone() };
        let reply = t.query_two(Record::counted([256, 4], edges), &asked, &mut lent);
        t.expect("a query by two patterns in the largest layout", reply, two::walked(edges, &asked));
    }
}

/// A search through all 1,024 pairs of vertex and labels used, one to a level, and its route of as many edges.
fn longest_search(t: &mut Tester) {
    let edges: Vec<Edge> = (0..256).flat_map(|v| [(v, 1, v), (v, 2, v), (v, 3, v), (v, 4, (v + 1) % 256)]).collect();
    let mut memory = Memory { edges: gen::edge_memory(&edges, EDGES), index: vec![], work: vec![] };
    for (allowed, expected) in
        [(1023, (SPENT, 1023)), (1024, (YES, 1024)), (1025, (YES, 1024)), (u32::MAX, (YES, 1024))]
    {
        memory.work = t.rng.words(4096);
        let check = Check { start: 7, destination: 7, pattern: vec![1, 2, 3, 4], allowed };
        let record = records::any(&mut t.rng, [256, 4], &edges);
        let reply = t.search(record, &check, &mut memory);
        t.expect("the longest search", reply, expected);
    }
    for (slots, expected) in [(0, (18, 0)), (1023, (18, 0)), (1024, (YES, 1024)), (1025, (YES, 1024))] {
        memory.work = t.rng.words(4096);
        let check = Check { start: 7, destination: 7, pattern: vec![1, 2, 3, 4], allowed: 0 };
        let mut walk = t.rng.short_words(slots);
        let record = records::any(&mut t.rng, [256, 4], &edges);
        let reply = t.route(record, &check, &mut memory, &mut walk);
        t.expect("the longest route", reply, expected);
        if reply.0 == YES {
            // All 1,024, from the first at vertex 7 on.
            let round = edges.iter().cycle().skip(28).take(1024).map(|edge| edge_number(*edge));
            t.expect("its edges", round.eq(walk[..1024].iter().copied()), true);
        }
    }
}

/// Patterns that repeat themselves, on cycles with one edge from each vertex or two: with 255 vertices the walk has to
/// go round again before a whole pattern ends where it began, with 256 the pattern 1,1,1,1 ends at every fourth vertex
/// only. Level i holds one pair, i edges on.
fn longest_again(t: &mut Tester) {
    let cycle = |n: u32| -> Vec<Edge> { (0..n).map(|v| (v, 1, (v + 1) % n)).collect() };
    let stops: Vec<Edge> = (0..255).flat_map(|v| [(v, 1, v), (v, 2, (v + 1) % 255)]).collect();
    let (ones, pairs) = (vec![1, 1, 1, 1], vec![1, 2, 1, 2]);
    let asked: [(Vec<Edge>, u32, u32, Vec<u8>, (u32, u32)); 11] = [
        (cycle(255), 7, 7, ones.clone(), (YES, 1020)), // the least number that both 255 and 4 divide
        (cycle(255), 7, 6, ones.clone(), (YES, 764)),  // 2 times round and 254 edges, 4 times 191
        (cycle(255), 7, 255, ones.clone(), (0, 1021)), // all pairs of 255 vertices seen
        (cycle(255), 7, 8, vec![1, 1], (YES, 256)),    // once round and one edge
        (cycle(255), 7, 7, vec![1, 1, 1], (YES, 255)), // 3 divides 255
        (cycle(256), 7, 7, ones.clone(), (YES, 256)),
        (cycle(256), 7, 8, ones.clone(), (0, 257)),
        (cycle(256), 7, 9, ones, (0, 257)), // though 1,1 ends there
        (cycle(256), 7, 10, vec![1, 1, 1], (YES, 3)),
        (stops.clone(), 7, 7, pairs.clone(), (YES, 1020)), // once round is 510 edges, and 4 does not divide them
        (stops, 7, 255, pairs, (0, 1021)),
    ];
    for (edges, start, destination, pattern, expected) in asked {
        let mut memory = Memory { edges: gen::edge_memory(&edges, EDGES), ..gen::noise(&mut t.rng, 0, 0, 4096) };
        let reply = t.query(Record::counted([256, 4], &edges), start, destination, &pattern, &mut memory);
        t.expect("a query of a pattern that goes round", reply, expected.0);
        let record = records::any(&mut t.rng, [256, 4], &edges);
        let levels = expected.1;
        for (allowed, expected) in [(levels - 1, (SPENT, levels - 1)), (levels, expected), (1025, expected)] {
            memory.work = t.rng.words(4096);
            let check = Check { start, destination, pattern: pattern.clone(), allowed };
            let reply = t.search(record, &check, &mut memory);
            t.expect("a search for a pattern that goes round", reply, expected);
        }
        memory.work = t.rng.words(4096);
        let check = Check { start, destination, pattern, allowed: 0 };
        let mut walk = t.rng.short_words(EDGES);
        let reply = t.route(record, &check, &mut memory, &mut walk);
        t.expect("a route that goes round", reply, if expected.0 == YES { expected } else { (0, 0) });
    }
}

/// Lengths of edge, index and work memory lent to a query in layout A. No index is built, so its slots ask for no work
/// memory.
fn query_memories(t: &mut Tester) {
    for slots in [3, 4, 1023, 1024, 1025, 2048] {
        for index in [5, 6, 1024] {
            for work in [0, 1, 4095, 4096, 4097, 6000] {
                in_memories(t, slots, index, work);
            }
        }
    }
    for (count, refused) in [(EDGES, false), (EDGES + 1, true)] {
        let edges = gen::many_edges(&mut t.rng, count);
        let mut memory = Memory { edges: gen::edge_memory(&edges, count), ..gen::noise(&mut t.rng, 0, 0, 4096) };
        let reply = t.query(Record::counted([256, 2], &edges), 0, 1, &[1, 1], &mut memory);
        t.expect("full edge memory", reply == 3, refused);
    }
}

/// The lengths matter for 1,1 and not for 1.
fn in_memories(t: &mut Tester, slots: usize, index: usize, work: usize) {
    let edges = gen::edge_memory(&LAYOUT_A, slots);
    let mut memory = Memory { edges, index: SLOTS_A.to_vec(), work: t.rng.words(work) };
    memory.index.resize(index, 0);
    let found = memory.work.clone();
    let record = Record::counted([3, 2], &LAYOUT_A);
    let reply = t.query(record, 0, 2, &[1], &mut memory);
    t.expect("a pattern written once, in memory of any length", reply, YES);
    t.expect("work memory as found", memory.work == found, true);
    let refusal = match (slots, work) {
        (1025.., _) => Some(3),
        (_, 0..=4095) => Some(4),
        _ => None,
    };
    let left = if refusal.is_some() { found.clone() } else { vec![0; work] };
    for (destination, answer) in [(2, YES), (1, 0)] {
        memory.work = found.clone();
        let reply = t.query(record, 0, destination, &[1, 1], &mut memory);
        t.expect("a pattern that repeats itself", reply, refusal.unwrap_or(answer));
        t.expect("work memory zero, or as found if refused", memory.work == left, true);
    }
}

/// No edge and work memory at all, as null pointers: enough for a pattern written once; 4 for one that repeats itself.
/// No index memory either: enough for a label of total 0. No walk memory: enough for a no; 18 for a yes.
fn no_memory(t: &mut Tester) {
    let (record, pattern) = (Record::counted([3, 2], &LAYOUT_A).numbers(), [1, 1, 3, 3]);
    let (edges, work) = (std::ptr::null(), std::ptr::null_mut());
    let (r, index, none) = (record.as_ptr(), (SLOTS_A.as_ptr(), SLOTS_A.len()), (std::ptr::null(), 0));
    for (first, labels, i, expected) in
        [(0, 1, index, YES), (0, 2, index, 4), (0, 1, none, 0), (2, 1, none, 0), (2, 2, none, 0), (1, 2, none, 0)]
    {
        t.calls += 1;
        let p = pattern[first..].as_ptr();
        let reply = unsafe { rlc_query(r, RECORD_N, 0, 2, p, labels, edges, 0, i.0, i.1, work, 0) };
        t.expect("a query without edge and work memory", reply, expected);
    }
    let (slots, mut work) = ([257, 4354, 4608], [0; 4096]);
    for (edges, count, expected) in [(slots.as_ptr(), 3, 18 << 32), (edges, 0, 0)] {
        t.calls += 1;
        let (p, w) = (pattern.as_ptr(), work.as_mut_ptr());
        let reply = unsafe { rlc_route(r, RECORD_N, 0, 2, p, 1, edges, count, std::ptr::null_mut(), 0, w, 4096) };
        t.expect("a route without walk memory", reply, expected);
    }
}

/// Two entries that meet at each hub, between entries that miss it by hub, by pattern, by owner or by side.
fn joins(t: &mut Tester) {
    for hub in 0..256 {
        for pattern in [&[1][..], &[8, 7], &[5, 5, 6], &[1, 8, 1, 2]] {
            let labels: Vec<u8> = pattern.iter().map(|label| *label as u8).collect();
            let (start, destination) = (t.rng.below(256) as u32, t.rng.below(256) as u32);
            let near = [hub.max(1) - 1, (hub + 1).min(255), t.rng.below(256) as u32];
            let mut index = vec![entry_number(0, start, hub, &[2]), entry_number(1, destination, hub, &[2, 1])];
            for other in near.into_iter().filter(|other| *other != hub) {
                let side = t.rng.below(2) as u64;
                index.push(entry_number(side, if side == 0 { start } else { destination }, other, pattern));
                index.push(entry_number(0, destination.max(1) - 1, other, pattern));
            }
            let halves = [entry_number(0, start, hub, pattern), entry_number(1, destination, hub, pattern)];
            for kept in [0, 1, 2, 3] {
                let mut index = index.clone();
                index.extend(halves.iter().enumerate().filter(|(i, _)| kept >> i & 1 == 1).map(|(_, entry)| entry));
                index.sort();
                index.dedup();
                let mut memory = Memory { index, ..Memory::default() };
                let record = records::having(&mut t.rng, [256, 4], &[], &labels);
                let reply = t.query(record, start, destination, &labels, &mut memory);
                t.expect("a yes where two entries meet", kept == 3 && reply != YES, false);
            }
        }
    }
}

/// Ends and labels that would name a standing edge if they were not checked first.
fn aliases(t: &mut Tester) {
    let edges = [(0, 2, 0), (1, 1, 2), (2, 1, 1)];
    let named = [
        ((0, 1, 256), 5),
        ((0, 18, 0), 6),
        ((256, 2, 0), 5),
        ((0, 17, 2), 6),
        ((1, 17, 1), 6),
        ((1, 1, 258), 5),
        ((0, 258, 0), 6),
    ];
    for (edge, expected) in named {
        for insertion in [true, false] {
            let mut memory = gen::noise(&mut t.rng, 0, 60, 4156);
            memory.edges = gen::edge_memory(&edges, 5);
            let mut record = records::any(&mut t.rng, [256, 2], &edges);
            let reply = t.change(insertion, &mut record, edge, &mut memory);
            t.expect("an edge that is none", reply, expected);
        }
    }
}
