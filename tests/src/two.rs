//! Queries by two patterns (document 02, Five): in all layouts of very few vertices and labels, in small crowded ones,
//! in every kind of memory, and with each of 256 vertices as the lowest middle. Held to the walks where the memory is
//! that of the edges, and to the library's own single queries.

use crate::asks::Ground;
use crate::calls::{keyed, repeats_itself, Memory, Two, EDGES};
use crate::compare::{Tester, YES};
use crate::gen::{self, Layout};
use crate::handed::{memory_of, MOST};
use crate::record::{Header, Record};
use crate::records;
use crate::reference::*;
use std::collections::BTreeSet;

/// Vertices 4, k 2 or more. By 1 from 0 lead walks to 1 and 2, by 1,1 to 2; by 2 to 0 from 2 and 3, by 2,2 from 2.
const SHUNT: [Edge; 4] = [(0, 1, 1), (1, 1, 2), (2, 2, 3), (3, 2, 0)];

/// Destination, first and second pattern, and the middle: from 0 in that layout, each kind with a yes and a no.
const SHUNTED: [(u32, &[u8], &[u8], Option<u32>); 8] = [
    (3, &[1], &[2], Some(2)),
    (1, &[1], &[2], None),
    (3, &[1, 1], &[2], Some(2)),
    (1, &[1, 1], &[2], None),
    (0, &[1], &[2, 2], Some(2)),
    (3, &[1], &[2, 2], None),
    (0, &[1, 1], &[2, 2], Some(2)),
    (3, &[1, 1], &[2, 2], None),
];

pub fn run(t: &mut Tester) {
    t.part = "two";
    small_layouts(t, 1, 2);
    small_layouts(t, 2, 2);
    small_layouts(t, 3, 1);
    lengths(t);
    totals_and_memory(t);
    refused_first(t);
    every_label(t);
    index_or_edges(t);
    every_middle(t);
}

pub fn round(t: &mut Tester) {
    t.part = "two";
    for _ in 0..2 {
        crowded(t);
    }
}

pub fn two(start: u32, destination: u32, first: &[u8], second: &[u8]) -> Two {
    Two { start, destination, first: first.to_vec(), second: second.to_vec() }
}

fn again(two: &Two) -> bool {
    repeats_itself(&two.first) || repeats_itself(&two.second)
}

fn lacks(record: &Record, two: &Two) -> bool {
    record.lacks(&two.first) || record.lacks(&two.second)
}

/// The reply that says yes with this middle, or no.
pub fn reply_of(middle: Option<u32>) -> (u32, u32) {
    middle.map_or((0, 0), |m| (YES, m))
}

/// By the walks of these edges.
pub fn walked(edges: &[Edge], two: &Two) -> (u32, u32) {
    reply_of(middle(edges, two.start, two.destination, &keyed(&two.first), &keyed(&two.second)))
}

/// Puts the query with work memory as it is and with as much of it zeroed: one reply, and work memory is zero after an
/// answer that a pattern which repeats itself has part in, else as found.
fn put(t: &mut Tester, record: Record, two: &Two, memory: &Memory) -> (u32, u32) {
    let zeroed = Memory { work: vec![0; memory.work.len()], ..memory.clone() };
    let replies = [memory, &zeroed].map(|lent| {
        let mut left = lent.clone();
        let reply = t.query_two(record, two, &mut left);
        let used = [0, YES].contains(&reply.0) && again(two) && !lacks(&record, two);
        let expected = if used { &zeroed.work } else { &lent.work };
        t.expect("work memory zero after a search, else as found", &left.work == expected, true);
        reply
    });
    t.expect("the same reply with work memory zeroed", replies[1], replies[0]);
    replies[0]
}

/// The library's own single queries, for every m: the lowest with two replies of yes.
fn by_singles(t: &mut Tester, record: Record, two: &Two, memory: &Memory) -> Option<u32> {
    (0..record.header[0]).find(|m| {
        t.query(record, two.start, *m, &two.first, &mut memory.clone()) == YES
            && t.query(record, *m, two.destination, &two.second, &mut memory.clone()) == YES
    })
}

/// Every query by two patterns of up to 2 labels in every layout of so many vertices and labels.
fn small_layouts(t: &mut Tester, vertices: u32, labels: u32) {
    let questions = gen::every_question(vertices, labels, 2);
    let seconds = gen::every_question(1, labels, 2);
    for edges in gen::every_layout(vertices, labels) {
        let room = determined(&edges, 2).len();
        let memory = memory_of(t, &edges, 2, edges.len(), room);
        let record = Record::counted([vertices, 2], &edges);
        for check in &questions {
            for second in &seconds {
                let two = two(check.start, check.destination, &check.pattern, &second.pattern);
                let reply = t.query_two(record, &two, &mut memory.clone());
                t.expect("a yes with the lowest middle exactly where there are walks", reply, walked(&edges, &two));
            }
        }
    }
}

/// Lengths of edge, index and work memory. They matter only if a pattern repeats itself.
fn lengths(t: &mut Tester) {
    for slots in [4, 5, 1023, 1024, 1025, 2048] {
        for room in [determined(&SHUNT, 2).len(), 40, 1024] {
            for work in [0, 1, 4095, 4096, 4097, 6000] {
                let mut memory = memory_of(t, &SHUNT, 2, slots, room);
                memory.work = t.rng.words(work);
                for (destination, first, second, middle) in SHUNTED {
                    let two = two(0, destination, first, second);
                    let expected = match (again(&two), slots, work) {
                        (true, 1025.., _) => (3, 0),
                        (true, _, 0..=4095) => (4, 0),
                        _ => reply_of(middle),
                    };
                    let reply = put(t, Record::counted([4, 2], &SHUNT), &two, &memory);
                    t.expect("a query by two patterns in memory of any length", reply, expected);
                }
            }
        }
    }
}

/// Patterns of the layout's labels and of label 8, written once and more than once.
const PATTERNS: [&[u8]; 9] = [&[1], &[2], &[8], &[2, 1], &[1, 8], &[1, 1], &[2, 2], &[8, 8], &[1, 2, 1, 2]];

/// Totals lent: right; 0 though edges stand, of all labels, of 1 and of 2; not 0 though none do; 2^32 - 1.
const LENT: [Totals; 7] = [
    [2, 2, 0, 0, 0, 0, 0, 0],
    [0; 8],
    [0, 2, 0, 0, 0, 0, 0, 1],
    [2, 0, 1, 1, 1, 1, 1, 256],
    [1, 1, 0, 0, 0, 0, 0, 1],
    [MOST; 8],
    [MOST, 65_536, 0, 0, 0, 0, 0, 0],
];

/// Every two patterns, with index and edge memory that are right and that are not, and work memory long enough and too
/// short: first a total of 0 in either decides, and leaves all as found; then 12, 3 and 4; then the walks.
fn totals_and_memory(t: &mut Tester) {
    let right = memory_of(t, &SHUNT, 4, 5, 60);
    for case in 0..LENT.len() * 2 * 3 * 3 {
        let (totals, case) = (LENT[case % LENT.len()], case / LENT.len());
        let (index_right, edges, work) = (case % 2 == 0, case / 2 % 3, [0, 4095, 4096][case / 6]);
        let mut lent = Memory { work: t.rng.words(work), ..right.clone() };
        if !index_right {
            lent.index[59] = 1; // lower than the entries before it
        }
        match edges {
            1 => lent.edges.swap(0, 1),
            2 => lent.edges.resize(EDGES + 1, 0),
            _ => {}
        }
        let record = Record { header: [4, 4], totals };
        for (first, second) in PATTERNS.iter().flat_map(|first| PATTERNS.map(|second| (*first, second))) {
            let two = two(0, t.rng.pick(&[0, 3]), first, second);
            let expected = match (lacks(&record, &two), index_right, again(&two)) {
                (true, _, _) => (0, 0),
                (_, false, _) => (12, 0),
                (_, _, true) if edges > 0 => (3, 0),
                (_, _, true) if work < 4096 => (4, 0),
                _ => walked(&SHUNT, &two),
            };
            let mut left = lent.clone();
            let reply = t.query_two(record, &two, &mut left);
            t.expect("a query by two patterns, any totals and memory", reply, expected);
            let answered = [0, YES].contains(&reply.0) && !lacks(&record, &two);
            t.expect("all as found after a total of 0 or a refusal", left == lent || answered, true);
        }
    }
}

/// 1, 2, 10, and 11 of either pattern come before a total of 0 in the other, in right memory and in noise.
fn refused_first(t: &mut Tester) {
    let trials: [(Header, u32, u32, &[u8], &[u8], u32); 18] = [
        ([0, 2], 0, 0, &[1], &[1], 1),
        ([257, 2], 0, 0, &[3], &[1, 1], 1),
        ([0, 0], 4, 0, &[], &[], 1),
        ([4, 0], 0, 0, &[1], &[1], 2),
        ([4, 5], 0, 0, &[3, 3], &[1], 2),
        ([4, 5], 4, 0, &[9], &[9], 2),
        ([4, 2], 4, 0, &[1], &[3], 10),
        ([4, 2], 0, 4, &[3], &[1], 10),
        ([4, 2], 256, 0, &[3, 3], &[1], 10),
        ([4, 2], 0, 1 << 31, &[], &[], 10),
        ([4, 2], 0, 0, &[], &[3], 11),
        ([4, 2], 0, 0, &[3], &[], 11),
        ([4, 2], 0, 0, &[1, 2, 1], &[3], 11),
        ([4, 2], 0, 0, &[3], &[1, 2, 1], 11),
        ([4, 2], 0, 0, &[3, 3, 3, 3], &[3], 11),
        ([4, 2], 0, 0, &[3, 3], &[9], 11),
        ([4, 2], 0, 0, &[0], &[3, 3], 11),
        ([4, 2], 0, 0, &[3], &[3, 255], 11),
    ];
    for (header, start, destination, first, second, number) in trials {
        let two = two(start, destination, first, second);
        for totals in [[0; 8], [1, 1, 0, 0, 0, 0, 0, 0], [0, 0, 1, 0, 0, 0, 0, 0], [1; 8]] {
            let right = memory_of(t, &SHUNT, 2, 4, 40);
            for lent in [right, gen::noise(&mut t.rng, 4, 5, 4096), Memory::default()] {
                let mut left = lent.clone();
                let reply = t.query_two(Record { header, totals }, &two, &mut left);
                t.expect("a refusal before a total of 0 and before memory is looked at", reply, (number, 0));
                t.expect("all as found after it", left == lent, true);
            }
        }
    }
}

/// One vertex with an edge of each label, so that walks run any two patterns: no total of 0, each one alone, and all.
fn every_label(t: &mut Tester) {
    let edges: Vec<Edge> = (1..=8).map(|label| (0, label, 0)).collect();
    let memory = memory_of(t, &edges, 4, 8, determined(&edges, 4).len());
    let patterns: [(&[u8], &[u8]); 6] = [
        (&[1, 2, 3, 4], &[5, 6, 7, 8]),
        (&[8, 7, 6, 5], &[4, 3, 2, 1]),
        (&[1, 2, 1, 2], &[3, 4, 5]),
        (&[6, 7, 8], &[5, 4, 5, 4]),
        (&[3, 3, 3, 3], &[6, 8, 6, 8]),
        (&[7], &[7]),
    ];
    for (first, second) in patterns {
        for zero in 0..=9 {
            let is_zero = |label: u8| zero == 9 || label as usize == zero;
            let totals = std::array::from_fn(|i| if is_zero(i as u8 + 1) { 0 } else { [1, 256, MOST][i % 3] });
            let named = first.iter().chain(second).any(|label| is_zero(*label));
            let reply = put(t, Record { header: [1, 4], totals }, &two(0, 0, first, second), &memory);
            t.expect("a query that only a total of 0 makes a no", reply, reply_of((!named).then_some(0)));
        }
    }
}

/// A pattern written once is asked of the index, one that repeats itself of the edges, whatever the other one is: with
/// an index without entries, with edge memory without edges, and with both whole.
fn index_or_edges(t: &mut Tester) {
    for (destination, first, second, middle) in SHUNTED {
        let two = two(0, destination, first, second);
        let (by_index, by_edges) = (!repeats_itself(first) || !repeats_itself(second), again(&two));
        for (entries, edges) in [(true, true), (true, false), (false, true), (false, false)] {
            let mut memory = memory_of(t, &SHUNT, 2, 4, 40);
            if !entries {
                memory.index.fill(0);
            }
            if !edges {
                memory.edges.fill(0);
            }
            let there = (entries || !by_index) && (edges || !by_edges);
            let reply = put(t, Record::counted([4, 2], &SHUNT), &two, &memory);
            t.expect("by the index or the edges, each pattern by itself", reply, reply_of(middle.filter(|_| there)));
        }
    }
}

/// Four different vertices of 256.
fn different(t: &mut Tester) -> [u32; 4] {
    loop {
        let drawn = [0; 4].map(|_| t.rng.below(256) as u32);
        if BTreeSet::from(drawn).len() == 4 {
            return drawn;
        }
    }
}

/// Makes the single query from one vertex to another a yes. If the pattern is written once, by the index: an entry in
/// the out list of the one, or in the in list of the other, or one in each that meet at the hub. Otherwise by edges
/// through the hub.
fn join(
    t: &mut Tester,
    from: u32,
    to: u32,
    hub: u32,
    pattern: &[u8],
    index: &mut BTreeSet<u64>,
    edges: &mut BTreeSet<Edge>,
) {
    let labels = keyed(pattern);
    if repeats_itself(pattern) {
        edges.extend([(from, labels[0], hub), (hub, labels[1], to)]);
        return;
    }
    let way = t.rng.below(3);
    if way != 1 {
        index.insert(entry_number(0, from, if way == 2 { hub } else { to }, &labels));
    }
    if way != 0 {
        index.insert(entry_number(1, to, if way == 2 { hub } else { from }, &labels));
    }
}

/// Each of 256 vertices as the lowest middle, by the index and by the edges. A higher vertex is a middle too, or it is
/// the same one. Of others some are reached by the first pattern alone, some lead to the destination by the second
/// alone.
fn every_middle(t: &mut Tester) {
    for m in 0..256 {
        for (first, second) in [([1, 2], [5, 6]), ([1, 1], [5, 6]), ([1, 2], [5, 5]), ([1, 1], [5, 5])] {
            let [start, destination, higher] = [0, 0, m].map(|low| t.rng.from_to(low, 255) as u32);
            let [out, out_hub, home, home_hub] = different(t);
            let (mut index, mut edges) = (BTreeSet::new(), BTreeSet::new());
            for v in [m as u32, higher, out] {
                join(t, start, v, out_hub, &first, &mut index, &mut edges);
            }
            for v in [m as u32, higher, home] {
                join(t, v, destination, home_hub, &second, &mut index, &mut edges);
            }
            let edges: Vec<Edge> = edges.into_iter().collect();
            let record = records::having(&mut t.rng, [256, 2], &edges, &[first, second].concat());
            let work = t.rng.words(4096);
            let mut memory =
                Memory { edges: gen::edge_memory(&edges, edges.len()), index: index.into_iter().collect(), work };
            let reply = t.query_two(record, &two(start, destination, &first, &second), &mut memory);
            t.expect("the lowest middle", reply, (YES, m as u32));
        }
    }
}

/// Ends and patterns of a walk in two parts, which may be written more than once; or any.
pub fn draw(t: &mut Tester, layout: &Layout, edges: &[Edge]) -> Two {
    let longest = layout.header[1] as usize;
    let (out, home) = (t.rng.from_to(1, longest), t.rng.from_to(1, longest));
    let walk = if t.rng.one_in(3) { None } else { gen::along(&mut t.rng, edges, out + home) };
    let Some(check) = walk else {
        let [first, second] = [any_pattern(t, layout), any_pattern(t, layout)];
        let (start, destination) = (gen::vertex(&mut t.rng, layout), gen::vertex(&mut t.rng, layout));
        return Two { start, destination, first, second };
    };
    let parts = check.pattern.split_at(out);
    let [first, second] = [parts.0, parts.1].map(|part| {
        let times = if t.rng.one_in(3) { longest / part.len() } else { 1 };
        part.repeat(times)
    });
    Two { start: check.start, destination: check.destination, first, second }
}

fn any_pattern(t: &mut Tester, layout: &Layout) -> Vec<u8> {
    let longest = layout.header[1] as usize;
    if longest == 1 || t.rng.one_in(2) {
        return gen::pattern(&mut t.rng, layout);
    }
    let length = t.rng.from_to(2, longest);
    gen::repeating_pattern(&mut t.rng, layout, length)
}

/// Few vertices with few or many edges, numbered from 0 or up to 255, and queries that mostly some walks answer: in the
/// memory of the edges, and in that with the index of other edges.
fn crowded(t: &mut Tester) {
    let (vertices, labels) = (t.rng.from_to(1, 6) as u32, t.rng.from_to(1, 3) as u32);
    let layout = Layout { header: [vertices, t.rng.from_to(1, 4) as u32], labels: (1..=labels).collect() };
    let first = t.rng.pick(&[0, 0, 0, 0, 256 - vertices]);
    let moved = |edges: Vec<Edge>| -> Vec<Edge> { edges.iter().map(|e| (e.0 + first, e.1, e.2 + first)).collect() };
    let [edges, others] = [0, 1].map(|_| {
        let count = t.rng.from_to(1, (2 * vertices * labels) as usize);
        gen::edges(&mut t.rng, &layout, count)
    });
    let header = if first > 0 { [256, layout.header[1]] } else { layout.header };
    let asked: Vec<Two> = (0..8).map(|_| draw(t, &layout, &edges)).collect();
    let (edges, others) = (moved(edges), moved(others));
    let memory = memory_of(t, &edges, header[1], edges.len(), determined(&edges, header[1]).len());
    let other = Memory { index: determined(&others, header[1]), ..memory.clone() };
    for mut two in asked {
        (two.start, two.destination) = (two.start + first, two.destination + first);
        let work = t.rng.pick(&[4096, 4096, 4097, 5000]);
        let lent = Memory { work: t.rng.words(work), ..memory.clone() };
        let reply = put(t, Record::counted(header, &edges), &two, &lent);
        t.expect("a yes with the lowest middle exactly where there are walks", reply, walked(&edges, &two));
        let record = records::having(&mut t.rng, header, &edges, &[&two.first[..], &two.second].concat());
        let reply = t.query_two(record, &two, &mut other.clone());
        if first == 0 && t.rng.one_in(4) {
            let singles = by_singles(t, record, &two, &other);
            t.expect("the lowest vertex with two single queries of yes", reply, reply_of(singles));
        }
    }
}

/// A query by two patterns on what a list of changes left, held to the walks of the ledger's edges; with too little
/// work memory 4, but no if no edge has one of the labels.
pub fn ask(t: &mut Tester, ground: &Ground, memory: &Memory) {
    let two = draw(t, &ground.layout, &ground.edges);
    let work = t.rng.pick(&[0, 4095, 4096, 4096, 4097, 4096 + memory.index.len()]);
    let lent = Memory { work: t.rng.words(work), ..memory.clone() };
    let short = again(&two) && work < 4096 && !lacks(&Record::counted(ground.layout.header, &ground.edges), &two);
    let expected = if short { (4, 0) } else { walked(&ground.edges, &two) };
    let reply = t.query_two(ground.record, &two, &mut lent.clone());
    t.expect("a yes with the lowest middle exactly where there are walks", reply, expected);
}
