//! Routes (document 02, Three), held to the plain check of the same question and to what a walk is: in all layouts of
//! very few vertices and labels, in small crowded ones, and in ones where many walks have as few edges. The totals of
//! the records may be any.

use crate::calls::{keyed, Check, Memory, EDGES};
use crate::compare::{Tester, YES};
use crate::gen::{self, Layout};
use crate::record::{Header, Record};
use crate::records;
use crate::reference::*;
use crate::shortest::is_walk;
use crate::trials::LAYOUT_A;

pub fn run(t: &mut Tester) {
    t.part = "routes";
    small_layouts(t, 2, 2);
    small_layouts(t, 3, 1);
    lengths(t);
    for (layers, width) in [(17, 8), (61, 4), (125, 2)] {
        for pattern in [&[1][..], &[1, 1], &[3, 8], &[1, 2, 2, 1]] {
            let (edges, check) = gen::layers(&mut t.rng, layers, width, pattern);
            ask(t, [256, 4], &check, &edges);
        }
    }
}

pub fn round(t: &mut Tester) {
    t.part = "routes";
    crowded(t);
    for _ in 0..6 {
        let most = t.rng.pick(&[9, 9, 9, 60]);
        let (layers, width) = (t.rng.from_to(2, most), t.rng.from_to(2, 4));
        let length = t.rng.pick(&[1, 1, 2, layers - 1]).min(4);
        let pattern: Vec<u8> = (0..length).map(|_| t.rng.from_to(1, 8) as u8).collect();
        let (edges, check) = gen::layers(&mut t.rng, layers, width, &pattern);
        ask(t, [256, 4], &check, &edges);
    }
}

/// Every question in every layout of so many vertices and labels, by patterns of up to 3 labels.
fn small_layouts(t: &mut Tester, vertices: u32, labels: u32) {
    let questions = gen::every_question(vertices, labels, 3);
    for edges in gen::every_layout(vertices, labels) {
        for check in &questions {
            let record = records::any(&mut t.rng, [vertices, 3], &edges);
            let edges = gen::edge_memory(&edges, edges.len());
            let mut memory = Memory { edges, ..gen::noise(&mut t.rng, 0, 0, 4096) };
            let mut walk = t.rng.short_words(10);
            t.route(record, check, &mut memory, &mut walk);
        }
    }
}

/// Lengths of edge, work and walk memory, for a route of two edges in layout A and for a no.
fn lengths(t: &mut Tester) {
    for slots in [3, 4, 1023, 1024, 1025, 2048] {
        for work in [0, 1, 4095, 4096, 4097, 6000] {
            for walk in [0, 1, 2, 3, 1024, 1025, 5000] {
                let refusal = match (slots, work) {
                    (1025.., _) => Some((3, 0)),
                    (_, 0..=4095) => Some((4, 0)),
                    _ => None,
                };
                let yes = if walk < 2 { (18, 0) } else { (YES, 2) };
                for (start, destination, answer) in [(0, 2, yes), (2, 0, (0, 0))] {
                    let edges = gen::edge_memory(&LAYOUT_A, slots);
                    let mut memory = Memory { edges, ..gen::noise(&mut t.rng, 0, 0, work) };
                    let check = Check { start, destination, pattern: vec![1], allowed: 0 };
                    let mut walk = t.rng.short_words(walk);
                    let record = records::any(&mut t.rng, [3, 2], &LAYOUT_A);
                    let reply = t.route(record, &check, &mut memory, &mut walk);
                    t.expect("a route in memory of any length", reply, refusal.unwrap_or(answer));
                }
            }
        }
    }
}

/// Few vertices with few or many edges, numbered from 0 or up to 255, and questions that mostly some walk answers.
fn crowded(t: &mut Tester) {
    let (vertices, labels) = (t.rng.from_to(1, 6) as u32, t.rng.from_to(1, 3) as u32);
    let layout = Layout { header: [vertices, t.rng.from_to(1, 4) as u32], labels: (1..=labels).collect() };
    let count = t.rng.from_to(1, (2 * vertices * labels) as usize);
    let mut edges = gen::edges(&mut t.rng, &layout, count);
    let mut header = layout.header;
    let first = t.rng.pick(&[0, 0, 256 - vertices]);
    if first > 0 {
        header[0] = 256;
        edges.iter_mut().for_each(|edge| *edge = (edge.0 + first, edge.1, edge.2 + first));
    }
    for _ in 0..12 {
        let pattern = gen::pattern(&mut t.rng, &layout);
        let start = first + t.rng.below(vertices as usize) as u32;
        let ends: Vec<u32> = spelled_ends(&edges, start, &keyed(&pattern)).into_iter().collect();
        let mut destination = first + t.rng.below(vertices as usize) as u32;
        if !ends.is_empty() && !t.rng.one_in(4) {
            destination = t.rng.pick(&ends);
        }
        ask(t, header, &Check { start, destination, pattern, allowed: 0 }, &edges);
    }
}

/// Asks in edge memory of these edges, with dirty work memory.
fn ask(t: &mut Tester, header: Header, check: &Check, edges: &[Edge]) {
    let record = records::any(&mut t.rng, header, edges);
    let slots = (edges.len() + t.rng.pick(&[0, 0, 1, 7])).min(EDGES);
    let work = t.rng.pick(&[4096, 4096, 4097, 5000]);
    let memory = Memory { edges: gen::edge_memory(edges, slots), ..gen::noise(&mut t.rng, 0, 0, work) };
    ask_in(t, record, check, &memory);
}

/// A plain check that is allowed all levels, and a route by the same question on the same memory. "The checks are the
/// plain check's", there is a walk exactly after a yes, and it has as many edges as levels were built. Returns the
/// reply.
pub fn ask_in(t: &mut Tester, record: Record, check: &Check, memory: &Memory) -> u32 {
    let all = Check { allowed: 1025, ..check.clone() };
    let (plain, levels) = t.search(record, &all, &mut memory.clone());
    let count = if plain == YES { levels as usize } else { 0 };
    let mut walk = gen::walk_memory(&mut t.rng, count);
    let (found, mut lent) = (walk.clone(), memory.clone());
    let reply = t.route(record, check, &mut lent, &mut walk);
    let expected = match plain {
        YES if walk.len() < count => (18, 0),
        YES => (YES, levels),
        number => (number, 0),
    };
    t.expect("a route as the plain check replies", reply, expected);
    let (written, behind) = walk.split_at(reply.1 as usize);
    t.expect("the slots behind the route, or all if there is none", behind, &found[written.len()..]);
    if reply.0 == YES {
        let edges = standing(&memory.edges).unwrap();
        let runs = is_walk(&edges, check.start, check.destination, &keyed(&check.pattern), written);
        t.expect("standing edges, joined, that spell the pattern", runs, true);
    }
    let zero = [0, YES, 18].contains(&reply.0);
    let left = if zero { vec![0; memory.work.len()] } else { memory.work.clone() };
    t.expect("work memory zero, or as found if refused before 18", lent.work == left, true);
    reply.0
}
