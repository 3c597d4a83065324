//! Random layouts, memories and arguments, right ones and wrong ones.

use crate::calls::{fill, Check, Memory, EDGES, WORK};
use crate::record::Header;
use crate::reference::*;
use crate::rng::Rng;
use std::collections::BTreeSet;

/// A small layout to draw edges from.
#[derive(Clone)]
pub struct Layout {
    pub header: Header,
    pub labels: Vec<u32>,
}

/// Up to 20 vertices (now and then numbered up to 255), k 1 to 4, mostly up to 4 of the labels.
pub fn layout(rng: &mut Rng) -> Layout {
    let vertices = if rng.one_in(8) { 256 } else { rng.from_to(1, 20) as u32 };
    let count = if rng.one_in(12) { 8 } else { rng.from_to(1, 4) };
    let mut labels: Vec<u32> = (1..=8).collect();
    while labels.len() > count {
        labels.remove(rng.below(labels.len()));
    }
    Layout { header: [vertices, rng.from_to(1, 4) as u32], labels }
}

/// A vertex, one of about 20 near the low and high ends.
pub fn vertex(rng: &mut Rng, layout: &Layout) -> u32 {
    let vertex = rng.below(layout.header[0].min(16) as usize) as u32;
    if rng.one_in(4) {
        layout.header[0] - 1 - vertex
    } else {
        vertex
    }
}

pub fn edge(rng: &mut Rng, layout: &Layout) -> Edge {
    (vertex(rng, layout), rng.pick(&layout.labels), vertex(rng, layout))
}

/// At most `count` edges, all different.
pub fn edges(rng: &mut Rng, layout: &Layout, count: usize) -> Vec<Edge> {
    let edges: BTreeSet<Edge> = (0..count).map(|_| edge(rng, layout)).collect();
    edges.into_iter().collect()
}

/// `count` different edges of 256 vertices and 8 labels, rising.
pub fn many_edges(rng: &mut Rng, count: usize) -> Vec<Edge> {
    let mut edges = BTreeSet::new();
    while edges.len() < count {
        edges.insert((rng.below(256) as u32, rng.from_to(1, 8) as u32, rng.below(256) as u32));
    }
    edges.into_iter().collect()
}

pub fn edge_memory(edges: &[Edge], slots: usize) -> Vec<u32> {
    let numbers: Vec<u32> = edges.iter().map(|edge| edge_number(*edge)).collect();
    let mut memory = vec![0; slots];
    fill(&mut memory, &numbers);
    memory
}

/// A length of work memory that is enough for an index of this many slots, mostly just enough.
pub fn enough_work(rng: &mut Rng, index: usize) -> usize {
    WORK + index + rng.pick(&[0, 0, 0, 1, 7])
}

/// A length of work memory that is too short.
pub fn short_work(rng: &mut Rng, index: usize) -> usize {
    let any = rng.below(WORK + index);
    rng.pick(&[0, 1, 4095, WORK + index - 1, WORK + index - 1, any])
}

pub fn noise(rng: &mut Rng, edges: usize, index: usize, work: usize) -> Memory {
    Memory { edges: rng.short_words(edges), index: rng.words(index), work: rng.words(work) }
}

/// A pattern of 1 to k labels of the layout.
pub fn pattern(rng: &mut Rng, layout: &Layout) -> Vec<u8> {
    let length = rng.from_to(1, layout.header[1].min(4) as usize);
    (0..length).map(|_| rng.pick(&layout.labels) as u8).collect()
}

/// So many labels of the layout, 2 or more, that repeat themselves: some first ones, written more than once.
pub fn repeating_pattern(rng: &mut Rng, layout: &Layout, length: usize) -> Vec<u8> {
    let fronts: Vec<usize> = (1..length).filter(|front| length % front == 0).collect();
    let front: Vec<u8> = (0..rng.pick(&fronts)).map(|_| rng.pick(&layout.labels) as u8).collect();
    front.repeat(length / front.len())
}

/// a a, a b a b, a a a, a a a a and a b a of the layout's labels, as far as k allows them.
pub fn shapes(rng: &mut Rng, layout: &Layout) -> Vec<Vec<u8>> {
    let a = rng.pick(&layout.labels);
    let others: Vec<u32> = layout.labels.iter().copied().filter(|label| *label != a).collect();
    let b = if others.is_empty() { a } else { rng.pick(&others) };
    let (a, b) = (a as u8, b as u8);
    let mut shapes = vec![vec![a, a], vec![a, b, a, b], vec![a, a, a], vec![a, a, a, a], vec![a, b, a]];
    shapes.retain(|shape| shape.len() <= layout.header[1] as usize);
    shapes
}

/// A pattern that 11 refuses.
pub fn bad_pattern(rng: &mut Rng, layout: &Layout) -> Vec<u8> {
    let mut pattern = pattern(rng, layout);
    match rng.below(3) {
        0 => pattern.clear(),
        1 => pattern.resize(layout.header[1].min(4) as usize + rng.pick(&[1, 2, 9, 300]), pattern[0]),
        _ => {
            let i = rng.below(pattern.len());
            pattern[i] = no_label(rng) as u8;
        }
    }
    pattern
}

/// The question that a walk of so many edges answers, if this one comes so far; its pattern is the walk's labels.
pub fn along(rng: &mut Rng, edges: &[Edge], count: usize) -> Option<Check> {
    let mut walk: Vec<Edge> = Vec::new();
    while walk.len() < count {
        let at = walk.last().map(|edge| edge.2);
        let next: Vec<Edge> = edges.iter().copied().filter(|edge| at.is_none_or(|at| edge.0 == at)).collect();
        if next.is_empty() {
            return None;
        }
        walk.push(rng.pick(&next));
    }
    let (start, destination) = (walk[0].0, walk[count - 1].2);
    Some(Check { start, destination, pattern: walk.iter().map(|edge| edge.1 as u8).collect(), allowed: 0 })
}

/// Walk memory for a route of so many edges, full of noise: exact, one slot short, of no slots, longer, or any.
pub fn walk_memory(rng: &mut Rng, count: usize) -> Vec<u32> {
    let short = rng.below(count.max(1));
    let slots = rng.pick(&[count, count, count.saturating_sub(1), 0, short, count + 1, count + 9, EDGES]);
    rng.short_words(slots)
}

/// Every layout of so many vertices and labels: all sets of edges.
pub fn every_layout(vertices: u32, labels: u32) -> Vec<Vec<Edge>> {
    let mut sets: Vec<Vec<Edge>> = vec![vec![]];
    for from in 0..vertices {
        for (label, to) in (1..=labels).flat_map(|label| (0..vertices).map(move |to| (label, to))) {
            let with: Vec<Vec<Edge>> = sets.iter().map(|set| [&set[..], &[(from, label, to)]].concat()).collect();
            sets.extend(with);
        }
    }
    sets
}

/// Every question in so many vertices by 1 to `longest` of so many labels.
pub fn every_question(vertices: u32, labels: u32, longest: usize) -> Vec<Check> {
    let fits = |pattern: &Vec<u32>| pattern.len() <= longest && pattern.iter().all(|label| *label <= labels);
    let mut questions = Vec::new();
    for pattern in table_patterns().into_iter().filter(fits) {
        let pattern: Vec<u8> = pattern.iter().map(|label| *label as u8).collect();
        for (start, destination) in (0..vertices).flat_map(|start| (0..vertices).map(move |end| (start, end))) {
            questions.push(Check { start, destination, pattern: pattern.clone(), allowed: 0 });
        }
    }
    questions
}

/// Layers of vertices, numbered in any order, and a question from the first layer to the last: most vertices of a layer
/// have an edge to most of the next, with the label that the pattern then asks for. So many walks have the fewest
/// edges, which are some whole patterns.
pub fn layers(rng: &mut Rng, layers: usize, width: usize, pattern: &[u8]) -> (Vec<Edge>, Check) {
    let mut names: Vec<u32> = (0..256).collect();
    (0..256).for_each(|i| names.swap(i, rng.from_to(i, 255)));
    let mut edges = BTreeSet::new();
    for i in 0..(layers - 1) * width {
        let next = (i / width + 1) * width;
        let label = pattern[i / width % pattern.len()] as u32;
        let to: Vec<usize> = (next..next + width).filter(|_| !rng.one_in(3)).collect();
        edges.extend(to.iter().map(|to| (names[i], label, names[*to])));
    }
    let (start, destination) = (names[0], names[(layers - 1) * width]);
    (edges.into_iter().collect(), Check { start, destination, pattern: pattern.to_vec(), allowed: 0 })
}

pub fn no_vertex(rng: &mut Rng, vertices: u32) -> u32 {
    let more = rng.below(256) as u32;
    rng.pick(&[
        vertices,
        vertices.saturating_add(1),
        vertices.saturating_add(more),
        256,
        256 + more,
        4096 + more,
        65536 + more,
        1 << 31,
        u32::MAX,
    ])
    .max(vertices)
}

/// Not 1 to 8, also when cut to a byte.
pub fn no_label(rng: &mut Rng) -> u32 {
    rng.pick(&[0, 9, 10, 15, 16, 255])
}

/// Not 1 to 8, though perhaps a label when cut to a byte or to a hexadecimal digit.
pub fn no_wide_label(rng: &mut Rng) -> u32 {
    let label = rng.from_to(1, 8) as u32;
    rng.pick(&[0, 9, 15, 16, 16 + label, 256, 256 + label, 65536 + label, u32::MAX])
}

pub fn no_vertices(rng: &mut Rng) -> u32 {
    let more = rng.below(256) as u32;
    rng.pick(&[0, 0, 257, 257, 256 + more + 1, 512, 65536 + more, u32::MAX])
}

pub fn no_longest(rng: &mut Rng) -> u32 {
    rng.pick(&[0, 5, 5, 6, 256, 257, 260, 65537, u32::MAX])
}

/// Rising entries of the layout, not those that any edges determine.
pub fn any_index(rng: &mut Rng, layout: &Layout, count: usize) -> Vec<u64> {
    let mut entries = BTreeSet::new();
    for _ in 0..count {
        let labels: Vec<u32> = pattern(rng, layout).iter().map(|label| *label as u32).collect();
        let pattern = minimum_repeat(&labels);
        entries.insert(entry_number(rng.below(2) as u64, vertex(rng, layout), vertex(rng, layout), &pattern));
    }
    entries.into_iter().collect()
}

/// Edge and work memory as no call leaves them, which a question by a pattern written once does not look at: noise in
/// few or too many slots, or no slots, and mostly too little work memory.
pub fn dirty(rng: &mut Rng, index: &[u64]) -> Memory {
    let (slots, any) = (rng.pick(&[0, 0, 1, 7, 1024, 1025, 2048]), rng.below(WORK));
    let work = rng.pick(&[0, 0, 1, any, WORK - 1, WORK]);
    Memory { index: index.to_vec(), ..noise(rng, slots, 0, work) }
}

/// Changes edge memory, mostly so that 3 refuses it.
pub fn damage_edges(rng: &mut Rng, vertices: u32, memory: &mut Vec<u32>) {
    if memory.is_empty() || rng.one_in(10) {
        let slot = rng.next() as u32;
        memory.push(slot);
        return;
    }
    let filled = memory.iter().filter(|slot| **slot != 0).count().max(1);
    let i = rng.below(filled);
    let (from, label, to) = edge_of(memory[i]);
    let last = memory.len() - 1;
    match rng.below(9) {
        0 => memory.swap(i, rng.below(filled)),
        1 => memory[i] = memory[rng.below(filled)],
        2 => memory[i] = 0,
        3 => memory[i] ^= 1 << rng.below(32),
        4 => memory[i] = from * 4096 + rng.pick(&[0, 9, 10, 15]) * 256 + to,
        5 => memory[i] = (from % 256) * 4096 + label * 256 + no_vertex(rng, vertices) % 256,
        6 => memory[i] = (no_vertex(rng, vertices) % 1024) * 4096 + label * 256 + to,
        7 => memory[last] = rng.next() as u32,
        _ => memory[last] = edge_number((0, 1, 0)),
    }
}

/// Changes index memory, mostly so that 12 refuses it.
pub fn damage_index(rng: &mut Rng, header: Header, memory: &mut Vec<u64>) {
    if memory.is_empty() || rng.one_in(10) {
        let slot = rng.next() >> rng.below(40);
        memory.push(slot);
        return;
    }
    let filled = memory.iter().filter(|slot| **slot != 0).count().max(1);
    let i = rng.below(filled);
    let last = memory.len() - 1;
    let wrong_code = rng.pick(&[
        0, 0x11, 0x88, 0x111, 0x222, 0x1212, 0x1111, 0x3434, 0x10, 0x101, 0x9, 0xF, 0x19, 0x91, 0xA1, 0x1231, 0x12,
        0x123,
    ]);
    let wrong_vertex = (no_vertex(rng, header[0]) % 256) as u64;
    match rng.below(10) {
        0 => memory.swap(i, rng.below(filled)),
        1 => memory[i] = memory[rng.below(filled)],
        2 => memory[i] = 0,
        3 => memory[i] ^= 1 << rng.below(64),
        4 => memory[i] = memory[i] >> 16 << 16 | wrong_code,
        5 => memory[i] = memory[i] & !(255 << 16) | wrong_vertex << 16,
        6 => memory[i] = memory[i] & !(255 << 24) | wrong_vertex << 24,
        7 => memory[filled - 1] |= rng.pick(&[2, 4, 128, 1 << 31]) << 32,
        8 => memory[last] = rng.next() >> rng.below(40),
        _ => memory[last] = 1,
    }
}
