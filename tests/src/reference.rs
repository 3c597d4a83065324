//! The definitions of documents 01 and 02, as plainly as they say them. Nothing here is fast or clever: which
//! entries an index has is found by testing the stops of all walks, pattern by pattern.
//!
//! Words: a vertex is document 01's place, an edge its leg, a label its colour.

use std::cmp::Reverse;
use std::collections::{BTreeMap, BTreeSet};

/// An edge as a call names it: from, label, to. Any numbers, checked by the calls.
pub type Edge = (u32, u32, u32);

/// from × 4,096 + label × 256 + to, for an edge with ends below 256 and a label of 1 to 8.
pub fn edge_number(edge: Edge) -> u32 {
    edge.0 * 4096 + edge.1 * 256 + edge.2
}

pub fn edge_of(number: u32) -> Edge {
    (number / 4096, number / 256 % 16, number % 256)
}

pub fn is_label(label: u32) -> bool {
    (1..=8).contains(&label)
}

/// The edges of a layout of `vertices` vertices?
pub fn edges_of_layout(edges: &[Edge], vertices: u32) -> bool {
    edges.iter().all(|e| e.0 < vertices && is_label(e.1) && e.2 < vertices)
}

pub fn rising<T: PartialOrd>(list: &[T]) -> bool {
    list.windows(2).all(|pair| pair[0] < pair[1])
}

/// Edge memory read as edges of the largest layout, strictly rising, then zeros; None if it is not that.
pub fn standing(memory: &[u32]) -> Option<Vec<Edge>> {
    let count = memory.iter().position(|slot| *slot == 0).unwrap_or(memory.len());
    let (filled, rest) = memory.split_at(count);
    let edges: Vec<Edge> = filled.iter().map(|slot| edge_of(*slot)).collect();
    let right = rising(filled) && rest.iter().all(|slot| *slot == 0) && edges_of_layout(&edges, 256);
    right.then_some(edges)
}

/// Document 02, Four: how many edges have label 1, label 2, .. label 8.
pub type Totals = [u32; 8];

/// The totals of these edges, each label counted by itself.
pub fn totals(edges: &[Edge]) -> Totals {
    std::array::from_fn(|i| edges.iter().filter(|edge| edge.1 == i as u32 + 1).count() as u32)
}

/// The shortest pattern which, written some whole number of times, gives this one.
pub fn minimum_repeat<T: PartialEq + Clone>(pattern: &[T]) -> Vec<T> {
    let gives =
        |length: &usize| pattern.len() % length == 0 && pattern.chunks(*length).all(|part| part == &pattern[..*length]);
    let length = (1..=pattern.len()).find(gives).unwrap_or(0);
    pattern[..length].to_vec()
}

/// Document 02, Two: how many times the minimum repeat was written to give this pattern.
pub fn times_written<T: PartialEq + Copy>(pattern: &[T]) -> usize {
    let repeat = minimum_repeat(pattern);
    (1..=pattern.len()).find(|times| repeat.repeat(*times) == pattern).unwrap_or(0)
}

pub fn is_own_repeat<T: PartialEq + Clone>(pattern: &[T]) -> bool {
    minimum_repeat(pattern).len() == pattern.len()
}

/// Every pattern of 1 to `longest` of these labels that is its own minimum repeat.
pub fn patterns(labels: &[u32], longest: u32) -> Vec<Vec<u32>> {
    let mut all = Vec::new();
    let mut last: Vec<Vec<u32>> = vec![vec![]];
    for _ in 0..longest {
        last = last
            .iter()
            .flat_map(|shorter| labels.iter().map(move |label| [&shorter[..], &[*label]].concat()))
            .collect();
        all.extend(last.iter().filter(|pattern| is_own_repeat(pattern)).cloned());
    }
    all
}

/// Document 02, One: the patterns of one to four labels, shorter patterns first and then by code.
pub fn table_patterns() -> Vec<Vec<u32>> {
    let mut patterns: Vec<Vec<u32>> = (1..=0x8888).filter_map(pattern_of_code).filter(|l| l.len() <= 4).collect();
    patterns.sort_by_key(|pattern| pattern.len());
    patterns
}

/// The vertices with an edge, by (edges out + 1) × (edges in + 1), largest first, lower vertex first among equals.
/// (A vertex without an edge is no stop of any walk.)
pub fn access_order(edges: &[Edge]) -> Vec<u32> {
    let mut degrees: BTreeMap<u32, (u64, u64)> = BTreeMap::new();
    for &(from, _, to) in edges {
        degrees.entry(from).or_default().0 += 1;
        degrees.entry(to).or_default().1 += 1;
    }
    let mut order: Vec<u32> = degrees.keys().copied().collect();
    order.sort_by_key(|v| (Reverse((degrees[v].0 + 1) * (degrees[v].1 + 1)), *v));
    order
}

/// For each label and each vertex, the vertices that its edges of that label lead to.
pub struct Graph {
    vertices: usize,
    next: BTreeMap<u32, Vec<Vec<usize>>>,
}

impl Graph {
    /// The vertices are given as positions in `names`.
    pub fn new(edges: &[Edge], names: &[u32]) -> Graph {
        let place: BTreeMap<u32, usize> = names.iter().enumerate().map(|(i, v)| (*v, i)).collect();
        let mut next: BTreeMap<u32, Vec<Vec<usize>>> = BTreeMap::new();
        for (from, label, to) in edges {
            let row = next.entry(*label).or_insert_with(|| vec![vec![]; names.len()]);
            row[place[from]].push(place[to]);
        }
        Graph { vertices: names.len(), next }
    }

    /// The vertices that a walk running the pattern joins `start` to, one edge or more: reachability in the graph of
    /// (vertex, labels used so far modulo the pattern's length).
    pub fn run_from(&self, start: usize, pattern: &[u32]) -> Vec<usize> {
        if self.next.get(&pattern[0]).is_none_or(|rows| rows[start].is_empty()) {
            return vec![]; // no first edge
        }
        let mut seen = vec![false; self.vertices * pattern.len()];
        let mut open = vec![(start, 0)];
        while let Some((vertex, used)) = open.pop() {
            let Some(rows) = self.next.get(&pattern[used]) else { continue };
            let then = (used + 1) % pattern.len();
            for to in &rows[vertex] {
                if !seen[then * self.vertices + to] {
                    seen[then * self.vertices + to] = true;
                    open.push((*to, then));
                }
            }
        }
        (0..self.vertices).filter(|v| seen[*v]).collect()
    }
}

/// Does a walk from `start` to `destination` run the pattern?
pub fn runs(edges: &[Edge], start: u32, destination: u32, pattern: &[u32]) -> bool {
    let names = access_order(edges);
    let place = |vertex: u32| names.iter().position(|v| *v == vertex);
    match (place(start), place(destination)) {
        (Some(s), Some(t)) => Graph::new(edges, &names).run_from(s, pattern).contains(&t),
        _ => false,
    }
}

/// Where the walks end that start at one of these vertices and spell the pattern once.
fn spelled_once(edges: &[Edge], starts: &BTreeSet<u32>, pattern: &[u32]) -> BTreeSet<u32> {
    pattern.iter().fold(starts.clone(), |at, label| {
        edges.iter().filter(|edge| at.contains(&edge.0) && edge.1 == *label).map(|edge| edge.2).collect()
    })
}

/// Where the walks from `start` end that spell the pattern itself one or more whole times: once from `start`, then once
/// more from wherever one ended, until no vertex is new.
pub fn spelled_ends(edges: &[Edge], start: u32, pattern: &[u32]) -> BTreeSet<u32> {
    let mut ends = spelled_once(edges, &BTreeSet::from([start]), pattern);
    loop {
        let before = ends.len();
        ends.extend(spelled_once(edges, &ends, pattern));
        if ends.len() == before {
            return ends;
        }
    }
}

/// Document 02, Five: the lowest m with "a walk from the start running the first pattern and a walk from m to the
/// destination running the second, each at least one whole time".
pub fn middle(edges: &[Edge], start: u32, destination: u32, first: &[u32], second: &[u32]) -> Option<u32> {
    spelled_ends(edges, start, first).into_iter().find(|m| spelled_ends(edges, *m, second).contains(&destination))
}

/// side × 2^32 + owner × 2^24 + hub × 2^16 + code; the code's hexadecimal digits are the labels.
pub fn entry_number(side: u64, owner: u32, hub: u32, pattern: &[u32]) -> u64 {
    let code = pattern.iter().fold(0, |code, label| code * 16 + *label as u64);
    (side << 32) + ((owner as u64) << 24) + ((hub as u64) << 16) + code
}

/// An entry before it is written as a number: side, owner, hub, pattern.
pub type Entry = (u64, u32, u32, Vec<u32>);

/// The entries that these edges determine. For every pattern of at most `longest` labels that is its own
/// minimum repeat and every s and t joined by a walk running it, u is the earliest among all stops of all such
/// walks: s, t, and every x with such a walk from s to x and one from x to t. u is t: out entry; u is s and
/// not t: in entry.
pub fn determined_entries(edges: &[Edge], longest: u32) -> Vec<Entry> {
    // A vertex is its position in access order here: the earliest is the least.
    let names = access_order(edges);
    let graph = Graph::new(edges, &names);
    let labels: Vec<u32> = graph.next.keys().copied().collect();
    let mut entries = Vec::new();
    for pattern in patterns(&labels, longest) {
        let ends: Vec<Vec<usize>> = (0..names.len()).map(|s| graph.run_from(s, &pattern)).collect();
        let mut joined = vec![false; names.len() * names.len()];
        for (s, ends_of_s) in ends.iter().enumerate() {
            ends_of_s.iter().for_each(|t| joined[s * names.len() + t] = true);
        }
        for (s, ends_of_s) in ends.iter().enumerate() {
            for &t in ends_of_s {
                let between = |x: &usize| joined[s * names.len() + x] && joined[x * names.len() + t];
                let earlier_than_both = (0..s.min(t)).any(|x| between(&x));
                if earlier_than_both {
                    continue;
                }
                if t <= s {
                    entries.push((0, names[s], names[t], pattern.clone()));
                } else {
                    entries.push((1, names[t], names[s], pattern.clone()));
                }
            }
        }
    }
    entries
}

/// The determined entries as numbers, rising.
pub fn determined(edges: &[Edge], longest: u32) -> Vec<u64> {
    let mut numbers: Vec<u64> = determined_entries(edges, longest)
        .iter()
        .map(|(side, owner, hub, l)| entry_number(*side, *owner, *hub, l))
        .collect();
    numbers.sort();
    numbers
}

/// The pattern that a code's hexadecimal digits spell, if each is a label.
pub fn pattern_of_code(code: u64) -> Option<Vec<u32>> {
    let digits: Vec<u32> = format!("{code:x}").chars().map(|digit| digit.to_digit(16).unwrap()).collect();
    digits.iter().all(|digit| is_label(*digit)).then_some(digits)
}

/// Rising entries of a layout with this header, then zeros?
pub fn is_index(memory: &[u64], vertices: u32, longest: u32) -> bool {
    let count = memory.iter().position(|slot| *slot == 0).unwrap_or(memory.len());
    let (filled, rest) = memory.split_at(count);
    let entry = |slot: &u64| {
        let (side, owner, hub, code) = (slot >> 32, slot >> 24 & 255, slot >> 16 & 255, slot & 0xFFFF);
        let of_vertices = owner < vertices as u64 && hub < vertices as u64;
        let own = pattern_of_code(code).is_some_and(|l| l.len() <= longest as usize && is_own_repeat(&l));
        side <= 1 && of_vertices && own
    };
    rising(filled) && rest.iter().all(|slot| *slot == 0) && filled.iter().all(entry)
}

/// The question by a pattern written once: the out list of s has (t, L), or the in list of t has (s, L), or some hub
/// stands with L in both.
pub fn answer(index: &[u64], start: u32, destination: u32, pattern: &[u32]) -> bool {
    let list = |side: u64, owner: u32| -> BTreeSet<u64> {
        let of_list = |slot: &&u64| **slot != 0 && **slot >> 24 == (side << 8) + owner as u64;
        index.iter().filter(of_list).map(|slot| slot & 0xFF_FFFF).collect()
    };
    let (out, in_) = (list(0, start), list(1, destination));
    let entry = |hub: u32| entry_number(0, 0, hub, pattern);
    out.contains(&entry(destination))
        || in_.contains(&entry(start))
        || (0..256).any(|hub| out.contains(&entry(hub)) && in_.contains(&entry(hub)))
}

#[derive(Debug, PartialEq, Clone, Copy)]
pub enum Found {
    Yes(u32),
    No(u32),
    Spent(u32),
}

/// The plain check of this pattern, which is not folded: level after level, as many as are allowed.
pub fn levels(edges: &[Edge], start: u32, destination: u32, pattern: &[u32], allowed: u32) -> Found {
    let mut seen = BTreeSet::new(); // every pair in levels 1 to `built`
    let mut level = BTreeSet::from([(start, 0)]);
    for built in 1..=allowed {
        let mut next = BTreeSet::new();
        for &(vertex, used) in &level {
            for &(from, label, to) in edges {
                let pair = (to, (used + 1) % pattern.len());
                if from == vertex && label == pattern[used] && !seen.contains(&pair) {
                    next.insert(pair);
                }
            }
        }
        if next.contains(&(destination, 0)) {
            return Found::Yes(built);
        }
        if next.is_empty() {
            return Found::No(built);
        }
        seen.extend(next.iter().copied());
        level = next;
    }
    Found::Spent(allowed)
}
