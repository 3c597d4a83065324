//! Every public call as documents 01 and 02 define it, on plain values. Each returns all refusals that apply, in the
//! call's order: the first is the reply, an empty list is acceptance. What the others are good for is the count of
//! pairs of refusals that applied at once.
//!
//! If an earlier condition applies, a later one is judged as far as it has a meaning: 7, 8, 9, 13, 17 and 18 if edge
//! memory reads as rising edges of some layout, 13 by patterns of at most 2 labels (longer ones only add
//! entries), 18 also by patterns of too many labels, and a query's 3 and 4 if its pattern is labels that repeat
//! themselves, also too many of them, and its 12, 3 and 4 unless a label of the pattern has total 0. Of a query by two
//! patterns the same is said of either pattern.

use crate::record::{Header, Record};
use crate::reference::*;
use crate::shortest::{self, Walk};
use std::collections::BTreeSet;

pub type Refusals = Vec<u32>;

pub const WORK: usize = 4096;
pub const EDGES: usize = 1024;

#[derive(Clone, Debug, Default, PartialEq)]
pub struct Memory {
    pub edges: Vec<u32>,
    pub index: Vec<u64>,
    pub work: Vec<u64>,
}

fn applying(conditions: &[(u32, bool)]) -> Refusals {
    conditions.iter().filter(|condition| condition.1).map(|condition| condition.0).collect()
}

fn bad_vertices(vertices: u32) -> bool {
    !(1..=256).contains(&vertices)
}

fn bad_longest(longest: u32) -> bool {
    !(1..=4).contains(&longest)
}

fn bad_edges(memory: &[u32], vertices: u32) -> bool {
    memory.len() > EDGES || !standing(memory).is_some_and(|edges| edges_of_layout(&edges, vertices))
}

fn bad_pattern(pattern: &[u8], longest: u32) -> bool {
    pattern.is_empty() || pattern.len() > longest as usize || !pattern.iter().all(|label| is_label(*label as u32))
}

/// The length of the minimum repeat of 1 to 4 labels 1 to 8, and how many times it was written; 0 and 0 of
/// anything else.
pub fn repeat_and_times(pattern: &[u8]) -> (u32, u32) {
    if bad_pattern(pattern, 4) {
        (0, 0)
    } else {
        (minimum_repeat(pattern).len() as u32, times_written(pattern) as u32)
    }
}

/// Labels that are their minimum repeat written more than once, however many they are.
pub fn repeats_itself(pattern: &[u8]) -> bool {
    pattern.iter().all(|label| is_label(*label as u32)) && times_written(pattern) > 1
}

/// The pattern as keyed.
pub fn keyed(pattern: &[u8]) -> Vec<u32> {
    pattern.iter().map(|label| *label as u32).collect()
}

/// `values`, then zeros.
pub fn fill<T: Copy + Default>(memory: &mut [T], values: &[T]) {
    memory.fill(T::default());
    memory[..values.len()].copy_from_slice(values);
}

/// The end that insertion, removal and card reading share: 13, or the wanted edges and their index are written.
fn settle(mut refusals: Refusals, wanted: &[Edge], longest: u32, memory: &mut Memory) -> Refusals {
    if refusals.is_empty() {
        let entries = determined(wanted, longest);
        if entries.len() > memory.index.len() {
            refusals.push(13);
        } else {
            let numbers: Vec<u32> = wanted.iter().map(|edge| edge_number(*edge)).collect();
            fill(&mut memory.edges, &numbers);
            fill(&mut memory.index, &entries);
        }
        memory.work.fill(0);
    } else if determined_entries(wanted, longest.min(2)).len() > memory.index.len() {
        refusals.push(13);
    }
    refusals
}

/// Opening. As in every changing call the record becomes what is handed back: as given if refused, else with the totals
/// of the edges that then stand, whatever they were.
pub fn open(record: &mut Record, memory: &mut Memory) -> Refusals {
    let [vertices, longest] = record.header;
    let refusals = applying(&[(1, bad_vertices(vertices)), (2, bad_longest(longest)), (3, memory.edges.len() > EDGES)]);
    if refusals.is_empty() {
        memory.edges.fill(0);
        memory.index.fill(0);
        *record = Record::counted(record.header, &[]);
    }
    refusals
}

/// Insertion (lay) or removal (lift).
pub fn change(insertion: bool, record: &mut Record, edge: Edge, memory: &mut Memory) -> Refusals {
    let [vertices, longest] = record.header;
    let mut refusals = applying(&[
        (1, bad_vertices(vertices)),
        (2, bad_longest(longest)),
        (3, bad_edges(&memory.edges, vertices)),
        (4, memory.work.len() < WORK + memory.index.len()),
        (5, edge.0 >= vertices || edge.2 >= vertices),
        (6, !is_label(edge.1)),
    ]);
    let Some(edges) = standing(&memory.edges) else { return refusals };
    let stands = edges.contains(&edge);
    if insertion {
        refusals.extend(applying(&[(7, stands), (9, memory.edges.len() < edges.len() + 1)]));
    } else {
        refusals.extend(applying(&[(8, !stands)]));
    }
    let mut wanted: BTreeSet<Edge> = edges.into_iter().collect();
    if insertion {
        wanted.insert(edge);
    } else {
        wanted.remove(&edge);
    }
    let wanted: Vec<Edge> = wanted.into_iter().collect();
    let refusals = settle(refusals, &wanted, longest, memory);
    if refusals.is_empty() {
        *record = Record::counted(record.header, &wanted);
    }
    refusals
}

/// The query (question): its refusals, and yes or no if there are none. With a label whose total is 0 it "is a no
/// without reading the index, and checks 12, 3 and 4 are skipped for it"; otherwise the full reply is given.
pub fn query(record: &Record, start: u32, destination: u32, pattern: &[u8], memory: &mut Memory) -> (Refusals, bool) {
    if record.lacks(pattern) {
        (question_checks(record.header, start, destination, pattern), false)
    } else {
        full_query(record.header, start, destination, pattern, memory)
    }
}

fn question_checks(header: Header, start: u32, destination: u32, pattern: &[u8]) -> Refusals {
    let [vertices, longest] = header;
    applying(&[
        (1, bad_vertices(vertices)),
        (2, bad_longest(longest)),
        (10, start >= vertices || destination >= vertices),
        (11, bad_pattern(pattern, longest)),
    ])
}

/// The full reply, in which totals have no part. For a pattern written once the index replies; edge and work memory are
/// not looked at. Otherwise the walks reply that spell the pattern as keyed, and work memory ends zero.
pub fn full_query(
    header: Header,
    start: u32,
    destination: u32,
    pattern: &[u8],
    memory: &mut Memory,
) -> (Refusals, bool) {
    let again = repeats_itself(pattern);
    let mut refusals = question_checks(header, start, destination, pattern);
    refusals.extend(memory_checks(header, again, memory));
    if !refusals.is_empty() {
        return (refusals, false);
    }
    if again {
        memory.work.fill(0);
    }
    (refusals, is_yes(start, destination, pattern, memory))
}

/// 12, and 3 and 4 if a pattern repeats itself.
fn memory_checks(header: Header, again: bool, memory: &Memory) -> Refusals {
    let [vertices, longest] = header;
    applying(&[
        (12, !is_index(&memory.index, vertices, longest)),
        (3, again && bad_edges(&memory.edges, vertices)),
        (4, again && memory.work.len() < WORK),
    ])
}

/// The full reply to a question that is past its checks.
fn is_yes(start: u32, destination: u32, pattern: &[u8], memory: &Memory) -> bool {
    if repeats_itself(pattern) {
        let edges = standing(&memory.edges).unwrap();
        spelled_ends(&edges, start, &keyed(pattern)).contains(&destination)
    } else {
        answer(&memory.index, start, destination, &keyed(pattern))
    }
}

/// What a query by two patterns (document 02, Five) is asked: out by the first, home by the second.
#[derive(Clone, Debug)]
pub struct Two {
    pub start: u32,
    pub destination: u32,
    pub first: Vec<u8>,
    pub second: Vec<u8>,
}

/// The vertices m for which the single question from the start to m by the first pattern would be a yes, and those for
/// which the one from m to the destination by the second would be. Both rise.
#[derive(Clone, Debug, Default, PartialEq)]
pub struct Middles {
    pub out: Vec<u32>,
    pub home: Vec<u32>,
}

impl Middles {
    /// "m counts where the two single questions, from the start to m and from m to the destination, would both be a
    /// yes."
    pub fn counting(&self) -> Vec<u32> {
        self.out.iter().copied().filter(|m| self.home.contains(m)).collect()
    }

    /// "The lowest such m is given with the yes."
    pub fn lowest(&self) -> Option<u32> {
        self.counting().first().copied()
    }
}

/// The query by two patterns: its refusals, and the middles, none if there are refusals or a total is 0. "Checks are
/// those of two questions, the first pattern's 11 before the second's. A colour of total 0 in either pattern is then a
/// no; else 12 follows, and 3 and 4 if either pattern repeats itself." With these checks past, and m a vertex, neither
/// single question would be refused.
pub fn query_two(record: &Record, two: &Two, memory: &mut Memory) -> (Refusals, Middles) {
    let mut refusals = two_checks(record.header, two);
    if record.lacks(&two.first) || record.lacks(&two.second) {
        return (refusals, Middles::default());
    }
    let again = repeats_itself(&two.first) || repeats_itself(&two.second);
    refusals.extend(memory_checks(record.header, again, memory));
    if !refusals.is_empty() {
        return (refusals, Middles::default());
    }
    if again {
        memory.work.fill(0);
    }
    let vertices = 0..record.header[0];
    let out = vertices.clone().filter(|m| is_yes(two.start, *m, &two.first, memory)).collect();
    let home = vertices.filter(|m| is_yes(*m, two.destination, &two.second, memory)).collect();
    (refusals, Middles { out, home })
}

/// 11 once, if it applies to either pattern.
fn two_checks(header: Header, two: &Two) -> Refusals {
    let mut refusals = question_checks(header, two.start, two.destination, &two.first);
    let of_second = question_checks(header, two.start, two.destination, &two.second);
    refusals.extend(of_second.into_iter().filter(|number| *number == 11));
    refusals.dedup();
    refusals
}

/// What a plain check is asked. A route is asked the same; its allowance has no meaning.
#[derive(Clone, Debug)]
pub struct Check {
    pub start: u32,
    pub destination: u32,
    pub pattern: Vec<u8>,
    pub allowed: u32,
}

fn plain_checks(header: Header, check: &Check, edges: &[u32], work: &[u64]) -> Refusals {
    let [vertices, longest] = header;
    applying(&[
        (1, bad_vertices(vertices)),
        (2, bad_longest(longest)),
        (3, bad_edges(edges, vertices)),
        (4, work.len() < WORK),
        (10, check.start >= vertices || check.destination >= vertices),
        (11, bad_pattern(&check.pattern, longest)),
    ])
}

/// The level search (plain check): its refusals, and what it found if there are none. Totals play no part, here and in
/// the route.
pub fn search(header: Header, check: &Check, edges: &[u32], work: &mut [u64]) -> (Refusals, Found) {
    let refusals = plain_checks(header, check, edges, work);
    if !refusals.is_empty() {
        return (refusals, Found::No(0));
    }
    work.fill(0);
    let edges = standing(edges).unwrap();
    (refusals, levels(&edges, check.start, check.destination, &keyed(&check.pattern), check.allowed))
}

/// The route in this edge memory, if it reads as edges of some layout and a walk runs the pattern; otherwise empty.
fn route_in(check: &Check, edges: &[u32]) -> Walk {
    let edges = standing(edges).filter(|_| !check.pattern.is_empty()).unwrap_or_default();
    shortest::route(&edges, check.start, check.destination, &keyed(&check.pattern)).unwrap_or_default()
}

/// The route: its refusals, and its edges, empty for a no. "The checks are the plain check's"; then 18, "walk memory
/// shorter than that walk, checked last; it leaves work memory zero".
pub fn route(header: Header, check: &Check, edges: &[u32], walk: &mut [u32], work: &mut [u64]) -> (Refusals, Walk) {
    let mut refusals = plain_checks(header, check, edges, work);
    if refusals.is_empty() {
        work.fill(0);
    }
    let route = route_in(check, edges);
    if walk.len() < route.len() {
        refusals.push(18);
    }
    if refusals.is_empty() {
        walk[..route.len()].copy_from_slice(&route);
    }
    (refusals, route)
}

/// The layout card of a header and edges.
pub fn card_of(header: Header, edges: &[Edge]) -> Vec<u8> {
    let mut card = b"PRC\x00\x01".to_vec();
    card.push((header[0] - 1) as u8);
    card.push(header[1] as u8);
    card.extend((edges.len() as u16).to_be_bytes());
    edges.iter().for_each(|edge| card.extend([edge.0 as u8, edge.1 as u8, edge.2 as u8]));
    card
}

/// How many edges a card claims to have, and those of them that are there.
pub fn card_edges(card: &[u8]) -> (usize, Vec<Edge>) {
    let claimed = card.get(7..9).map_or(0, |bytes| bytes[0] as usize * 256 + bytes[1] as usize);
    let triples = card.get(9..).unwrap_or(&[]).chunks_exact(3).take(claimed);
    (claimed, triples.map(|bytes| (bytes[0] as u32, bytes[1] as u32, bytes[2] as u32)).collect())
}

/// Card reading: its refusals, and the card's record, with the totals of its edges, if there are none.
pub fn read_card(card: &[u8], memory: &mut Memory) -> (Refusals, Option<Record>) {
    let vertices = card.get(5).map_or(0, |byte| *byte as u32 + 1);
    let longest = card.get(6).map_or(0, |byte| *byte as u32);
    let (claimed, edges) = card_edges(card);
    let refusals = applying(&[
        (14, card.len() < 9 || &card[..3] != b"PRC"),
        (15, card.get(3..5).is_some_and(|version| version != [0, 1])),
        (2, card.len() > 6 && bad_longest(longest)),
        (16, card.len() != 9 + 3 * claimed || !rising(&edges) || !edges_of_layout(&edges, vertices)),
        (3, memory.edges.len() > EDGES),
        (9, memory.edges.len() < claimed),
        (4, memory.work.len() < WORK + memory.index.len()),
    ]);
    let refusals = settle(refusals, &edges, longest, memory);
    let record = refusals.is_empty().then_some(Record::counted([vertices, longest], &edges));
    (refusals, record)
}

/// Card writing: its refusals, and the card's length if there are none.
pub fn write_card(header: Header, edges: &[u32], output: &mut [u8]) -> (Refusals, usize) {
    let standing = standing(edges).unwrap_or_default();
    let length = 9 + 3 * standing.len();
    let refusals = applying(&[
        (1, bad_vertices(header[0])),
        (2, bad_longest(header[1])),
        (3, bad_edges(edges, header[0])),
        (17, output.len() < length),
    ]);
    if refusals.is_empty() {
        output[..length].copy_from_slice(&card_of(header, &standing));
    }
    (refusals, length)
}
