//! Null pointers: every slice of every function lent with no elements, by a valid pointer and by a null one. Both give
//! the reply of the table below and of the second implementation, and leave everything else as that does.

use crate::calls::{card_of, Check, Memory, Two};
use crate::compare::{Tester, SPENT, YES};
use crate::gen::edge_memory;
use crate::lent::Lent;
use crate::library::*;
use crate::record::Record;
use crate::reference::Edge;
use crate::trials::{CARD_A, LAYOUT_A, SLOTS_A};
use std::collections::BTreeSet;

/// What the calls are made with, unless its slice has no elements.
#[derive(Clone)]
struct Given {
    record: Vec<u32>,
    edge: Edge,
    check: Check,
    /// The second pattern of two; the first is the check's.
    second: Vec<u8>,
    memory: Memory,
    walk: Vec<u32>,
    card: Vec<u8>,
    output: Vec<u8>,
}

/// Function, slices that have no elements, what else is changed, reply.
type Case = (&'static str, &'static [&'static str], fn(&mut Given), u64);

const Y: u64 = YES as u64;
/// The reply of a 64-bit reply.
const WIDE: u64 = 1 << 32;

#[rustfmt::skip]
const CASES: &[Case] = &[
    ("open", &["record"], in_a, 255),
    ("open", &["edges"], in_a, 0),
    ("open", &["edges"], no_vertices, 1),
    ("open", &["index"], in_a, 0),
    ("open", &["index"], no_vertices, 1),
    ("open", &["edges", "index"], in_a, 0),
    ("open", &["edges", "index"], no_vertices, 1),
    ("open", &["record", "edges", "index"], in_a, 255),

    ("insert", &["record"], in_a, 255),
    ("insert", &["edges"], in_a, 9),
    ("insert", &["edges"], bare, 9),
    ("insert", &["index"], in_a, 13), // an edge needs an entry
    ("insert", &["index"], bare, 13),
    ("insert", &["index"], no_vertices, 1),
    ("insert", &["work"], in_a, 4),
    ("insert", &["edges", "index"], in_a, 9),
    ("insert", &["edges", "index", "work"], in_a, 4),
    ("insert", &["record", "edges", "index", "work"], in_a, 255),

    ("remove", &["record"], remove, 255),
    ("remove", &["edges"], remove, 8),
    ("remove", &["index"], remove, 13),
    ("remove", &["index"], remove_last, 0),
    ("remove", &["work"], remove, 4),
    ("remove", &["work"], remove_last, 4),
    ("remove", &["edges", "index"], remove, 8),
    ("remove", &["index", "work"], remove_last, 4),
    ("remove", &["edges", "index", "work"], remove, 4),
    ("remove", &["record", "edges", "index", "work"], remove, 255),

    ("query", &["record"], in_a, 255),
    ("query", &["pattern"], in_a, 11),
    ("query", &["pattern"], bare, 11),
    ("query", &["edges"], in_a, Y), // the index replies
    ("query", &["edges"], back, 0),
    ("query", &["edges"], twice, 0), // no edges to search
    ("query", &["edges"], lacking, 0),
    ("query", &["edges"], swapped, 12),
    ("query", &["index"], in_a, 0), // from an empty index
    ("query", &["index"], twice, Y), // the edges reply
    ("query", &["index"], lacking, 0),
    ("query", &["index"], bare, 0),
    ("query", &["index"], overstated, 0),
    ("query", &["work"], in_a, Y),
    ("query", &["work"], back, 0),
    ("query", &["work"], lacking, 0),
    ("query", &["work"], twice, 4),
    ("query", &["edges", "index"], twice, 0),
    ("query", &["edges", "work"], in_a, Y),
    ("query", &["edges", "work"], swapped, 12),
    ("query", &["edges", "work"], twice, 4),
    ("query", &["index", "work"], twice, 4),
    ("query", &["edges", "index", "work"], in_a, 0),
    ("query", &["edges", "index", "work"], lacking, 0),
    ("query", &["edges", "index", "work"], bare, 0),
    ("query", &["edges", "index", "work"], twice, 4),
    ("query", &["pattern", "edges", "index", "work"], in_a, 11),
    ("query", &["record", "pattern", "edges", "index", "work"], in_a, 255),

    ("query_two", &["record"], in_a, 255 * WIDE),
    ("query_two", &["first"], in_a, 11 * WIDE),
    ("query_two", &["first"], second_lacking, 11 * WIDE),
    ("query_two", &["second"], in_a, 11 * WIDE),
    ("query_two", &["second"], lacking, 11 * WIDE),
    ("query_two", &["edges"], in_a, Y * WIDE + 1), // the index replies
    ("query_two", &["edges"], back, 0),
    ("query_two", &["edges"], second_twice, 0), // no edges to search
    ("query_two", &["edges"], lacking, 0),
    ("query_two", &["edges"], swapped, 12 * WIDE),
    ("query_two", &["index"], in_a, 0), // from an empty index
    ("query_two", &["index"], second_twice, 0), // the first pattern is asked of the index
    ("query_two", &["index"], both_twice, Y * WIDE + 2), // the edges reply
    ("query_two", &["index"], second_lacking, 0),
    ("query_two", &["index"], bare, 0),
    ("query_two", &["index"], overstated, 0),
    ("query_two", &["work"], in_a, Y * WIDE + 1),
    ("query_two", &["work"], back, 0),
    ("query_two", &["work"], second_lacking, 0),
    ("query_two", &["work"], twice, 4 * WIDE),
    ("query_two", &["work"], second_twice, 4 * WIDE),
    ("query_two", &["work"], both_twice, 4 * WIDE),
    ("query_two", &["first", "second"], in_a, 11 * WIDE),
    ("query_two", &["edges", "index"], both_twice, 0),
    ("query_two", &["edges", "work"], in_a, Y * WIDE + 1),
    ("query_two", &["edges", "work"], swapped, 12 * WIDE),
    ("query_two", &["edges", "work"], second_twice, 4 * WIDE),
    ("query_two", &["edges", "index", "work"], in_a, 0),
    ("query_two", &["edges", "index", "work"], lacking, 0),
    ("query_two", &["edges", "index", "work"], second_lacking, 0),
    ("query_two", &["edges", "index", "work"], bare, 0),
    ("query_two", &["edges", "index", "work"], both_twice, 4 * WIDE),
    ("query_two", &["first", "second", "edges", "index", "work"], in_a, 11 * WIDE),
    ("query_two", &["record", "first", "second", "edges", "index", "work"], in_a, 255 * WIDE),

    ("search", &["record"], in_a, 255 * WIDE),
    ("search", &["pattern"], in_a, 11 * WIDE),
    ("search", &["edges"], in_a, 1), // no, with one level
    ("search", &["edges"], twice, 1),
    ("search", &["edges"], no_levels, SPENT as u64 * WIDE),
    ("search", &["edges"], no_vertices, WIDE),
    ("search", &["work"], in_a, 4 * WIDE),
    ("search", &["pattern", "edges"], in_a, 11 * WIDE),
    ("search", &["edges", "work"], in_a, 4 * WIDE),
    ("search", &["pattern", "edges", "work"], in_a, 4 * WIDE),
    ("search", &["record", "pattern", "edges", "work"], in_a, 255 * WIDE),

    ("route", &["record"], in_a, 255 * WIDE),
    ("route", &["pattern"], in_a, 11 * WIDE),
    ("route", &["edges"], in_a, 0),
    ("route", &["edges"], twice, 0),
    ("route", &["edges"], no_vertices, WIDE),
    ("route", &["walk"], in_a, 18 * WIDE),
    ("route", &["walk"], twice, 18 * WIDE),
    ("route", &["walk"], back, 0),
    ("route", &["work"], in_a, 4 * WIDE),
    ("route", &["edges", "walk"], in_a, 0),
    ("route", &["pattern", "edges", "walk"], in_a, 11 * WIDE),
    ("route", &["pattern", "edges", "walk", "work"], in_a, 4 * WIDE),
    ("route", &["record", "pattern", "edges", "walk", "work"], in_a, 255 * WIDE),

    ("read_card", &["record"], in_a, 255),
    ("read_card", &["card"], in_a, 14),
    ("read_card", &["edges"], in_a, 9),
    ("read_card", &["edges"], bare, 0),
    ("read_card", &["index"], in_a, 13),
    ("read_card", &["index"], bare, 0),
    ("read_card", &["work"], in_a, 4),
    ("read_card", &["work"], bare, 4),
    ("read_card", &["edges", "index"], in_a, 9),
    ("read_card", &["edges", "index"], bare, 0),
    ("read_card", &["edges", "index", "work"], bare, 4),
    ("read_card", &["card", "edges", "index", "work"], in_a, 14),
    ("read_card", &["record", "card", "edges", "index", "work"], in_a, 255),

    ("write_card", &["record"], in_a, 255 * WIDE),
    ("write_card", &["edges"], in_a, 9), // the card of no edges
    ("write_card", &["edges"], no_vertices, WIDE),
    ("write_card", &["output"], in_a, 17 * WIDE),
    ("write_card", &["output"], bare, 17 * WIDE),
    ("write_card", &["edges", "output"], bare, 17 * WIDE),
    ("write_card", &["record", "edges", "output"], in_a, 255 * WIDE),

    ("minimum_repeat", &["pattern"], in_a, 0),
    ("minimum_repeat_computed", &["pattern"], in_a, 0),
    ("times_written", &["pattern"], in_a, 0),
];

pub fn run(t: &mut Tester) {
    t.part = "null";
    complete(t);
    for (function, empty, change, reply) in CASES {
        let mut given = Given::in_a();
        change(&mut given);
        empty.iter().for_each(|slice| given.empty(slice));
        let mut left = given.clone();
        let call = format!("{function}, no elements of {}", empty.join(", "));
        if !given.record.is_empty() {
            let defined = left.define(t, function);
            t.expect(&format!("{call}: by definition"), defined, *reply);
        }
        for null in [false, true] {
            let mut all = All::new(&given);
            t.calls += 1;
            t.expect(&format!("{call}: null {null}"), all.put(function, &given, null), *reply);
            t.expect(&format!("{call}: null {null}, all that was lent"), all == All::new(&left), true);
        }
    }
}

/// Fails unless each slice of each function that the header declares has a case by itself, and all slices of each
/// function have one together.
fn complete(t: &Tester) {
    let functions = declared();
    let declared: BTreeSet<_> = functions.iter().flat_map(|(f, slices)| slices.iter().map(move |s| (*f, *s))).collect();
    let alone = CASES.iter().filter(|case| case.1.len() == 1);
    let reached: BTreeSet<_> = alone.map(|case| (case.0, case.1[0])).collect();
    let other: Vec<_> = declared.symmetric_difference(&reached).collect();
    t.expect("slices without a case of their own, and cases of no slice", other, vec![]);
    for (function, slices) in functions {
        let together = CASES.iter().any(|case| case.0 == function && case.1 == slices);
        t.expect(&format!("a case of all slices of {function}"), together, true);
    }
}

/// The functions of the header and their slices: a parameter that ends in _n is the length of the one before it.
fn declared() -> Vec<(&'static str, Vec<&'static str>)> {
    let function = |text: &'static str| {
        let (name, rest) = text.split_once("rlc_")?.1.split_once('(')?;
        let words = rest.split_once(')')?.0.split([',', ' ', '*']);
        Some((name, words.filter_map(|word| word.strip_suffix("_n")).collect()))
    };
    let declarations = include_str!("../../include/rlc.h").split("\nuint").skip(1);
    declarations.map(|text| function(text).expect("a function")).collect()
}

fn in_a(_: &mut Given) {}

/// Nothing stands: neither in memory, nor by the totals, nor on the card.
fn bare(given: &mut Given) {
    given.record = Record::counted([3, 2], &[]).numbers().to_vec();
    given.memory.edges.fill(0);
    given.memory.index.fill(0);
    given.card = card_of([3, 2], &[]);
}

/// Nothing stands, but the totals say that it does.
fn overstated(given: &mut Given) {
    bare(given);
    given.record[2..].fill(1);
}

fn no_vertices(given: &mut Given) {
    given.record[0] = 0;
}

/// An edge that stands.
fn remove(given: &mut Given) {
    given.edge = LAYOUT_A[0];
}

/// The only edge that stands.
fn remove_last(given: &mut Given) {
    remove(given);
    given.memory.edges = edge_memory(&LAYOUT_A[..1], 5);
}

/// A pattern that repeats itself; the reply is yes as well.
fn twice(given: &mut Given) {
    given.check.pattern = vec![1, 1];
}

/// A second pattern that repeats itself, by way of 0.
fn second_twice(given: &mut Given) {
    given.check.pattern = vec![1, 2];
    given.second = vec![1, 1];
}

/// Both patterns repeat themselves, by way of 2, which has an edge to itself.
fn both_twice(given: &mut Given) {
    twice(given);
    given.second = vec![8, 8];
    given.memory.edges = edge_memory(&[&LAYOUT_A[..], &[(2, 8, 2)]].concat(), 5);
    given.record[9] = 1;
}

fn lacking(given: &mut Given) {
    given.check.pattern = vec![3];
}

fn second_lacking(given: &mut Given) {
    given.second = vec![3];
}

/// From 2 to 0: no.
fn back(given: &mut Given) {
    (given.check.start, given.check.destination) = (2, 0);
}

fn no_levels(given: &mut Given) {
    given.check.allowed = 0;
}

/// Index memory that is none.
fn swapped(given: &mut Given) {
    given.memory.index.swap(0, 1);
}

impl Given {
    /// Layout A with room for more, an edge to insert, and a question with reply yes, by two patterns too.
    fn in_a() -> Given {
        let mut index = SLOTS_A.to_vec();
        index.resize(20, 0);
        Given {
            record: Record::counted([3, 2], &LAYOUT_A).numbers().to_vec(),
            edge: (2, 8, 0),
            check: Check { start: 0, destination: 2, pattern: vec![1], allowed: 1025 },
            second: vec![1],
            memory: Memory { edges: edge_memory(&LAYOUT_A, 5), index, work: vec![5; 4116] },
            walk: vec![6; 4],
            card: CARD_A.to_vec(),
            output: vec![3; 30],
        }
    }

    fn empty(&mut self, slice: &str) {
        match slice {
            "record" => self.record.clear(),
            "pattern" | "first" => self.check.pattern.clear(),
            "second" => self.second.clear(),
            "edges" => self.memory.edges.clear(),
            "index" => self.memory.index.clear(),
            "work" => self.memory.work.clear(),
            "walk" => self.walk.clear(),
            "card" => self.card.clear(),
            "output" => self.output.clear(),
            _ => panic!("no slice {slice}"),
        }
    }

    /// The call as the second implementation makes it, compared with the library's. Everything becomes what it leaves.
    fn define(&mut self, t: &mut Tester, function: &str) -> u64 {
        let totals = std::array::from_fn(|i| self.record[2 + i]);
        let mut record = Record { header: [self.record[0], self.record[1]], totals };
        let (edge, check, memory) = (self.edge, &self.check, &mut self.memory);
        let wide = |reply: u32, more: u64| reply as u64 * WIDE + more;
        let reply = match function {
            "open" => t.open(&mut record, memory) as u64,
            "insert" => t.change(true, &mut record, edge, memory) as u64,
            "remove" => t.change(false, &mut record, edge, memory) as u64,
            "query" => t.query(record, check.start, check.destination, &check.pattern, memory) as u64,
            "read_card" => t.read_card_into(&mut record, &self.card, memory) as u64,
            "minimum_repeat" | "minimum_repeat_computed" => t.minimum_repeat(&check.pattern).0 as u64,
            "times_written" => t.minimum_repeat(&check.pattern).1 as u64,
            "query_two" => {
                let (start, destination) = (check.start, check.destination);
                let two = Two { start, destination, first: check.pattern.clone(), second: self.second.clone() };
                let (reply, m) = t.query_two(record, &two, memory);
                wide(reply, m as u64)
            }
            "search" => {
                let (reply, levels) = t.search(record, check, memory);
                wide(reply, levels as u64)
            }
            "route" => {
                let (reply, edges) = t.route(record, check, memory, &mut self.walk);
                wide(reply, edges as u64)
            }
            "write_card" => {
                let (reply, length) = t.write_card(record, &memory.edges, &mut self.output);
                wide(reply, length as u64)
            }
            _ => panic!("no function {function}"),
        };
        self.record = record.numbers().to_vec();
        reply
    }
}

/// Everything that is lent.
#[derive(PartialEq)]
struct All {
    record: Lent<u32>,
    pattern: Lent<u8>,
    second: Lent<u8>,
    edges: Lent<u32>,
    index: Lent<u64>,
    work: Lent<u64>,
    walk: Lent<u32>,
    card: Lent<u8>,
    output: Lent<u8>,
}

impl All {
    fn new(given: &Given) -> All {
        All {
            record: Lent::new(&given.record, 77),
            pattern: Lent::new(&given.check.pattern, 78),
            edges: Lent::new(&given.memory.edges, 79),
            index: Lent::new(&given.memory.index, 80),
            work: Lent::new(&given.memory.work, 81),
            walk: Lent::new(&given.walk, 82),
            card: Lent::new(&given.card, 83),
            output: Lent::new(&given.output, 84),
            second: Lent::new(&given.second, 85),
        }
    }

    /// Makes the call, with null pointers to slices without elements if so asked.
    fn put(&mut self, function: &str, given: &Given, null: bool) -> u64 {
        let (r, p, e) = (at(&mut self.record, null), at(&mut self.pattern, null), at(&mut self.edges, null));
        let (i, w, l) = (at(&mut self.index, null), at(&mut self.work, null), at(&mut self.walk, null));
        let (c, o, q) = (at(&mut self.card, null), at(&mut self.output, null), at(&mut self.second, null));
        let (f, b, t) = given.edge;
        let Check { start: s, destination: d, allowed, .. } = given.check;
        unsafe {
            match function {
                "open" => rlc_open(r.0, r.1, e.0, e.1, i.0, i.1) as u64,
                "insert" => rlc_insert(r.0, r.1, f, b, t, e.0, e.1, i.0, i.1, w.0, w.1) as u64,
                "remove" => rlc_remove(r.0, r.1, f, b, t, e.0, e.1, i.0, i.1, w.0, w.1) as u64,
                "query" => rlc_query(r.0, r.1, s, d, p.0, p.1, e.0, e.1, i.0, i.1, w.0, w.1) as u64,
                "query_two" => rlc_query_two(r.0, r.1, s, d, p.0, p.1, q.0, q.1, e.0, e.1, i.0, i.1, w.0, w.1),
                "search" => rlc_search(r.0, r.1, s, d, p.0, p.1, allowed, e.0, e.1, w.0, w.1),
                "route" => rlc_route(r.0, r.1, s, d, p.0, p.1, e.0, e.1, l.0, l.1, w.0, w.1),
                "read_card" => rlc_read_card(r.0, r.1, c.0, c.1, e.0, e.1, i.0, i.1, w.0, w.1) as u64,
                "write_card" => rlc_write_card(r.0, r.1, e.0, e.1, o.0, o.1),
                "minimum_repeat" => rlc_minimum_repeat(p.0, p.1) as u64,
                "minimum_repeat_computed" => rlc_minimum_repeat_computed(p.0, p.1) as u64,
                "times_written" => rlc_times_written(p.0, p.1) as u64,
                _ => panic!("no function {function}"),
            }
        }
    }
}

/// A slice's pointer and length.
fn at<T: Copy + PartialEq>(lent: &mut Lent<T>, null: bool) -> (*mut T, usize) {
    let pointer = if null && lent.len() == 0 { std::ptr::null_mut() } else { lent.pointer() };
    (pointer, lent.len())
}
