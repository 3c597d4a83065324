//! Queries, plain checks and routes on what a list of changes left, whole and with entries struck out, held to whether
//! a walk of the ledger's edges runs the pattern as keyed; and queries by two patterns.

use crate::calls::{keyed, repeats_itself, Check, Memory};
use crate::compare::{Tester, YES};
use crate::full_reply;
use crate::gen::{self, Layout};
use crate::ledger::Fed;
use crate::record::Record;
use crate::reference::*;
use crate::routes;
use crate::two;

/// What the questions are about: the layout that the ledger holds, and its edges; the record handed back, and the
/// change that left all this.
pub struct Ground {
    pub layout: Layout,
    pub edges: Vec<Edge>,
    pub record: Record,
    pub change: Fed,
}

impl Ground {
    /// The reply to a question: yes exactly where a walk runs the pattern as keyed.
    fn reply(&self, start: u32, destination: u32, pattern: &[u8]) -> u32 {
        if runs(&self.edges, start, destination, &keyed(pattern)) {
            YES
        } else {
            0
        }
    }

    /// Do some of the edges have this label?
    fn has(&self, label: u8) -> bool {
        self.edges.iter().any(|edge| edge.1 == label as u32)
    }
}

/// Questions by any patterns, by one of the shapes that k allows, by the label that the last change was about, and by
/// one that no edge has.
pub fn ask(t: &mut Tester, ground: &Ground, memory: &mut Memory) {
    for _ in 0..3 {
        let pattern = gen::pattern(&mut t.rng, &ground.layout);
        ask_one(t, ground, memory, pattern);
    }
    let shapes = gen::shapes(&mut t.rng, &ground.layout);
    if !shapes.is_empty() {
        let shape = t.rng.pick(&shapes);
        ask_one(t, ground, memory, shape);
    }
    if let Fed::Insert((start, label, destination)) | Fed::Remove((start, label, destination)) = ground.change {
        let times = t.rng.from_to(1, ground.layout.header[1].min(2) as usize);
        ask_from_to(t, ground, memory, start, destination, vec![label as u8; times]);
    }
    ask_lacking(t, ground, memory);
    two::ask(t, ground, memory);
}

/// Questions by every shape that k allows, on what a list has left.
pub fn ask_shapes(t: &mut Tester, ground: &Ground, memory: &mut Memory) {
    for shape in gen::shapes(&mut t.rng, &ground.layout) {
        ask_one(t, ground, memory, shape.clone());
        ask_one(t, ground, memory, shape);
    }
}

/// A start and a destination: any, or two that a walk running the minimum repeat joins, as there the pattern folded and
/// the pattern as keyed may differ.
fn ends(t: &mut Tester, ground: &Ground, pattern: &[u8]) -> (u32, u32) {
    let labels = keyed(pattern);
    let first = ground.edges.iter().filter(|edge| edge.1 == labels[0]);
    let starts: Vec<u32> = first.map(|edge| edge.0).collect();
    if !starts.is_empty() && t.rng.below(3) < 2 {
        let start = t.rng.pick(&starts);
        let joined: Vec<u32> = spelled_ends(&ground.edges, start, &minimum_repeat(&labels)).into_iter().collect();
        if !joined.is_empty() {
            return (start, t.rng.pick(&joined));
        }
    }
    (gen::vertex(&mut t.rng, &ground.layout), gen::vertex(&mut t.rng, &ground.layout))
}

fn ask_one(t: &mut Tester, ground: &Ground, memory: &mut Memory, pattern: Vec<u8>) {
    let (start, destination) = ends(t, ground, &pattern);
    ask_from_to(t, ground, memory, start, destination, pattern);
}

/// A query, a plain check and sometimes a route of the same walk, all held to whether the walk is there.
fn ask_from_to(t: &mut Tester, ground: &Ground, memory: &mut Memory, start: u32, destination: u32, pattern: Vec<u8>) {
    let (record, expected) = (ground.record, ground.reply(start, destination, &pattern));
    let allowed = t.rng.pick(&[0, 1, 2, 3, 5, 1025, 1025, 1025, u32::MAX]);
    let check = Check { start, destination, pattern, allowed };
    ask_query(t, ground, memory, &check, expected);
    if !repeats_itself(&check.pattern) {
        ask_dirty(t, record, &check, &memory.index, expected);
    } else if t.rng.one_in(2) {
        ask_short(t, ground, memory, &check);
    }
    let work = t.rng.pick(&[4095, 4096, 4096, 4096, 4097]);
    memory.work = t.rng.words(work);
    let (found, _) = t.search(record, &check, memory);
    if work >= 4096 && allowed >= 1025 {
        t.expect("yes to a plain check exactly where a walk runs the pattern as keyed", found, expected);
    }
    if t.rng.one_in(2) {
        let work = t.rng.pick(&[4096, 4096, 4097, 4096 + memory.index.len()]);
        memory.work = t.rng.words(work);
        let reply = routes::ask_in(t, record, &check, memory);
        t.expect("a walk for the panel exactly where the query is a yes", reply != 0, expected == YES);
    }
}

/// A query with enough work memory. It is used only for a pattern that repeats itself, of labels that edges have.
fn ask_query(t: &mut Tester, ground: &Ground, memory: &Memory, check: &Check, expected: u32) {
    let work = t.rng.pick(&[4096, 4096, 4097, 4096 + memory.index.len()]);
    let lent = Memory { work: t.rng.words(work), ..memory.clone() };
    let mut left = lent.clone();
    let reply = t.query(ground.record, check.start, check.destination, &check.pattern, &mut left);
    t.expect("yes to a query exactly where a walk runs the pattern as keyed", reply, expected);
    full_reply::hold(t, &ground.change, &ground.record, check, &lent, reply);
    if repeats_itself(&check.pattern) && check.pattern.iter().all(|label| ground.has(*label)) {
        let zero = left.work.iter().all(|word| *word == 0);
        t.expect("work memory zero after a pattern that repeats itself", zero, true);
    } else {
        t.expect("work memory as found", left.work == lent.work, true);
    }
}

/// A pattern that repeats itself, with too little work memory: 4, but no if no edge has one of its labels.
fn ask_short(t: &mut Tester, ground: &Ground, memory: &Memory, check: &Check) {
    let work = t.rng.pick(&[0, 1, 4095]);
    let lent = Memory { work: t.rng.words(work), ..memory.clone() };
    let expected = if check.pattern.iter().all(|label| ground.has(*label)) { 4 } else { 0 };
    let mut left = lent.clone();
    let reply = t.query(ground.record, check.start, check.destination, &check.pattern, &mut left);
    t.expect("a query of a pattern that repeats itself, with little work memory", reply, expected);
    t.expect("work memory as found after it", left.work == lent.work, true);
    full_reply::hold(t, &ground.change, &ground.record, check, &lent, reply);
}

/// A pattern written once is answered alike whatever edge and work memory is lent, and leaves all as found.
fn ask_dirty(t: &mut Tester, record: Record, check: &Check, index: &[u64], expected: u32) {
    let dirty = gen::dirty(&mut t.rng, index);
    let mut left = dirty.clone();
    let reply = t.query(record, check.start, check.destination, &check.pattern, &mut left);
    t.expect("a query of a pattern written once, with dirty memory", reply, expected);
    t.expect("all as found after it", left == dirty, true);
}

/// A query with a label that no edge has, at any place of the pattern, once or again: no, and all stays as found,
/// whatever memory is lent.
fn ask_lacking(t: &mut Tester, ground: &Ground, memory: &Memory) {
    let absent: Vec<u8> = (1..=8).filter(|label| !ground.has(*label)).collect();
    if absent.is_empty() {
        return;
    }
    let mut pattern = gen::pattern(&mut t.rng, &ground.layout);
    let at = t.rng.below(pattern.len());
    pattern[at] = t.rng.pick(&absent);
    let most = ground.layout.header[1] as usize / pattern.len();
    let pattern = pattern.repeat(t.rng.from_to(1, most));
    let (start, destination) = (gen::vertex(&mut t.rng, &ground.layout), gen::vertex(&mut t.rng, &ground.layout));
    let check = Check { start, destination, pattern, allowed: 0 };
    let work = t.rng.pick(&[0, 4095, 4096, 4097]);
    let clean = Memory { work: t.rng.words(work), ..memory.clone() };
    let mut dirty = gen::dirty(&mut t.rng, &memory.index);
    gen::damage_index(&mut t.rng, ground.layout.header, &mut dirty.index);
    let replies = [&clean, &dirty].map(|lent| {
        let mut left = lent.clone();
        let reply = t.query(ground.record, start, destination, &check.pattern, &mut left);
        t.expect("a query with a label that no edge has", reply, 0);
        t.expect("all as found after it", left == *lent, true);
        reply
    });
    full_reply::hold(t, &ground.change, &ground.record, &check, &clean, replies[0]);
}

/// If entries are struck out and the others close up, the query of each struck one is answered no. A pattern that
/// repeats itself is answered from the edges, and so as before.
pub fn strike_out(t: &mut Tester, ground: &Ground, memory: &Memory) {
    let entries: Vec<u64> = memory.index.iter().copied().filter(|slot| *slot != 0).collect();
    if entries.is_empty() {
        return;
    }
    let share = t.rng.pick(&[1, 2, 5, entries.len() + 1]);
    let sure = t.rng.below(entries.len());
    let mut struck = Vec::new();
    let mut left = Vec::new();
    for (i, entry) in entries.iter().enumerate() {
        if i == sure || t.rng.one_in(share) {
            struck.push(*entry);
        } else {
            left.push(*entry);
        }
    }
    left.resize(memory.index.len(), 0);
    let left = Memory { index: left, work: t.rng.words(4096), ..memory.clone() };
    for _ in 0..3 {
        let entry = t.rng.pick(&struck);
        ask_struck(t, ground, entry, &mut memory.clone(), &mut left.clone());
    }
}

fn ask_struck(t: &mut Tester, ground: &Ground, entry: u64, whole: &mut Memory, left: &mut Memory) {
    let record = ground.record;
    let (owner, hub) = ((entry >> 24 & 255) as u32, (entry >> 16 & 255) as u32);
    let (start, destination) = if entry >> 32 == 0 { (owner, hub) } else { (hub, owner) };
    let pattern: Vec<u8> = pattern_of_code(entry & 0xFFFF).unwrap().iter().map(|label| *label as u8).collect();
    let reply = t.query(record, start, destination, &pattern, whole);
    t.expect("the query of an entry is a yes", reply, YES);
    let reply = t.query(record, start, destination, &pattern, left);
    t.expect("the query of an entry struck out is a no", reply, 0);
    for times in 2..=record.header[1] as usize / pattern.len() {
        let again = pattern.repeat(times);
        let reply = t.query(record, start, destination, &again, left);
        let expected = ground.reply(start, destination, &again);
        t.expect("the query of an entry struck out, keyed more than once", reply, expected);
    }
}
