//! Each public call put to the library and to the second implementation, and the two compared: reply, record, and
//! everything lent, with guard words on both sides.

use crate::calls::{self, Check, Memory, Middles, Refusals, Two};
use crate::cases::Routed;
use crate::counts::{Call, Counts};
use crate::lent::Lent;
use crate::library::*;
use crate::query_cases::Asked;
use crate::record::{Record, RECORD_N};
use crate::record_cases::Handed;
use crate::records;
use crate::reference::{minimum_repeat, runs, standing, totals, Edge, Found, Totals};
use crate::rng::Rng;
use crate::two_cases::AskedTwo;
use std::fmt::Debug;

pub const YES: u32 = 100;
pub const SPENT: u32 = 101;

pub struct Tester {
    pub rng: Rng,
    pub counts: Counts,
    pub seed: u64,
    pub round: u64,
    pub part: &'static str,
    pub calls: u64,
}

impl Tester {
    pub fn new(seed: u64) -> Tester {
        Tester { rng: Rng::new(seed), counts: Counts::default(), seed, round: 0, part: "", calls: 0 }
    }

    /// Ends the run: the seed and round say how to see this again.
    pub fn fail(&self, call: &str, what: &str, expected: String, got: String) -> ! {
        println!("FAILED: seed {} round {} part {} call number {}", self.seed, self.round, self.part, self.calls);
        println!("  call: {call}");
        println!("  {what}: expected {expected}");
        println!("  {what}: got      {got}");
        std::process::exit(1);
    }

    /// Fails unless a fact that a part expects holds.
    pub fn expect<T: PartialEq + Debug>(&self, what: &str, got: T, expected: T) {
        if got != expected {
            self.fail("(expectation of this part)", what, format!("{expected:?}"), format!("{got:?}"));
        }
    }

    fn same_reply<T: PartialEq + Debug>(&self, call: &dyn Fn() -> String, got: T, expected: T) {
        if got != expected {
            self.fail(&call(), "reply", format!("{expected:?}"), format!("{got:?}"));
        }
    }

    fn same<T: PartialEq + Copy + Debug>(&self, call: &dyn Fn() -> String, what: &str, lent: &Lent<T>, expected: &[T]) {
        if !lent.guards_hold() {
            self.fail(&call(), &format!("guard words of {what}"), "unchanged".into(), "changed".into());
        }
        if let Some(i) = (0..expected.len()).find(|i| lent.content()[*i] != expected[*i]) {
            let slot = |memory: &[T]| format!("{:?} at {i} of {}", memory[i], memory.len());
            self.fail(&call(), what, slot(expected), slot(lent.content()));
        }
    }

    fn lend<T: PartialEq + Copy>(&mut self, content: &[T], guard: impl Fn(u64) -> T) -> Lent<T> {
        Lent::new(content, guard(self.rng.next()))
    }

    fn lend_record(&mut self, record: &Record) -> Lent<u32> {
        self.lend(&record.numbers(), |n| n as u32)
    }

    fn lend_memory(&mut self, memory: &Memory) -> (Lent<u32>, Lent<u64>, Lent<u64>) {
        let edges = self.lend(&memory.edges, |n| n as u32);
        let index = self.lend(&memory.index, |n| n);
        let work = self.lend(&memory.work, |n| n);
        (edges, index, work)
    }

    /// Counts a call with these refusals, and what its record, given and left, was like. `stood`: the totals of the
    /// edges lent, or of the card. Returns the reply, 0 or a refusal.
    fn count(&mut self, call: Call, refusals: &[u32], stood: Totals, given: &Record, left: &Record) -> u32 {
        self.calls += 1;
        self.counts.add(call, refusals);
        let number = refusals.first().copied().unwrap_or(0);
        self.counts.add_record(&Handed { call, number, stood, given: given.totals, left: left.totals });
        number
    }

    /// Opening. Returns the reply, 0 or a refusal; the record and the memory become what the call leaves.
    pub fn open(&mut self, record: &mut Record, memory: &mut Memory) -> u32 {
        let (given, before) = (*record, memory.clone());
        let (mut edges, mut index, _) = self.lend_memory(memory);
        let mut lent_record = self.lend_record(record);
        let refusals = calls::open(record, memory);
        let expected = self.count(Call::Open, &refusals, stood(&before.edges), &given, record);
        let (r, e, i) = (lent_record.pointer(), (edges.pointer(), edges.len()), (index.pointer(), index.len()));
        let got = unsafe { rlc_open(r, RECORD_N, e.0, e.1, i.0, i.1) };
        let call = || format!("open {given:?} {}", show(&before));
        self.same_reply(&call, got, expected);
        self.same(&call, "record", &lent_record, &record.numbers());
        self.same(&call, "edge memory", &edges, &memory.edges);
        self.same(&call, "index memory", &index, &memory.index);
        expected
    }

    /// Insertion or removal.
    pub fn change(&mut self, insertion: bool, record: &mut Record, edge: Edge, memory: &mut Memory) -> u32 {
        let (given, before) = (*record, memory.clone());
        let (mut edges, mut index, mut work) = self.lend_memory(memory);
        let mut lent_record = self.lend_record(record);
        let refusals = calls::change(insertion, record, edge, memory);
        let name = if insertion { Call::Insert } else { Call::Remove };
        let expected = self.count(name, &refusals, stood(&before.edges), &given, record);
        let function = if insertion { rlc_insert } else { rlc_remove };
        let r = lent_record.pointer();
        let (e, i, w) = ((edges.pointer(), edges.len()), (index.pointer(), index.len()), (work.pointer(), work.len()));
        let got = unsafe { function(r, RECORD_N, edge.0, edge.1, edge.2, e.0, e.1, i.0, i.1, w.0, w.1) };
        let call = || format!("{name:?} {given:?} {edge:?} {}", show(&before));
        self.same_reply(&call, got, expected);
        self.same(&call, "record", &lent_record, &record.numbers());
        self.same(&call, "edge memory", &edges, &memory.edges);
        self.same(&call, "index memory", &index, &memory.index);
        self.same(&call, "work memory", &work, &memory.work);
        expected
    }

    /// The question. Returns the reply, 0 no, 100 yes, or a refusal; work memory becomes what the call leaves.
    pub fn query(&mut self, record: Record, start: u32, destination: u32, pattern: &[u8], memory: &mut Memory) -> u32 {
        let mut lent_record = self.lend_record(&record);
        let mut lent_pattern = self.lend(pattern, |n| n as u8);
        let (mut edges, mut index, mut work) = self.lend_memory(memory);
        let replied = calls::query(&record, start, destination, pattern, memory);
        let expected = self.count_query(&record, start, destination, pattern, memory, &replied);
        let (r, p) = (lent_record.pointer(), (lent_pattern.pointer(), lent_pattern.len()));
        let (e, i, w) = ((edges.pointer(), edges.len()), (index.pointer(), index.len()), (work.pointer(), work.len()));
        let got = unsafe { rlc_query(r, RECORD_N, start, destination, p.0, p.1, e.0, e.1, i.0, i.1, w.0, w.1) };
        let call = || format!("query {record:?} {start} {destination} {pattern:?} {}", show(memory));
        self.same_reply(&call, got, expected);
        self.same(&call, "record", &lent_record, &record.numbers());
        self.same(&call, "pattern", &lent_pattern, pattern);
        self.same(&call, "edge memory", &edges, &memory.edges);
        self.same(&call, "index memory", &index, &memory.index);
        self.same(&call, "work memory", &work, &memory.work);
        expected
    }

    /// Counts a query that the second implementation replied to, with what the full reply would be. Returns the reply
    /// as a number.
    fn count_query(
        &mut self,
        record: &Record,
        start: u32,
        destination: u32,
        pattern: &[u8],
        memory: &Memory,
        replied: &(Refusals, bool),
    ) -> u32 {
        let (refusals, yes) = replied;
        let stood = stood(&memory.edges);
        let mut full = replied.clone();
        if record.lacks(pattern) {
            full = calls::full_query(record.header, start, destination, pattern, &mut memory.clone());
        } else if refusals.is_empty() && calls::repeats_itself(pattern) {
            self.count_again(start, destination, pattern, memory, *yes);
        }
        self.counts.add_query(&Asked { record, pattern, memory, stood, replied, full });
        self.count(Call::Query, refusals, stood, record, record) + if *yes { YES } else { 0 }
    }

    /// Counts an answered question by a pattern that repeats itself, and whether its minimum repeat would be answered
    /// alike.
    fn count_again(&mut self, start: u32, destination: u32, pattern: &[u8], memory: &Memory, yes: bool) {
        let edges = standing(&memory.edges).unwrap();
        let folded = yes || runs(&edges, start, destination, &minimum_repeat(&calls::keyed(pattern)));
        self.counts.add_again(yes, folded);
    }

    /// The query by two patterns. Returns (0 no, 100 yes, or a refusal; the lowest middle, or 0); work memory becomes
    /// what the call leaves.
    pub fn query_two(&mut self, record: Record, two: &Two, memory: &mut Memory) -> (u32, u32) {
        let mut lent_record = self.lend_record(&record);
        let mut first = self.lend(&two.first, |n| n as u8);
        let mut second = self.lend(&two.second, |n| n as u8);
        let (mut edges, mut index, mut work) = self.lend_memory(memory);
        let found_zero = memory.work.iter().all(|word| *word == 0);
        let replied = calls::query_two(&record, two, memory);
        let expected = self.count_two(&record, two, memory, found_zero, &replied);
        let (r, s, t) = (lent_record.pointer(), two.start, two.destination);
        let (p, q) = ((first.pointer(), first.len()), (second.pointer(), second.len()));
        let (e, i, w) = ((edges.pointer(), edges.len()), (index.pointer(), index.len()), (work.pointer(), work.len()));
        let got = unsafe { rlc_query_two(r, RECORD_N, s, t, p.0, p.1, q.0, q.1, e.0, e.1, i.0, i.1, w.0, w.1) };
        let got = ((got >> 32) as u32, got as u32);
        let call = || format!("query_two {record:?} {two:?} {}", show(memory));
        self.same_reply(&call, got, expected);
        self.same(&call, "record", &lent_record, &record.numbers());
        self.same(&call, "first pattern", &first, &two.first);
        self.same(&call, "second pattern", &second, &two.second);
        self.same(&call, "edge memory", &edges, &memory.edges);
        self.same(&call, "index memory", &index, &memory.index);
        self.same(&call, "work memory", &work, &memory.work);
        expected
    }

    /// Counts a query by two patterns that the second implementation replied to. Returns the reply as numbers.
    fn count_two(
        &mut self,
        record: &Record,
        two: &Two,
        memory: &Memory,
        found_zero: bool,
        replied: &(Refusals, Middles),
    ) -> (u32, u32) {
        let mut full = replied.clone();
        if record.lacks(&two.first) || record.lacks(&two.second) {
            full = calls::query_two(&Record { totals: [1; 8], ..*record }, two, &mut memory.clone());
        }
        self.counts.add_two(&AskedTwo { record, two, memory, found_zero, replied, full });
        let number = self.count(Call::QueryTwo, &replied.0, stood(&memory.edges), record, record);
        match replied.1.lowest() {
            Some(m) => (YES, m),
            None => (number, 0),
        }
    }

    /// The plain check. Returns (0 no, 100 yes, 101 spent, or a refusal; levels).
    pub fn search(&mut self, record: Record, check: &Check, memory: &mut Memory) -> (u32, u32) {
        let mut lent_record = self.lend_record(&record);
        let mut pattern = self.lend(&check.pattern, |n| n as u8);
        let (mut edges, _, mut work) = self.lend_memory(memory);
        let (refusals, found) = calls::search(record.header, check, &memory.edges, &mut memory.work);
        let number = self.count(Call::Search, &refusals, stood(&memory.edges), &record, &record);
        let expected = match found {
            _ if number != 0 => (number, 0),
            Found::Yes(c) => (YES, c),
            Found::No(c) => (0, c),
            Found::Spent(c) => (SPENT, c),
        };
        let (r, s, t, levels) = (lent_record.pointer(), check.start, check.destination, check.allowed);
        let (p, e, w) =
            ((pattern.pointer(), pattern.len()), (edges.pointer(), edges.len()), (work.pointer(), work.len()));
        let got = unsafe { rlc_search(r, RECORD_N, s, t, p.0, p.1, levels, e.0, e.1, w.0, w.1) };
        let got = ((got >> 32) as u32, got as u32);
        let call = || format!("search {record:?} {check:?} {}", show(memory));
        self.same_reply(&call, got, expected);
        self.same(&call, "record", &lent_record, &record.numbers());
        self.same(&call, "pattern", &pattern, &check.pattern);
        self.same(&call, "edge memory", &edges, &memory.edges);
        self.same(&call, "work memory", &work, &memory.work);
        expected
    }

    /// The route. Returns (0 no, 100 yes, or a refusal; its edges); walk and work memory become what the call leaves.
    pub fn route(&mut self, record: Record, check: &Check, memory: &mut Memory, walk: &mut [u32]) -> (u32, u32) {
        let mut lent_record = self.lend_record(&record);
        let mut pattern = self.lend(&check.pattern, |n| n as u8);
        let (mut edges, _, mut work) = self.lend_memory(memory);
        let mut lent_walk = self.lend(walk, |n| n as u32);
        let (refusals, route) = calls::route(record.header, check, &memory.edges, walk, &mut memory.work);
        let number = self.count(Call::Route, &refusals, stood(&memory.edges), &record, &record);
        let expected = match (number, route.len() as u32) {
            (0, 0) => (0, 0),
            (0, count) => (YES, count),
            (number, _) => (number, 0),
        };
        if refusals.is_empty() || refusals == [18] {
            let edges = standing(&memory.edges).unwrap();
            let (walk_slots, work_slots) = (lent_walk.len(), work.len());
            self.counts.add_route(&Routed { check, edges, route, walk_slots, work_slots });
        }
        let (p, e) = ((pattern.pointer(), pattern.len()), (edges.pointer(), edges.len()));
        let (l, w) = ((lent_walk.pointer(), lent_walk.len()), (work.pointer(), work.len()));
        let (r, s, t) = (lent_record.pointer(), check.start, check.destination);
        let got = unsafe { rlc_route(r, RECORD_N, s, t, p.0, p.1, e.0, e.1, l.0, l.1, w.0, w.1) };
        let got = ((got >> 32) as u32, got as u32);
        let call = || format!("route {record:?} {check:?} {} walk of {}", show(memory), l.1);
        self.same_reply(&call, got, expected);
        self.same(&call, "record", &lent_record, &record.numbers());
        self.same(&call, "pattern", &pattern, &check.pattern);
        self.same(&call, "edge memory", &edges, &memory.edges);
        self.same(&call, "walk memory", &lent_walk, walk);
        self.same(&call, "work memory", &work, &memory.work);
        expected
    }

    /// Card reading into a record of noise. Returns the reply, and the record if accepted.
    pub fn read_card(&mut self, card: &[u8], memory: &mut Memory) -> (u32, Option<Record>) {
        let mut record = records::noise(&mut self.rng);
        let reply = self.read_card_into(&mut record, card, memory);
        (reply, Some(record).filter(|_| reply == 0))
    }

    /// Card reading. Returns the reply; the record and the memory become what the call leaves.
    pub fn read_card_into(&mut self, record: &mut Record, card: &[u8], memory: &mut Memory) -> u32 {
        let (given, before) = (*record, memory.clone());
        let mut lent_record = self.lend_record(record);
        let mut lent_card = self.lend(card, |n| n as u8);
        let (mut edges, mut index, mut work) = self.lend_memory(memory);
        let (refusals, of_card) = calls::read_card(card, memory);
        *record = of_card.unwrap_or(given);
        let expected = self.count(Call::ReadCard, &refusals, totals(&calls::card_edges(card).1), &given, record);
        let (r, c, e) = (lent_record.pointer(), (lent_card.pointer(), lent_card.len()), (edges.pointer(), edges.len()));
        let (i, w) = ((index.pointer(), index.len()), (work.pointer(), work.len()));
        let got = unsafe { rlc_read_card(r, RECORD_N, c.0, c.1, e.0, e.1, i.0, i.1, w.0, w.1) };
        let bytes = &card[..card.len().min(400)];
        let call = || format!("read_card {given:?} {bytes:02x?} of {} bytes, {}", card.len(), show(&before));
        self.same_reply(&call, got, expected);
        self.same(&call, "record", &lent_record, &record.numbers());
        self.same(&call, "card", &lent_card, card);
        self.same(&call, "edge memory", &edges, &memory.edges);
        self.same(&call, "index memory", &index, &memory.index);
        self.same(&call, "work memory", &work, &memory.work);
        expected
    }

    /// Card writing. Returns (0 or a refusal, the card's length or 0).
    pub fn write_card(&mut self, record: Record, edges: &[u32], output: &mut [u8]) -> (u32, usize) {
        let mut lent_record = self.lend_record(&record);
        let mut lent_edges = self.lend(edges, |n| n as u32);
        let mut lent_output = self.lend(output, |n| n as u8);
        let (refusals, length) = calls::write_card(record.header, edges, output);
        let number = self.count(Call::WriteCard, &refusals, stood(edges), &record, &record);
        let expected = if number == 0 { (0, length) } else { (number, 0) };
        let (e, o) = ((lent_edges.pointer(), lent_edges.len()), (lent_output.pointer(), lent_output.len()));
        let got = unsafe { rlc_write_card(lent_record.pointer(), RECORD_N, e.0, e.1, o.0, o.1) };
        let got = ((got >> 32) as u32, got as u32 as usize);
        let call = || format!("write_card {record:?} edges {} output of {}", slots(edges), o.1);
        self.same_reply(&call, got, expected);
        self.same(&call, "record", &lent_record, &record.numbers());
        self.same(&call, "edge memory", &lent_edges, edges);
        self.same(&call, "output", &lent_output, output);
        expected
    }

    /// The length of the minimum repeat, by the table and computed, and how many times it was written.
    pub fn minimum_repeat(&mut self, pattern: &[u8]) -> (u32, u32) {
        let (length, times) = calls::repeat_and_times(pattern);
        type Fold = unsafe extern "C" fn(*const u8, usize) -> u32;
        let functions: [(&str, Fold, u32); 3] = [
            ("minimum_repeat", rlc_minimum_repeat, length),
            ("minimum_repeat_computed", rlc_minimum_repeat_computed, length),
            ("times_written", rlc_times_written, times),
        ];
        for (name, function, expected) in functions {
            self.calls += 1;
            let mut lent = self.lend(pattern, |n| n as u8);
            let got = unsafe { function(lent.pointer(), lent.len()) };
            let call = || format!("{name} {pattern:?}");
            self.same_reply(&call, got, expected);
            self.same(&call, "pattern", &lent, pattern);
        }
        (length, times)
    }
}

/// The totals of the edges that edge memory holds, none if it does not read as edges.
fn stood(memory: &[u32]) -> Totals {
    totals(&standing(memory).unwrap_or_default())
}

/// Memory for a failure's line; of work memory the length, as its content is noise.
fn show(memory: &Memory) -> String {
    format!("edges {} index {} work of {}", slots(&memory.edges), slots(&memory.index), memory.work.len())
}

/// The first slots of a memory, as far as they are not zero, and its length.
fn slots<T: Debug + PartialEq + Default>(memory: &[T]) -> String {
    let filled = memory.iter().rposition(|slot| *slot != T::default()).map_or(0, |last| last + 1);
    let more = if filled > 100 { ", ..." } else { "" };
    format!("{:?}{more} (of {})", &memory[..filled.min(100)], memory.len())
}
