//! A layout's memory as a caller lends it to the public calls, and questions drawn from its index.

use crate::layouts::{Random, VERTICES};

#[rustfmt::skip]
extern "C" {
    pub fn rlc_insert(record: *mut u32, n: usize, from: u32, label: u32, to: u32, edges: *mut u32, m: usize,
                  index: *mut u64, slots: usize, work: *mut u64, w: usize) -> u32;
    pub fn rlc_remove(record: *mut u32, n: usize, from: u32, label: u32, to: u32, edges: *mut u32, m: usize,
                  index: *mut u64, slots: usize, work: *mut u64, w: usize) -> u32;
    pub fn rlc_query(record: *const u32, n: usize, start: u32, destination: u32, pattern: *const u8, p: usize,
                 edges: *const u32, m: usize, index: *const u64, slots: usize, work: *mut u64, w: usize) -> u32;
    fn rlc_query_two(record: *const u32, n: usize, start: u32, destination: u32, first: *const u8, p: usize, second: *const u8, q: usize,
                     edges: *const u32, m: usize, index: *const u64, slots: usize, work: *mut u64, w: usize) -> u64;
    fn rlc_search(record: *const u32, n: usize, start: u32, destination: u32, pattern: *const u8, p: usize, limit: u32,
                  edges: *const u32, m: usize, work: *mut u64, w: usize) -> u64;
    fn rlc_route(record: *const u32, n: usize, start: u32, destination: u32, pattern: *const u8, p: usize,
                 edges: *const u32, m: usize, walk: *mut u32, slots: usize, work: *mut u64, w: usize) -> u64;
}

pub const YES: u64 = 100;

/// The numbers of a record: vertices, longest pattern, and eight totals, which each change counts anew.
const RECORD_N: usize = 10;

/// A layout's memory, as a caller lends it.
pub struct Lent {
    record: [u32; RECORD_N],
    pub edges: Vec<u32>,
    pub index: Vec<u64>,
    work: Vec<u64>,
}

pub type Change = unsafe extern "C" fn(*mut u32, usize, u32, u32, u32, *mut u32, usize, *mut u64, usize, *mut u64, usize) -> u32;
#[rustfmt::skip]
pub type Query = unsafe extern "C" fn(*const u32, usize, u32, u32, *const u8, usize, *const u32, usize, *const u64, usize, *mut u64, usize) -> u32;

impl Lent {
    /// A layout of 256 vertices.
    pub fn new(longest: u32, edges: &[u32], slots: usize) -> Lent {
        Lent::of(VERTICES, longest, edges, slots)
    }

    pub fn of(vertices: u32, longest: u32, edges: &[u32], slots: usize) -> Lent {
        let index = vec![u64::MAX; slots];
        let mut record = [0; RECORD_N];
        record[..2].copy_from_slice(&[vertices, longest]);
        Lent { record, edges: edges.to_vec(), index, work: vec![u64::MAX; 4096 + slots] }
    }

    pub fn longest(&self) -> u32 {
        self.record[1]
    }

    pub fn record(&self) -> &[u32; RECORD_N] {
        &self.record
    }

    /// How many edges have the label, as the last change counted.
    pub fn total(&self, label: u8) -> u32 {
        self.record[1 + label as usize]
    }

    pub fn set_total(&mut self, label: u8, total: u32) {
        self.record[1 + label as usize] = total;
    }

    pub fn change(&mut self, call: Change, x: u32) -> u32 {
        let (m, slots, w) = (self.edges.len(), self.index.len(), self.work.len());
        let (edges, index, work) = (self.edges.as_mut_ptr(), self.index.as_mut_ptr(), self.work.as_mut_ptr());
        unsafe { call(self.record.as_mut_ptr(), RECORD_N, x / 4096, x / 256 % 16, x % 256, edges, m, index, slots, work, w) }
    }

    /// How many entries stand.
    pub fn entries(&self) -> usize {
        self.index.iter().take_while(|&&x| x != 0).count()
    }

    /// The query with the least work memory.
    pub fn query(&mut self, s: u32, t: u32, pattern: &[u8]) -> u32 {
        self.query_by(rlc_query, s, t, pattern)
    }

    /// The same by another version of the call.
    pub fn query_by(&mut self, call: Query, s: u32, t: u32, pattern: &[u8]) -> u32 {
        self.query_with(call, s, t, pattern, self.edges.len())
    }

    /// The query with so many edge slots.
    fn query_with(&mut self, call: Query, s: u32, t: u32, pattern: &[u8], m: usize) -> u32 {
        let (record, p, n) = (self.record.as_ptr(), pattern.as_ptr(), pattern.len());
        let (edges, index, slots, work) = (self.edges.as_ptr(), self.index.as_ptr(), self.index.len(), self.work.as_mut_ptr());
        unsafe { call(record, RECORD_N, s, t, p, n, edges, m, index, slots, work, 4096) }
    }

    /// What a query by a pattern that repeats itself costs up to check 12 and no further: with 1,025 edge slots, which are not looked at, it is
    /// refused by 3.
    pub fn check(&mut self, s: u32, t: u32, pattern: &[u8]) -> u32 {
        self.query_with(rlc_query, s, t, pattern, 1025)
    }

    /// The query by two patterns with the least work memory.
    pub fn query_two(&mut self, s: u32, t: u32, first: &[u8], second: &[u8]) -> u64 {
        let (record, p, q) = (self.record.as_ptr(), (first.as_ptr(), first.len()), (second.as_ptr(), second.len()));
        let (e, i, work) = ((self.edges.as_ptr(), self.edges.len()), (self.index.as_ptr(), self.index.len()), self.work.as_mut_ptr());
        unsafe { rlc_query_two(record, RECORD_N, s, t, p.0, p.1, q.0, q.1, e.0, e.1, i.0, i.1, work, 4096) }
    }

    /// The plain check with the least work memory.
    pub fn search(&mut self, s: u32, t: u32, pattern: &[u8]) -> u64 {
        let (record, p) = (self.record.as_ptr(), pattern.len());
        let (edges, m, work) = (self.edges.as_ptr(), self.edges.len(), self.work.as_mut_ptr());
        unsafe { rlc_search(record, RECORD_N, s, t, pattern.as_ptr(), p, 1025, edges, m, work, 4096) }
    }

    /// The route with the least work memory.
    pub fn route(&mut self, s: u32, t: u32, pattern: &[u8], walk: &mut [u32]) -> u64 {
        let (record, p, n) = (self.record.as_ptr(), pattern.as_ptr(), pattern.len());
        let (edges, m, work) = (self.edges.as_ptr(), self.edges.len(), self.work.as_mut_ptr());
        unsafe { rlc_route(record, RECORD_N, s, t, p, n, edges, m, walk.as_mut_ptr(), walk.len(), work, 4096) }
    }
}

/// An entry of the index at random: the ends that it joins, and its pattern.
pub fn draw_joined(random: &mut Random, lent: &Lent) -> (u32, u32, Vec<u8>) {
    let entry = lent.index[random.below(lent.entries() as u32) as usize];
    let pattern = (0..4).rev().map(|i| (entry >> (4 * i) & 15) as u8).filter(|&label| label > 0).collect();
    let (owner, hub) = ((entry >> 24 & 255) as u32, (entry >> 16 & 255) as u32);
    if entry >> 32 == 0 {
        (owner, hub, pattern)
    } else {
        (hub, owner, pattern)
    }
}

/// Ends and patterns at random, patterns from the index itself.
pub fn draw(random: &mut Random, lent: &Lent) -> (u32, u32, Vec<u8>) {
    let (_, _, pattern) = draw_joined(random, lent);
    (random.below(lent.record[0]), random.below(lent.record[0]), pattern)
}

/// How many labels a pattern of at most k that repeats itself has in front, and how often these are written.
pub fn repetition(random: &mut Random, lent: &Lent) -> (usize, usize) {
    if lent.longest() == 2 {
        (1, 2)
    } else {
        [(1, 2), (1, 3), (1, 4), (2, 2)][random.below(4) as usize]
    }
}

/// A pattern of at most k labels, written twice or more, of the labels 1 to 4 that the layout has.
pub fn repeated(random: &mut Random, lent: &Lent) -> Vec<u8> {
    let labels: Vec<u8> = (1..=4).filter(|&label| lent.total(label) > 0).collect();
    let (length, times) = repetition(random, lent);
    let once: Vec<u8> = (0..length).map(|_| labels[random.below(labels.len() as u32) as usize]).collect();
    once.repeat(times)
}
