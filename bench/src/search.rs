//! The papers' pruned search, as a plain Rust program: pattern by pattern, for each vertex u in access order, a search back from u and
//! one forth from u over whole-pattern steps. A stop is dropped, and not gone on from, if it is earlier than u or if the entries
//! found so far answer for it already (rule PR3). Places inside a pattern are not stops and are not dropped.
//!
//! Vertices are numbered by rank in access order while the search runs, so that earlier is lower.

use std::array;

/// A set of vertices.
#[derive(Clone, Copy, Default)]
struct Set([u64; 4]);

impl Set {
    fn put(&mut self, v: usize) {
        self.0[v / 64] |= 1 << (v % 64);
    }

    fn has(&self, v: usize) -> bool {
        self.0[v / 64] >> (v % 64) & 1 == 1
    }

    fn join(&self, other: &Set) -> Set {
        Set(array::from_fn(|i| self.0[i] | other.0[i]))
    }

    fn less(&self, other: &Set) -> Set {
        Set(array::from_fn(|i| self.0[i] & !other.0[i]))
    }

    fn meets(&self, other: &Set) -> bool {
        (0..4).any(|i| self.0[i] & other.0[i] != 0)
    }

    fn is_empty(&self) -> bool {
        self.0 == [0; 4]
    }

    fn each(&self) -> impl Iterator<Item = usize> {
        let mut words = self.0;
        let mut i = 0;
        std::iter::from_fn(move || {
            while i < 4 && words[i] == 0 {
                i += 1;
            }
            if i == 4 {
                return None;
            }
            let bit = words[i].trailing_zeros() as usize;
            words[i] &= words[i] - 1;
            Some(i * 64 + bit)
        })
    }
}

type Rows = [Set; 256];

/// Where a word of labels leads: from each of `starts`, the vertices in its row. Other rows are empty.
#[derive(Clone)]
struct Steps {
    starts: Set,
    rows: Rows,
}

struct Search<'a> {
    longest: usize,
    /// Vertex by rank.
    order: &'a [u8],
    /// For each label, its edges (from, to), by ranks.
    edges: [Vec<(usize, usize)>; 9],
    /// For the pattern at hand: the steps turned round, and the hubs in each vertex's out and in list. Empty between patterns.
    back: Rows,
    outs: Rows,
    ins: Rows,
    queue: Vec<usize>,
    entries: Vec<u64>,
}

/// Vertices by (edges out + 1) * (edges in + 1), largest first, the lower vertex first among equals.
pub fn access_order(vertices: u32, edges: &[u32]) -> Vec<u8> {
    let mut out = vec![1u32; vertices as usize];
    let mut into = vec![1u32; vertices as usize];
    for x in edges {
        out[(x / 4096) as usize] += 1;
        into[(x % 256) as usize] += 1;
    }
    let mut order: Vec<u8> = (0..vertices).map(|v| v as u8).collect();
    order.sort_by_key(|&v| std::cmp::Reverse(out[v as usize] * into[v as usize]));
    order
}

fn own_repeat(pattern: &[u8]) -> bool {
    let n = pattern.len();
    !(1..n).any(|p| n % p == 0 && (p..n).all(|i| pattern[i] == pattern[i - p]))
}

impl Search<'_> {
    fn entry(&mut self, side: u64, owner: usize, hub: usize, code: u64) {
        let (owner, hub) = (self.order[owner] as u64, self.order[hub] as u64);
        self.entries.push(side << 32 | owner << 24 | hub << 16 | code);
    }

    /// Out entries with hub u: back over whole patterns.
    fn search_back(&mut self, u: usize, code: u64) {
        let mut seen = Set::default();
        self.queue.push(u);
        while let Some(x) = self.queue.pop() {
            let fresh = self.back[x].less(&seen);
            seen = seen.join(&fresh);
            for y in fresh.each() {
                if y < u || self.outs[y].meets(&self.ins[u]) {
                    continue;
                }
                self.outs[y].put(u);
                self.entry(0, y, u, code);
                self.queue.push(y);
            }
        }
    }

    /// In entries with hub u: forth over whole patterns. A walk from u to itself has its entry on the out side.
    fn search_forth(&mut self, steps: &Steps, u: usize, code: u64) {
        let mut seen = Set::default();
        self.queue.push(u);
        while let Some(x) = self.queue.pop() {
            let fresh = steps.rows[x].less(&seen);
            seen = seen.join(&fresh);
            for y in fresh.each() {
                if y <= u || self.ins[y].meets(&self.outs[u]) {
                    continue;
                }
                self.ins[y].put(u);
                self.entry(1, y, u, code);
                self.queue.push(y);
            }
        }
    }

    fn pattern(&mut self, steps: &Steps, code: u64) {
        let mut ends = Set::default();
        for s in steps.starts.each() {
            for t in steps.rows[s].each() {
                self.back[t].put(s);
            }
            ends = ends.join(&steps.rows[s]);
        }
        let used = steps.starts.join(&ends);
        for u in used.each() {
            if ends.has(u) {
                self.search_back(u, code);
            }
            if steps.starts.has(u) {
                self.search_forth(steps, u, code);
            }
        }
        for v in used.each() {
            self.back[v] = Set::default();
            self.outs[v] = Set::default();
            self.ins[v] = Set::default();
        }
    }

    /// Every pattern that ends with the word, as long as some walk spells it.
    fn words(&mut self, word: &[u8], steps: &Steps) {
        for label in 1..=8u8 {
            let mut next = Steps { starts: Set::default(), rows: [Set::default(); 256] };
            for &(from, to) in &self.edges[label as usize] {
                if steps.starts.has(to) {
                    next.starts.put(from);
                    next.rows[from] = next.rows[from].join(&steps.rows[to]);
                }
            }
            if next.starts.is_empty() {
                continue;
            }
            let longer = [&[label], word].concat();
            if own_repeat(&longer) {
                self.pattern(&next, longer.iter().fold(0, |code, &l| code * 16 + l as u64));
            }
            if longer.len() < self.longest {
                self.words(&longer, &next);
            }
        }
    }
}

/// The entries of the index, rising.
pub fn build(vertices: u32, longest: usize, edges: &[u32]) -> Vec<u64> {
    let order = access_order(vertices, edges);
    let mut rank = [0; 256];
    for (r, &v) in order.iter().enumerate() {
        rank[v as usize] = r;
    }
    let mut by_label: [Vec<(usize, usize)>; 9] = Default::default();
    for x in edges {
        by_label[(x / 256 % 16) as usize].push((rank[(x / 4096) as usize], rank[(x % 256) as usize]));
    }
    let empty = [Set::default(); 256];
    let mut search = Search {
        longest,
        order: &order,
        edges: by_label,
        back: empty,
        outs: empty,
        ins: empty,
        queue: Vec::new(),
        entries: Vec::new(),
    };
    let mut stay = Steps { starts: Set([u64::MAX; 4]), rows: empty };
    for v in 0..256 {
        stay.rows[v].put(v);
    }
    search.words(&[], &stay);
    search.entries.sort_unstable();
    search.entries
}

/// Whether a code is that of a pattern of at most k labels that is its own minimum repeat.
fn is_code(longest: u32, code: u64) -> bool {
    let length = (67 - code.leading_zeros()) / 4;
    if length == 0 || length > longest {
        return false;
    }
    let labels = (0..length).all(|i| (1..=8).contains(&(code >> (4 * i) & 15)));
    labels
        && match length {
            1 => true,
            2 => code / 16 != code % 16,
            3 => code / 16 != code % 256,
            _ => code / 256 != code % 256,
        }
}

fn is_entry(vertices: u32, longest: u32, x: u64) -> bool {
    x >> 32 < 2 && x >> 24 & 255 < vertices as u64 && x >> 16 & 255 < vertices as u64 && is_code(longest, x & 65535)
}

/// Check 12: the entries without the zeros behind them, or none if it fails.
#[inline(always)]
pub fn checked(vertices: u32, longest: u32, index: &[u64]) -> Option<&[u64]> {
    let count = index.iter().position(|&x| x == 0).unwrap_or(index.len());
    let (entries, zeros) = index.split_at(count);
    let mut last = 0;
    for &x in entries {
        if x <= last || !is_entry(vertices, longest, x) {
            return None;
        }
        last = x;
    }
    if zeros.iter().any(|&x| x != 0) {
        return None;
    }
    Some(entries)
}

/// Check 12 and the question, for a pattern that is its own minimum repeat. None if check 12 fails.
pub fn query(vertices: u32, longest: u32, s: u64, t: u64, code: u64, index: &[u64]) -> Option<bool> {
    let entries = checked(vertices, longest, index)?;
    let list = |key: u64| {
        let from = entries.partition_point(|&x| x < key);
        let to = entries.partition_point(|&x| x < key + (1 << 24));
        &entries[from..to]
    };
    let (out, into) = (list(s << 24), list(1 << 32 | t << 24));
    let hubs = |list: &[u64], hub: u64| list.iter().any(|&x| x & 0xFF_FFFF == hub << 16 | code);
    if hubs(out, t) || hubs(into, s) {
        return Some(true);
    }
    let mut j = 0;
    for &x in out.iter().filter(|&&x| x & 65535 == code) {
        let key = x & 0xFF_FFFF;
        while j < into.len() && into[j] & 0xFF_FFFF < key {
            j += 1;
        }
        if j < into.len() && into[j] & 0xFF_FFFF == key {
            return Some(true);
        }
    }
    Some(false)
}
