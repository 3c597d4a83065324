//! The query by two patterns in plain Rust, with the same checks and replies as the public call: the index is checked once, the vertices that the
//! start leads to by the first pattern and those that lead to the destination by the second are marked, and the lowest with both marks is given.
//! By a pattern written once the marks come from one list and one pass over the other side of the index; by one that repeats itself from one
//! search, which for the second pattern goes back from the destination. It works in memory of its own, so that check 4 goes by a length alone.

use crate::levels::standing;
use crate::search::checked;

/// One for each vertex.
type Marks = [bool; 256];

/// Is the pattern some first labels, written more than once?
pub fn repeats(pattern: &[u8]) -> bool {
    let n = pattern.len();
    (1..n).any(|p| n % p == 0 && pattern[p..] == pattern[..n - p])
}

fn is_pattern(longest: u32, pattern: &[u8]) -> bool {
    (1..=longest as usize).contains(&pattern.len()) && pattern.iter().all(|label| (1..=8).contains(label))
}

/// The vertices at the other end of the owner's yeses by this pattern; the owner is the start (side 0) or the destination (side 1).
fn by_index(entries: &[u64], side: u64, owner: u32, pattern: &[u8]) -> Marks {
    let code = pattern.iter().fold(0, |code, &label| code * 16 + label as u64);
    let key = side << 32 | (owner as u64) << 24;
    let from = entries.partition_point(|&x| x < key);
    let list = entries[from..].iter().take_while(|&&x| x < key + (1 << 24));
    let mut hubs = [false; 256];
    list.filter(|&&x| x & 65535 == code).for_each(|x| hubs[(x >> 16 & 255) as usize] = true);
    let mut marks = hubs;
    hubs[owner as usize] = true;
    let ins = entries.partition_point(|&x| x < 1 << 32);
    let others = if side == 0 { &entries[ins..] } else { &entries[..ins] };
    for &x in others {
        if x & 65535 == code && hubs[(x >> 16 & 255) as usize] {
            marks[(x >> 24 & 255) as usize] = true;
        }
    }
    marks
}

/// Where the walks end that run the pattern from this vertex. The edges stand grouped by where they start.
fn by_edges(edges: &[u32], start: u32, pattern: &[u8]) -> Marks {
    let mut first = [0usize; 257];
    for &x in edges {
        first[(x / 4096) as usize + 1] += 1;
    }
    for v in 0..256 {
        first[v + 1] += first[v];
    }
    let mut seen = [false; 1024];
    let mut open = vec![start];
    while let Some(state) = open.pop() {
        let (v, used) = ((state % 256) as usize, (state / 256) as usize);
        let after = if used + 1 == pattern.len() { 0 } else { used as u32 + 1 };
        for &x in &edges[first[v]..first[v + 1]] {
            let z = after * 256 + x % 256;
            if x / 256 % 16 == pattern[used] as u32 && !seen[z as usize] {
                seen[z as usize] = true;
                open.push(z);
            }
        }
    }
    seen[..256].try_into().unwrap()
}

/// The edges turned round, grouped by where they then start.
fn turned(edges: &[u32]) -> Vec<u32> {
    let mut next = [0usize; 257];
    for &x in edges {
        next[(x % 256) as usize + 1] += 1;
    }
    for v in 0..256 {
        next[v + 1] += next[v];
    }
    let mut turned = vec![0; edges.len()];
    for &x in edges {
        let at = &mut next[(x % 256) as usize];
        turned[*at] = x % 256 * 4096 + x / 256 % 16 * 256 + x / 4096;
        *at += 1;
    }
    turned
}

/// The lowest middle, if there is one, or the refusal.
fn middle(record: &[u32; 10], s: u32, t: u32, first: &[u8], second: &[u8], edges: &[u32], index: &[u64], work: usize) -> Result<Option<u32>, u64> {
    let [vertices, longest] = [record[0], record[1]];
    if !(1..=256).contains(&vertices) {
        return Err(1);
    }
    if !(1..=4).contains(&longest) {
        return Err(2);
    }
    if s >= vertices || t >= vertices {
        return Err(10);
    }
    if !is_pattern(longest, first) || !is_pattern(longest, second) {
        return Err(11);
    }
    if first.iter().chain(second).any(|&label| record[1 + label as usize] == 0) {
        return Ok(None);
    }
    let entries = checked(vertices, longest, index).ok_or(12u64)?;
    let (first_repeats, second_repeats) = (repeats(first), repeats(second));
    let mut edges = edges;
    if first_repeats || second_repeats {
        edges = &edges[..standing(vertices, edges).ok_or(3u64)?];
        if work < 4096 {
            return Err(4);
        }
    }
    let out = if first_repeats { by_edges(edges, s, first) } else { by_index(entries, 0, s, first) };
    let home = if second_repeats {
        let back: Vec<u8> = second.iter().rev().copied().collect();
        by_edges(&turned(edges), t, &back)
    } else {
        by_index(entries, 1, t, second)
    };
    Ok((0..vertices).find(|&m| out[m as usize] && home[m as usize]))
}

/// The reply as the call gives it.
pub fn query(record: &[u32; 10], s: u32, t: u32, first: &[u8], second: &[u8], edges: &[u32], index: &[u64], work: usize) -> u64 {
    match middle(record, s, t, first, second, edges, index, work) {
        Ok(Some(m)) => 100 << 32 | m as u64,
        Ok(None) => 0,
        Err(number) => number << 32,
    }
}
