//! The route by a breadth-first search in plain Rust, after the plain check's check of edge memory.

use crate::levels::standing;

/// The edges from (s, 0) to a state, by the edge and the state from which each was reached first.
fn back(from: &[(u32, u32); 1024], s: u32, last: u32) -> Vec<u32> {
    let mut walk = Vec::new();
    let mut state = last;
    loop {
        let (before, edge) = from[state as usize];
        walk.push(edge);
        if before == s {
            walk.reverse();
            return walk;
        }
        state = before;
    }
}

/// The route's edges, or none. States are taken in the order in which they are reached, and a state's edges in rising order.
pub fn search(vertices: u32, edges: &[u32], pattern: &[u8], s: u32, t: u32) -> Option<Vec<u32>> {
    let n = standing(vertices, edges)?;
    let edges = &edges[..n];
    let mut first = [0usize; 257];
    for &x in edges {
        first[(x / 4096) as usize + 1] += 1;
    }
    for v in 0..256 {
        first[v + 1] += first[v];
    }
    let mut seen = [false; 1024];
    let mut from = [(0u32, 0u32); 1024];
    let mut queue = vec![s];
    let mut at = 0;
    while at < queue.len() {
        let state = queue[at];
        at += 1;
        let (v, used) = ((state % 256) as usize, (state / 256) as usize);
        let after = if used + 1 == pattern.len() { 0 } else { used as u32 + 1 };
        for &x in &edges[first[v]..first[v + 1]] {
            let z = after * 256 + x % 256;
            if x / 256 % 16 == pattern[used] as u32 && !seen[z as usize] {
                seen[z as usize] = true;
                from[z as usize] = (state, x);
                queue.push(z);
            }
        }
        if seen[t as usize] {
            return Some(back(&from, s, t));
        }
    }
    Some(Vec::new())
}
