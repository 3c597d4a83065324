//! A breadth-first search in plain Rust: which levels the pattern's walks reach, after the same check of edge memory as the plain check's.

/// Rising edges of so many vertices, then zeros: how many, or none if it is no edge memory.
pub fn standing(vertices: u32, edges: &[u32]) -> Option<usize> {
    let n = edges.iter().position(|&x| x == 0).unwrap_or(edges.len());
    let rising = edges[..n].windows(2).all(|pair| pair[0] < pair[1]);
    let valid = edges[..n].iter().all(|&x| x / 4096 < vertices && (1..=8).contains(&(x / 256 % 16)) && x % 256 < vertices);
    (edges.len() <= 1024 && rising && valid && edges[n..].iter().all(|&x| x == 0)).then_some(n)
}

/// Whether some walk from s to t runs the pattern, and how many levels were built.
pub fn search(vertices: u32, edges: &[u32], pattern: &[u8], s: u32, t: u32) -> Option<(bool, u32)> {
    let n = standing(vertices, edges)?;
    let edges = &edges[..n];
    let mut first = [0usize; 257];
    for &x in edges {
        first[(x / 4096) as usize + 1] += 1;
    }
    for v in 0..256 {
        first[v + 1] += first[v];
    }
    let mut seen = [false; 1024];
    let mut level = vec![s];
    let mut count = 0;
    while !level.is_empty() {
        count += 1;
        let mut next = Vec::new();
        for state in level {
            let (v, used) = ((state % 256) as usize, (state / 256) as usize);
            let after = if used + 1 == pattern.len() { 0 } else { used as u32 + 1 };
            for &x in &edges[first[v]..first[v + 1]] {
                let z = after * 256 + x % 256;
                if x / 256 % 16 == pattern[used] as u32 && !seen[z as usize] {
                    seen[z as usize] = true;
                    next.push(z);
                }
            }
        }
        if seen[t as usize] {
            return Some((true, count));
        }
        level = next;
    }
    Some((false, count))
}
