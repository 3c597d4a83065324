//! The layouts that are timed: 256 vertices and 1,024 edges each, from a fixed seed.

pub struct Layout {
    pub name: &'static str,
    /// Edge numbers as document 01 writes them: from * 4096 + label * 256 + to, rising.
    pub edges: Vec<u32>,
}

pub const VERTICES: u32 = 256;
pub const EDGES: usize = 1024;

/// xorshift64*: a fixed stream of numbers for each seed.
pub struct Random(pub u64);

impl Random {
    pub fn next(&mut self) -> u64 {
        self.0 ^= self.0 >> 12;
        self.0 ^= self.0 << 25;
        self.0 ^= self.0 >> 27;
        self.0.wrapping_mul(0x2545_F491_4F6C_DD1D)
    }

    pub fn below(&mut self, n: u32) -> u32 {
        ((self.next() >> 32) % n as u64) as u32
    }
}

/// Adds an edge unless it stands already or 1,024 do.
fn add(edges: &mut Vec<u32>, from: u32, label: u32, to: u32) {
    let x = from * 4096 + label * 256 + to;
    if edges.len() < EDGES {
        if let Err(at) = edges.binary_search(&x) {
            edges.insert(at, x);
        }
    }
}

/// Edges between any of the first `used` vertices, with labels 1 to `labels`.
fn random(name: &'static str, seed: u64, used: u32, labels: u32) -> Layout {
    let mut random = Random(seed);
    let mut edges = Vec::new();
    while edges.len() < EDGES {
        add(&mut edges, random.below(used), 1 + random.below(labels), random.below(used));
    }
    Layout { name, edges }
}

/// Four loops of 64 vertices, run both ways (labels 1 and 2); crossovers between neighbouring loops (label 3) and sidings that pass two
/// to five vertices of a loop (label 4), at random places, each both ways.
fn railway(name: &'static str, seed: u64) -> Layout {
    let mut random = Random(seed);
    let mut edges = Vec::new();
    let vertex = |track: u32, at: u32| track % 4 * 64 + at % 64;
    for track in 0..4 {
        for at in 0..64 {
            add(&mut edges, vertex(track, at), 1, vertex(track, at + 1));
            add(&mut edges, vertex(track, at + 1), 2, vertex(track, at));
        }
    }
    while edges.len() < EDGES {
        let (track, at) = (random.below(4), random.below(64));
        let here = vertex(track, at);
        let (label, there) = match random.below(2) {
            0 => (3, vertex(track + 1, at + 1)),
            _ => (4, vertex(track, at + 2 + random.below(4))),
        };
        add(&mut edges, here, label, there);
        add(&mut edges, there, label, here);
    }
    Layout { name, edges }
}

pub fn all() -> Vec<Layout> {
    vec![
        random("sparse", 1, 256, 8),
        random("dense", 2, 256, 2),
        random("crowded", 3, 48, 2),
        railway("railway", 4),
    ]
}
