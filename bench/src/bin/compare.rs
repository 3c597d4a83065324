//! Times the C interface beside that of an older version, whose functions are linked under other names (`bench/compare`): lays, on each layout
//! and on parts of sparse, and queries. Both work on the same memory and take turns, which of them first changing from turn to turn; they
//! must leave the same index and give the same replies.

#[path = "../layouts.rs"]
mod layouts;
#[path = "../lent.rs"]
#[allow(dead_code)]
mod lent;
#[path = "../timing.rs"]
#[allow(dead_code)]
mod timing;

use layouts::Random;
use lent::{draw, rlc_insert, rlc_query, rlc_remove, Change, Lent, Query};
use timing::{figures, millis};

#[rustfmt::skip]
extern "C" {
    fn old_rlc_insert(record: *mut u32, n: usize, from: u32, label: u32, to: u32, edges: *mut u32, m: usize,
                      index: *mut u64, slots: usize, work: *mut u64, w: usize) -> u32;
    fn old_rlc_remove(record: *mut u32, n: usize, from: u32, label: u32, to: u32, edges: *mut u32, m: usize,
                      index: *mut u64, slots: usize, work: *mut u64, w: usize) -> u32;
    fn old_rlc_query(record: *const u32, n: usize, start: u32, destination: u32, pattern: *const u8, p: usize,
                     edges: *const u32, m: usize, index: *const u64, slots: usize, work: *mut u64, w: usize) -> u32;
}

const LAYS: [(Change, Change); 2] = [(old_rlc_remove, old_rlc_insert), (rlc_remove, rlc_insert)];
const QUERIES: [Query; 2] = [old_rlc_query, rlc_query];

/// The most entries that a layout of the benchmark has.
const MOST: usize = 200_000;

/// Times of the older and the newer version: the least and the median of each, and the median of new / old of the same turn.
fn print(name: &str, unit: &str, times: [Vec<f64>; 2]) {
    let (_, ratio) = figures(times[0].iter().zip(&times[1]).map(|(old, new)| new / old).collect());
    let [(old, old_mid), (new, new_mid)] = times.map(figures);
    println!("{name:<24} {ratio:>6.3}   old {old:>9.4} {old_mid:>9.4}   new {new:>9.4} {new_mid:>9.4} {unit}");
}

/// Memory with half as many slots again as the edges have entries.
fn sized(longest: u32, edges: &[u32]) -> Lent {
    let mut lent = Lent::new(longest, edges, MOST);
    assert_eq!((lent.change(rlc_remove, edges[0]), lent.change(rlc_insert, edges[0])), (0, 0));
    let entries = lent.entries();
    Lent::new(longest, edges, entries + entries / 2)
}

/// One edge is removed and laid again; the lay is timed.
fn lays(name: &str, lent: &mut Lent, turns: usize) {
    let edges = lent.edges.clone();
    let mut times = [Vec::new(), Vec::new()];
    for turn in 0..turns {
        let x = edges[turn * 7 % edges.len()];
        let mut left: Option<Vec<u64>> = None;
        for version in [turn % 2, 1 - turn % 2] {
            let (remove, insert) = LAYS[version];
            assert_eq!(lent.change(remove, x), 0);
            let (time, reply) = millis(|| lent.change(insert, x));
            assert_eq!(reply, 0);
            times[version].push(time * 1e3);
            assert_eq!(*left.get_or_insert_with(|| lent.index.clone()), lent.index);
        }
    }
    print(&format!("lay {name}"), "us", times);
}

/// Queries by random ends and patterns of the index, ten at a time.
fn queries(name: &str, lent: &mut Lent, turns: usize) {
    let mut random = Random(8);
    let mut times = [Vec::new(), Vec::new()];
    for turn in 0..turns {
        let (s, t, pattern) = draw(&mut random, lent);
        let mut replies = [0; 2];
        for version in [turn % 2, 1 - turn % 2] {
            let (time, reply) = millis(|| (0..10).map(|_| lent.query_by(QUERIES[version], s, t, &pattern)).max());
            times[version].push(time * 1e2);
            replies[version] = reply.unwrap();
        }
        assert_eq!(replies[0], replies[1]);
    }
    print(&format!("query {name}"), "us", times);
}

fn main() {
    let layouts = layouts::all();
    for layout in &layouts {
        for (longest, turns) in [(1, 400), (2, 200), (3, 60), (4, 24)] {
            let name = format!("{} k {longest}", layout.name);
            let mut lent = sized(longest, &layout.edges);
            lays(&name, &mut lent, turns);
            queries(&name, &mut lent, 60);
        }
    }
    for step in [8, 4, 2, 1] {
        let edges: Vec<u32> = layouts[0].edges.iter().step_by(step).copied().collect();
        lays(&format!("{} of {} k 4", edges.len(), layouts[0].name), &mut sized(4, &edges), 24);
    }
}
