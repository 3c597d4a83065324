//! Times the proved build, query and sort beside Rust programs, in one run. Each figure is the least of several repetitions, in which the
//! two programs take turns; buffers are as the last repetition left them.

mod layouts;
mod search;
mod timing;

use layouts::{Layout, Random, VERTICES};
use std::hint::black_box;
use timing::{figures, heading, millis, print_times};

extern "C" {
    fn bench_order(vertices: u32, edges: *const u32, m: usize, work: *mut u64, w: usize, order: *mut u8, n: usize);
    fn bench_build(
        vertices: u32, longest: u32, edges: *const u32, m: usize, order: *const u8, n: usize,
        index: *mut u64, slots: usize, work: *mut u64, w: usize,
    ) -> u64;
    fn bench_query(
        vertices: u32, longest: u32, start: u32, destination: u32, pattern: *const u8, p: usize,
        edges: *const u32, m: usize, index: *const u64, slots: usize, work: *mut u64, w: usize,
    ) -> u32;
    fn bench_sort(xs: *mut u64, n: usize, buffer: *mut u64, m: usize);
}

/// The proved access order and index, in one go. The layouts have rising edges of 256 vertices, and work memory has 4,096 numbers and
/// one for each slot, as the calls require. The number of entries is more than the slots if they do not fit.
fn proved_build(longest: u32, edges: &[u32], order: &mut [u8; 256], index: &mut [u64], work: &mut [u64]) -> usize {
    assert!(work.len() >= 4096 + index.len() && (1..=4).contains(&longest) && edges.len() <= 1024);
    let (m, n, slots, w) = (edges.len(), order.len(), index.len(), work.len());
    unsafe {
        bench_order(VERTICES, edges.as_ptr(), m, work.as_mut_ptr(), w, order.as_mut_ptr(), n);
        bench_build(
            VERTICES, longest, edges.as_ptr(), m, order.as_ptr(), n, index.as_mut_ptr(), slots, work.as_mut_ptr(), w,
        ) as usize
    }
}

/// By a pattern that is written once: edge and work memory are not looked at, and none is lent.
fn proved_query(longest: u32, s: u32, t: u32, pattern: &[u8], index: &[u64]) -> u32 {
    let (p, n, slots) = (pattern.as_ptr(), pattern.len(), index.len());
    unsafe { bench_query(VERTICES, longest, s, t, p, n, [].as_ptr(), 0, index.as_ptr(), slots, [].as_mut_ptr(), 0) }
}

/// The caller's numbers are distinct and below 2^33, as the sort requires.
fn proved_sort(xs: &mut [u64], buffer: &mut [u64]) {
    assert_eq!(xs.len(), buffer.len());
    unsafe { bench_sort(xs.as_mut_ptr(), xs.len(), buffer.as_mut_ptr(), buffer.len()) }
}

fn time_build(layout: &Layout, longest: u32, repeats: usize) -> Vec<u64> {
    let expected = search::build(VERTICES, longest as usize, &layout.edges);
    let slots = expected.len() + expected.len() / 8;
    let mut order = [0; 256];
    let mut index = vec![u64::MAX; slots];
    let mut work = vec![u64::MAX; 4096 + slots];
    let (mut proved, mut rust) = (Vec::new(), Vec::new());
    for _ in 0..repeats {
        let (time, count) = millis(|| proved_build(longest, &layout.edges, &mut order, &mut index, &mut work));
        assert_eq!(count, expected.len());
        proved.push(time);
        let (time, entries) = millis(|| search::build(VERTICES, longest as usize, &layout.edges));
        assert_eq!(entries, index[..count]);
        rust.push(time);
    }
    assert!(index[expected.len()..].iter().all(|&x| x == 0));
    print_times(&format!("{} k {longest}", layout.name), proved, rust, format!("{} entries", expected.len()));
    index
}

/// Questions by random ends, with patterns from the index itself.
fn time_query(layout: &Layout, longest: u32, index: &[u64], repeats: usize) {
    let entries: Vec<u64> = index.iter().copied().filter(|&x| x != 0).collect();
    let mut random = Random(5);
    let (mut proved, mut rust, mut pass) = (Vec::new(), Vec::new(), Vec::new());
    for _ in 0..repeats {
        let (s, t) = (random.below(VERTICES), random.below(VERTICES));
        let code = entries[random.below(entries.len() as u32) as usize] & 65535;
        let pattern: Vec<u8> = (0..4).rev().map(|i| (code >> (4 * i) & 15) as u8).filter(|&l| l > 0).collect();
        let (time, a) = millis(|| proved_query(longest, s, t, &pattern, index));
        proved.push(time * 1e3);
        let (time, b) = millis(|| search::query(VERTICES, longest, s as u64, t as u64, code, index));
        rust.push(time * 1e3);
        assert_eq!(Some(a == 1), b);
        pass.push(millis(|| black_box(index).iter().fold(0u64, |sum, &x| sum.wrapping_add(x))).0 * 1e3);
    }
    let each = |times: &Vec<f64>| figures(times.clone()).0 * 1e3 / entries.len() as f64;
    let note = format!("ns an entry {:.2}, {:.2}, bare pass {:.2}", each(&proved), each(&rust), each(&pass));
    print_times(&format!("{} k {longest}", layout.name), proved, rust, note);
}

/// Different numbers in the form of entries, in no order.
fn time_sort(n: usize, repeats: usize) {
    let mut random = Random(6);
    let mut seen = std::collections::HashSet::new();
    while seen.len() < n {
        let (owner, hub) = (random.below(256) as u64, random.below(256) as u64);
        let code = (0..4).fold(0, |code, _| code * 16 + 1 + random.below(8) as u64);
        seen.insert((random.below(2) as u64) << 32 | owner << 24 | hub << 16 | code);
    }
    let numbers: Vec<u64> = seen.into_iter().collect();
    let mut buffer = vec![u64::MAX; n];
    let (mut proved, mut rust) = (Vec::new(), Vec::new());
    for _ in 0..repeats {
        let mut sorted = numbers.clone();
        proved.push(millis(|| proved_sort(&mut sorted, &mut buffer)).0);
        let mut other = numbers.clone();
        rust.push(millis(|| other.sort_unstable()).0);
        assert_eq!(sorted, other);
    }
    print_times("sort", proved, rust, format!("{n} entries"));
}

fn main() {
    let wanted: Vec<String> = std::env::args().skip(1).collect();
    let layouts: Vec<Layout> =
        layouts::all().into_iter().filter(|l| wanted.is_empty() || wanted.iter().any(|w| w == l.name)).collect();
    heading("build", "ms");
    let mut built = Vec::new();
    for layout in &layouts {
        for longest in 1..=4 {
            let index = time_build(layout, longest, if longest < 3 { 200 } else { 50 });
            if longest % 2 == 0 {
                built.push((layout, longest, index));
            }
        }
    }
    heading("query", "us");
    for (layout, longest, index) in &built {
        time_query(layout, *longest, index, 300);
    }
    heading("sort", "ms");
    time_sort(100_000, 100);
}
