//! Times the public calls through the C interface beside Rust programs, in one run: a lay, the plain check, a query against a fresh
//! search, and the folding of patterns; and a query by a pattern keyed twice beside the calls that it is made of. Both take turns; buffers are
//! as the last repetition left them.

#[path = "../folding.rs"]
mod folding;
#[path = "../layouts.rs"]
mod layouts;
#[path = "../lent.rs"]
#[allow(dead_code)]
mod lent;
#[path = "../levels.rs"]
mod levels;
#[path = "../search.rs"]
#[allow(dead_code)]
mod search;
#[path = "../timing.rs"]
mod timing;

use layouts::{Layout, Random, VERTICES};
use lent::{draw, repeated, rlc_insert, rlc_remove, Lent, YES};
use timing::{heading, heading_of, millis, print_times};

#[rustfmt::skip]
extern "C" {
    fn rlc_minimum_repeat(pattern: *const u8, p: usize) -> u32;
    fn rlc_minimum_repeat_computed(pattern: *const u8, p: usize) -> u32;
}

/// One edge is removed and laid again; the lay is timed, against the pruned search on all edges.
fn time_lay(name: &str, longest: u32, edges: &[u32], repeats: usize) -> Lent {
    let expected = search::build(VERTICES, longest as usize, edges);
    let most = expected.len() + expected.len() / 2;
    let mut lent = Lent::new(longest, edges, most);
    let (mut proved, mut rust) = (Vec::new(), Vec::new());
    for i in 0..repeats {
        let x = edges[i * 7 % edges.len()];
        assert_eq!(lent.change(rlc_remove, x), 0);
        let (time, reply) = millis(|| lent.change(rlc_insert, x));
        assert_eq!(reply, 0);
        proved.push(time);
        let (time, entries) = millis(|| search::build(VERTICES, longest as usize, edges));
        assert_eq!(entries, lent.index[..entries.len()]);
        rust.push(time);
    }
    print_times(name, proved, rust, format!("{} edges, {} entries", edges.len(), expected.len()));
    lent
}

/// Plain checks in five turns: the mean of each turn.
fn time_checks(name: &str, lent: &mut Lent, questions: usize) {
    let mut random = Random(7);
    let (mut proved, mut rust) = (vec![0.0; 5], vec![0.0; 5]);
    for _ in 0..questions {
        let (s, t, pattern) = draw(&mut random, lent);
        for turn in 0..5 {
            let (time, a) = millis(|| lent.search(s, t, &pattern));
            proved[turn] += time * 1e3 / questions as f64;
            let (time, b) = millis(|| levels::search(VERTICES, &lent.edges, &pattern, s, t));
            rust[turn] += time * 1e3 / questions as f64;
            let (yes, levels) = b.unwrap();
            assert_eq!(a, (if yes { YES } else { 0 }) << 32 | levels as u64);
        }
    }
    print_times(name, proved, rust, format!("{questions} checks"));
}

/// Queries against a fresh search for each, in five turns: the mean of each turn.
fn time_queries(name: &str, lent: &mut Lent, questions: usize) {
    let mut random = Random(8);
    let (mut proved, mut rust) = (vec![0.0; 5], vec![0.0; 5]);
    for _ in 0..questions {
        let (s, t, pattern) = draw(&mut random, lent);
        for turn in 0..5 {
            let (time, a) = millis(|| lent.query(s, t, &pattern));
            proved[turn] += time * 1e3 / questions as f64;
            let (time, b) = millis(|| levels::search(VERTICES, &lent.edges, &pattern, s, t));
            rust[turn] += time * 1e3 / questions as f64;
            assert_eq!(a as u64 == YES, b.unwrap().0);
        }
    }
    print_times(name, proved, rust, format!("{questions} queries"));
}

/// Queries by a pattern keyed twice, against a plain check by the same pattern and the query's checks up to 12, in five turns: the mean of each.
fn time_twice(name: &str, lent: &mut Lent, questions: usize) {
    let mut random = Random(10);
    let (mut queries, mut parts) = (vec![0.0; 5], vec![0.0; 5]);
    for _ in 0..questions {
        let (s, t) = (random.below(VERTICES), random.below(VERTICES));
        let pattern = repeated(&mut random, lent);
        for turn in 0..5 {
            let (time, a) = millis(|| lent.query(s, t, &pattern));
            queries[turn] += time * 1e3 / questions as f64;
            let (search, b) = millis(|| lent.search(s, t, &pattern));
            let (check, c) = millis(|| lent.check(s, t, &pattern));
            parts[turn] += (search + check) * 1e3 / questions as f64;
            assert_eq!((a as u64, c), (b >> 32, 3));
        }
    }
    print_times(name, queries, parts, format!("{questions} queries"));
}

type Fold = unsafe extern "C" fn(*const u8, usize) -> u32;

/// Folds of all patterns, or of those of one length, in random order: ns a fold, by a leaf and by a lookup in Rust.
fn time_folds(name: &str, leaf: Fold, patterns: &[Vec<u8>], repeats: usize) {
    let rounds = 1 + 20_000 / patterns.len();
    let folds = (rounds * patterns.len()) as f64;
    let (mut proved, mut rust) = (Vec::new(), Vec::new());
    for _ in 0..repeats {
        let (time, a) = millis(|| folding::sum(patterns, rounds, |p| unsafe { leaf(p.as_ptr(), p.len()) }));
        proved.push(time * 1e6 / folds);
        let (time, b) = millis(|| folding::sum(patterns, rounds, |p| folding::look_up(p) as u32));
        rust.push(time * 1e6 / folds);
        assert_eq!(a, b);
    }
    print_times(name, proved, rust, format!("{} patterns", patterns.len()));
}

fn main() {
    heading("fold", "ns");
    let patterns = folding::shuffled(&mut Random(9));
    for (name, leaf) in [("table", rlc_minimum_repeat as Fold), ("computed", rlc_minimum_repeat_computed)] {
        time_folds(name, leaf, &patterns, 100);
        for length in 1..=4 {
            let of_length: Vec<Vec<u8>> = patterns.iter().filter(|p| p.len() == length).cloned().collect();
            time_folds(&format!("{name} of {length}"), leaf, &of_length, 100);
        }
    }
    let layouts: Vec<Layout> = layouts::all();
    heading("lay", "ms");
    let mut held = Vec::new();
    for layout in &layouts {
        for longest in [2, 4] {
            let name = format!("{} k {longest}", layout.name);
            let lent = time_lay(&name, longest, &layout.edges, if longest == 2 { 100 } else { 30 });
            held.push((name, lent));
        }
    }
    heading("lay, by edges", "ms");
    for count in [128, 256, 512, 1024] {
        let edges: Vec<u32> = (0..count).map(|i| layouts[0].edges[i * layouts[0].edges.len() / count]).collect();
        time_lay("sparse k 4", 4, &edges, 30);
    }
    heading("plain check", "us");
    for (name, lent) in &mut held {
        time_checks(name, lent, 300);
    }
    heading("query / search", "us");
    for (name, lent) in &mut held {
        time_queries(name, lent, 100);
    }
    heading_of("keyed twice", "us", "query", "parts");
    for (name, lent) in &mut held {
        time_twice(name, lent, 100);
    }
}
