//! Times routes through the C interface, beside a breadth-first search in Rust with the same answer and beside the plain check, in one run. A
//! program of its own, so that the Rust searches of both programs are compiled alike: each is the only one in its own. All take turns.

#[path = "../layouts.rs"]
mod layouts;
#[path = "../lent.rs"]
#[allow(dead_code)]
mod lent;
#[path = "../levels.rs"]
#[allow(dead_code)]
mod levels;
#[path = "../route.rs"]
mod route;
#[path = "../timing.rs"]
mod timing;

use layouts::{Random, VERTICES};
use lent::{draw, draw_joined, rlc_insert, rlc_remove, Lent, YES};
use timing::{heading, heading_of, millis, print_times};

type Draw = fn(&mut Random, &Lent) -> (u32, u32, Vec<u8>);

/// A layout with its index: one edge is removed and laid again.
fn held(longest: u32, edges: &[u32]) -> Lent {
    let mut lent = Lent::new(longest, edges, 200_000);
    assert_eq!(lent.change(rlc_remove, edges[0]), 0);
    assert_eq!(lent.change(rlc_insert, edges[0]), 0);
    lent
}

/// Routes in five turns: the mean of each turn, for the call, the Rust program and the plain check.
fn time_routes(name: &str, lent: &mut Lent, draw: Draw, questions: usize) -> [Vec<f64>; 2] {
    let mut random = Random(11);
    let mut walk = [u32::MAX; 1024];
    let (mut proved, mut rust, mut checks) = (vec![0.0; 5], vec![0.0; 5], vec![0.0; 5]);
    let (mut given, mut edges) = (0, 0);
    for _ in 0..questions {
        let (s, t, pattern) = draw(&mut random, lent);
        for turn in 0..5 {
            let (time, a) = millis(|| lent.route(s, t, &pattern, &mut walk));
            proved[turn] += time * 1e3 / questions as f64;
            let (time, b) = millis(|| route::search(VERTICES, &lent.edges, &pattern, s, t).unwrap());
            rust[turn] += time * 1e3 / questions as f64;
            let (time, c) = millis(|| lent.search(s, t, &pattern));
            checks[turn] += time * 1e3 / questions as f64;
            let n = b.len();
            assert_eq!((a, &walk[..n]), (if n == 0 { 0 } else { YES << 32 | n as u64 }, &b[..]));
            assert_eq!(n > 0, c >> 32 == YES);
            given += usize::from(n > 0 && turn == 0);
            edges += if turn == 0 { n } else { 0 };
        }
    }
    print_times(name, proved.clone(), rust, format!("{given} routes of {questions}, {edges} edges"));
    [proved, checks]
}

fn main() {
    for (ends, draw) in [("any ends", draw as Draw), ("joined ends", draw_joined)] {
        heading(ends, "us");
        let mut routes = Vec::new();
        for layout in &layouts::all() {
            for longest in [2, 4] {
                let name = format!("{} k {longest}", layout.name);
                let times = time_routes(&name, &mut held(longest, &layout.edges), draw, 300);
                routes.push((name, times));
            }
        }
        heading_of(ends, "us", "route", "check");
        for (name, [route, check]) in routes {
            print_times(&name, route, check, String::new());
        }
    }
}
