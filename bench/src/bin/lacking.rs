//! Times a query by a label that the layout lacks, through the C interface: with the record as the last change left it, whose total of that label is
//! 0, and with a record that gives the label a total of 1, so that the query goes on to the index. Both take turns.

#[path = "../layouts.rs"]
mod layouts;
#[path = "../lent.rs"]
#[allow(dead_code)]
mod lent;
#[path = "../timing.rs"]
#[allow(dead_code)]
mod timing;

use layouts::Random;
use lent::{draw, rlc_insert, rlc_remove, Lent};
use timing::{heading_of, millis, print_times};

/// The label that no edge has.
const LACKING: u8 = 8;

/// A layout without that label, with its index: one edge is removed and laid again.
fn held(longest: u32, edges: &[u32]) -> Lent {
    let edges: Vec<u32> = edges.iter().copied().filter(|x| x / 256 % 16 != LACKING as u32).collect();
    let mut lent = Lent::new(longest, &edges, 200_000);
    assert_eq!(lent.change(rlc_remove, edges[0]), 0);
    assert_eq!(lent.change(rlc_insert, edges[0]), 0);
    assert_eq!(lent.total(LACKING), 0);
    let entries = lent.index.iter().take_while(|&&x| x != 0).count();
    lent.index.truncate(entries);
    lent
}

/// A pattern of the index with one label replaced by the lacking one.
fn draw_lacking(random: &mut Random, lent: &Lent) -> (u32, u32, Vec<u8>) {
    let (s, t, mut pattern) = draw(random, lent);
    let at = random.below(pattern.len() as u32) as usize;
    pattern[at] = LACKING;
    (s, t, pattern)
}

/// All questions, so often: the mean of a query, in ns.
fn mean(lent: &mut Lent, questions: &[(u32, u32, Vec<u8>)], times: usize) -> f64 {
    let (time, replies) = millis(|| {
        let mut replies = 0;
        for _ in 0..times {
            replies += questions.iter().map(|(s, t, pattern)| lent.query(*s, *t, pattern)).sum::<u32>();
        }
        replies
    });
    assert_eq!(replies, 0, "each is a no");
    time * 1e6 / (times * questions.len()) as f64
}

fn main() {
    heading_of("lacking label", "ns", "index", "rule");
    for layout in &layouts::all() {
        for longest in [2, 4] {
            let mut lent = held(longest, &layout.edges);
            let mut random = Random(12);
            let questions: Vec<_> = (0..100).map(|_| draw_lacking(&mut random, &lent)).collect();
            let (mut index, mut rule) = (Vec::new(), Vec::new());
            for _ in 0..5 {
                rule.push(mean(&mut lent, &questions, 1000));
                lent.set_total(LACKING, 1);
                index.push(mean(&mut lent, &questions, 1));
                lent.set_total(LACKING, 0);
            }
            print_times(&format!("{} k {longest}", layout.name), index, rule, format!("{} entries", lent.index.len()));
        }
    }
}
