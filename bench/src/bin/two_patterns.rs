//! Times queries by two patterns through the C interface, beside a Rust program with the same checks and replies and beside a single query, in one
//! run: both patterns written once, the first repeating itself, the second, and both. The single query is from the same start to the same destination
//! by the pattern that repeats itself, the first if both or none do. All take turns. Half of the questions have any ends and patterns, half those of
//! a walk in two parts, so that the reply is yes.

#[path = "../layouts.rs"]
mod layouts;
#[path = "../lent.rs"]
#[allow(dead_code)]
mod lent;
#[path = "../levels.rs"]
mod levels;
#[path = "../search.rs"]
#[allow(dead_code)]
mod search;
#[path = "../timing.rs"]
mod timing;
#[path = "../two.rs"]
mod two;

use layouts::{Random, VERTICES};
use lent::{draw, repeated, repetition, rlc_insert, rlc_remove, Lent, YES};
use timing::{figures, heading, heading_of, millis, print_times};

/// Whether the first pattern repeats itself, and the second.
const KINDS: [(&str, bool, bool); 4] =
    [("both once", false, false), ("first repeats", true, false), ("second repeats", false, true), ("both repeat", true, true)];

/// The mark: at most twice a single query and so many us more.
const MORE: f64 = 30.0;

/// A layout with its index in just the slots that it needs: one edge is removed and laid again.
fn held(longest: u32, edges: &[u32]) -> Lent {
    let mut lent = Lent::new(longest, edges, 200_000);
    assert_eq!(lent.change(rlc_remove, edges[0]), 0);
    assert_eq!(lent.change(rlc_insert, edges[0]), 0);
    let entries = lent.entries();
    lent.index.truncate(entries);
    lent
}

struct Question {
    s: u32,
    t: u32,
    first: Vec<u8>,
    second: Vec<u8>,
}

fn any_pattern(random: &mut Random, lent: &Lent, again: bool) -> Vec<u8> {
    if again {
        repeated(random, lent)
    } else {
        draw(random, lent).2
    }
}

/// Some walk from here that spells a pattern: the pattern, and where the walk ends. None if no edge leads on.
fn walk(random: &mut Random, lent: &Lent, from: u32, again: bool) -> Option<(Vec<u8>, u32)> {
    let (length, times) = if again { repetition(random, lent) } else { (1 + random.below(lent.longest()) as usize, 1) };
    let (mut pattern, mut at) = (Vec::new(), from);
    for i in 0..length * times {
        let fits = |x: u32| x / 4096 == at && (i < length || x / 256 % 16 == pattern[i % length] as u32);
        let next: Vec<u32> = lent.edges.iter().copied().filter(|&x| fits(x)).collect();
        if next.is_empty() {
            return None;
        }
        let x = next[random.below(next.len() as u32) as usize];
        pattern.push((x / 256 % 16) as u8);
        at = x % 256;
    }
    (two::repeats(&pattern) == again).then_some((pattern, at))
}

fn joined(random: &mut Random, lent: &Lent, first_again: bool, second_again: bool) -> Option<Question> {
    let s = random.below(VERTICES);
    let (first, m) = walk(random, lent, s, first_again)?;
    let (second, t) = walk(random, lent, m, second_again)?;
    Some(Question { s, t, first, second })
}

fn draw_two(random: &mut Random, lent: &Lent, is_joined: bool, first_again: bool, second_again: bool) -> Question {
    if is_joined {
        loop {
            if let Some(question) = joined(random, lent, first_again, second_again) {
                return question;
            }
        }
    }
    let (s, t) = (random.below(VERTICES), random.below(VERTICES));
    Question { s, t, first: any_pattern(random, lent, first_again), second: any_pattern(random, lent, second_again) }
}

/// Queries in five turns: the mean of each turn, for the call, the Rust program and the single query.
fn time_two(name: &str, lent: &mut Lent, first_again: bool, second_again: bool, questions: usize) -> [Vec<f64>; 2] {
    let mut random = Random(13);
    let (mut proved, mut rust, mut singles) = (vec![0.0; 5], vec![0.0; 5], vec![0.0; 5]);
    let mut yeses = 0;
    for i in 0..questions {
        let Question { s, t, first, second } = draw_two(&mut random, lent, i % 2 == 1, first_again, second_again);
        let single = if second_again && !first_again { &second } else { &first };
        let runs = levels::search(VERTICES, &lent.edges, single, s, t).unwrap().0;
        for turn in 0..5 {
            let (time, a) = millis(|| lent.query_two(s, t, &first, &second));
            proved[turn] += time * 1e3 / questions as f64;
            let (time, b) = millis(|| two::query(lent.record(), s, t, &first, &second, &lent.edges, &lent.index, 4096));
            rust[turn] += time * 1e3 / questions as f64;
            let (time, c) = millis(|| lent.query(s, t, single));
            singles[turn] += time * 1e3 / questions as f64;
            assert_eq!(a, b);
            assert_eq!(c as u64, if runs { YES } else { 0 });
            assert!(a >> 32 == YES || (a == 0 && i % 2 == 0));
            yeses += usize::from(a != 0 && turn == 0);
        }
    }
    print_times(name, proved.clone(), rust, format!("{yeses} yes of {questions}, {} entries", lent.index.len()));
    [proved, singles]
}

/// By how much a query by two patterns takes longer than two single ones of the same turn, the median, beside the mark.
fn margin(two: &[f64], single: &[f64]) -> String {
    let (_, over) = figures(two.iter().zip(single).map(|(two, single)| two - 2.0 * single).collect());
    format!("two - 2 single {over:.1} us: mark of {MORE:.0} {}", if over <= MORE { "met" } else { "MISSED" })
}

fn main() {
    let layouts = layouts::all();
    let mut held: Vec<(String, Lent)> = Vec::new();
    for layout in &layouts {
        held.extend([2, 4].map(|longest| (format!("{} k {longest}", layout.name), self::held(longest, &layout.edges))));
    }
    for (kind, first_again, second_again) in KINDS {
        heading(kind, "us");
        let mut times = Vec::new();
        for (name, lent) in &mut held {
            times.push((name.clone(), time_two(name, lent, first_again, second_again, 100)));
        }
        heading_of(kind, "us", "two", "single");
        for (name, [two, single]) in times {
            let note = margin(&two, &single);
            print_times(&name, two, single, note);
        }
    }
}
