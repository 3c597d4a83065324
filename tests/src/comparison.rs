//! Compares the library, through its C interface, with a second implementation written from the definitions of
//! documents 01 and 02.
//!
//! A crate of its own, which is compiled without the library; main.rs links it.
//!
//! rlc_tests [SEED [ROUNDS [FIRST]]]: the fixed parts, then rounds FIRST, FIRST + 1, ... of random ones. A
//! round's inputs depend on the seed and its number only. Status 0 and a summary if all agrees; 1 at the
//! first disagreement, or if a refusal, a pair of refusals or a named case was not reached.

mod asks;
mod bounds;
mod calls;
mod cards;
mod cases;
mod compare;
mod counts;
mod damaged;
mod full_reply;
mod gen;
mod handed;
mod lacking;
#[path = "../../bench/src/layouts.rs"]
mod layouts;
mod ledger;
mod lengths;
mod lent;
mod library;
mod listing;
mod lists;
mod null;
mod pairs;
mod query_cases;
mod record;
mod record_cases;
mod records;
mod reference;
mod repeats;
mod rng;
mod routes;
mod selfcheck;
mod shortest;
mod size;
mod trials;
mod two;
mod two_cases;

use compare::Tester;
use rng::Rng;
use std::time::Instant;

const SEED: u64 = 1;
const ROUNDS: u64 = 600;

/// The programs, as `tools/program` leaves them in the repository.
const LISTING: &str = "target/bin/listing";
const SIZE: &str = "target/bin/size";
const REPEAT_TABLE: &str = "target/bin/repeat_table";

/// The whole comparison, by the program's arguments; it ends the program.
pub fn run() {
    let arguments: Vec<u64> = std::env::args().skip(1).map(|word| word.parse().expect("a number")).collect();
    let argument = |i: usize, default: u64| arguments.get(i).copied().unwrap_or(default);
    let (seed, rounds, first) = (argument(0, SEED), argument(1, ROUNDS), argument(2, 1));
    println!("seed {seed}, rounds {first} to {}", first + rounds - 1);
    let begin = Instant::now();
    selfcheck::run();
    let mut t = Tester::new(seed);
    fixed_parts(&mut t, begin);
    for round in first..first + rounds {
        t.round = round;
        t.rng = Rng::new(seed.wrapping_mul(1_000_003).wrapping_add(round));
        pairs::round(&mut t);
        lists::round(&mut t);
        damaged::round(&mut t);
        cards::round(&mut t);
        routes::round(&mut t);
        handed::round(&mut t);
        lacking::round(&mut t);
        two::round(&mut t);
    }
    let missing = t.counts.report();
    missing.iter().for_each(|line| println!("MISSING: {line}"));
    let seconds = begin.elapsed().as_secs_f64();
    println!(
        "{} calls compared, seed {seed}, {rounds} rounds, {seconds:.1} s: {}",
        t.calls,
        if missing.is_empty() { "all agree" } else { "FAILED" }
    );
    std::process::exit(if missing.is_empty() { 0 } else { 1 });
}

/// The parts that are no rounds, each with the calls and the time so far.
fn fixed_parts(t: &mut Tester, begin: Instant) {
    let parts: [(&str, fn(&mut Tester)); 9] = [
        ("trials", trials::run),
        ("bounds", bounds::run),
        ("lengths", lengths::run),
        ("null", null::run),
        ("handed", handed::run),
        ("lacking", lacking::run),
        ("routes", routes::run),
        ("two", two::run),
        ("repeats", |t| repeats::run(t, REPEAT_TABLE)),
    ];
    for (name, run) in parts {
        run(t);
        println!("{name}: {} calls, {:.1} s", t.calls, begin.elapsed().as_secs_f64());
    }
    let listings = listing::run(t, LISTING);
    println!("listing: {listings} inputs, {:.1} s", begin.elapsed().as_secs_f64());
    let sizes = size::run(t, SIZE);
    println!("size: {sizes} inputs, {:.1} s", begin.elapsed().as_secs_f64());
}
