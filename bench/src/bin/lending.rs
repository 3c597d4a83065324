//! What lending too much and loading edge by edge cost, through the C interface: a lay and a query with just the index slots that are needed and
//! with 2^18, and a layout loaded by a card and by one lay after another. Both take turns. And what the calls cost on the small layouts of one,
//! three and six stations.

#[path = "../layouts.rs"]
#[allow(dead_code)]
mod layouts;
#[path = "../lent.rs"]
#[allow(dead_code)]
mod lent;
#[path = "../timing.rs"]
#[allow(dead_code)]
mod timing;

use layouts::{Random, VERTICES};
use std::path::Path;
use lent::{draw, rlc_insert, rlc_remove, Lent};
use timing::{figures, heading_of, millis, print_times};

extern "C" {
    #[rustfmt::skip]
    fn rlc_read_card(record: *mut u32, n: usize, card: *const u8, c: usize, edges: *mut u32, m: usize,
                     index: *mut u64, slots: usize, work: *mut u64, w: usize) -> u32;
}

/// Slots for any of the layouts, with as many again or more to spare.
const MANY: usize = 1 << 18;

/// The layout with its index in so many slots: one edge is removed and laid again.
fn held(longest: u32, edges: &[u32], slots: usize) -> Lent {
    let mut lent = Lent::new(longest, edges, slots);
    lay(&mut lent, edges[0]);
    lent
}

/// Removes an edge and lays it again; the time of the lay, in us.
fn lay(lent: &mut Lent, edge: u32) -> f64 {
    assert_eq!(lent.change(rlc_remove, edge), 0);
    let (time, reply) = millis(|| lent.change(rlc_insert, edge));
    assert_eq!(reply, 0);
    time * 1e3
}

/// The slots that are needed to lay the edge again: it is removed first, and that may need more entries than there are with it.
fn needed(lent: &mut Lent, edge: u32) -> usize {
    let entries = lent.entries();
    assert_eq!(lent.change(rlc_remove, edge), 0);
    let without = lent.entries();
    assert_eq!(lent.change(rlc_insert, edge), 0);
    entries.max(without)
}

/// The mean of 100 queries, in us.
fn queries(lent: &mut Lent) -> f64 {
    let mut random = Random(12);
    let questions: Vec<_> = (0..100).map(|_| draw(&mut random, lent)).collect();
    let (time, replies) = millis(|| questions.iter().filter(|(s, t, pattern)| lent.query(*s, *t, pattern) == 100).count());
    assert!(replies <= questions.len());
    time * 1e3 / questions.len() as f64
}

/// One thing timed with many slots and with just enough.
fn spare(what: &str, turns: usize, time: impl Fn(&mut Lent) -> f64) {
    heading_of(what, "us", "many slots", "needed");
    for layout in &layouts::all() {
        for longest in [2, 4] {
            let mut many = held(longest, &layout.edges, MANY);
            let needed = needed(&mut many, layout.edges[0]);
            let mut just = held(longest, &layout.edges, needed);
            let (mut a, mut b) = (Vec::new(), Vec::new());
            for _ in 0..turns {
                a.push(time(&mut many));
                b.push(time(&mut just));
            }
            print_times(&format!("{} k {longest}", layout.name), a, b, format!("{MANY} and {needed} slots"));
        }
    }
}

fn card_of(longest: u32, edges: &[u32]) -> Vec<u8> {
    let mut card = b"PRC\0\x01".to_vec();
    card.extend([(VERTICES - 1) as u8, longest as u8, (edges.len() / 256) as u8, (edges.len() % 256) as u8]);
    edges.iter().for_each(|x| card.extend([(x / 4096) as u8, (x / 256 % 16) as u8, (x % 256) as u8]));
    card
}

/// Loads a layout by its card, in ms.
fn by_card(card: &[u8], index: &mut [u64], work: &mut [u64]) -> f64 {
    let (mut record, mut held) = ([0; 10], [0; 1024]);
    let (time, reply) = millis(|| unsafe {
        let (c, e, i, w) = (card.as_ptr(), held.as_mut_ptr(), index.as_mut_ptr(), work.as_mut_ptr());
        rlc_read_card(record.as_mut_ptr(), 10, c, card.len(), e, held.len(), i, index.len(), w, work.len())
    });
    assert_eq!(reply, 0);
    time
}

/// Loads it by one lay after another, in ms.
fn by_lays(longest: u32, edges: &[u32], slots: usize) -> f64 {
    let mut lent = Lent::new(longest, &vec![0; edges.len()], slots);
    let (time, refused) = millis(|| edges.iter().filter(|x| lent.change(rlc_insert, **x) != 0).count());
    assert_eq!(refused, 0);
    time
}

/// The most entries that stand while the edges are laid one after another.
fn most_entries(longest: u32, edges: &[u32]) -> usize {
    let mut lent = Lent::new(longest, &vec![0; edges.len()], MANY);
    let entries = edges.iter().map(|x| {
        assert_eq!(lent.change(rlc_insert, *x), 0);
        lent.entries()
    });
    entries.max().expect("an edge")
}

fn load() {
    heading_of("load", "ms", "lays", "card");
    for layout in &layouts::all() {
        for longest in [2, 4] {
            let entries = held(longest, &layout.edges, MANY).entries();
            let slots = most_entries(longest, &layout.edges);
            let (mut index, mut work) = (vec![0; slots], vec![0; 4096 + slots]);
            let (mut lays, mut cards) = (Vec::new(), Vec::new());
            for _ in 0..3 {
                lays.push(by_lays(longest, &layout.edges, slots));
                cards.push(by_card(&card_of(longest, &layout.edges), &mut index, &mut work));
            }
            print_times(&format!("{} k {longest}", layout.name), lays, cards, format!("{entries} entries, {slots} on the way"));
        }
    }
}

/// A card of examples/, with another longest pattern.
fn example(name: &str, longest: u32) -> Vec<u8> {
    let path = Path::new(env!("CARGO_MANIFEST_DIR")).join("../examples").join(name).with_extension("prc");
    let mut card = std::fs::read(path).expect("a card");
    card[6] = longest as u8;
    card
}

/// The layout of a card, its index built in so many slots.
fn held_of(card: &[u8], slots: usize) -> Lent {
    let edge = |x: &[u8]| x[0] as u32 * 4096 + x[1] as u32 * 256 + x[2] as u32;
    let edges: Vec<u32> = card[9..].chunks(3).map(edge).collect();
    let mut lent = Lent::of(card[5] as u32 + 1, card[6] as u32, &edges, slots);
    lay(&mut lent, edges[0]);
    lent
}

fn clubs() {
    heading_of("small layouts", "us", "lay", "query");
    for name in ["station", "three_stations", "six_stations"] {
        for longest in [2, 4] {
            let card = example(name, longest);
            let mut lent = held_of(&card, MANY);
            let (entries, edge) = (lent.entries(), lent.edges[0]);
            let slots = needed(&mut lent, edge);
            lent = held_of(&card, slots);
            let (mut index, mut work) = (vec![0; slots], vec![0; 4096 + slots]);
            let (mut lays, mut asked, mut cards) = (Vec::new(), Vec::new(), Vec::new());
            for _ in 0..200 {
                lays.push(lay(&mut lent, edge));
                asked.push(queries(&mut lent));
                cards.push(by_card(&card, &mut index, &mut work) * 1e3);
            }
            let note = format!("card read in {:.3}, {entries} entries, {slots} slots", figures(cards).0);
            print_times(&format!("{name} k {longest}"), lays, asked, note);
        }
    }
}

fn main() {
    spare("lay", 30, |lent| {
        let edge = lent.edges[0];
        lay(lent, edge)
    });
    spare("query", 5, queries);
    load();
    clubs();
}
