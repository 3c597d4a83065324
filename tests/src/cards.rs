//! Layout cards: valid, damaged, truncated and overlong, read and written.

use crate::calls::{card_of, Memory};
use crate::compare::Tester;
use crate::gen;
use crate::record::{Header, Record};
use crate::records;
use crate::reference::*;
use crate::rng::Rng;

pub fn round(t: &mut Tester) {
    t.part = "cards";
    for _ in 0..12 {
        let layout = gen::layout(&mut t.rng);
        let count = t.rng.pick(&[0, 1, 2, 5, 10, 30]);
        let edges = gen::edges(&mut t.rng, &layout, count);
        let needed = determined(&edges, layout.header[1]).len();
        let mut card = card_of(layout.header, &edges);
        if t.rng.one_in(2) {
            damage(&mut t.rng, &mut card);
        }
        let edge_slots = match t.rng.below(10) {
            0 => edges.len().saturating_sub(1),
            1 => edges.len(),
            2 => t.rng.pick(&[1023, 1024, 1025]),
            _ => edges.len() + t.rng.below(10),
        };
        let index_slots = match t.rng.below(8) {
            0 => needed.saturating_sub(1),
            1 => 0,
            2..=4 => needed,
            _ => needed + t.rng.below(50),
        };
        let work = if t.rng.one_in(12) {
            gen::short_work(&mut t.rng, index_slots)
        } else {
            gen::enough_work(&mut t.rng, index_slots)
        };
        let mut memory = gen::noise(&mut t.rng, edge_slots, index_slots, work);
        if let (0, Some(record)) = t.read_card(&card, &mut memory) {
            written_again(t, record, &memory, &card);
        }
        written(t, layout.header, &edges);
    }
}

/// A card written to outputs from 0 bytes up, also from damaged memory, with any totals.
fn written(t: &mut Tester, header: Header, edges: &[Edge]) {
    let mut slots = gen::edge_memory(edges, edges.len() + t.rng.below(4));
    if t.rng.one_in(2) {
        gen::damage_edges(&mut t.rng, header[0], &mut slots);
    }
    let length = 9 + 3 * edges.len();
    let any = t.rng.below(length);
    let room = t.rng.pick(&[0, 8, 9, length - 1, length, length + 1, length + 100, any]);
    let mut output = t.rng.bytes(room);
    let record = records::any(&mut t.rng, header, edges);
    t.write_card(record, &slots, &mut output);
}

/// Changes a card, mostly so that it is refused.
pub fn damage(rng: &mut Rng, card: &mut Vec<u8>) {
    let length = card.len();
    let any = rng.below(length);
    let more = rng.pick(&[1, 2, 3, 6]);
    match rng.below(10) {
        0 => card.truncate(any),
        1 => card.truncate(length - more.min(length)),
        2 => {
            let bytes = rng.bytes(more);
            card.extend(bytes);
        }
        3 => card[rng.below(3)] ^= 1 << rng.below(8),
        4 => card[3 + rng.below(2)] = rng.pick(&[0, 1, 1, 2, 255]),
        5 => card[5] = rng.below(8) as u8,
        6 => card[6] = rng.pick(&[0, 1, 2, 3, 4, 5, 255]),
        7 => card[7 + rng.below(2)] ^= 1 << rng.below(3),
        8 => card[any] = rng.next() as u8,
        _ if length >= 15 => {
            // Two edges change places, or one comes twice.
            let (a, b) = (9 + 3 * rng.below((length - 9) / 3), 9 + 3 * rng.below((length - 9) / 3));
            let twice = rng.one_in(2);
            for i in 0..3 {
                if twice {
                    card[a + i] = card[b + i];
                } else {
                    card.swap(a + i, b + i);
                }
            }
        }
        _ => card[any] ^= 1 << rng.below(8),
    }
}

/// After an accepted reading, writing gives the card's bytes and length and leaves the rest of the output alone,
/// whatever the totals have become.
fn written_again(t: &mut Tester, record: Record, memory: &Memory, card: &[u8]) {
    let room = card.len() + t.rng.below(5);
    for record in [record, records::any(&mut t.rng, record.header, &[])] {
        let before = t.rng.bytes(room);
        let mut output = before.clone();
        let reply = t.write_card(record, &memory.edges, &mut output);
        t.expect("the length of a card written again", reply, (0, card.len()));
        t.expect("the bytes of a card written again", &output[..card.len()], card);
        t.expect("the rest of the output", &output[card.len()..], &before[card.len()..]);
    }
}

/// A written card, read with just enough of everything, gives the same record, totals too, and edges. The totals that
/// it was written with play no part.
pub fn there_and_back(t: &mut Tester, record: Record, memory: &Memory) {
    let edges = standing(&memory.edges).unwrap();
    let needed = determined(&edges, record.header[1]).len();
    let mut card = t.rng.bytes(9 + 3 * edges.len());
    let written = records::any(&mut t.rng, record.header, &edges);
    t.write_card(written, &memory.edges, &mut card);
    let work = 4096 + needed;
    let mut fresh = gen::noise(&mut t.rng, edges.len(), needed, work);
    let reply = t.read_card(&card, &mut fresh);
    t.expect("the record of a card written and read", reply, (0, Some(record)));
    t.expect("the edges of a card written and read", &fresh.edges[..], &memory.edges[..edges.len()]);
}
