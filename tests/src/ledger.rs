//! Document 01's ledger, a plain machine of its own: it holds vertices, longest and a set of edges, is fed
//! what each call is given and how many slots are lent, and is shown no reply and no memory. The totals in its replies
//! (document 02, Four) it counts itself.

use crate::record::{Header, Record};
use crate::reference::{determined, edge_number, Edge};
use std::collections::BTreeSet;

#[derive(Clone, Debug)]
pub enum Fed {
    Open(Record),
    Insert(Edge),
    Remove(Edge),
    Card(Vec<u8>),
}

/// How many slots are lent.
#[derive(Clone, Copy, Debug)]
pub struct Slots {
    pub edges: usize,
    pub index: usize,
    pub work: usize,
}

/// 0 accepted, or the refusal's number; and the record replied, none for a refused card.
pub type Reply = (u32, Option<Record>);

#[derive(Default)]
pub struct Ledger {
    pub header: Header,
    edges: BTreeSet<Edge>,
    /// The record last replied to an accepted call.
    replied: Record,
}

impl Ledger {
    pub fn feed(&mut self, fed: &Fed, slots: Slots) -> Reply {
        let number = match fed {
            Fed::Open(record) => self.open(record.header, slots),
            Fed::Insert(edge) => self.change(*edge, true, slots),
            Fed::Remove(edge) => self.change(*edge, false, slots),
            Fed::Card(card) => self.card(card, slots),
        };
        if number == 0 {
            self.replied = self.record();
        }
        let record = match fed {
            Fed::Open(given) if number != 0 => Some(*given),
            Fed::Card(_) if number != 0 => None,
            _ => Some(self.replied),
        };
        (number, record)
    }

    /// Vertices and longest then held, and one for each standing edge in the total of its label.
    fn record(&self) -> Record {
        let mut record = Record { header: self.header, totals: [0; 8] };
        for (_, label, _) in &self.edges {
            record.totals[*label as usize - 1] += 1;
        }
        record
    }

    fn open(&mut self, header: Header, slots: Slots) -> u32 {
        if header[0] < 1 || header[0] > 256 {
            return 1;
        }
        if header[1] < 1 || header[1] > 4 {
            return 2;
        }
        if slots.edges > 1024 {
            return 3;
        }
        self.header = header;
        self.edges.clear();
        0
    }

    fn change(&mut self, edge: Edge, insertion: bool, slots: Slots) -> u32 {
        let (from, label, to) = edge;
        if slots.edges > 1024 {
            return 3;
        }
        if slots.work < 4096 + slots.index {
            return 4;
        }
        if from >= self.header[0] || to >= self.header[0] {
            return 5;
        }
        if label < 1 || label > 8 {
            return 6;
        }
        let mut wanted = self.edges.clone();
        if insertion && !wanted.insert(edge) {
            return 7;
        }
        if !insertion && !wanted.remove(&edge) {
            return 8;
        }
        if insertion && slots.edges < wanted.len() {
            return 9;
        }
        if needed(&wanted, self.header[1]).len() > slots.index {
            return 13;
        }
        self.edges = wanted;
        0
    }

    fn card(&mut self, card: &[u8], slots: Slots) -> u32 {
        if card.len() < 9 || card[0] != 0x50 || card[1] != 0x52 || card[2] != 0x43 {
            return 14;
        }
        if card[3] != 0 || card[4] != 1 {
            return 15;
        }
        let header = [card[5] as u32 + 1, card[6] as u32];
        if header[1] < 1 || header[1] > 4 {
            return 2;
        }
        let count = u16::from_be_bytes([card[7], card[8]]) as usize;
        if card.len() != 9 + 3 * count {
            return 16;
        }
        let Some(edges) = card_edges(&card[9..], header[0]) else {
            return 16;
        };
        if slots.edges > 1024 {
            return 3;
        }
        if slots.edges < count {
            return 9;
        }
        if slots.work < 4096 + slots.index {
            return 4;
        }
        if needed(&edges, header[1]).len() > slots.index {
            return 13;
        }
        self.header = header;
        self.edges = edges;
        0
    }

    pub fn standing(&self) -> Vec<Edge> {
        self.edges.iter().copied().collect()
    }

    /// What edge memory of this many slots holds: the standing edges, rising, then zeros.
    pub fn edge_memory(&self, slots: usize) -> Vec<u32> {
        let mut memory: Vec<u32> = self.edges.iter().map(|edge| edge_number(*edge)).collect();
        memory.resize(slots, 0);
        memory
    }

    /// What index memory of this many slots holds: the entries that the standing edges determine, rising, then zeros.
    pub fn index_memory(&self, slots: usize) -> Vec<u64> {
        let mut memory = needed(&self.edges, self.header[1]);
        memory.resize(slots, 0);
        memory
    }
}

fn needed(edges: &BTreeSet<Edge>, longest: u32) -> Vec<u64> {
    let edges: Vec<Edge> = edges.iter().copied().collect();
    determined(&edges, longest)
}

/// The edges that a card's triples name, if they rise and are edges of a layout with so many vertices.
fn card_edges(triples: &[u8], vertices: u32) -> Option<BTreeSet<Edge>> {
    let mut edges: BTreeSet<Edge> = BTreeSet::new();
    for bytes in triples.chunks(3) {
        let edge = (bytes[0] as u32, bytes[1] as u32, bytes[2] as u32);
        let of_layout = edge.0 < vertices && edge.1 >= 1 && edge.1 <= 8 && edge.2 < vertices;
        if !of_layout || edges.last().is_some_and(|last| *last >= edge) {
            return None;
        }
        edges.insert(edge);
    }
    Some(edges)
}
