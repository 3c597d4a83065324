//! Random lists of openings, insertions, removals and card readings, refused ones among them, held to the
//! ledger after each call, with questions on what the accepted ones leave. The record goes on from call to call as it
//! was handed back; now and then an opening or a card reading finds other numbers in it.

use crate::asks::{ask, ask_shapes, strike_out, Ground};
use crate::calls::{card_of, Memory};
use crate::cards;
use crate::compare::Tester;
use crate::gen::{self, Layout};
use crate::ledger::{Fed, Ledger, Slots};
use crate::record::Record;
use crate::records;
use crate::reference::*;

pub fn round(t: &mut Tester) {
    t.part = "lists";
    let mut list = List::new(t);
    for _ in 0..t.rng.from_to(10, 40) {
        let fed = list.next_call(t);
        if !list.put(t, &fed) {
            continue;
        }
        let ground = list.ground(fed);
        ask(t, &ground, &mut list.memory);
        if t.rng.one_in(3) {
            strike_out(t, &ground, &list.memory);
        }
        if t.rng.one_in(6) {
            cards::there_and_back(t, list.record, &list.memory);
        }
        list.last = Some(ground);
    }
    if let Some(ground) = &list.last {
        ask_shapes(t, ground, &mut list.memory);
    }
}

/// A list so far.
struct List {
    layout: Layout,
    memory: Memory,
    ledger: Ledger,
    /// As the last accepted call handed it back, and the refused ones after it.
    record: Record,
    /// What the last accepted call left.
    last: Option<Ground>,
}

impl List {
    fn new(t: &mut Tester) -> List {
        let layout = gen::layout(&mut t.rng);
        let (edge_slots, index_slots) = (edge_slots(t), index_slots(t, &layout));
        let memory = gen::noise(&mut t.rng, edge_slots, index_slots, 0);
        List { layout, memory, ledger: Ledger::default(), record: records::noise(&mut t.rng), last: None }
    }

    fn next_call(&self, t: &mut Tester) -> Fed {
        if self.last.is_none() || t.rng.one_in(20) {
            self.opening_or_card(t)
        } else {
            any_change(t, &self.layout, &self.ledger)
        }
    }

    /// The call on the list's memory, held to the ledger. Is it accepted?
    fn put(&mut self, t: &mut Tester, fed: &Fed) -> bool {
        let (edges, index) = (self.memory.edges.len(), self.memory.index.len());
        let work =
            if t.rng.one_in(20) { gen::short_work(&mut t.rng, index) } else { gen::enough_work(&mut t.rng, index) };
        self.memory.work = t.rng.words(work);
        let expected = self.ledger.feed(fed, Slots { edges, index, work });
        let given = self.lent_record(t, fed);
        let mut record = given;
        let number = match fed {
            Fed::Open(_) => t.open(&mut record, &mut self.memory),
            Fed::Insert(edge) => t.change(true, &mut record, *edge, &mut self.memory),
            Fed::Remove(edge) => t.change(false, &mut record, *edge, &mut self.memory),
            Fed::Card(card) => t.read_card_into(&mut record, card, &mut self.memory),
        };
        let refused_card = number != 0 && matches!(fed, Fed::Card(_));
        t.expect("the ledger's reply", (number, Some(record).filter(|_| !refused_card)), expected);
        if number != 0 {
            t.expect("the record as given", record, given);
            return false;
        }
        self.record = record;
        t.expect("the ledger's edges", &self.memory.edges, &self.ledger.edge_memory(edges));
        t.expect("the ledger's index", &self.memory.index, &self.ledger.index_memory(index));
        true
    }

    /// An opening has its own; a card is read into the record that goes on, or into noise; a refusal of either leaves
    /// the list's record as it is.
    fn lent_record(&self, t: &mut Tester, fed: &Fed) -> Record {
        match fed {
            Fed::Open(given) => *given,
            Fed::Card(_) if t.rng.one_in(2) => records::noise(&mut t.rng),
            _ => self.record,
        }
    }

    /// The totals of an opening's record are those that go on, or lie about the edges that stand.
    fn opening_or_card(&self, t: &mut Tester) -> Fed {
        let mut header = self.layout.header;
        if t.rng.one_in(3) {
            let count = t.rng.below(12);
            let mut card = card_of(header, &gen::edges(&mut t.rng, &self.layout, count));
            if t.rng.one_in(3) {
                cards::damage(&mut t.rng, &mut card);
            }
            return Fed::Card(card);
        }
        match t.rng.below(6) {
            0 => header[0] = gen::no_vertices(&mut t.rng),
            1 => header[1] = gen::no_longest(&mut t.rng),
            _ => {}
        }
        if t.rng.one_in(2) {
            return Fed::Open(Record { header, ..self.record });
        }
        Fed::Open(records::any(&mut t.rng, header, &self.ledger.standing()))
    }

    fn ground(&self, change: Fed) -> Ground {
        let layout = Layout { header: self.ledger.header, labels: self.layout.labels.clone() };
        Ground { layout, edges: self.ledger.standing(), record: self.record, change }
    }
}

fn edge_slots(t: &mut Tester) -> usize {
    match t.rng.below(6) {
        0 => t.rng.below(4),
        1 => t.rng.below(10),
        2 if t.rng.one_in(5) => 1024,
        _ => t.rng.from_to(10, 60),
    }
}

/// Often about as many as some edges of this layout need.
fn index_slots(t: &mut Tester, layout: &Layout) -> usize {
    let count = t.rng.below(16);
    let needed = determined(&gen::edges(&mut t.rng, layout, count), layout.header[1]).len();
    match t.rng.below(6) {
        0 => t.rng.below(8),
        1 => needed.saturating_sub(1),
        2 => needed,
        3 => needed + t.rng.below(20),
        4 => 2 * needed + 10,
        _ => t.rng.from_to(200, 2000),
    }
}

fn any_change(t: &mut Tester, layout: &Layout, ledger: &Ledger) -> Fed {
    let mut edge = gen::edge(&mut t.rng, layout);
    let standing = ledger.standing();
    let insertion = t.rng.below(100) < 60;
    if !standing.is_empty() && t.rng.one_in(if insertion { 8 } else { 1 }) {
        edge = t.rng.pick(&standing);
    }
    match t.rng.below(30) {
        0 => edge.0 = gen::no_vertex(&mut t.rng, layout.header[0]),
        1 => edge.1 = gen::no_wide_label(&mut t.rng),
        2 => edge.2 = gen::no_vertex(&mut t.rng, layout.header[0]),
        3 => edge = gen::edge(&mut t.rng, layout),
        _ => {}
    }
    if insertion {
        Fed::Insert(edge)
    } else {
        Fed::Remove(edge)
    }
}
