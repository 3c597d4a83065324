//! What the totals were like in the record lent to a call, beside the edges that stood, and which came back. Each case
//! has to be reached.

use crate::counts::Call;
use crate::reference::Totals;

pub struct Handed {
    pub call: Call,
    /// 0, or the refusal.
    pub number: u32,
    /// The totals of the edges in the memory lent, all 0 if it does not read as edges; of a card those of its edges.
    pub stood: Totals,
    pub given: Totals,
    pub left: Totals,
}

/// How a total, the first number, lies about the edges of its label, the second.
type Lie = (&'static str, fn(u32, u32) -> bool);

const LIES: [Lie; 3] = [
    ("a total 0 though edges stand", |total, stood| total == 0 && stood > 0),
    ("a total not 0 though none do", |total, stood| total > 0 && stood == 0),
    ("a total 2^32 - 1", |total, _| total == u32::MAX),
];

/// Of the totals of the edge's label, where an edge was inserted or removed.
const OF_THE_EDGE: [(Call, &str, fn(&Handed, usize) -> bool); 6] = [
    (Call::Insert, "the first edge of its label, totals right", |h, i| h.is_right() && h.stood[i] == 0),
    (Call::Insert, "its label's total 0 though edges stand", |h, i| h.given[i] == 0 && h.stood[i] > 0),
    (Call::Insert, "its label's total 2^32 - 1", |h, i| h.given[i] == u32::MAX),
    (Call::Remove, "the last edge of its label, totals right", |h, i| h.is_right() && h.left[i] == 0),
    (Call::Remove, "its label's total 0", |h, i| h.given[i] == 0),
    (Call::Remove, "its label's total 2^32 - 1", |h, i| h.given[i] == u32::MAX),
];

impl Handed {
    fn is_right(&self) -> bool {
        self.given == self.stood
    }

    fn is_accepted(&self) -> bool {
        self.number == 0
    }

    /// The place of the label of which there is then one edge more or less.
    fn changed(&self) -> Option<usize> {
        (0..8).find(|i| self.is_accepted() && self.left[*i] != self.stood[*i])
    }

    /// The cases that this is.
    pub fn cases(&self) -> Vec<String> {
        let end = if self.is_accepted() { "accepted" } else { "refused" };
        let lies = LIES.iter().filter(|(_, is_so)| (0..8).any(|i| is_so(self.given[i], self.stood[i])));
        let mut cases: Vec<String> = lies.map(|(lie, _)| format!("{end}, {lie}")).collect();
        if !self.is_accepted() && !self.is_right() {
            cases.push(format!("refused with {}, totals not right", self.number));
        }
        if self.is_accepted() && self.is_right() && self.given != [0; 8] {
            cases.push("accepted, totals right and not all 0".to_string());
        }
        if self.is_accepted() {
            cases.extend((0..8).filter(|i| self.left[*i] > 0).map(counted));
        }
        if let Some(i) = self.changed() {
            let of_the_edge = OF_THE_EDGE.iter().filter(|(call, _, is_so)| *call == self.call && is_so(self, i));
            cases.extend(of_the_edge.map(|(_, case, _)| case.to_string()));
        }
        cases
    }
}

fn counted(i: usize) -> String {
    format!("accepted, edges of label {} counted", i + 1)
}

/// The cases of a call with these refusals that have to be reached.
pub fn needed(call: Call, order: &[u32]) -> Vec<String> {
    let mut cases = Vec::new();
    for end in ["accepted", "refused"] {
        cases.extend(LIES.iter().map(|(lie, _)| format!("{end}, {lie}")));
    }
    if call != Call::ReadCard {
        cases.push("accepted, totals right and not all 0".to_string());
    }
    if [Call::Open, Call::Insert, Call::Remove, Call::ReadCard].contains(&call) {
        cases.extend(order.iter().map(|number| format!("refused with {number}, totals not right")));
    }
    if [Call::Insert, Call::Remove, Call::ReadCard].contains(&call) {
        cases.extend((0..8).map(counted));
    }
    cases.extend(OF_THE_EDGE.iter().filter(|case| case.0 == call).map(|case| case.1.to_string()));
    cases
}
