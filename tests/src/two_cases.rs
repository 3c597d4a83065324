//! What a query by two patterns (document 02, Five) was like: which patterns repeat themselves, where the middle is,
//! what the totals, the refusals and the memory were. Each case has to be reached.

use crate::calls::{keyed, repeats_itself, Memory, Middles, Refusals, Two, EDGES, WORK};
use crate::record::Record;
use crate::reference::{edges_of_layout, is_label, middle, minimum_repeat, standing, Edge};

pub struct AskedTwo<'a> {
    pub record: &'a Record,
    pub two: &'a Two,
    /// As the query left it.
    pub memory: &'a Memory,
    /// Was all work memory zero as the query found it?
    pub found_zero: bool,
    pub replied: &'a (Refusals, Middles),
    /// The full reply, whatever the totals.
    pub full: (Refusals, Middles),
}

/// Which of the patterns repeat themselves.
const KINDS: [&str; 4] = ["both written once", "the first repeats itself", "the second repeats itself", "both repeat"];

type Case = (&'static str, fn(&AskedTwo) -> bool);

const CASES: [Case; 62] = [
    ("yes, m is 0", |a| a.yes() == Some(0)),
    ("yes, m is the last vertex", |a| a.is_yes() && a.yes() == a.record.header[0].checked_sub(1)),
    ("yes, m is 255", |a| a.yes() == Some(255)),
    ("yes, one vertex", |a| a.is_yes() && a.record.header[0] == 1),
    ("yes, two vertices", |a| a.is_yes() && a.record.header[0] == 2),
    ("yes, one middle", |a| a.middles().len() == 1),
    ("yes, more than one middle", |a| a.middles().len() > 1),
    ("yes, a lower vertex out and not home", |a| a.yes().is_some_and(|m| a.out().iter().any(|v| *v < m))),
    ("yes, a lower vertex home and not out", |a| a.yes().is_some_and(|m| a.home().iter().any(|v| *v < m))),
    ("yes, start is destination", |a| a.is_yes() && a.is_round()),
    ("yes, m is the start", |a| a.yes() == Some(a.two.start) && !a.is_round()),
    ("yes, m is the destination", |a| a.yes() == Some(a.two.destination) && !a.is_round()),
    ("yes, m is start and destination", |a| a.yes() == Some(a.two.start) && a.is_round()),
    ("yes, the same pattern twice", |a| a.is_yes() && a.two.first == a.two.second),
    ("no, no vertex out, some home", |a| a.is_no() && a.out().is_empty() && !a.home().is_empty()),
    ("no, some vertices out, none home", |a| a.is_no() && !a.out().is_empty() && a.home().is_empty()),
    ("no, some vertices out and others home", |a| a.is_no() && !a.out().is_empty() && !a.home().is_empty()),
    // If standing still were a walk, the start would do, or the destination.
    ("no, home from the start", |a| a.is_no() && a.home().contains(&a.two.start)),
    ("no, out to the destination", |a| a.is_no() && a.out().contains(&a.two.destination)),
    ("no, start is destination, home from it", |a| a.is_no() && a.is_round() && a.home().contains(&a.two.start)),
    ("no, start is destination, out to it", |a| a.is_no() && a.is_round() && a.out().contains(&a.two.start)),
    ("yes, home from the start, which is lower", |a| {
        a.yes().is_some_and(|m| a.two.start < m) && a.home().contains(&a.two.start)
    }),
    ("yes, out to the destination, which is lower", |a| {
        a.yes().is_some_and(|m| a.two.destination < m) && a.out().contains(&a.two.destination)
    }),
    ("no where the minimum repeats are run, the first repeats", |a| a.is_no() && a.kind() == 1 && a.is_run_folded()),
    ("no where the minimum repeats are run, the second repeats", |a| a.is_no() && a.kind() == 2 && a.is_run_folded()),
    ("no where the minimum repeats are run, both repeat", |a| a.is_no() && a.kind() == 3 && a.is_run_folded()),
    // The index is not that of the edges: the pattern written once goes by the index.
    ("yes, the first repeats, the edges alone would reply no", |a| a.is_yes() && a.kind() == 1 && a.walks().is_none()),
    ("yes, the second repeats, the edges alone would reply no", |a| a.is_yes() && a.kind() == 2 && a.walks().is_none()),
    ("no, the first repeats, the edges alone would reply yes", |a| a.is_no() && a.kind() == 1 && a.walks().is_some()),
    ("no, the second repeats, the edges alone would reply yes", |a| a.is_no() && a.kind() == 2 && a.walks().is_some()),
    ("yes, both written once, edge memory that 3 refuses", |a| a.is_yes() && a.kind() == 0 && a.has_bad_edges()),
    ("no, both written once, edge memory that 3 refuses", |a| a.is_no() && a.kind() == 0 && a.has_bad_edges()),
    ("yes, both written once, no work memory", |a| a.is_yes() && a.kind() == 0 && a.memory.work.is_empty()),
    ("no, both written once, no work memory", |a| a.is_no() && a.kind() == 0 && a.memory.work.is_empty()),
    ("yes, both written once, work memory not zero", |a| a.is_yes() && a.kind() == 0 && a.is_long() && !a.found_zero),
    ("no, both written once, work memory not zero", |a| a.is_no() && a.kind() == 0 && a.is_long() && !a.found_zero),
    ("4, no work memory", |a| a.has(4) && a.memory.work.is_empty()),
    ("4, work memory of 4,095", |a| a.has(4) && a.memory.work.len() == WORK - 1),
    ("no by a total of 0 in the first pattern alone", |a| a.is_by_total() && a.lacks(true) && !a.lacks(false)),
    ("no by a total of 0 in the second pattern alone", |a| a.is_by_total() && a.lacks(false) && !a.lacks(true)),
    ("no by a total of 0 in both patterns", |a| a.is_by_total() && a.lacks(false) && a.lacks(true)),
    ("no by a total of 0 in the first alone, the full reply yes", |a| !a.lacks(false) && a.is_full_yes()),
    ("no by a total of 0 in the second alone, the full reply yes", |a| !a.lacks(true) && a.is_full_yes()),
    ("no by a total of 0, all totals 0", |a| a.is_by_total() && a.record.totals == [0; 8]),
    ("no by a total of 0, work memory not zero", |a| a.is_by_total() && a.kind() > 0 && a.is_long() && !a.found_zero),
    ("no by a total of 0, no work memory", |a| a.is_by_total() && a.kind() > 0 && a.memory.work.is_empty()),
    ("1 before a total of 0", |a| a.lacks_any() && a.is_refused_with(1)),
    ("2 before a total of 0", |a| a.lacks_any() && a.is_refused_with(2)),
    ("10 before a total of 0", |a| a.lacks_any() && a.is_refused_with(10)),
    ("11 for the first pattern, a total of 0 in the second", |a| a.is_11(true) && a.lacks(false)),
    ("11 for the second pattern, a total of 0 in the first", |a| a.is_11(false) && a.lacks(true)),
    ("11 for the first pattern, a total of 0 in it", |a| a.is_11(true) && a.lacks(true)),
    ("11 for the second pattern, a total of 0 in it", |a| a.is_11(false) && a.lacks(false)),
    ("10 for the start alone", |a| a.has(10) && a.is_vertex(a.two.destination)),
    ("10 for the destination alone", |a| a.has(10) && a.is_vertex(a.two.start)),
    ("11 for both patterns", |a| a.has(11) && a.is_bad(true) && a.is_bad(false)),
    ("yes, a total 2^32 - 1", |a| a.is_yes() && a.totals().contains(&u32::MAX)),
    ("yes, a total that is 0 in its last byte", |a| a.is_yes() && a.totals().iter().any(|total| total % 256 == 0)),
    ("yes, another label's total 0", |a| a.is_yes() && a.has_other_zero()),
    ("12, another label's total 0", |a| a.has(12) && a.has_other_zero()),
    ("3, another label's total 0", |a| a.has(3) && a.has_other_zero()),
    ("4, another label's total 0", |a| a.has(4) && a.has_other_zero()),
];

/// The refusals that memory brings about, all that apply.
const OF_MEMORY: [&[u32]; 7] = [&[12], &[3], &[4], &[12, 3], &[12, 4], &[3, 4], &[12, 3, 4]];

fn name_of(is_first: bool) -> &'static str {
    if is_first {
        "first"
    } else {
        "second"
    }
}

fn refused(kind: usize, refusals: &[u32]) -> String {
    format!("{refusals:?} applied, {}", KINDS[kind])
}

fn skipped(refusals: &[u32]) -> String {
    format!("no by a total of 0, {refusals:?} skipped")
}

fn answered(kind: usize, yes: bool) -> String {
    format!("{}, {}", if yes { "yes" } else { "no" }, KINDS[kind])
}

fn with_work(kind: usize, yes: bool, long: bool, zero: bool) -> String {
    let found = if zero { "zero" } else { "not zero" };
    format!("{}, work memory {found}, {}", answered(kind, yes), if long { "longer than 4,096" } else { "of 4,096" })
}

fn bad_with(is_first: bool, refusals: &[u32]) -> String {
    format!("11 for the {} pattern alone, {refusals:?} applied", name_of(is_first))
}

fn by_place(is_first: bool, place: usize) -> String {
    format!("no by the total of label number {} of the {} pattern alone", place + 1, name_of(is_first))
}

fn by_label(is_first: bool, label: u8) -> String {
    format!("no by the total of label {label} in the {} pattern alone, the others not 0", name_of(is_first))
}

/// The cases that have to be reached.
pub fn needed() -> Vec<String> {
    let mut cases: Vec<String> = CASES.iter().map(|case| case.0.to_string()).collect();
    for kind in 0..KINDS.len() {
        // Of patterns written once only 12 looks at memory.
        let of_memory = OF_MEMORY.iter().filter(|refusals| kind > 0 || **refusals == [12]);
        cases.extend(of_memory.map(|refusals| refused(kind, refusals)));
        for yes in [true, false] {
            cases.push(answered(kind, yes));
            let found = [(false, false), (false, true), (true, false), (true, true)].into_iter().filter(|_| kind > 0);
            cases.extend(found.map(|(long, zero)| with_work(kind, yes, long, zero)));
        }
    }
    cases.push(skipped(&[]));
    cases.extend(OF_MEMORY.iter().map(|refusals| skipped(refusals)));
    for is_first in [true, false] {
        cases.extend([&[11][..], &[11, 12], &[11, 3], &[11, 4]].iter().map(|numbers| bad_with(is_first, numbers)));
        cases.extend((0..4).map(|place| by_place(is_first, place)));
        cases.extend((1..=8).map(|label| by_label(is_first, label)));
    }
    cases
}

impl AskedTwo<'_> {
    /// The cases that this is.
    pub fn cases(&self) -> Vec<String> {
        let mut cases: Vec<String> = CASES.iter().filter(|case| case.1(self)).map(|case| case.0.to_string()).collect();
        let (kind, refusals) = (self.kind(), &self.replied.0);
        if self.is_answered() {
            cases.push(answered(kind, self.is_yes()));
            if kind > 0 {
                cases.push(with_work(kind, self.is_yes(), self.memory.work.len() > WORK, self.found_zero));
            }
        } else if self.is_by_total() {
            cases.push(skipped(&self.full.0));
            cases.extend(self.by_totals());
        } else if refusals[0] == 11 {
            let alone = [true, false].into_iter().filter(|is_first| self.is_11(*is_first));
            cases.extend(alone.map(|is_first| bad_with(is_first, refusals)));
        } else if [12, 3, 4].contains(&refusals[0]) {
            cases.push(refused(kind, refusals));
        }
        cases
    }

    /// By one label of one pattern, with the other pattern's totals not 0.
    fn by_totals(&self) -> Vec<String> {
        let mut cases = Vec::new();
        for is_first in [true, false].into_iter().filter(|is_first| !self.lacks(!*is_first)) {
            let pattern = self.pattern(is_first);
            let zeros: Vec<usize> = (0..pattern.len()).filter(|i| self.record.is_zero(pattern[*i])).collect();
            if zeros.len() == 1 {
                cases.push(by_place(is_first, zeros[0]));
            }
            let label = pattern[zeros[0]];
            if (1..=8).all(|other| self.record.is_zero(other) == (other == label)) {
                cases.push(by_label(is_first, label));
            }
        }
        cases
    }

    fn pattern(&self, is_first: bool) -> &[u8] {
        if is_first {
            &self.two.first
        } else {
            &self.two.second
        }
    }

    fn kind(&self) -> usize {
        usize::from(repeats_itself(&self.two.first)) + 2 * usize::from(repeats_itself(&self.two.second))
    }

    fn lacks(&self, is_first: bool) -> bool {
        self.record.lacks(self.pattern(is_first))
    }

    fn lacks_any(&self) -> bool {
        self.lacks(true) || self.lacks(false)
    }

    /// A yes or no that the index or the edges gave.
    fn is_answered(&self) -> bool {
        self.replied.0.is_empty() && !self.lacks_any()
    }

    fn is_by_total(&self) -> bool {
        self.replied.0.is_empty() && self.lacks_any()
    }

    fn middles(&self) -> Vec<u32> {
        self.replied.1.counting()
    }

    fn out(&self) -> &[u32] {
        &self.replied.1.out
    }

    fn home(&self) -> &[u32] {
        &self.replied.1.home
    }

    fn yes(&self) -> Option<u32> {
        self.replied.1.lowest()
    }

    fn is_yes(&self) -> bool {
        self.yes().is_some()
    }

    fn is_no(&self) -> bool {
        self.is_answered() && !self.is_yes()
    }

    fn is_round(&self) -> bool {
        self.two.start == self.two.destination
    }

    fn edges(&self) -> Vec<Edge> {
        standing(&self.memory.edges).unwrap()
    }

    /// The lowest m by the walks of the edges lent, whatever the index holds.
    fn walks(&self) -> Option<u32> {
        let (first, second) = (keyed(&self.two.first), keyed(&self.two.second));
        middle(&self.edges(), self.two.start, self.two.destination, &first, &second)
    }

    fn is_run_folded(&self) -> bool {
        let [first, second] = [&self.two.first, &self.two.second].map(|pattern| minimum_repeat(&keyed(pattern)));
        middle(&self.edges(), self.two.start, self.two.destination, &first, &second).is_some()
    }

    fn has_bad_edges(&self) -> bool {
        let edges = standing(&self.memory.edges);
        self.memory.edges.len() > EDGES || !edges.is_some_and(|edges| edges_of_layout(&edges, self.record.header[0]))
    }

    fn is_long(&self) -> bool {
        self.memory.work.len() >= WORK
    }

    fn is_full_yes(&self) -> bool {
        self.is_by_total() && self.full.1.lowest().is_some()
    }

    /// The first refusal that applied?
    fn has(&self, number: u32) -> bool {
        self.replied.0.first() == Some(&number)
    }

    /// The only one?
    fn is_refused_with(&self, number: u32) -> bool {
        self.replied.0 == [number]
    }

    fn is_bad(&self, is_first: bool) -> bool {
        let pattern = self.pattern(is_first);
        let labels = pattern.iter().all(|label| is_label(*label as u32));
        pattern.is_empty() || pattern.len() > self.record.header[1] as usize || !labels
    }

    /// 11 for this pattern alone?
    fn is_11(&self, is_first: bool) -> bool {
        self.has(11) && self.is_bad(is_first) && !self.is_bad(!is_first)
    }

    fn is_vertex(&self, vertex: u32) -> bool {
        vertex < self.record.header[0]
    }

    /// The totals of both patterns' labels.
    fn totals(&self) -> Vec<u32> {
        let labels = self.two.first.iter().chain(&self.two.second);
        labels.map(|label| self.record.totals[*label as usize - 1]).collect()
    }

    fn has_other_zero(&self) -> bool {
        let named = |label: u8| self.two.first.contains(&label) || self.two.second.contains(&label);
        (1..=8).any(|label| self.record.is_zero(label) && !named(label))
    }
}
