//! What a query was like as far as the totals of its record play a part (document 02, Four). Each case has to be
//! reached.

use crate::calls::{repeats_itself, Memory, Refusals, WORK};
use crate::record::Record;
use crate::reference::{is_label, Totals};

pub struct Asked<'a> {
    pub record: &'a Record,
    pub pattern: &'a [u8],
    /// As the query left it.
    pub memory: &'a Memory,
    /// The totals of the edges lent, all 0 if they do not read as edges.
    pub stood: Totals,
    pub replied: &'a (Refusals, bool),
    /// The full reply, whatever the totals.
    pub full: (Refusals, bool),
}

type Case = (&'static str, fn(&Asked) -> bool);

pub const CASES: [Case; 45] = [
    ("no by a total of 0, no refusal skipped", |a| a.skips(&[])),
    ("no by a total of 0, 12 skipped", |a| a.skips(&[12])),
    ("no by a total of 0, 3 skipped", |a| a.skips(&[3])),
    ("no by a total of 0, 4 skipped", |a| a.skips(&[4])),
    ("no by a total of 0, 12 and 3 skipped", |a| a.skips(&[12, 3])),
    ("no by a total of 0, 12 and 4 skipped", |a| a.skips(&[12, 4])),
    ("no by a total of 0, 3 and 4 skipped", |a| a.skips(&[3, 4])),
    ("no by a total of 0, 12, 3 and 4 skipped", |a| a.skips(&[12, 3, 4])),
    ("no by a total of 0, the full reply yes by the index", |a| a.is_no() && a.full.1 && !a.repeats()),
    ("no by a total of 0, the full reply yes by the edges", |a| a.is_no() && a.full.1 && a.repeats()),
    ("no by a total of 0, the pattern repeats itself, work memory not zero", |a| a.is_no() && a.finds_work()),
    ("no by a total of 0, the pattern repeats itself, no work memory", |a| a.is_no() && a.finds_no_work()),
    ("no by the total of the first of several labels alone", |a| a.is_by(&[0]) && a.pattern.len() > 1),
    ("no by the total of the second label alone", |a| a.is_by(&[1])),
    ("no by the total of the third label alone", |a| a.is_by(&[2])),
    ("no by the total of the fourth label alone", |a| a.is_by(&[3])),
    ("no by the total of the second and the fourth label", |a| a.is_by(&[1, 3]) && a.repeats()),
    ("no by the total of label 1, the others not 0", |a| a.is_by_label(1)),
    ("no by the total of label 2, the others not 0", |a| a.is_by_label(2)),
    ("no by the total of label 3, the others not 0", |a| a.is_by_label(3)),
    ("no by the total of label 4, the others not 0", |a| a.is_by_label(4)),
    ("no by the total of label 5, the others not 0", |a| a.is_by_label(5)),
    ("no by the total of label 6, the others not 0", |a| a.is_by_label(6)),
    ("no by the total of label 7, the others not 0", |a| a.is_by_label(7)),
    ("no by the total of label 8, the others not 0", |a| a.is_by_label(8)),
    ("no by a total of 0, all totals 0", |a| a.is_no() && a.record.totals == [0; 8]),
    ("1 before a total of 0", |a| a.lacks() && a.is_refused_with(1)),
    ("2 before a total of 0", |a| a.lacks() && a.is_refused_with(2)),
    ("10 before a total of 0", |a| a.lacks() && a.is_refused_with(10)),
    ("11 before a total of 0, too many labels", |a| a.lacks() && a.is_refused_with(11) && a.are_labels()),
    ("11 before a total of 0, beside what is no label", |a| a.lacks() && a.is_refused_with(11) && !a.are_labels()),
    ("11 for no labels, all totals 0", |a| a.pattern.is_empty() && a.has(11) && a.record.totals == [0; 8]),
    ("12 by a label that no edge has, its total not 0", |a| a.has(12) && a.overstates()),
    ("4 by a label that no edge has, its total not 0", |a| a.has(4) && a.overstates()),
    ("no by the index, a label that no edge has, its total not 0", |a| a.is_full_no() && a.overstates()),
    ("no by the edges, a label that no edge has, its total not 0", |a| a.is_full_no_by_edges() && a.overstates()),
    ("3, a total 2^32 - 1", |a| a.has(3) && a.is_most()),
    ("yes by the index, a total 2^32 - 1", |a| a.is_yes() && !a.repeats() && a.is_most()),
    ("yes by the edges, a total 2^32 - 1", |a| a.is_yes() && a.repeats() && a.is_most()),
    ("yes, a total that is 0 in its last byte", |a| a.is_yes() && a.totals().iter().any(|total| total % 256 == 0)),
    ("yes by the index, another label's total 0", |a| a.is_yes() && !a.repeats() && a.has_other_zero()),
    ("yes by the edges, another label's total 0", |a| a.is_yes() && a.repeats() && a.has_other_zero()),
    ("12, another label's total 0", |a| a.has(12) && a.has_other_zero()),
    ("3, another label's total 0", |a| a.has(3) && a.has_other_zero()),
    ("4, another label's total 0", |a| a.has(4) && a.has_other_zero()),
];

impl Asked<'_> {
    fn repeats(&self) -> bool {
        repeats_itself(self.pattern)
    }

    fn are_labels(&self) -> bool {
        self.pattern.iter().all(|label| is_label(*label as u32))
    }

    fn lacks(&self) -> bool {
        self.record.lacks(self.pattern)
    }

    /// The first refusal that applied?
    fn has(&self, number: u32) -> bool {
        self.replied.0.first() == Some(&number)
    }

    /// The only one?
    fn is_refused_with(&self, number: u32) -> bool {
        self.replied.0 == [number]
    }

    fn is_yes(&self) -> bool {
        self.replied.1
    }

    /// No by a total of 0.
    fn is_no(&self) -> bool {
        self.lacks() && self.replied.0.is_empty()
    }

    fn skips(&self, refusals: &[u32]) -> bool {
        self.is_no() && self.full.0 == refusals
    }

    fn finds_work(&self) -> bool {
        self.repeats() && self.memory.work.len() >= WORK && self.memory.work.iter().any(|word| *word != 0)
    }

    fn finds_no_work(&self) -> bool {
        self.repeats() && self.memory.work.is_empty()
    }

    /// No by the labels at these places of the pattern and no other?
    fn is_by(&self, places: &[usize]) -> bool {
        let zeros = (0..self.pattern.len()).filter(|i| self.record.is_zero(self.pattern[*i]));
        self.is_no() && zeros.eq(places.iter().copied())
    }

    fn is_by_label(&self, label: u8) -> bool {
        self.is_no() && (1..=8).all(|other| self.record.is_zero(other) == (other == label))
    }

    fn is_full_no(&self) -> bool {
        *self.replied == (vec![], false) && !self.lacks() && !self.repeats()
    }

    fn is_full_no_by_edges(&self) -> bool {
        *self.replied == (vec![], false) && !self.lacks() && self.repeats()
    }

    /// The totals of the pattern's labels.
    fn totals(&self) -> Vec<u32> {
        self.pattern.iter().map(|label| self.record.totals[*label as usize - 1]).collect()
    }

    fn is_most(&self) -> bool {
        self.totals().contains(&u32::MAX)
    }

    /// A label of the pattern that no edge has, though its total is not 0?
    fn overstates(&self) -> bool {
        self.pattern.iter().any(|label| self.stood[*label as usize - 1] == 0 && !self.record.is_zero(*label))
    }

    fn has_other_zero(&self) -> bool {
        (1..=8).any(|label| self.record.is_zero(label) && !self.pattern.contains(&label))
    }
}
