//! The record: document 01's vertices and longest pattern, and the totals of document 02, Four.

use crate::reference::{is_label, totals, Edge, Totals};

/// How many numbers a record has in C.
pub const RECORD_N: usize = 10;

/// Vertices and longest pattern.
pub type Header = [u32; 2];

#[derive(Clone, Copy, Debug, Default, PartialEq)]
pub struct Record {
    pub header: Header,
    pub totals: Totals,
}

impl Record {
    /// The record of a layout with these edges.
    pub fn counted(header: Header, edges: &[Edge]) -> Record {
        Record { header, totals: totals(edges) }
    }

    /// As it is lent: vertices, longest pattern, then the totals of labels 1 to 8.
    pub fn numbers(&self) -> [u32; RECORD_N] {
        std::array::from_fn(|i| if i < 2 { self.header[i] } else { self.totals[i - 2] })
    }

    /// Has this label total 0? What is no label has no total.
    pub fn is_zero(&self, label: u8) -> bool {
        is_label(label as u32) && self.totals[label as usize - 1] == 0
    }

    /// "A question with a colour whose total is 0"?
    pub fn lacks(&self, pattern: &[u8]) -> bool {
        pattern.iter().any(|label| self.is_zero(*label))
    }
}
