//! The library from Rust, shared by the examples: the calls as rlc.h declares them, the refusals by name, and a layout
//! in lent memory behind safe methods.
#![allow(dead_code)] // each example uses a part

use std::fmt;

#[rustfmt::skip]
extern "C" {
    fn rlc_open(record: *mut u32, record_n: usize, edges: *mut u32, edges_n: usize, index: *mut u64, index_n: usize) -> u32;
    fn rlc_insert(record: *mut u32, record_n: usize, from: u32, label: u32, to: u32, edges: *mut u32, edges_n: usize,
                  index: *mut u64, index_n: usize, work: *mut u64, work_n: usize) -> u32;
    fn rlc_query(record: *const u32, record_n: usize, start: u32, destination: u32, pattern: *const u8, pattern_n: usize,
                 edges: *const u32, edges_n: usize, index: *const u64, index_n: usize, work: *mut u64, work_n: usize) -> u32;
    fn rlc_read_card(record: *mut u32, record_n: usize, card: *const u8, card_n: usize, edges: *mut u32, edges_n: usize,
                     index: *mut u64, index_n: usize, work: *mut u64, work_n: usize) -> u32;
    fn rlc_write_card(record: *const u32, record_n: usize, edges: *const u32, edges_n: usize, output: *mut u8, output_n: usize) -> u64;
}

const ACCEPTED: u32 = 0;
const NO: u32 = 0;
const YES: u32 = 100;

/// Numbers of a record: vertices, longest pattern, and how many edges have label 1, label 2, .. label 8.
pub const RECORD_N: usize = 10;

/// Numbers of work memory to build an index in so many slots.
pub const fn work_n(slots: usize) -> usize {
    4096 + slots
}

/// Bytes of a card with so many edges.
pub const fn card_n(edges: usize) -> usize {
    9 + 3 * edges
}

/// The reply of a call that was refused.
#[derive(Clone, Copy, Debug, PartialEq, Eq)]
pub struct Refusal(pub u32);

impl Refusal {
    /// Fewer index slots than entries needed.
    pub const INDEX_SLOTS: Refusal = Refusal(13);

    pub fn name(self) -> &'static str {
        match self.0 {
            1 => "vertices",
            2 => "longest",
            3 => "edge memory",
            4 => "work memory",
            5 => "edge end",
            6 => "edge label",
            7 => "edge present",
            8 => "edge absent",
            9 => "edge slots",
            10 => "query end",
            11 => "query pattern",
            12 => "index memory",
            13 => "index slots",
            14 => "card mark",
            15 => "card version",
            16 => "card edges",
            17 => "card output",
            18 => "walk memory",
            255 => "record length",
            _ => "unknown",
        }
    }
}

/// As `refused 10: query end`.
impl fmt::Display for Refusal {
    fn fmt(&self, text: &mut fmt::Formatter) -> fmt::Result {
        write!(text, "refused {}: {}", self.0, self.name())
    }
}

impl std::error::Error for Refusal {}

fn accepted(reply: u32) -> Result<(), Refusal> {
    if reply == ACCEPTED {
        Ok(())
    } else {
        Err(Refusal(reply))
    }
}

/// A layout: its record, and the memory that it is kept in. Each call lends the library all of it.
pub struct Layout<'a> {
    record: [u32; RECORD_N],
    edges: &'a mut [u32],
    index: &'a mut [u64],
    work: &'a mut [u64],
}

impl<'a> Layout<'a> {
    /// No layout yet: open one, or read a card.
    pub fn new(edges: &'a mut [u32], index: &'a mut [u64], work: &'a mut [u64]) -> Layout<'a> {
        Layout { record: [0; RECORD_N], edges, index, work }
    }

    /// Opens an empty layout. Refused, the record stays as it was.
    pub fn open(&mut self, vertices: u32, longest: u32) -> Result<(), Refusal> {
        let mut record = [0; RECORD_N];
        (record[0], record[1]) = (vertices, longest);
        let (edges, index) = (&mut self.edges, &mut self.index);
        #[rustfmt::skip]
        let reply = unsafe {
            rlc_open(record.as_mut_ptr(), RECORD_N, edges.as_mut_ptr(), edges.len(), index.as_mut_ptr(), index.len())
        };
        accepted(reply)?;
        self.record = record;
        Ok(())
    }

    pub fn insert(&mut self, from: u32, label: u32, to: u32) -> Result<(), Refusal> {
        let (record, edges, index, work) = (&mut self.record, &mut self.edges, &mut self.index, &mut self.work);
        #[rustfmt::skip]
        let reply = unsafe {
            rlc_insert(record.as_mut_ptr(), RECORD_N, from, label, to, edges.as_mut_ptr(), edges.len(),
                       index.as_mut_ptr(), index.len(), work.as_mut_ptr(), work.len())
        };
        accepted(reply)
    }

    /// Does a walk from start to destination run the pattern?
    pub fn query(&mut self, start: u32, destination: u32, pattern: &[u8]) -> Result<bool, Refusal> {
        let (record, edges, index, work) = (&self.record, &self.edges, &self.index, &mut self.work);
        #[rustfmt::skip]
        let reply = unsafe {
            rlc_query(record.as_ptr(), RECORD_N, start, destination, pattern.as_ptr(), pattern.len(), edges.as_ptr(),
                      edges.len(), index.as_ptr(), index.len(), work.as_mut_ptr(), work.len())
        };
        match reply {
            YES => Ok(true),
            NO => Ok(false),
            refusal => Err(Refusal(refusal)),
        }
    }

    pub fn read_card(&mut self, card: &[u8]) -> Result<(), Refusal> {
        let (record, edges, index, work) = (&mut self.record, &mut self.edges, &mut self.index, &mut self.work);
        #[rustfmt::skip]
        let reply = unsafe {
            rlc_read_card(record.as_mut_ptr(), RECORD_N, card.as_ptr(), card.len(), edges.as_mut_ptr(), edges.len(),
                          index.as_mut_ptr(), index.len(), work.as_mut_ptr(), work.len())
        };
        accepted(reply)
    }

    /// Writes the card to the front of the output and returns its length.
    pub fn write_card(&self, output: &mut [u8]) -> Result<usize, Refusal> {
        let (record, edges) = (&self.record, &self.edges);
        #[rustfmt::skip]
        let reply = unsafe {
            rlc_write_card(record.as_ptr(), RECORD_N, edges.as_ptr(), edges.len(), output.as_mut_ptr(), output.len())
        };
        accepted((reply >> 32) as u32)?;
        Ok(reply as u32 as usize)
    }

    pub fn vertices(&self) -> u32 {
        self.record[0]
    }

    pub fn longest(&self) -> u32 {
        self.record[1]
    }

    /// How many edges have label 1, label 2, .. label 8.
    pub fn totals(&self) -> &[u32] {
        &self.record[2..]
    }

    /// How many entries the index has.
    pub fn entries(&self) -> usize {
        self.index.iter().take_while(|slot| **slot != 0).count()
    }
}
