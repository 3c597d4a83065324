//! The listing program, run on cards of every kind: what it prints is what document 01's definitions give for the first
//! 4,096 bytes of its input, with 1,024 edge slots and 1,024 index slots.

use crate::calls::{card_of, read_card, Memory};
use crate::compare::Tester;
use crate::gen;
use crate::reference::*;
use crate::trials::CARD_A;
use std::io::Write;
use std::process::{Command, Stdio};

pub const BYTES: usize = 4096;
const SLOTS: usize = 1024;

/// Runs the program with these inputs; returns how many.
pub fn run(t: &mut Tester, program: &str) -> usize {
    t.part = "listing";
    let inputs = inputs(t);
    for input in &inputs {
        let got = printed_by(program, input);
        t.expect("the listing", got, expected(&input[..input.len().min(BYTES)]));
    }
    inputs.len()
}

pub fn inputs(t: &mut Tester) -> Vec<Vec<u8>> {
    let largest = largest();
    let too_many = card_of([256, 2], &gen::many_edges(&mut t.rng, SLOTS));
    let mut inputs =
        vec![vec![], CARD_A[..5].to_vec(), CARD_A.to_vec(), card_of([256, 4], &[]), largest.clone(), too_many];
    // A card that is too long by one byte, that fills the 4,096 bytes, and that goes on behind them.
    for length in [largest.len() + 1, BYTES, BYTES + 1, 3 * BYTES] {
        let mut long = largest.clone();
        long.resize(length, 1);
        inputs.push(long);
    }
    for at in [0, 4, 6, 8, 10] {
        let mut damaged = CARD_A.to_vec();
        damaged[at] ^= 8;
        inputs.push(damaged);
    }
    inputs
}

/// 1,024 edges that determine 1,024 entries: from each vertex to vertex 0, by four labels.
fn largest() -> Vec<u8> {
    let edges: Vec<Edge> = (0..256).flat_map(|v| (1..5).map(move |label| (v, label, 0))).collect();
    card_of([256, 1], &edges)
}

/// What a program prints for the input.
pub fn printed_by(program: &str, input: &[u8]) -> String {
    let mut child = Command::new(program).stdin(Stdio::piped()).stdout(Stdio::piped()).spawn().expect("the program");
    // The program may end without reading bytes behind the 4,096th.
    let _ = child.stdin.take().expect("its input").write_all(input);
    let output = child.wait_with_output().expect("its output");
    assert!(output.status.success(), "the status of {program}");
    String::from_utf8(output.stdout).expect("text")
}

fn expected(card: &[u8]) -> String {
    let mut memory = Memory { edges: vec![0; SLOTS], index: vec![0; SLOTS], work: vec![0; 4096 + SLOTS] };
    let (refusals, record) = read_card(card, &mut memory);
    let Some(record) = record else {
        return format!("refused {}\n", refusals[0]);
    };
    let [vertices, longest] = record.header;
    let edges = memory.edges.iter().filter(|slot| **slot != 0).count();
    let entries: Vec<u64> = memory.index.iter().copied().filter(|slot| *slot != 0).collect();
    let mut text = format!("places {vertices} longest {longest} legs {edges} entries {}\n", entries.len());
    for entry in entries {
        let side = if entry >> 32 == 0 { "out" } else { "in" };
        let labels = entry & 0xFFFF;
        text += &format!("{side} {} {} {labels:x}\n", entry >> 24 & 255, entry >> 16 & 255);
    }
    text
}
