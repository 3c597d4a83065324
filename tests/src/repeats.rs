//! The minimum repeat and how many times it was written (document 02, One and Two): by the table and computed, of every
//! pattern and of what is none; and the table that the program `repeat_table` prints.

use crate::compare::Tester;
use crate::reference::*;
use std::process::Command;

pub fn run(t: &mut Tester, program: &str) {
    t.part = "repeats";
    let patterns: Vec<Vec<u8>> =
        table_patterns().iter().map(|pattern| pattern.iter().map(|label| *label as u8).collect()).collect();
    for pattern in &patterns {
        let (length, times) = t.minimum_repeat(pattern);
        t.expect("the minimum repeat, written so many times, is as long", length * times, pattern.len() as u32);
    }
    other_labels(t, &patterns);
    other_lengths(t, &patterns);
    printed(t, program);
}

/// Labels that are none, at each place of a pattern.
fn other_labels(t: &mut Tester, patterns: &[Vec<u8>]) {
    for pattern in patterns {
        for i in 0..pattern.len() {
            for label in [0, 9, 16 + pattern[i], 255] {
                let mut other = pattern.clone();
                other[i] = label;
                let reply = t.minimum_repeat(&other);
                t.expect("a label that is none", reply, (0, 0));
            }
        }
    }
}

/// No labels, and 5 to 300 of them: one label again and again, a pattern again and again, and any.
fn other_lengths(t: &mut Tester, patterns: &[Vec<u8>]) {
    for length in (5..=300).chain([0, 1000, 4096, 65_536]) {
        let front = t.rng.pick(patterns);
        let turns: Vec<u8> = front.iter().cycle().take(length).copied().collect();
        let any: Vec<u8> = (0..length).map(|_| t.rng.from_to(1, 8) as u8).collect();
        for pattern in [vec![1; length], turns, any] {
            let reply = t.minimum_repeat(&pattern);
            t.expect("too few or too many labels", reply, (0, 0));
        }
    }
}

/// "A small program prints the constant from the definition, one number a line."
fn printed(t: &Tester, program: &str) {
    let output = Command::new(program).output().expect("the program repeat_table");
    assert!(output.status.success(), "the status of repeat_table");
    let expected: String =
        table_patterns().iter().map(|pattern| format!("{}\n", minimum_repeat(pattern).len())).collect();
    t.expect("the table printed", String::from_utf8(output.stdout).expect("text"), expected);
}
