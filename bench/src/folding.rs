//! The minimum repeat looked up in a table, in Rust: the same patterns, order and answers as the proved leaves.

use crate::layouts::Random;
use std::hint::black_box;

const SIZE: usize = 4680;

static LENGTHS: [u8; SIZE] = table();

/// The pattern at a place: 1 to 4 labels, shorter patterns first and then by code.
const fn pattern_at(place: usize) -> ([u8; 4], usize) {
    let (mut length, mut start, mut count) = (1, 0, 8);
    while place >= start + count {
        length += 1;
        start += count;
        count *= 8;
    }
    let (mut pattern, mut rest, mut i) = ([0; 4], place - start, length);
    while i > 0 {
        i -= 1;
        pattern[i] = (rest % 8) as u8 + 1;
        rest /= 8;
    }
    (pattern, length)
}

const fn repeats(pattern: &[u8; 4], length: usize, part: usize) -> bool {
    let mut i = part;
    while i < length {
        if pattern[i] != pattern[i - part] {
            return false;
        }
        i += 1;
    }
    length % part == 0
}

const fn table() -> [u8; SIZE] {
    let mut lengths = [0; SIZE];
    let mut place = 0;
    while place < SIZE {
        let (pattern, length) = pattern_at(place);
        let mut part = 1;
        while !repeats(&pattern, length, part) {
            part += 1;
        }
        lengths[place] = part as u8;
        place += 1;
    }
    lengths
}

/// The length of the minimum repeat; 0 unless the pattern is 1 to 4 labels 1 to 8.
#[inline(never)]
pub fn look_up(pattern: &[u8]) -> u8 {
    if pattern.is_empty() || pattern.len() > 4 || pattern.iter().any(|label| !(1..=8).contains(label)) {
        return 0;
    }
    let start = [0, 8, 72, 584][pattern.len() - 1];
    let digits = pattern.iter().fold(0, |digits, label| digits * 8 + (*label as usize - 1));
    LENGTHS[start + digits]
}

/// All patterns, in random order.
pub fn shuffled(random: &mut Random) -> Vec<Vec<u8>> {
    let spelled = |place| {
        let (pattern, length) = pattern_at(place);
        pattern[..length].to_vec()
    };
    let mut patterns: Vec<Vec<u8>> = (0..SIZE).map(spelled).collect();
    for i in (1..patterns.len()).rev() {
        patterns.swap(i, random.below(i as u32 + 1) as usize);
    }
    patterns
}

/// The sum of what is folded, several times over all patterns.
pub fn sum(patterns: &[Vec<u8>], rounds: usize, fold: impl Fn(&[u8]) -> u32) -> u32 {
    (0..rounds).flat_map(|_| patterns).map(|pattern| fold(black_box(pattern))).sum()
}
