//! Random records: with right totals, and with totals that lie.

use crate::record::{Header, Record};
use crate::reference::{is_label, totals, Edge, Totals};
use crate::rng::Rng;

/// Not 0, also where the last byte or the last 16 bits are.
pub fn no_zero(rng: &mut Rng) -> u32 {
    let any = rng.next() as u32;
    rng.pick(&[1, 1, 2, 256, 1024, 65_536, 1 << 31, u32::MAX, u32::MAX, any.max(1)])
}

/// The totals of these edges, or ones that lie about them: 0 though edges stand, not 0 though none do, 2^32 - 1.
fn any_totals(rng: &mut Rng, edges: &[Edge]) -> Totals {
    let counted = totals(edges);
    let (kind, one) = (rng.below(7), rng.below(8));
    std::array::from_fn(|i| match kind {
        0 | 1 => counted[i],
        2 => 0,
        3 => u32::MAX,
        4 if i != one => counted[i],
        5 if counted[i] > 0 => 0,
        6 if rng.one_in(2) => 0,
        _ => no_zero(rng),
    })
}

/// A record of this header, with any totals.
pub fn any(rng: &mut Rng, header: Header, edges: &[Edge]) -> Record {
    Record { header, totals: any_totals(rng, edges) }
}

/// Ten numbers of which none need be right.
pub fn noise(rng: &mut Rng) -> Record {
    let header = [rng.next() as u32, rng.next() as u32];
    let edges = [(0, rng.from_to(1, 8) as u32, 0)];
    any(rng, header, &edges)
}

/// A record with any totals, but not 0 for a label of the pattern.
pub fn having(rng: &mut Rng, header: Header, edges: &[Edge], pattern: &[u8]) -> Record {
    let mut record = any(rng, header, edges);
    for label in pattern {
        if record.is_zero(*label) {
            record.totals[*label as usize - 1] = no_zero(rng);
        }
    }
    record
}

/// A record with 0 for a label of the pattern: for one alone, for one among any totals, or for all eight. A pattern
/// without labels gets the last.
pub fn lacking(rng: &mut Rng, header: Header, edges: &[Edge], pattern: &[u8]) -> Record {
    let labels: Vec<u8> = pattern.iter().copied().filter(|label| is_label(*label as u32)).collect();
    if labels.is_empty() || rng.one_in(8) {
        return Record { header, totals: [0; 8] };
    }
    let mut record = any(rng, header, edges);
    if rng.one_in(2) {
        record.totals = std::array::from_fn(|_| no_zero(rng));
    }
    record.totals[rng.pick(&labels) as usize - 1] = 0;
    record
}
