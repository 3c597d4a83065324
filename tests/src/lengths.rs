//! Records of another length than 10, put to every call: 255, and nothing is touched.

use crate::compare::Tester;
use crate::counts::OTHER_LENGTHS;
use crate::lent::Lent;
use crate::library::*;
use crate::record::Record;
use crate::trials::{CARD_A, LAYOUT_A};

/// The totals, as far as they are there, are those of layout A, or all 0.
pub fn run(t: &mut Tester) {
    t.part = "lengths";
    for n in OTHER_LENGTHS {
        for edges in [&LAYOUT_A[..], &[]] {
            let numbers = Record::counted([3, 2], edges).numbers();
            let record: Vec<u32> = numbers.iter().copied().cycle().take(n).collect();
            let mut all = All::new(&record);
            put(t, n, &mut all);
            t.expect("nothing touched after 255", all.is_untouched(&record), true);
            t.counts.add_other_record(n);
        }
    }
}

/// Everything that is lent beside and with the record.
struct All {
    record: Lent<u32>,
    edges: Lent<u32>,
    index: Lent<u64>,
    work: Lent<u64>,
    walk: Lent<u32>,
    card: Lent<u8>,
    output: Lent<u8>,
    pattern: Lent<u8>,
}

impl All {
    fn new(record: &[u32]) -> All {
        All {
            record: Lent::new(record, 77),
            edges: Lent::new(&[257, 0, 0], 78),
            index: Lent::new(&[9; 20], 79),
            work: Lent::new(&[5; 4116], 80),
            walk: Lent::new(&[6; 4], 81),
            card: Lent::new(&CARD_A, 82),
            output: Lent::new(&[3; 30], 83),
            pattern: Lent::new(&[1, 1], 84),
        }
    }

    fn is_untouched(&self, record: &[u32]) -> bool {
        let fresh = All::new(record);
        self.record == fresh.record
            && self.edges == fresh.edges
            && self.index == fresh.index
            && self.work == fresh.work
            && self.walk == fresh.walk
            && self.card == fresh.card
            && self.output == fresh.output
            && self.pattern == fresh.pattern
    }
}

fn put(t: &mut Tester, n: usize, all: &mut All) {
    let (r, e, i, l) = (all.record.pointer(), all.edges.pointer(), all.index.pointer(), all.walk.pointer());
    let (w, c, o, p) = (all.work.pointer(), all.card.pointer(), all.output.pointer(), all.pattern.pointer());
    let wide = 255 << 32;
    unsafe {
        t.expect("open, 255", rlc_open(r, n, e, 3, i, 20), 255);
        t.expect("insert, 255", rlc_insert(r, n, 1, 1, 2, e, 3, i, 20, w, 4116), 255);
        t.expect("remove, 255", rlc_remove(r, n, 0, 1, 1, e, 3, i, 20, w, 4116), 255);
        // By 1, and by 1,1, which repeats itself.
        for labels in [1, 2] {
            t.expect("query, 255", rlc_query(r, n, 0, 1, p, labels, e, 3, i, 20, w, 4116), 255);
            t.expect("query_two, 255", rlc_query_two(r, n, 0, 1, p, labels, p, 1, e, 3, i, 20, w, 4116), wide);
            t.expect("query_two, 255", rlc_query_two(r, n, 0, 1, p, 1, p, labels, e, 3, i, 20, w, 4116), wide);
            t.expect("search, 255", rlc_search(r, n, 0, 1, p, labels, 5, e, 3, w, 4116), wide);
            t.expect("route, 255", rlc_route(r, n, 0, 1, p, labels, e, 3, l, 4, w, 4116), wide);
        }
        t.expect("read_card, 255", rlc_read_card(r, n, c, 18, e, 3, i, 20, w, 4116), 255);
        t.expect("write_card, 255", rlc_write_card(r, n, e, 3, o, 30), wide);
    }
    t.calls += 15;
}
