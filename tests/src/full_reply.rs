//! Document 02, Four: "For records and memory as the last accepted change left them, this equals the full reply unless
//! that would be refusal 4." Held to it in lists, after every kind of change. Each case has to be reached.

use crate::calls::{full_query, repeats_itself, Check, Memory};
use crate::compare::{Tester, YES};
use crate::ledger::Fed;
use crate::record::Record;

/// What the last accepted change was, in words.
const CHANGES: [&str; 4] = ["an opening", "an insertion", "a removal", "a card"];

/// The reply to a query with a label of total 0, and the full one.
const LACKING: [&str; 3] = [
    "no by a total of 0, the full reply no by the index",
    "no by a total of 0, the full reply no by the edges",
    "no by a total of 0, the full reply 4",
];

/// The reply to any other query, which is the full one.
const HAVING: [&str; 3] = ["yes", "no", "4"];

const FIRST: &str = "after the first edge of its label, yes by that label";
const LAST: &str = "after the last edge of its label, no by that label";

pub fn needed() -> Vec<String> {
    let mut cases = vec![FIRST.to_string(), LAST.to_string()];
    for change in CHANGES {
        cases.extend(LACKING.iter().map(|reply| format!("after {change}, {reply}")));
        // An opening leaves no total that is not 0.
        let having = HAVING.iter().filter(|_| change != CHANGES[0]);
        cases.extend(having.map(|reply| format!("after {change}, {reply}")));
    }
    cases
}

/// Holds the reply to a query to the full reply, and counts the case. The record and memory are those that the change
/// left, with any work memory, as they were lent to the query.
pub fn hold(t: &mut Tester, change: &Fed, record: &Record, check: &Check, lent: &Memory, reply: u32) {
    let Check { start, destination, pattern, .. } = check;
    let (refusals, yes) = full_query(record.header, *start, *destination, pattern, &mut lent.clone());
    let full = refusals.first().copied().unwrap_or(if yes { YES } else { 0 });
    let lacks = record.lacks(pattern);
    t.expect("the full reply, or no if that is 4", reply, if lacks && full == 4 { 0 } else { full });
    let case = match (lacks, full) {
        (true, 4) => LACKING[2],
        (true, _) if repeats_itself(pattern) => LACKING[1],
        (true, _) => LACKING[0],
        (false, YES) => HAVING[0],
        (false, 0) => HAVING[1],
        (false, _) => HAVING[2],
    };
    t.counts.add_full_reply(&format!("after {}, {case}", said(change)));
    match change {
        Fed::Insert(edge) if is_by(pattern, edge.1) && reply == YES && total(record, edge.1) == 1 => {
            t.counts.add_full_reply(FIRST)
        }
        Fed::Remove(edge) if is_by(pattern, edge.1) && reply == 0 && total(record, edge.1) == 0 => {
            t.counts.add_full_reply(LAST)
        }
        _ => {}
    }
}

fn said(change: &Fed) -> &'static str {
    match change {
        Fed::Open(_) => CHANGES[0],
        Fed::Insert(_) => CHANGES[1],
        Fed::Remove(_) => CHANGES[2],
        Fed::Card(_) => CHANGES[3],
    }
}

fn is_by(pattern: &[u8], label: u32) -> bool {
    pattern.iter().all(|other| *other as u32 == label)
}

fn total(record: &Record, label: u32) -> u32 {
    record.totals[label as usize - 1]
}
