//! How often each call was accepted, gave each refusal, and had each pair of refusals apply at once (the
//! earlier one returned); how the questions by patterns that repeat themselves were answered; and the named cases of
//! routes, queries, queries by two patterns, records and full replies.

use crate::cases::{self, Routed};
use crate::full_reply;
use crate::query_cases::{self, Asked};
use crate::record_cases::{self, Handed};
use crate::two_cases::{self, AskedTwo};
use std::collections::BTreeMap;

#[derive(Clone, Copy, PartialEq, Eq, PartialOrd, Ord, Debug)]
pub enum Call {
    Open,
    Insert,
    Remove,
    Query,
    QueryTwo,
    Search,
    Route,
    ReadCard,
    WriteCard,
}

/// Each call's refusals in document 01's order, with document 02's for the queries and the route.
pub const ORDERS: [(Call, &[u32]); 9] = [
    (Call::Open, &[1, 2, 3]),
    (Call::Insert, &[1, 2, 3, 4, 5, 6, 7, 9, 13]),
    (Call::Remove, &[1, 2, 3, 4, 5, 6, 8, 13]),
    (Call::Query, &[1, 2, 10, 11, 12, 3, 4]),
    (Call::QueryTwo, &[1, 2, 10, 11, 12, 3, 4]),
    (Call::Search, &[1, 2, 3, 4, 10, 11]),
    (Call::Route, &[1, 2, 3, 4, 10, 11, 18]),
    (Call::ReadCard, &[14, 15, 2, 16, 3, 9, 4, 13]),
    (Call::WriteCard, &[1, 2, 3, 17]),
];

/// Pairs that cannot both apply with none before them.
pub const IMPOSSIBLE: [(Call, u32, u32, &str); 3] = [
    (Call::Insert, 5, 7, "edge memory that passed 3 holds no edge with an end that is no vertex"),
    (Call::Insert, 6, 7, "edge memory that passed 3 holds no edge with a label not 1 to 8"),
    (Call::Route, 10, 18, "no walk along edges that passed 3 has an end that is no vertex"),
];

/// The answers to a question by a pattern that repeats itself; the second is the one that folding would get wrong.
const AGAIN: [&str; 3] = ["yes", "no where the minimum repeat is run", "no where it is not run"];

/// Lengths of a record that 255 refuses.
pub const OTHER_LENGTHS: [usize; 9] = [0, 1, 2, 3, 4, 9, 11, 20, 100];

/// Groups of cases.
const ROUTE: &str = "Route";
const QUERY: &str = "Query";
const TWO: &str = "QueryTwo";
const LIST: &str = "List";
const LENGTH: &str = "Records of other lengths";

fn of_records(call: Call) -> String {
    format!("Records of {call:?}")
}

#[derive(Default)]
pub struct Counts {
    accepted: BTreeMap<Call, u64>,
    refused: BTreeMap<(Call, u32), u64>,
    pairs: BTreeMap<(Call, u32, u32), u64>,
    again: BTreeMap<&'static str, u64>,
    /// By group and case.
    cases: BTreeMap<String, BTreeMap<String, u64>>,
}

impl Counts {
    /// `refusals`: all that applied, in order.
    pub fn add(&mut self, call: Call, refusals: &[u32]) {
        let Some((first, others)) = refusals.split_first() else {
            *self.accepted.entry(call).or_default() += 1;
            return;
        };
        *self.refused.entry((call, *first)).or_default() += 1;
        for other in others {
            *self.pairs.entry((call, *first, *other)).or_default() += 1;
        }
    }

    /// A question by a pattern that repeats itself, answered; and whether a walk runs its minimum repeat.
    pub fn add_again(&mut self, yes: bool, folded: bool) {
        let answer = match (yes, folded) {
            (true, _) => AGAIN[0],
            (false, true) => AGAIN[1],
            (false, false) => AGAIN[2],
        };
        *self.again.entry(answer).or_default() += 1;
    }

    fn report_again(&self, missing: &mut Vec<String>) {
        for answer in AGAIN {
            let count = self.again.get(answer).copied().unwrap_or(0);
            println!("a pattern that repeats itself, {answer}: {count}");
            if count == 0 {
                missing.push(format!("a pattern that repeats itself: {answer} not reached"));
            }
        }
    }

    /// A route that was answered, or refused with 18 alone.
    pub fn add_route(&mut self, routed: &Routed) {
        for (case, _) in cases::CASES.iter().filter(|(_, is_so)| is_so(routed)) {
            self.add_case(ROUTE, case);
        }
    }

    pub fn add_query(&mut self, asked: &Asked) {
        for (case, _) in query_cases::CASES.iter().filter(|(_, is_so)| is_so(asked)) {
            self.add_case(QUERY, case);
        }
    }

    pub fn add_two(&mut self, asked: &AskedTwo) {
        asked.cases().iter().for_each(|case| self.add_case(TWO, case));
    }

    pub fn add_record(&mut self, handed: &Handed) {
        let group = of_records(handed.call);
        handed.cases().iter().for_each(|case| self.add_case(&group, case));
    }

    /// A query held to its full reply in a list.
    pub fn add_full_reply(&mut self, case: &str) {
        self.add_case(LIST, case);
    }

    /// Records of another length than 10, put to all calls.
    pub fn add_other_record(&mut self, length: usize) {
        self.add_case(LENGTH, &length.to_string());
    }

    fn add_case(&mut self, group: &str, case: &str) {
        let cases = match self.cases.get_mut(group) {
            Some(cases) => cases,
            None => self.cases.entry(group.to_string()).or_default(),
        };
        match cases.get_mut(case) {
            Some(count) => *count += 1,
            None => _ = cases.insert(case.to_string(), 1),
        }
    }

    fn report_cases(&self, missing: &mut Vec<String>) {
        let routes = cases::CASES.iter().map(|case| case.0.to_string()).collect();
        let queries = query_cases::CASES.iter().map(|case| case.0.to_string()).collect();
        let groups = [(ROUTE, routes), (QUERY, queries), (TWO, two_cases::needed()), (LIST, full_reply::needed())];
        for (group, needed) in groups {
            let counted = self.counted(group, needed, missing);
            counted.iter().for_each(|(case, count)| println!("{group}: {case}: {count}"));
        }
        let lengths = (LENGTH.to_string(), OTHER_LENGTHS.iter().map(|length| length.to_string()).collect());
        let records = ORDERS.map(|(call, order)| (of_records(call), record_cases::needed(call, order)));
        for (group, needed) in records.into_iter().chain([lengths]) {
            let counted = self.counted(&group, needed, missing);
            let counted: Vec<String> = counted.iter().map(|(case, count)| format!("{case}: {count}")).collect();
            println!("{group}: {}", counted.join("; "));
        }
    }

    /// The needed cases of a group with their counts; those not reached are missing.
    fn counted(&self, group: &str, needed: Vec<String>, missing: &mut Vec<String>) -> Vec<(String, u64)> {
        let count = |case: &String| self.cases.get(group).and_then(|cases| cases.get(case)).copied().unwrap_or(0);
        let counted: Vec<(String, u64)> = needed.into_iter().map(|case| (case.clone(), count(&case))).collect();
        let not_reached = counted.iter().filter(|(_, count)| *count == 0);
        missing.extend(not_reached.map(|(case, _)| format!("{group}: {case} not reached")));
        counted
    }

    /// Prints the counts; returns what is missing, one line each.
    pub fn report(&self) -> Vec<String> {
        let mut missing = Vec::new();
        let mut numbers = 0;
        let mut pairs = 0;
        for (call, order) in ORDERS {
            let accepted = self.accepted.get(&call).copied().unwrap_or(0);
            let mut line = format!("{call:?}: accepted {accepted}; refused");
            if accepted == 0 {
                missing.push(format!("{call:?}: never accepted"));
            }
            for (i, first) in order.iter().enumerate() {
                let count = self.refused.get(&(call, *first)).copied().unwrap_or(0);
                line += &format!(" {first}:{count}");
                numbers += 1;
                if count == 0 {
                    missing.push(format!("{call:?}: refusal {first} not reached"));
                }
                for other in &order[i + 1..] {
                    pairs += 1;
                    self.pair(call, *first, *other, &mut missing);
                }
            }
            println!("{line}");
            let of_call: Vec<String> = self
                .pairs
                .iter()
                .filter(|(key, _)| key.0 == call)
                .map(|(key, n)| format!("{}+{}:{n}", key.1, key.2))
                .collect();
            println!("  pairs {}", of_call.join(" "));
        }
        self.report_again(&mut missing);
        self.report_cases(&mut missing);
        for (call, first, other, reason) in IMPOSSIBLE {
            println!("impossible: {call:?} {first}+{other}: {reason}");
        }
        println!("refusals {numbers}, pairs {} reached of {pairs}, {} impossible", self.pairs.len(), IMPOSSIBLE.len());
        missing
    }

    fn pair(&self, call: Call, first: u32, other: u32, missing: &mut Vec<String>) {
        let count = self.pairs.get(&(call, first, other)).copied().unwrap_or(0);
        let impossible = IMPOSSIBLE.iter().any(|entry| (entry.0, entry.1, entry.2) == (call, first, other));
        if impossible && count > 0 {
            missing.push(format!("{call:?}: pair {first}+{other} listed as impossible, but reached"));
        }
        if !impossible && count == 0 {
            missing.push(format!("{call:?}: pair {first}+{other} not reached"));
        }
    }
}
