//! What a route was like that was answered, or refused with 18 alone. Each case has to be reached.

use crate::calls::{keyed, repeats_itself, Check, EDGES, WORK};
use crate::reference::{edge_number, edge_of, minimum_repeat, runs, Edge};
use crate::shortest::{forks, from_the_end, written_down, Walk};

pub struct Routed<'a> {
    pub check: &'a Check,
    pub edges: Vec<Edge>,
    /// Empty for a no.
    pub route: Walk,
    pub walk_slots: usize,
    pub work_slots: usize,
}

type Case = (&'static str, fn(&Routed) -> bool);

pub const CASES: [Case; 24] = [
    ("no, no walk memory", |r| r.is_no() && r.walk_slots == 0),
    ("no, some walk memory", |r| r.is_no() && r.walk_slots > 0),
    ("no, work memory longer than 4,096", |r| r.is_no() && r.work_slots > WORK),
    ("no where the minimum repeat is run", |r| r.is_no() && r.minimum_repeat_is_run()),
    ("18, no walk memory", |r| r.is_18() && r.walk_slots == 0),
    ("18, one slot short", |r| r.is_18() && r.walk_slots + 1 == r.route.len()),
    ("18, some slots, more than one short", |r| r.is_18() && r.walk_slots > 0 && r.walk_slots + 1 < r.route.len()),
    ("18, work memory longer than 4,096", |r| r.is_18() && r.work_slots > WORK),
    ("walk memory exact", |r| r.is_yes() && r.walk_slots == r.route.len()),
    ("walk memory longer", |r| r.is_yes() && r.walk_slots > r.route.len()),
    ("work memory longer than 4,096", |r| r.is_yes() && r.work_slots > WORK),
    ("1,024 edges", |r| r.is_yes() && r.route.len() == EDGES),
    ("the pattern repeats itself", |r| r.is_yes() && repeats_itself(&r.check.pattern)),
    ("the pattern is run more than once", |r| r.is_yes() && r.route.len() > r.check.pattern.len()),
    ("start is destination", |r| r.is_yes() && r.is_round()),
    ("start is destination, passed in between", |r| r.is_yes() && r.is_round() && r.passes(r.check.start)),
    ("the start passed again", |r| r.is_yes() && !r.is_round() && r.passes(r.check.start)),
    ("the destination passed before the end", |r| r.is_yes() && !r.is_round() && r.passes(r.check.destination)),
    ("an edge run twice", |r| r.is_yes() && (1..r.route.len()).any(|i| r.route[..i].contains(&r.route[i]))),
    ("a tie that the first edge decides", |r| r.is_yes() && r.forks().first() == Some(&0)),
    // The last edge decides none: it goes from where the others end, with the last label, to the destination.
    ("a tie that only the last edge but one decides", |r| r.is_yes() && r.forks_late_only()),
    ("a tie decided otherwise from the destination back", |r| r.is_yes() && r.is_other_from_the_end()),
    ("a lower first edge that leads astray", |r| r.is_yes() && r.has_lower_first()),
    ("too many walks to write down", |r| r.is_yes() && r.is_by_marks()),
];

impl Routed<'_> {
    fn is_no(&self) -> bool {
        self.route.is_empty()
    }

    fn is_18(&self) -> bool {
        self.walk_slots < self.route.len()
    }

    fn is_yes(&self) -> bool {
        !self.is_no() && !self.is_18()
    }

    fn is_round(&self) -> bool {
        self.check.start == self.check.destination
    }

    fn pattern(&self) -> Vec<u32> {
        keyed(&self.check.pattern)
    }

    fn minimum_repeat_is_run(&self) -> bool {
        let repeat = minimum_repeat(&self.pattern());
        repeat.len() < self.check.pattern.len() && runs(&self.edges, self.check.start, self.check.destination, &repeat)
    }

    /// Does an edge before the last end here?
    fn passes(&self, vertex: u32) -> bool {
        self.route[..self.route.len() - 1].iter().any(|number| edge_of(*number).2 == vertex)
    }

    fn forks(&self) -> Vec<usize> {
        forks(&self.edges, self.check.start, self.check.destination, &self.pattern())
    }

    fn forks_late_only(&self) -> bool {
        self.route.len() > 2 && self.forks() == [self.route.len() - 2]
    }

    fn is_other_from_the_end(&self) -> bool {
        let other = from_the_end(&self.edges, self.check.start, self.check.destination, &self.pattern());
        other.as_ref() != Some(&self.route)
    }

    fn has_lower_first(&self) -> bool {
        let fits = |edge: &Edge| edge.0 == self.check.start && edge.1 == self.pattern()[0];
        self.edges.iter().any(|edge| fits(edge) && edge_number(*edge) < self.route[0])
    }

    fn is_by_marks(&self) -> bool {
        written_down(&self.edges, self.check.start, self.check.destination, &self.pattern()).is_none()
    }
}
