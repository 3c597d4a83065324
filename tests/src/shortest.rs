//! The route of document 02, Three: "a walk with the fewest legs that runs the keyed pattern from start to
//! destination", and "among equals the one whose leg numbers, compared leg by leg from the start, come first". Found by
//! two methods: as long as there are few walks all are written down, otherwise vertices are marked from the destination
//! back.

use crate::reference::{edge_number, edge_of, Edge};
use std::collections::BTreeSet;

/// More walks than this are not written down.
const MANY: usize = 100;

/// The numbers of a walk's edges in running order.
pub type Walk = Vec<u32>;

/// The route; None if no walk runs the pattern.
pub fn route(edges: &[Edge], start: u32, destination: u32, pattern: &[u32]) -> Option<Walk> {
    match written_down(edges, start, destination, pattern) {
        Some(walks) => walks.into_iter().min(),
        None => by_marks(edges, start, destination, pattern),
    }
}

/// No walk with the fewest edges has more: it comes to no vertex again with as many labels of the pattern used, or the
/// edges in between could be spared.
fn most(edges: &[Edge], pattern: &[u32]) -> usize {
    let ends: BTreeSet<u32> = edges.iter().map(|edge| edge.2).collect();
    ends.len() * pattern.len()
}

/// All walks with the fewest edges that run the pattern. All walks that spell its labels are written down, those of one
/// edge, of two, and so on, until some are whole patterns and end at the destination. None if they become too many.
pub fn written_down(edges: &[Edge], start: u32, destination: u32, pattern: &[u32]) -> Option<Vec<Walk>> {
    let mut walks: Vec<Vec<Edge>> = vec![vec![]];
    for count in 1..=most(edges, pattern) {
        let label = pattern[(count - 1) % pattern.len()];
        let longer = |walk: &Vec<Edge>| -> Vec<Vec<Edge>> {
            let at = walk.last().map_or(start, |edge| edge.2);
            let next = edges.iter().filter(|edge| edge.0 == at && edge.1 == label);
            next.map(|edge| [&walk[..], &[*edge]].concat()).collect()
        };
        walks = walks.iter().flat_map(longer).collect();
        if walks.len() > MANY {
            return None;
        }
        let whole = count % pattern.len() == 0;
        let there = walks.iter().filter(|walk| whole && walk[count - 1].2 == destination);
        let there: Vec<Walk> = there.map(|walk| walk.iter().map(|edge| edge_number(*edge)).collect()).collect();
        if !there.is_empty() {
            return Some(there);
        }
    }
    Some(vec![])
}

/// A mark for each vertex.
type Marks = [bool; 256];

/// The label of the first of a pattern's last `rest` edges, however often it is written.
fn label_with(pattern: &[u32], rest: usize) -> u32 {
    pattern[pattern.len() - 1 - (rest - 1) % pattern.len()]
}

/// For 0, 1, 2, ... edges the vertices from which so many lead to the destination and spell the pattern's last labels,
/// up to the fewest edges that lead there from the start and are whole patterns; None if none do.
fn marks(edges: &[Edge], start: u32, destination: u32, pattern: &[u32]) -> Option<Vec<Marks>> {
    if start > 255 || destination > 255 {
        return None; // no end of any edge
    }
    let mut marks = vec![[false; 256]];
    marks[0][destination as usize] = true;
    for rest in 1..=most(edges, pattern) {
        let (label, last) = (label_with(pattern, rest), &marks[rest - 1]);
        let mut next = [false; 256];
        for edge in edges.iter().filter(|edge| edge.1 == label && last[edge.2 as usize]) {
            next[edge.0 as usize] = true;
        }
        marks.push(next);
        if rest % pattern.len() == 0 && next[start as usize] {
            return Some(marks);
        }
    }
    None
}

/// Forward along the marks, each time by the edge whose number is lowest: these numbers, and how many edges there were
/// to choose from.
fn choices(
    edges: &[Edge],
    start: u32,
    destination: u32,
    pattern: &[u32],
    number: fn(Edge) -> u32,
) -> Option<Vec<(u32, usize)>> {
    let marks = marks(edges, start, destination, pattern)?;
    let mut at = start;
    let mut chosen = Vec::new();
    for rest in (1..marks.len()).rev() {
        let label = label_with(pattern, rest);
        let leads_on = |edge: &&Edge| edge.0 == at && edge.1 == label && marks[rest - 1][edge.2 as usize];
        let open: Vec<Edge> = edges.iter().filter(leads_on).copied().collect();
        let lowest = open.iter().copied().min_by_key(|edge| number(*edge)).unwrap();
        chosen.push((number(lowest), open.len()));
        at = lowest.2;
    }
    Some(chosen)
}

/// The route by marks.
pub fn by_marks(edges: &[Edge], start: u32, destination: u32, pattern: &[u32]) -> Option<Walk> {
    let chosen = choices(edges, start, destination, pattern, edge_number)?;
    Some(chosen.iter().map(|choice| choice.0).collect())
}

/// The places in the route, from 0, at which another walk with as few edges leaves it.
pub fn forks(edges: &[Edge], start: u32, destination: u32, pattern: &[u32]) -> Vec<usize> {
    let chosen = choices(edges, start, destination, pattern, edge_number).unwrap_or_default();
    (0..chosen.len()).filter(|i| chosen[*i].1 > 1).collect()
}

/// What the route would be if leg numbers were compared leg by leg from the destination back.
pub fn from_the_end(edges: &[Edge], start: u32, destination: u32, pattern: &[u32]) -> Option<Walk> {
    let turned: Vec<Edge> = edges.iter().map(|edge| (edge.2, edge.1, edge.0)).collect();
    let pattern: Vec<u32> = pattern.iter().rev().copied().collect();
    let chosen = choices(&turned, destination, start, &pattern, |edge| edge_number((edge.2, edge.1, edge.0)))?;
    Some(chosen.iter().rev().map(|choice| choice.0).collect())
}

/// Are these numbers standing edges, each joined to the one before it, from the start to the destination, and their
/// labels the pattern one or more whole times?
pub fn is_walk(edges: &[Edge], start: u32, destination: u32, pattern: &[u32], walk: &[u32]) -> bool {
    let run: Vec<Edge> = walk.iter().map(|number| edge_of(*number)).collect();
    let stand = walk.iter().all(|number| edges.iter().any(|edge| edge_number(*edge) == *number));
    let joined = run.windows(2).all(|pair| pair[0].2 == pair[1].0);
    let labels: Vec<u32> = run.iter().map(|edge| edge.1).collect();
    let spelled = labels.chunks(pattern.len()).all(|part| part == pattern);
    let from_to =
        run.first().is_some_and(|edge| edge.0 == start) && run.last().is_some_and(|edge| edge.2 == destination);
    stand && joined && spelled && from_to
}
