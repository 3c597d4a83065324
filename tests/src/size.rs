//! The program size: what it prints for the cards that the listing is tried with, and for the layouts of rlc.h's table at
//! k 1 to 4. It is held to the second implementation, and the header's table to what it prints.

use crate::calls::{card_edges, card_of, read_card, Memory, EDGES, WORK};
use crate::compare::Tester;
use crate::layouts;
use crate::listing;
use crate::reference::*;

/// Slots of index memory in the program.
const SLOTS: usize = 1 << 18;

const HEADER: &str = include_str!("../../include/rlc.h");

/// The layouts of the header's table, by the names that it has: their vertices and edges.
type Named = (&'static str, u32, Vec<Edge>);

/// Runs the program; returns with how many inputs.
pub fn run(t: &mut Tester, program: &str) -> usize {
    t.part = "size";
    let mut cards = listing::inputs(t);
    cards.push(chain());
    for card in &cards {
        let expected = expected(&card[..card.len().min(listing::BYTES)]);
        t.expect("the size of a card", listing::printed_by(program, card), expected);
    }
    let (layouts, table) = (named_layouts(), table());
    let rows: Vec<_> = table.iter().map(|row| row.0).collect();
    let names: Vec<_> = layouts.iter().map(|layout| layout.0).collect();
    t.expect("the layouts of the header's table", rows, names);
    for (layout, row) in layouts.iter().zip(&table) {
        tabled(t, program, layout, row);
    }
    removal(t, program, &layouts);
    cards.len() + 4 * layouts.len() + 2
}

/// One row of the table: a layout at k 1 to 4.
fn tabled(t: &Tester, program: &str, (name, vertices, edges): &Named, row: &Row) {
    t.expect(&format!("vertices and edges of {name} in the header"), (row.1, row.2), (*vertices, edges.len()));
    for longest in 1..=4 {
        let printed = listing::printed_by(program, &card_of([*vertices, longest], edges));
        let entries = determined(edges, longest).len();
        t.expect(&format!("the size of {name}, k {longest}"), printed, line(*vertices, longest, edges.len(), entries));
        t.expect(&format!("the header's entries of {name}, k {longest}"), row.3[longest as usize - 1], entries);
    }
}

/// What the header says of edge 0-1-1, the first one, removed from the ring of six stations.
fn removal(t: &Tester, program: &str, layouts: &[Named]) {
    let (_, vertices, edges) = layouts.iter().find(|layout| layout.0 == "six stations").expect("six stations");
    t.expect("the first edge", edges[0], (0, 1, 1));
    let counts: Vec<usize> = [&edges[1..], &edges[..]].iter().map(|edges| determined(edges, 2).len()).collect();
    for (edges, entries) in [&edges[1..], &edges[..]].iter().zip(&counts) {
        let printed = listing::printed_by(program, &card_of([*vertices, 2], edges));
        t.expect("the size of the ring", printed, line(*vertices, 2, edges.len(), *entries));
    }
    let said = format!("six stations needs {} entries at k 2, and {} with it", grouped(counts[0]), grouped(counts[1]));
    let text = HEADER.replace("\n *", "").split_whitespace().collect::<Vec<_>>().join(" ");
    t.expect("what the header says of a removal", text.contains(&said), true);
}

/// 256 vertices in a chain, each joined to the next by four labels: more entries than slots.
fn chain() -> Vec<u8> {
    let edges: Vec<Edge> = (0..255).flat_map(|v| (1..5).map(move |label| (v, label, v + 1))).collect();
    card_of([256, 4], &edges)
}

fn expected(card: &[u8]) -> String {
    let mut memory = Memory { edges: vec![0; EDGES], index: vec![0; SLOTS], work: vec![0; WORK + SLOTS] };
    let (refusals, record) = read_card(card, &mut memory);
    match (record, refusals.first()) {
        (Some(record), _) => {
            let [vertices, longest] = record.header;
            let entries = memory.index.iter().filter(|slot| **slot != 0).count();
            line(vertices, longest, card_edges(card).1.len(), entries)
        }
        (None, Some(13)) => format!("over {SLOTS} entries\n"),
        (None, refusal) => format!("refused {}\n", refusal.expect("a refusal")),
    }
}

fn line(vertices: u32, longest: u32, edges: usize, entries: usize) -> String {
    let (index, work) = (8 * entries, 8 * (4096 + entries));
    format!(
        "places {vertices} longest {longest} legs {edges} entries {entries} index {index} bytes work {work} bytes\n"
    )
}

fn named_layouts() -> Vec<Named> {
    let station = |name, card: &[u8]| (name, card[5] as u32 + 1, card_edges(card).1);
    let mut all = vec![
        station("a station", include_bytes!("../../examples/station.prc")),
        station("three stations", include_bytes!("../../examples/three_stations.prc")),
        station("six stations", include_bytes!("../../examples/six_stations.prc")),
    ];
    let of_bench = |layout: layouts::Layout| {
        let edges = layout.edges.iter().map(|number| edge_of(*number)).collect();
        (layout.name, layouts::VERTICES, edges)
    };
    all.extend(layouts::all().into_iter().map(of_bench));
    all
}

/// A row of the header's table: name, vertices, edges, entries at k 1 to 4.
type Row = (&'static str, u32, usize, Vec<usize>);

/// The rows, as ` *   six stations     120 vertices,   186 edges          334      490      950    1,674 entries`.
fn table() -> Vec<Row> {
    let row = |line: &'static str| {
        let (name, rest) = line.strip_prefix(" *   ")?.strip_suffix(" entries")?.split_once("  ")?;
        let (vertices, rest) = rest.split_once(" vertices,")?;
        let (edges, rest) = rest.split_once(" edges")?;
        let entries = rest.split_whitespace().map(number).collect();
        Some((name, number(vertices) as u32, number(edges), entries))
    };
    HEADER.lines().filter_map(row).collect()
}

fn number(word: &str) -> usize {
    word.trim().replace(',', "").parse().expect("a number in the header's table")
}

/// With a comma between thousands.
fn grouped(n: usize) -> String {
    if n < 1000 {
        n.to_string()
    } else {
        format!("{},{:03}", grouped(n / 1000), n % 1000)
    }
}
