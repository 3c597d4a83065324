//! For every call and every pair of its refusals, an input on which both apply, as far as there is one; and
//! now and then a third. The compared calls say which refusals did apply, and the counts at the end which
//! pairs were reached.

use crate::calls::{card_of, keyed, repeats_itself, Check, Memory, Two, EDGES};
use crate::compare::Tester;
use crate::counts::{Call, ORDERS};
use crate::gen::{self, Layout};
use crate::records;
use crate::reference::*;
use crate::shortest;

pub fn round(t: &mut Tester) {
    t.part = "pairs";
    for (call, order) in ORDERS {
        for (i, first) in order.iter().enumerate() {
            for other in &order[i..] {
                put(t, call, &[*first, *other]);
                if t.rng.one_in(4) {
                    let third = t.rng.pick(order);
                    put(t, call, &[*first, *other, third]);
                }
            }
        }
    }
}

/// A layout with at least 3 vertices and 3 edges, one of them not at vertex 0 alone: something can be wrong with each
/// part of it.
fn layout_and_edges(t: &mut Tester) -> (Layout, Vec<Edge>) {
    loop {
        let mut layout = gen::layout(&mut t.rng);
        layout.header[0] = layout.header[0].max(3);
        let count = t.rng.from_to(3, 20);
        let edges = gen::edges(&mut t.rng, &layout, count);
        if edges.len() >= 3 && edges.iter().any(|edge| edge.0.max(edge.2) > 0) {
            return (layout, edges);
        }
    }
}

fn put(t: &mut Tester, call: Call, forced: &[u32]) {
    match call {
        Call::Open => open(t, forced),
        Call::Insert => change(t, true, forced),
        Call::Remove => change(t, false, forced),
        Call::Query => query(t, forced),
        Call::QueryTwo => query_two(t, forced),
        Call::Search => search(t, forced),
        Call::Route => route(t, forced),
        Call::ReadCard => read_card(t, forced),
        Call::WriteCard => write_card(t, forced),
    }
}

fn force_header(t: &mut Tester, forced: &[u32], layout: &mut Layout) {
    if forced.contains(&1) {
        layout.header[0] = gen::no_vertices(&mut t.rng);
    }
    if forced.contains(&2) {
        // If entries are to be needed, k is too large and not 0.
        let longest = gen::no_longest(&mut t.rng);
        layout.header[1] = if forced.contains(&13) { longest.max(5) } else { longest };
    }
}

/// Edge memory, for 3 of one of the kinds that leave room for the other refusals: an edge of a larger layout,
/// too many slots, or (if no other condition looks into it) damaged slots.
fn force_edges(t: &mut Tester, forced: &[u32], layout: &mut Layout, edges: &mut Vec<Edge>, full: bool) -> Vec<u32> {
    let more = if full { 0 } else { t.rng.from_to(1, 4) };
    if !forced.contains(&3) {
        return gen::edge_memory(edges, edges.len() + more);
    }
    let looked_into = forced.iter().any(|number| [7, 8, 9, 13, 17, 18].contains(number));
    let kind = t.rng.below(if looked_into { 2 } else { 3 });
    if kind == 0 && full && t.rng.one_in(4) {
        *edges = gen::many_edges(&mut t.rng, EDGES + 1);
        return gen::edge_memory(edges, EDGES + 1);
    }
    if kind == 0 && !full {
        return gen::edge_memory(edges, t.rng.pick(&[EDGES + 1, EDGES + 1, 2 * EDGES]));
    }
    if kind < 2 {
        let top = edges.iter().map(|edge| edge.0.max(edge.2)).max().unwrap();
        layout.header[0] = top;
        return gen::edge_memory(edges, edges.len() + more);
    }
    let mut memory = gen::edge_memory(edges, edges.len() + more);
    while standing(&memory).is_some_and(|edges| edges_of_layout(&edges, layout.header[0])) {
        gen::damage_edges(&mut t.rng, layout.header[0], &mut memory);
    }
    memory
}

/// Enough index slots for these edges, or for 13 too few; and work memory, for 4 too short.
fn force_index(t: &mut Tester, forced: &[u32], needed: usize) -> (usize, usize) {
    let few = t.rng.below(needed.max(1)).min(t.rng.pick(&[0, 1, 3, 20]));
    let index = if forced.contains(&13) { few } else { needed + t.rng.below(4) };
    let work =
        if forced.contains(&4) { gen::short_work(&mut t.rng, index) } else { gen::enough_work(&mut t.rng, index) };
    (index, work)
}

/// Over noise, or over edges that stand.
fn open(t: &mut Tester, forced: &[u32]) {
    let (mut layout, edges) = layout_and_edges(t);
    force_header(t, forced, &mut layout);
    let slots = if forced.contains(&3) { EDGES + t.rng.pick(&[1, 1, 2, 500]) } else { t.rng.pick(&[0, 1, 7, EDGES]) };
    let index = t.rng.below(20);
    let mut memory = gen::noise(&mut t.rng, slots, index, 0);
    if slots >= edges.len() && t.rng.one_in(2) {
        memory.edges = gen::edge_memory(&edges, slots);
    }
    let mut record = records::any(&mut t.rng, layout.header, &edges);
    t.open(&mut record, &mut memory);
}

fn change(t: &mut Tester, insertion: bool, forced: &[u32]) {
    let (mut layout, mut edges) = layout_and_edges(t);
    let slots = force_edges(t, forced, &mut layout, &mut edges, forced.contains(&9));
    let mut edge = gen::edge(&mut t.rng, &layout);
    let stands = if insertion { forced.contains(&7) } else { !forced.contains(&8) };
    let all_labels = Layout { labels: (1..=8).collect(), ..layout.clone() };
    for _ in 0..100 {
        if !stands && edges.contains(&edge) {
            edge = gen::edge(&mut t.rng, &all_labels);
        }
    }
    if stands {
        edge = t.rng.pick(&edges);
    }
    let mut wanted = edges.clone();
    wanted.retain(|other| *other != edge);
    if insertion {
        wanted.push(edge);
    }
    let longest = layout.header[1];
    let judged = if forced.contains(&13) || forced.contains(&3) { longest.min(2) } else { longest };
    let needed = determined_entries(&wanted, judged).len();
    let (index, work) = force_index(t, forced, needed);
    force_header(t, forced, &mut layout);
    force_edge(t, forced, &layout, &mut edge);
    let mut memory = gen::noise(&mut t.rng, 0, index, work);
    memory.edges = slots;
    let mut record = records::any(&mut t.rng, layout.header, &edges);
    t.change(insertion, &mut record, edge, &mut memory);
}

/// An end that is no vertex, a label that is none.
fn force_edge(t: &mut Tester, forced: &[u32], layout: &Layout, edge: &mut Edge) {
    if forced.contains(&5) {
        let bad = gen::no_vertex(&mut t.rng, layout.header[0]);
        if t.rng.one_in(2) {
            edge.0 = bad
        } else {
            edge.2 = bad
        }
    }
    if forced.contains(&6) {
        edge.1 = gen::no_wide_label(&mut t.rng);
    }
}

fn force_question(t: &mut Tester, forced: &[u32], layout: &Layout) -> Check {
    let mut check = Check {
        start: gen::vertex(&mut t.rng, layout),
        destination: gen::vertex(&mut t.rng, layout),
        pattern: gen::pattern(&mut t.rng, layout),
        allowed: t.rng.pick(&[0, 1, 2, 1025]),
    };
    if forced.contains(&10) {
        let high = if forced.contains(&1) { 65_536 } else { layout.header[0] };
        let bad = gen::no_vertex(&mut t.rng, high);
        if t.rng.one_in(2) {
            check.start = bad
        } else {
            check.destination = bad
        }
    }
    if forced.contains(&11) {
        check.pattern = gen::bad_pattern(&mut t.rng, layout);
    }
    check
}

/// Index memory for a query, for 12 damaged: the entries of the edges with both ends in the layout, or any.
fn force_entries(t: &mut Tester, forced: &[u32], layout: &Layout, edges: &[Edge]) -> Vec<u64> {
    let [vertices, longest] = layout.header;
    let within: Vec<Edge> = edges.iter().copied().filter(|edge| edge.0.max(edge.2) < vertices).collect();
    let mut index = determined(&within, longest);
    if t.rng.one_in(2) {
        index = gen::any_index(&mut t.rng, layout, 40);
    }
    index.push(0);
    while forced.contains(&12) && is_index(&index, vertices, longest) {
        gen::damage_index(&mut t.rng, layout.header, &mut index);
    }
    index
}

/// For 3 and 4 the pattern repeats itself, with 11 too in more than k labels. A pattern written once gets dirty memory
/// as well. Each input is put twice: with no total of 0 for a label of the pattern, and with one.
fn query(t: &mut Tester, forced: &[u32]) {
    let (mut layout, mut edges) = layout_and_edges(t);
    let again = forced.contains(&3) || forced.contains(&4);
    if again {
        layout.header[1] = layout.header[1].max(2);
    }
    let longest = layout.header[1] as usize;
    let slots = force_edges(t, forced, &mut layout, &mut edges, false);
    let mut check = force_question(t, forced, &layout);
    if again {
        let any = t.rng.from_to(2, longest);
        let length = if forced.contains(&11) { longest + t.rng.pick(&[1, 2, 3, 4, 300]) } else { any };
        check.pattern = gen::repeating_pattern(&mut t.rng, &layout, length);
    }
    let index = force_entries(t, forced, &layout, &edges);
    let work = if forced.contains(&4) { gen::short_work(&mut t.rng, 0) } else { gen::enough_work(&mut t.rng, 0) };
    let mut memory = Memory { edges: slots, index, work: t.rng.words(work) };
    if !repeats_itself(&check.pattern) && t.rng.one_in(2) {
        memory = gen::dirty(&mut t.rng, &memory.index);
    }
    force_header(t, forced, &mut layout);
    let having = records::having(&mut t.rng, layout.header, &edges, &check.pattern);
    let lacking = records::lacking(&mut t.rng, layout.header, &edges, &check.pattern);
    t.query(having, check.start, check.destination, &check.pattern, &mut memory.clone());
    t.query(lacking, check.start, check.destination, &check.pattern, &mut memory);
}

/// A pattern of at most k labels that repeats itself, or one written once.
fn written(t: &mut Tester, layout: &Layout, again: bool) -> Vec<u8> {
    if again {
        let length = t.rng.from_to(2, layout.header[1] as usize);
        return gen::repeating_pattern(&mut t.rng, layout, length);
    }
    loop {
        let pattern = gen::pattern(&mut t.rng, layout);
        if !repeats_itself(&pattern) {
            return pattern;
        }
    }
}

/// For 3 and 4 the first pattern repeats itself, or the second, or both; for 11 the first is wrong, or the second, or
/// both. Patterns written once get dirty memory as well. Each input is put twice: with no total of 0 for a label of the
/// patterns, and with one for a label of one of them.
fn query_two(t: &mut Tester, forced: &[u32]) {
    let (mut layout, mut edges) = layout_and_edges(t);
    let again = forced.contains(&3) || forced.contains(&4);
    if again {
        layout.header[1] = layout.header[1].max(2);
    }
    let longest = layout.header[1] as usize;
    let slots = force_edges(t, forced, &mut layout, &mut edges, false);
    let check = force_question(t, forced, &layout);
    let kind = if again { t.rng.from_to(1, 3) } else { t.rng.below(if longest > 1 { 4 } else { 1 }) };
    let mut patterns = [1, 2].map(|bit| written(t, &layout, kind & bit > 0));
    let wrong = t.rng.from_to(1, 3);
    for i in (0..2).filter(|i| forced.contains(&11) && wrong >> i & 1 > 0) {
        patterns[i] = gen::bad_pattern(&mut t.rng, &layout);
        if again && !patterns.iter().any(|pattern| repeats_itself(pattern)) {
            let length = longest + t.rng.pick(&[1, 2, 3, 4, 300]);
            patterns[i] = gen::repeating_pattern(&mut t.rng, &layout, length);
        }
    }
    let index = force_entries(t, forced, &layout, &edges);
    let work = if forced.contains(&4) { gen::short_work(&mut t.rng, 0) } else { gen::enough_work(&mut t.rng, 0) };
    let mut memory = Memory { edges: slots, index, work: t.rng.words(work) };
    if !patterns.iter().any(|pattern| repeats_itself(pattern)) && t.rng.one_in(2) {
        memory = gen::dirty(&mut t.rng, &memory.index);
    }
    force_header(t, forced, &mut layout);
    let having = records::having(&mut t.rng, layout.header, &edges, &patterns.concat());
    let lacked = t.rng.pick(&patterns);
    let lacking = records::lacking(&mut t.rng, layout.header, &edges, &lacked);
    let [first, second] = patterns;
    let two = Two { start: check.start, destination: check.destination, first, second };
    t.query_two(having, &two, &mut memory.clone());
    t.query_two(lacking, &two, &mut memory);
}

fn search(t: &mut Tester, forced: &[u32]) {
    let (mut layout, mut edges) = layout_and_edges(t);
    let slots = force_edges(t, forced, &mut layout, &mut edges, false);
    let check = force_question(t, forced, &layout);
    let work = if forced.contains(&4) { gen::short_work(&mut t.rng, 0) } else { gen::enough_work(&mut t.rng, 0) };
    force_header(t, forced, &mut layout);
    let mut memory = gen::noise(&mut t.rng, 0, 0, work);
    memory.edges = slots;
    let record = records::any(&mut t.rng, layout.header, &edges);
    t.search(record, &check, &mut memory);
}

/// For 18 some walk answers the question, with 11 too one of more than k edges, and with 10 too one from or to the
/// vertex that an end's last byte names. Walk memory is too short for the walk.
fn walked(t: &mut Tester, forced: &[u32], layout: &Layout, edges: &[Edge]) -> Option<(Check, usize)> {
    let longest = layout.header[1] as usize;
    let any = t.rng.from_to(1, longest);
    let length = if forced.contains(&11) { longest + t.rng.pick(&[1, 1, 2, 3, 4, 100]) } else { any };
    let mut check = gen::along(&mut t.rng, edges, length)?;
    let count = shortest::route(edges, check.start, check.destination, &keyed(&check.pattern))?.len();
    if forced.contains(&10) {
        let more = t.rng.pick(&[256, 512, 65_536, 1 << 31]);
        if t.rng.one_in(2) {
            check.start += more
        } else {
            check.destination += more
        }
    }
    let any = t.rng.below(count);
    Some((check, t.rng.pick(&[0, count - 1, any])))
}

fn route(t: &mut Tester, forced: &[u32]) {
    let (mut layout, mut edges) = layout_and_edges(t);
    let mut question = None;
    while forced.contains(&18) && question.is_none() {
        (layout, edges) = layout_and_edges(t);
        question = walked(t, forced, &layout, &edges);
    }
    let slots = force_edges(t, forced, &mut layout, &mut edges, false);
    let any = (force_question(t, forced, &layout), t.rng.pick(&[0, 1, 4, 1024]));
    let (check, walk) = question.unwrap_or(any);
    let work = if forced.contains(&4) { gen::short_work(&mut t.rng, 0) } else { gen::enough_work(&mut t.rng, 0) };
    force_header(t, forced, &mut layout);
    let mut memory = Memory { edges: slots, ..gen::noise(&mut t.rng, 0, 0, work) };
    let mut walk = t.rng.short_words(walk);
    let record = records::any(&mut t.rng, layout.header, &edges);
    t.route(record, &check, &mut memory, &mut walk);
}

fn read_card(t: &mut Tester, forced: &[u32]) {
    let (mut layout, mut edges) = layout_and_edges(t);
    let mut slots = edges.len() + t.rng.below(4);
    if forced.contains(&3) && forced.contains(&9) {
        layout.header = [256, t.rng.from_to(1, 2) as u32];
        edges = gen::many_edges(&mut t.rng, EDGES + 20);
        slots = EDGES + 1 + t.rng.below(19);
    } else if forced.contains(&3) {
        slots = EDGES + 1;
    } else if forced.contains(&9) {
        slots = t.rng.below(edges.len());
    }
    let longest = layout.header[1];
    let needed = determined_entries(&edges, if forced.contains(&13) { longest.min(2) } else { longest }).len();
    let (index, work) = force_index(t, forced, needed);
    force_header(t, forced, &mut layout);
    let mut card = card_of([layout.header[0].clamp(1, 256), layout.header[1].min(255)], &edges);
    if forced.contains(&16) {
        force_16(t, &mut card);
    }
    if forced.contains(&15) {
        card[3..5].copy_from_slice(&t.rng.pick(&[[0, 0], [0, 2], [1, 0], [1, 1], [255, 255]]));
    }
    if forced.contains(&14) {
        let others_in_card = forced.iter().any(|number| [15, 2, 16, 9, 13].contains(number));
        if others_in_card || t.rng.one_in(2) {
            card[t.rng.below(3)] ^= 1 << t.rng.below(8);
        } else {
            card.truncate(t.rng.below(9));
        }
    }
    let mut memory = gen::noise(&mut t.rng, slots, index, work);
    t.read_card(&card, &mut memory);
}

/// The length is wrong, or the edges do not rise, or one is none of this layout.
fn force_16(t: &mut Tester, card: &mut Vec<u8>) {
    let more = t.rng.pick(&[1, 2, 3]);
    match t.rng.below(6) {
        0 => card.extend(t.rng.bytes(more)),
        1 => card.truncate(card.len() - more),
        2 => card.copy_within(9..12, 12),
        3 => card[10] = gen::no_label(&mut t.rng) as u8,
        4 => card[5] = 0,
        _ => card[8] += 1,
    }
}

fn write_card(t: &mut Tester, forced: &[u32]) {
    let (mut layout, mut edges) = layout_and_edges(t);
    let slots = force_edges(t, forced, &mut layout, &mut edges, false);
    force_header(t, forced, &mut layout);
    let length = 9 + 3 * edges.len();
    let any = t.rng.below(length);
    let room = if forced.contains(&17) { t.rng.pick(&[0, 8, length - 1, any]) } else { length + t.rng.below(5) };
    let mut output = t.rng.bytes(room);
    let record = records::any(&mut t.rng, layout.header, &edges);
    t.write_card(record, &slots, &mut output);
}
