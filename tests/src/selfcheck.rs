//! The second implementation held to facts that documents 01, 02 and 004 print.

use crate::calls::{self, full_query, keyed, query, query_two, Check, Memory, Middles};
use crate::compare::YES;
use crate::gen;
use crate::ledger::{Fed, Ledger, Slots};
use crate::record::Record;
use crate::records;
use crate::reference::*;
use crate::rng::Rng;
use crate::shortest::*;
use crate::trials::{table_2_slots, CARD_A, FIGURE_2, KEYED_TWICE, LAYOUT_A, LAYOUT_B};
use crate::trials::{ROUTES, SLOTS_A, TOTALS_A, TWO_PATTERNS};
use crate::two::two;

pub fn run() {
    counted_totals();
    lacking_queries();
    changed_totals();
    ledger_totals();
    keyed_twice();
    routes_by_hand();
    routes_both_ways();
    middles_by_hand();
    middles_by_singles();
    let a: Vec<Edge> = CARD_A[9..].chunks(3).map(|b| (b[0] as u32, b[1] as u32, b[2] as u32)).collect();
    assert_eq!(a, LAYOUT_A);
    assert_eq!(determined(&a, 2), SLOTS_A);
    assert!(runs(&a, 0, 2, &[1]) && runs(&a, 0, 0, &[1, 2]));
    assert!(!runs(&a, 2, 0, &[1]) && !runs(&a, 0, 0, &[1]) && !runs(&a, 0, 0, &[2, 1]));
    for (allowed, found) in [(0, Found::Spent(0)), (1, Found::Spent(1)), (2, Found::Yes(2)), (1025, Found::Yes(2))] {
        assert_eq!(levels(&a, 0, 2, &[1], allowed), found);
    }
    assert_eq!(levels(&a, 2, 0, &[1], 1), Found::No(1));

    assert_eq!(determined(&LAYOUT_B, 1).len(), 7);
    let lifted: Vec<Edge> = LAYOUT_B.into_iter().filter(|edge| *edge != (0, 2, 4)).collect();
    assert_eq!(determined(&lifted, 1).len(), 8);
    assert_eq!(determined(&[(0, 1, 0)], 1), [1]);

    assert_eq!(access_order(&FIGURE_2), [0, 2, 1, 3, 4, 5]);
    assert_eq!(determined(&FIGURE_2, 2), table_2_slots());

    assert_eq!(minimum_repeat(&[1, 2, 1, 2]), [1, 2]);
    assert_eq!(minimum_repeat(&[1, 2, 1]), [1, 2, 1]);
    assert_eq!((times_written(&[1, 2, 1, 2]), times_written(&[1, 2, 1]), times_written(&[1, 1, 1])), (2, 1, 3));
    // "each of the 4,680 patterns of one to four colours"
    let table = table_patterns();
    assert_eq!(table.len(), 4680);
    assert!(table[7] == [8] && table[8] == [1, 1] && table[71] == [8, 8] && table[72] == [1, 1, 1]);
    // 8 + 56 + 504 + 4,032 patterns are their own minimum repeat.
    assert_eq!(patterns(&[1, 2, 3, 4, 5, 6, 7, 8], 4).len(), 4600);
}

fn counted_totals() {
    assert_eq!(totals(&LAYOUT_A), TOTALS_A);
    assert_eq!(totals(&LAYOUT_B), [3, 4, 0, 0, 0, 0, 0, 0]);
    assert_eq!(totals(&FIGURE_2), [6, 4, 1, 0, 0, 0, 0, 0]);
    assert_eq!(totals(&[(255, 8, 0), (255, 8, 255)]), [0, 0, 0, 0, 0, 0, 0, 2]);
    assert_eq!(totals(&[]), [0; 8]);
    let record = Record::counted([3, 2], &LAYOUT_A);
    assert_eq!(record.numbers(), [3, 2, 2, 1, 0, 0, 0, 0, 0, 0]);
    assert!(record.lacks(&[3]) && record.lacks(&[1, 8]) && !record.lacks(&[1, 2]) && !record.lacks(&[2]));
    assert!(!record.lacks(&[]) && !record.lacks(&[0]) && !record.lacks(&[9, 255]));
}

/// Layout A, k 2, in just enough memory.
fn memory_of_a() -> Memory {
    Memory { edges: gen::edge_memory(&LAYOUT_A, 3), index: SLOTS_A.to_vec(), work: vec![7; 4096] }
}

/// In A, by labels whose totals are 0 and are not, with right and with damaged memory.
fn lacking_queries() {
    let record = Record { header: [3, 2], totals: TOTALS_A };
    let overstated = Record { totals: [2, 1, 1, 0, 0, 0, 0, 0], ..record };
    let understated = Record { totals: [0, 1, 0, 0, 0, 0, 0, 0], ..record };
    let mut damaged = Memory { edges: vec![1], index: vec![5, 4], work: vec![7; 5] };
    let found = damaged.clone();
    for pattern in [&[3][..], &[3, 3], &[1, 3], &[8, 1]] {
        assert_eq!(query(&record, 0, 2, pattern, &mut damaged), (vec![], false));
    }
    assert_eq!(query(&understated, 0, 2, &[1, 1], &mut damaged), (vec![], false));
    assert_eq!(query(&overstated, 0, 2, &[3], &mut damaged), (vec![12], false));
    assert_eq!(query(&overstated, 0, 2, &[3, 3], &mut damaged), (vec![12, 3, 4], false));
    assert_eq!(full_query([3, 2], 0, 2, &[3, 3], &mut damaged), (vec![12, 3, 4], false));
    assert_eq!(query(&record, 3, 2, &[3], &mut damaged), (vec![10], false));
    assert_eq!(query(&record, 0, 2, &[3, 3, 3], &mut damaged), (vec![11], false));
    assert_eq!(damaged, found);
    let mut a = memory_of_a();
    assert_eq!(query(&record, 0, 2, &[1], &mut a), (vec![], true));
    assert_eq!(query(&understated, 0, 2, &[1], &mut a), (vec![], false));
    assert_eq!(query(&understated, 1, 0, &[2], &mut a), (vec![], true));
    assert_eq!(query(&understated, 0, 2, &[1, 1], &mut a), (vec![], false));
    assert_eq!(a, memory_of_a());
    assert_eq!(query(&record, 0, 2, &[1, 1], &mut a), (vec![], true));
    assert_eq!(a.work, [0; 4096]);
}

/// Each changing call counts anew, and hands the totals back as they were if it refuses.
fn changed_totals() {
    let lying = Record { header: [3, 2], totals: [u32::MAX, 0, 5, 0, 0, 0, 0, 1] };
    for (insertion, edge, number, totals) in [
        (true, (2, 8, 2), 13, lying.totals),
        (true, (0, 1, 1), 7, lying.totals),
        (false, (1, 2, 0), 0, [2, 0, 0, 0, 0, 0, 0, 0]),
        (false, (0, 2, 0), 8, lying.totals),
    ] {
        let (mut record, mut a) = (lying, Memory { edges: gen::edge_memory(&LAYOUT_A, 4), ..memory_of_a() });
        a.work.resize(4101, 7);
        assert_eq!(calls::change(insertion, &mut record, edge, &mut a).first().copied().unwrap_or(0), number);
        assert_eq!((record.header, record.totals), ([3, 2], totals));
    }
    let (mut record, mut a) = (lying, memory_of_a());
    assert!(calls::open(&mut record, &mut a).is_empty());
    assert_eq!(record.numbers(), [3, 2, 0, 0, 0, 0, 0, 0, 0, 0]);
    a.work.resize(4101, 7);
    let read = calls::read_card(&CARD_A, &mut a);
    assert_eq!(read, (vec![], Some(Record { header: [3, 2], totals: TOTALS_A })));
    assert_eq!(calls::read_card(&CARD_A[..8], &mut a).1, None);
}

/// The ledger's own count, and what it shows after a refusal.
fn ledger_totals() {
    let slots = Slots { edges: 4, index: 60, work: 4156 };
    let lying = Record { header: [0, 2], totals: [9; 8] };
    let mut ledger = Ledger::default();
    let of = |totals| Some(Record { header: [3, 2], totals });
    assert_eq!(ledger.feed(&Fed::Card(CARD_A.to_vec()), slots), (0, of(TOTALS_A)));
    assert_eq!(ledger.feed(&Fed::Open(lying), slots), (1, Some(lying)));
    assert_eq!(ledger.feed(&Fed::Insert((2, 8, 0)), slots), (0, of([2, 1, 0, 0, 0, 0, 0, 1])));
    assert_eq!(ledger.feed(&Fed::Insert((2, 8, 1)), slots), (9, of([2, 1, 0, 0, 0, 0, 0, 1])));
    assert_eq!(ledger.feed(&Fed::Card(vec![]), slots), (14, None));
    assert_eq!(ledger.feed(&Fed::Remove((1, 2, 0)), slots), (0, of([2, 0, 0, 0, 0, 0, 0, 1])));
    assert_eq!(ledger.feed(&Fed::Open(Record { header: [3, 2], ..lying }), slots), (0, of([0; 8])));
}

/// Both ways to find the walks that run a pattern as keyed, and the levels.
fn keyed_twice() {
    for (_, edges, start, destination, pattern, (answer, count)) in KEYED_TWICE {
        let pattern = keyed(pattern);
        assert_eq!(spelled_ends(edges, start, &pattern).contains(&destination), answer == YES);
        assert_eq!(runs(edges, start, destination, &pattern), answer == YES);
        let found = if answer == YES { Found::Yes(count) } else { Found::No(count) };
        assert_eq!(levels(edges, start, destination, &pattern, 1025), found);
        assert_eq!(levels(edges, start, destination, &pattern, count), found);
        assert_eq!(levels(edges, start, destination, &pattern, count - 1), Found::Spent(count - 1));
    }
}

/// Both ways to find a route.
fn routes_by_hand() {
    for (_, edges, start, destination, pattern, route) in ROUTES {
        let pattern = keyed(pattern);
        let expected = Some(route.to_vec()).filter(|route| !route.is_empty());
        let walks = written_down(edges, start, destination, &pattern).unwrap();
        assert_eq!(walks.iter().min(), expected.as_ref());
        assert_eq!(by_marks(edges, start, destination, &pattern), expected);
        assert_eq!(is_walk(edges, start, destination, &pattern, route), expected.is_some());
    }
}

/// On every layout of two vertices and two labels and of three vertices and one label, and on some layers with at most
/// 81 walks.
fn routes_both_ways() {
    for (vertices, labels) in [(2, 2), (3, 1)] {
        let questions = gen::every_question(vertices, labels, 4);
        for edges in gen::every_layout(vertices, labels) {
            questions.iter().for_each(|check| both_ways(&edges, check));
        }
    }
    let mut rng = Rng::new(3);
    for _ in 0..2000 {
        let (layers, width) = (rng.from_to(2, 5), rng.from_to(2, 3));
        let pattern = rng.pick(&[vec![1], vec![2, 2], vec![1, 2], vec![1, 2, 1, 2]]);
        let (edges, check) = gen::layers(&mut rng, layers, width, &pattern);
        both_ways(&edges, &check);
    }
}

/// Both ways find the same route, with as many edges as levels. For a no there may be too many walks to write down.
fn both_ways(edges: &[Edge], check: &Check) {
    let (start, destination, pattern) = (check.start, check.destination, keyed(&check.pattern));
    let found = by_marks(edges, start, destination, &pattern);
    let walks = written_down(edges, start, destination, &pattern);
    let levels = levels(edges, start, destination, &pattern, 1025);
    match &found {
        Some(walk) => {
            assert!(is_walk(edges, start, destination, &pattern, walk));
            assert_eq!(levels, Found::Yes(walk.len() as u32));
            assert_eq!(walks.unwrap().into_iter().min(), found);
        }
        None => assert!(walks.is_none_or(|walks| walks.is_empty()) && matches!(levels, Found::No(_))),
    }
}

/// The lowest middle by the walks, and by the index and the edges.
fn middles_by_hand() {
    for (header, edges, start, destination, first, second, lowest) in TWO_PATTERNS {
        assert_eq!(middle(edges, start, destination, &keyed(first), &keyed(second)), lowest);
        let index = determined(edges, header[1]);
        let mut memory = Memory { edges: gen::edge_memory(edges, edges.len()), index, work: vec![7; 4096] };
        let record = Record::counted(header, edges);
        let (refusals, middles) = query_two(&record, &two(start, destination, first, second), &mut memory);
        assert_eq!((refusals, middles.lowest()), (vec![], lowest));
    }
    let middles = Middles { out: vec![0, 3, 5, 7], home: vec![1, 3, 4, 7] };
    assert_eq!((middles.counting(), middles.lowest()), (vec![3, 7], Some(3)));
    let mut a = memory_of_a();
    let record = Record::counted([3, 2], &LAYOUT_A);
    let (_, middles) = query_two(&record, &two(0, 2, &[1], &[1]), &mut a);
    assert_eq!(middles, Middles { out: vec![1, 2], home: vec![0, 1] });
    assert_eq!(query_two(&record, &two(3, 2, &[], &[9, 9]), &mut a).0, [10, 11]);
    assert_eq!(a, memory_of_a());
    a.index.swap(0, 1);
    assert_eq!(query_two(&record, &two(3, 2, &[1], &[9, 9]), &mut a).0, [10, 11, 12]);
    assert_eq!(query_two(&record, &two(0, 2, &[3], &[9, 9]), &mut a).0, [11]);
    assert_eq!(query_two(&record, &two(0, 2, &[3], &[1]), &mut a).0, []);
    a.work.truncate(4095);
    assert_eq!(query_two(&record, &two(0, 2, &[1], &[2, 2]), &mut a).0, [12, 4]);
}

/// "m counts where the two single questions, from the start to m and from m to the destination, would both be a yes":
/// by whole single questions, each with its own checks, on records and memory of which some are right.
fn middles_by_singles() {
    let mut rng = Rng::new(5);
    for _ in 0..3000 {
        let mut layout = gen::layout(&mut rng);
        layout.header[0] = layout.header[0].min(6);
        let edges = gen::edges(&mut rng, &layout, 10);
        let mut index =
            if rng.one_in(2) { determined(&edges, layout.header[1]) } else { gen::any_index(&mut rng, &layout, 30) };
        let mut slots = gen::edge_memory(&edges, 11);
        if rng.one_in(8) {
            gen::damage_index(&mut rng, layout.header, &mut index);
        }
        if rng.one_in(8) {
            gen::damage_edges(&mut rng, layout.header[0], &mut slots);
        }
        let work = rng.pick(&[4095, 4096, 4096, 4096]);
        let mut memory = Memory { edges: slots, index, work: vec![7; work] };
        let [first, second] = [0, 1].map(|_| {
            if rng.one_in(9) {
                gen::bad_pattern(&mut rng, &layout)
            } else {
                gen::pattern(&mut rng, &layout)
            }
        });
        let asked = two(gen::vertex(&mut rng, &layout), gen::vertex(&mut rng, &layout), &first, &second);
        let record = records::any(&mut rng, layout.header, &edges);
        let single =
            |from, to, pattern: &[u8]| query(&record, from, to, pattern, &mut memory.clone()) == (vec![], true);
        let lowest =
            (0..layout.header[0]).find(|m| single(asked.start, *m, &first) && single(*m, asked.destination, &second));
        assert_eq!(query_two(&record, &asked, &mut memory).1.lowest(), lowest);
    }
}
