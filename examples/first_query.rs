//! The same as first_query.c, in Rust: opens a layout of 3 vertices, inserts layout A's edges, asks, and writes its card.
//!
//! Every reply is looked at. Exit status: 0, or 2 at a refusal that is not expected, which is told by its name.

mod rlc;

use rlc::{card_n, work_n, Layout, Refusal};
use std::process::ExitCode;

const EDGES: usize = 16;
const INDEX: usize = 64;

fn yes_or_no(answer: bool) -> &'static str {
    if answer {
        "yes"
    } else {
        "no"
    }
}

fn set_up(layout: &mut Layout) -> Result<(), Refusal> {
    layout.open(3, 2)?; // 3 vertices, patterns of at most 2 labels
    println!("open accepted");
    for (from, label, to) in [(0, 1, 1), (1, 1, 2), (1, 2, 0)] {
        layout.insert(from, label, to)?;
        println!("insert {from}-{label}-{to} accepted");
    }
    let totals: Vec<String> = layout.totals().iter().map(u32::to_string).collect();
    println!("edges by label: {}", totals.join(" "));
    Ok(())
}

fn ask(layout: &mut Layout) -> Result<(), Refusal> {
    println!("0 to 0 by 1,2: {}", yes_or_no(layout.query(0, 0, &[1, 2])?));
    println!("0 to 0 by 1: {}", yes_or_no(layout.query(0, 0, &[1])?));
    // An even number of edges.
    println!("0 to 2 by 1,1: {}", yes_or_no(layout.query(0, 2, &[1, 1])?));
    // A label that no edge has.
    println!("0 to 2 by 3: {}", yes_or_no(layout.query(0, 2, &[3])?));
    // There is no vertex 3: this refusal is expected.
    match layout.query(0, 3, &[1]) {
        Ok(answer) => println!("0 to 3 by 1: {}", yes_or_no(answer)),
        Err(refusal) => println!("0 to 3 by 1: {refusal}"),
    }
    Ok(())
}

fn write_card(layout: &Layout) -> Result<(), Refusal> {
    let mut card = [0; card_n(EDGES)];
    let length = layout.write_card(&mut card)?;
    let bytes: Vec<String> = card[..length].iter().map(|byte| format!("{byte:02x}")).collect();
    println!("card {}", bytes.join(" "));
    Ok(())
}

fn run() -> Result<(), Refusal> {
    let (mut edges, mut index, mut work) = ([0; EDGES], [0; INDEX], [0; work_n(INDEX)]);
    let mut layout = Layout::new(&mut edges, &mut index, &mut work);
    set_up(&mut layout)?;
    ask(&mut layout)?;
    write_card(&layout)
}

fn main() -> ExitCode {
    match run() {
        Ok(()) => ExitCode::SUCCESS,
        Err(refusal) => {
            eprintln!("{refusal}");
            ExitCode::from(2)
        }
    }
}
