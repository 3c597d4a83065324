//! How much memory a layout needs: reads a card and prints how many entries its index has, and the bytes of index and
//! work memory to build it.
//!
//!     size [CARD]
//!
//! The card is a file, or standard input if none is named. Index memory is doubled until the index fits: no layout is
//! too large for it, if the computer is not too small.
//!
//! Exit status: 0, 2 refused by the library, 64 wrong usage, 66 card not read, 74 output not written.

mod rlc;

use rlc::{work_n, Layout, Refusal};
use std::ffi::OsString;
use std::fs::File;
use std::io::{self, Read, Write};
use std::process::ExitCode;

/// Slots of edge memory: enough for every layout.
const EDGES: usize = 1024;
/// Slots of index memory to begin with.
const INDEX: usize = 1024;
/// Bytes taken, as the programs listing and size take them. The longest card has 3,081, and a longer input is refused.
const BYTES: u64 = 4096;

const REFUSED: u8 = 2;
const USAGE: u8 = 64;
const NO_INPUT: u8 = 66;
const NO_OUTPUT: u8 = 74;

struct Size {
    vertices: u32,
    longest: u32,
    edges: u32,
    entries: usize,
}

fn size(card: &[u8]) -> Result<Size, Refusal> {
    let mut edges = [0; EDGES];
    let mut slots = INDEX;
    loop {
        let (mut index, mut work) = (vec![0; slots], vec![0; work_n(slots)]);
        let mut layout = Layout::new(&mut edges, &mut index, &mut work);
        match layout.read_card(card) {
            Err(Refusal::INDEX_SLOTS) => slots *= 2,
            Err(refusal) => return Err(refusal),
            Ok(()) => {
                return Ok(Size {
                    vertices: layout.vertices(),
                    longest: layout.longest(),
                    edges: layout.totals().iter().sum(),
                    entries: layout.entries(),
                })
            }
        }
    }
}

fn print(size: &Size) -> io::Result<()> {
    let (index, work) = (8 * size.entries, 8 * work_n(size.entries));
    let mut output = io::stdout();
    write!(output, "places {} longest {} legs {} ", size.vertices, size.longest, size.edges)?;
    writeln!(output, "entries {} index {index} bytes work {work} bytes", size.entries)?;
    output.flush()
}

fn read(name: Option<&OsString>) -> io::Result<Vec<u8>> {
    let mut card = Vec::new();
    match name {
        Some(name) => File::open(name)?.take(BYTES).read_to_end(&mut card)?,
        None => io::stdin().take(BYTES).read_to_end(&mut card)?,
    };
    Ok(card)
}

/// Says why there is no size, and gives the status to end with.
fn fail(status: u8, message: &str) -> ExitCode {
    eprintln!("{message}");
    ExitCode::from(status)
}

fn main() -> ExitCode {
    let words: Vec<OsString> = std::env::args_os().skip(1).collect();
    if words.len() > 1 {
        return fail(USAGE, "usage: size [CARD]");
    }
    let Ok(card) = read(words.first()) else {
        let name = words.first().map_or("standard input".into(), |name| name.to_string_lossy());
        return fail(NO_INPUT, &format!("cannot read {name}"));
    };
    match size(&card) {
        Err(refusal) => fail(REFUSED, &refusal.to_string()),
        Ok(size) => match print(&size) {
            Err(_) => fail(NO_OUTPUT, "cannot write"),
            Ok(()) => ExitCode::SUCCESS,
        },
    }
}
