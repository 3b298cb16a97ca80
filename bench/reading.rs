//! The program `rereading` in plain Rust, to compare how fast a table is read: the reading of the second
//! implementation, over and over.

// Not all that is in these modules is used here.
#![allow(dead_code)]

#[path = "../second/sitting/lines.rs"]
mod lines;
#[path = "../second/sitting/refusal.rs"]
mod refusal;
#[path = "../second/sitting/table.rs"]
mod table;

use std::env;
use std::hint::black_box;
use std::io::{self, Read};

use refusal::Refusal;
use table::Table;

/// How many times the text is read where no argument says it.
const TURNS: u32 = 1000;

/// How many times a text was read and how many times it was refused, and the last refusal.
#[derive(Default)]
struct Outcomes {
    accepted: u32,
    refused: u32,
    last: Option<Refusal>,
}

/// Reads a text into a table so many times. A refused text leaves the table as it was.
fn reread(table: &mut Table, text: &[u8], turns: u32) -> Outcomes {
    let mut outcomes = Outcomes::default();
    for _ in 0..turns {
        // So that every turn reads the whole text.
        match Table::read(black_box(text)) {
            Ok(read) => {
                *table = read;
                outcomes.accepted += 1;
            }
            Err(refusal) => {
                outcomes.refused += 1;
                outcomes.last = Some(refusal);
            }
        }
    }
    outcomes
}

/// Prints the line that tells the outcomes.
fn tell(table: &Table, outcomes: Outcomes) {
    let Outcomes { accepted, refused, last } = outcomes;
    if let Some(Refusal { number, place }) = last {
        println!("refused {refused} times: number {number}, place {place}");
        return;
    }
    let processes = table.processes.len();
    let rows: usize = table.processes.iter().map(Vec::len).sum();
    let labels = table.processes.last().map_or(0, Vec::len);
    println!("read {accepted} times: {processes} processes, {rows} rows, {labels} of the last process");
}

fn main() -> io::Result<()> {
    let turns = env::args().nth(1).and_then(|word| word.parse().ok()).unwrap_or(TURNS);
    let mut text = Vec::new();
    io::stdin().read_to_end(&mut text)?;
    let mut table = Table::default();
    let outcomes = reread(&mut table, &text, turns);
    tell(&table, outcomes);
    Ok(())
}
