//! The program `searching` in plain Rust, to compare how fast the runs of a table are looked at: the search of the
//! second implementation, over and over. It is given only tables and questions that `searching` accepts.

// Not all that is in these modules is used here.
#![allow(dead_code)]

#[path = "../second/sitting/lines.rs"]
mod lines;
#[path = "../second/sitting/memory/mod.rs"]
mod memory;
#[path = "../second/sitting/question.rs"]
mod question;
#[path = "../second/sitting/refusal.rs"]
mod refusal;
#[path = "../second/sitting/search.rs"]
mod search;
#[path = "../second/sitting/table.rs"]
mod table;
#[path = "../second/sitting/world.rs"]
mod world;

use std::env;
use std::hint::black_box;
use std::io::{self, Read};

use lines::line_of;
use question::Question;
use search::{Search, Verdict};
use table::Table;

/// The arguments: the seven numbers of a question line, and how many searches there are.
fn asked() -> Option<(Question, usize)> {
    let numbers: Option<Vec<usize>> = env::args().skip(1).map(|word| word.parse().ok()).collect();
    let [question @ .., times] = <[usize; 8]>::try_from(numbers?).ok()?;
    Some((Question::read(line_of(&question).as_bytes())?, times))
}

/// How many runs so many searches look at, each from the first run on, and the verdict of the last.
fn count(table: &Table, question: &Question, times: usize) -> (u64, Verdict) {
    let (mut looked, mut verdict) = (0, Verdict::Open);
    for _ in 0..times {
        // So that every turn searches.
        let mut search = Search::new(table, black_box(question));
        verdict = search.go();
        looked += search.looked;
    }
    (looked, verdict)
}

fn main() -> io::Result<()> {
    let mut text = Vec::new();
    io::stdin().read_to_end(&mut text)?;
    let (Some((question, times)), Ok(table)) = (asked(), Table::read(&text)) else {
        println!("no question or no table");
        return Ok(());
    };
    let (looked, verdict) = count(&table, &question, times);
    let verdict = match verdict {
        Verdict::Found => "found",
        Verdict::None => "none",
        Verdict::Open => "more",
    };
    println!("{looked} runs looked at, {verdict}");
    Ok(())
}
