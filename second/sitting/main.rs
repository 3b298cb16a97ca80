//! Answers questions about small concurrent programs. An input is a question line and a table; the answer is the
//! first run, in a fixed order, that brings the processes to the labels asked for, or that there is none, or that
//! a thousand million runs were looked at in vain, or the number of what is wrong with the input.
//!
//!     sitting < BATCH      answers every case of a batch
//!     sitting one < INPUT  answers one input with a buffer of 625 bytes and prints just the bytes written
//!
//! A case of a batch is a line of two decimal numbers, the bytes of the input and the bytes of the buffer, and then
//! the input itself. Its answer is a line with the number of bytes written and then these bytes, or `refused 73`
//! where the buffer is too short. What is left and is no case ends the answers with a line that says so.

mod answer;
mod batch;
mod lines;
mod memory;
mod question;
mod refusal;
mod search;
mod table;
mod world;

use std::env;
use std::io::{self, Read, Write};
use std::process::ExitCode;

use answer::answer;
use batch::answer_batch;

fn read_all() -> io::Result<Vec<u8>> {
    let mut input = Vec::new();
    io::stdin().read_to_end(&mut input)?;
    Ok(input)
}

fn run() -> io::Result<ExitCode> {
    let words: Vec<String> = env::args().skip(1).collect();
    let words: Vec<&str> = words.iter().map(String::as_str).collect();
    let mut out = io::BufWriter::new(io::stdout().lock());
    let status = match words[..] {
        [] => {
            answer_batch(&read_all()?, &mut out)?;
            ExitCode::SUCCESS
        }
        ["one"] => {
            out.write_all(answer(&read_all()?).as_bytes())?;
            ExitCode::SUCCESS
        }
        _ => {
            eprintln!("sitting: the only argument is one");
            ExitCode::FAILURE
        }
    };
    out.flush()?;
    Ok(status)
}

fn main() -> ExitCode {
    run().unwrap_or_else(|error| {
        eprintln!("sitting: {error}");
        ExitCode::FAILURE
    })
}
