//! Prints a fixed batch of cases for `sitting`: known programs, drawn programs and damaged inputs.
//!
//!     cases > BATCH
//!
//! A case is a line of two decimal numbers, the bytes of the input and the bytes of the buffer, and then the input
//! itself. Every case is a small search, so that the whole batch can be answered in seconds even by a program that
//! plays each run from its start. The last case cannot be read.

mod damaged;
mod drawn;
mod draws;
mod input;
mod known;
// Only the lengths of lines and how they are written are used here.
#[allow(dead_code)]
#[path = "../sitting/lines.rs"]
mod lines;
mod program;

use std::io::{self, Write};

use damaged::add_damaged;
use drawn::add_drawn;
use input::Batch;
use known::add_known;

fn main() -> io::Result<()> {
    let mut batch = Batch::default();
    add_known(&mut batch);
    add_drawn(&mut batch);
    add_damaged(&mut batch);
    batch.end_short();
    io::stdout().write_all(&batch.bytes)
}
