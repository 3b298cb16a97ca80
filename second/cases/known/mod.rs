//! Known programs, with questions about each.

pub mod programs;
mod questions;

use crate::input::{BLANK, Batch, Input, Question};
use crate::program::{Instruction, Sizes, table_of};
use questions::KNOWN;

pub enum Program {
    /// The text of a table among the examples.
    Example(&'static str),
    Own(Sizes, &'static [&'static [Instruction]]),
}

impl Program {
    /// The text of its table.
    pub fn table(&self) -> String {
        match *self {
            Program::Example(text) => text.to_string(),
            Program::Own(sizes, processes) => table_of(sizes, processes),
        }
    }

    /// The input that asks this of it.
    pub fn asked(&self, question: &Question) -> Input {
        Input::new(question, &self.table())
    }
}

struct Known {
    program: Program,
    questions: &'static [Question],
    /// How many of the questions, from the first on, are asked with a blank switch bound too.
    blank: usize,
}

pub fn add_known(batch: &mut Batch) {
    for known in KNOWN {
        for question in known.questions {
            batch.add(&known.program.asked(question));
        }
        for question in &known.questions[..known.blank] {
            batch.add(&known.program.asked(question).with_field(0, 3, BLANK));
        }
    }
}
