//! Inputs, the changes that can be made to one, and the batch of them.

use crate::lines::{QUESTION_LINE, SHORTEST_BUFFER, TABLE_LINE, line_of};
use crate::program::{Instruction, Row, row_of};

/// The numbers of a question line: the memory (0 sequential, 1 release-acquire), the step bound, the switch bound
/// and the four targets.
pub type Question = [usize; 7];

pub const BLANK: &[u8; 4] = b"    ";

/// The bytes of an input. Line 0 is the question line, line 1 the header of the table.
#[derive(Clone)]
pub struct Input(pub Vec<u8>);

fn start_of(line: usize) -> usize {
    match line {
        0 => 0,
        _ => QUESTION_LINE + TABLE_LINE * (line - 1),
    }
}

fn start_of_field(line: usize, field: usize) -> usize {
    start_of(line) + 4 * (field - 1)
}

impl Input {
    pub fn new(question: &Question, table: &str) -> Input {
        Input((line_of(question) + table).into_bytes())
    }

    /// The number of lines of the table.
    pub fn lines(&self) -> usize {
        (self.0.len() - QUESTION_LINE) / TABLE_LINE
    }

    pub fn with_bytes(&self, at: usize, bytes: &[u8]) -> Input {
        let mut changed = self.clone();
        changed.0[at..at + bytes.len()].copy_from_slice(bytes);
        changed
    }

    /// With other bytes in a field, which is counted from 1.
    pub fn with_field(&self, line: usize, field: usize, text: &[u8; 4]) -> Input {
        self.with_bytes(start_of_field(line, field), text)
    }

    pub fn with_number(&self, line: usize, field: usize, number: usize) -> Input {
        let text = format!("{number:4}");
        self.with_bytes(start_of_field(line, field), text.as_bytes())
    }

    pub fn with_row(&self, line: usize, row: &Row) -> Input {
        self.with_bytes(start_of(line), line_of(row).as_bytes())
    }

    /// With another instruction at the process and label of a row.
    pub fn with_instruction(&self, line: usize, instruction: Instruction) -> Input {
        let rest = line_of(&instruction.numbers());
        self.with_bytes(start_of_field(line, 3), rest.as_bytes())
    }

    /// With another byte in the place of a line's byte 10.
    pub fn with_end(&self, line: usize, byte: u8) -> Input {
        self.with_bytes(start_of(line + 1) - 1, &[byte])
    }

    pub fn without_line(&self, line: usize) -> Input {
        let mut bytes = self.0.clone();
        bytes.drain(start_of(line)..start_of(line + 1));
        Input(bytes)
    }

    /// With a line that is a byte 10 alone in front of a line.
    pub fn with_empty_line(&self, line: usize) -> Input {
        let mut bytes = self.0.clone();
        bytes.insert(start_of(line), b'\n');
        Input(bytes)
    }

    pub fn with_more(&self, bytes: &[u8]) -> Input {
        Input([&self.0, bytes].concat())
    }

    pub fn cut_to(&self, length: usize) -> Input {
        Input(self.0[..length].to_vec())
    }

    /// With TERM rows behind it up to a length, the last one cut.
    pub fn filled_to(&self, length: usize) -> Input {
        let row = line_of(&row_of(1, 1, Instruction::Term));
        let filling: Vec<u8> = row.bytes().cycle().take(length - self.0.len()).collect();
        self.with_more(&filling)
    }
}

#[derive(Default)]
pub struct Batch {
    pub bytes: Vec<u8>,
}

impl Batch {
    pub fn add(&mut self, input: &Input) {
        self.add_with_buffer(input, SHORTEST_BUFFER);
    }

    pub fn add_with_buffer(&mut self, input: &Input, buffer: usize) {
        self.bytes.extend(format!("{} {buffer}\n", input.0.len()).bytes());
        self.bytes.extend(&input.0);
    }

    /// Ends the batch with a case whose input is shorter than its line says; no case can follow it.
    pub fn end_short(&mut self) {
        self.bytes.extend(b"29 625\n   1   8");
    }
}
