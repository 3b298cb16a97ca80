//! Programs, and the tables that they are written as.

use crate::lines::line_of;

/// An instruction with its operands in the order of a row: registers, variables and labels counted from 1, and
/// constants.
#[derive(Clone, Copy)]
pub enum Instruction {
    Read(usize, usize),
    Write(usize, usize),
    Cas(usize, usize, usize),
    Set(usize, usize),
    Add(usize, usize, usize),
    Jeq(usize, usize, usize),
    Assume(usize, usize),
    Fence,
    Term,
}

use Instruction::*;

impl Instruction {
    /// Its number and its operands as a row has them.
    pub fn numbers(self) -> [usize; 4] {
        match self {
            Read(a, b) => [1, a, b, 0],
            Write(a, b) => [2, a, b, 0],
            Cas(a, b, c) => [3, a, b, c],
            Set(a, b) => [4, a, b, 0],
            Add(a, b, c) => [5, a, b, c],
            Jeq(a, b, c) => [6, a, b, c],
            Assume(a, b) => [7, a, b, 0],
            Fence => [8, 0, 0, 0],
            Term => [9, 0, 0, 0],
        }
    }
}

/// The process, the label, the instruction's number and its operands.
pub type Row = [usize; 6];

pub fn row_of(process: usize, label: usize, instruction: Instruction) -> Row {
    let [number, a, b, c] = instruction.numbers();
    [process, label, number, a, b, c]
}

/// What a header says beside the numbers of processes and rows.
#[derive(Clone, Copy)]
pub struct Sizes {
    pub variables: usize,
    pub registers: usize,
    pub values: usize,
}

/// The text of the table of these processes, each a list of instructions from label 1 on.
pub fn table_of(sizes: Sizes, processes: &[impl AsRef<[Instruction]>]) -> String {
    let rows: usize = processes.iter().map(|process| process.as_ref().len()).sum();
    let mut text = line_of(&[processes.len(), sizes.variables, sizes.registers, sizes.values, rows, 0]);
    for (process, instructions) in (1..).zip(processes) {
        for (label, &instruction) in (1..).zip(instructions.as_ref()) {
            text += &line_of(&row_of(process, label, instruction));
        }
    }
    text
}
