//! The table: a program's header and its rows, one for each instruction.

use crate::lines::{TABLE_LINE, numbers_of};
use crate::refusal::{Refusal, refuse};

/// A line of the table: the header, or a row with its process, label, instruction number and operands.
type Line = [u16; 6];

pub const MOST_PROCESSES: usize = 4;
pub const MOST_VARIABLES: usize = 4;
pub const MOST_REGISTERS: usize = 4;
const MOST_VALUES: usize = 8;
const MOST_LABELS: usize = 32;
const MOST_ROWS: usize = 128;

/// An instruction. Registers and labels count from 0 here, variables from 1 as in the text.
#[derive(Clone, Copy)]
pub enum Instruction {
    Read { register: usize, variable: usize },
    Write { variable: usize, register: usize },
    Cas { variable: usize, old: usize, new: usize },
    Set { register: usize, constant: u8 },
    Add { register: usize, left: usize, right: usize },
    Jeq { left: usize, right: usize, label: usize },
    Assume { left: usize, right: usize },
    Fence,
    Term,
}

/// The number of values, for sums, and the instructions of each process.
#[derive(Default)]
pub struct Table {
    pub values: u8,
    pub processes: Vec<Vec<Instruction>>,
}

struct Header {
    processes: usize,
    variables: usize,
    registers: usize,
    values: usize,
}

impl Table {
    pub fn read(text: &[u8]) -> Result<Table, Refusal> {
        let lines = read_lines(text)?;
        let header = read_header(lines[0], lines.len())?;
        let processes = read_rows(&header, &lines[1..])?;
        judge_ends(&header, &processes)?;
        Ok(Table { values: header.values as u8, processes })
    }
}

/// All lines are read before anything is judged by its meaning.
fn read_lines(text: &[u8]) -> Result<Vec<Line>, Refusal> {
    let count = text.len() / TABLE_LINE;
    if !text.len().is_multiple_of(TABLE_LINE) || !(2..=1 + MOST_ROWS).contains(&count) {
        return refuse(11, 0);
    }
    let mut lines = Vec::with_capacity(count);
    for (index, line) in text.chunks_exact(TABLE_LINE).enumerate() {
        match numbers_of(line) {
            Some(numbers) => lines.push(numbers),
            None => return refuse(12, index + 1),
        }
    }
    Ok(lines)
}

fn read_header(line: Line, lines: usize) -> Result<Header, Refusal> {
    let [processes, variables, registers, values, rows, rest] = line.map(usize::from);
    let fits = (1..=MOST_PROCESSES).contains(&processes)
        && (1..=MOST_VARIABLES).contains(&variables)
        && (1..=MOST_REGISTERS).contains(&registers)
        && (2..=MOST_VALUES).contains(&values)
        && rows == lines - 1
        && rest == 0;
    if !fits {
        return refuse(13, 1);
    }
    Ok(Header { processes, variables, registers, values })
}

/// Judges row by row, where each row stands before its instruction. The rows of a process stand together, with labels
/// from 1 on.
fn read_rows(header: &Header, rows: &[Line]) -> Result<Vec<Vec<Instruction>>, Refusal> {
    let labels = count_labels(rows);
    let mut processes = Vec::with_capacity(header.processes);
    let mut line = 1;
    for (process, together) in (1..).zip(rows.chunk_by(|above, row| above[0] == row[0])) {
        let mut instructions = Vec::with_capacity(together.len());
        for (label, row) in (1..).zip(together) {
            line += 1;
            let [told_process, told_label, numbers @ ..] = row.map(usize::from);
            let stands = told_process == process && told_label == label;
            if !stands || process > header.processes || label > MOST_LABELS {
                return refuse(14, line);
            }
            let Some(instruction) = read_instruction(header, labels[process - 1], numbers) else {
                return refuse(15, line);
            };
            instructions.push(instruction);
        }
        processes.push(instructions);
    }
    Ok(processes)
}

/// How many rows each process has, those included that are out of place further down.
fn count_labels(rows: &[Line]) -> [usize; MOST_PROCESSES] {
    let mut labels = [0; MOST_PROCESSES];
    for &[process, ..] in rows {
        let process = usize::from(process);
        if (1..=MOST_PROCESSES).contains(&process) {
            labels[process - 1] += 1;
        }
    }
    labels
}

/// The instruction of a number and three operands, if all are in their ranges. An operand that it does not name is 0.
fn read_instruction(header: &Header, labels: usize, numbers: [usize; 4]) -> Option<Instruction> {
    let counted = |number: usize, most: usize| (1..=most).contains(&number).then_some(number);
    let register = |number| counted(number, header.registers).map(|counted| counted - 1);
    let variable = |number| counted(number, header.variables);
    let label = |number| counted(number, labels).map(|counted| counted - 1);
    let constant = |number: usize| (number < header.values).then_some(number as u8);
    Some(match numbers {
        [1, a, b, 0] => Instruction::Read { register: register(a)?, variable: variable(b)? },
        [2, a, b, 0] => Instruction::Write { variable: variable(a)?, register: register(b)? },
        [3, a, b, c] => Instruction::Cas { variable: variable(a)?, old: register(b)?, new: register(c)? },
        [4, a, b, 0] => Instruction::Set { register: register(a)?, constant: constant(b)? },
        [5, a, b, c] => Instruction::Add { register: register(a)?, left: register(b)?, right: register(c)? },
        [6, a, b, c] => Instruction::Jeq { left: register(a)?, right: register(b)?, label: label(c)? },
        [7, a, b, 0] => Instruction::Assume { left: register(a)?, right: register(b)? },
        [8, 0, 0, 0] => Instruction::Fence,
        [9, 0, 0, 0] => Instruction::Term,
        _ => return None,
    })
}

/// Each process ends with TERM, and none is missing.
fn judge_ends(header: &Header, processes: &[Vec<Instruction>]) -> Result<(), Refusal> {
    let mut line = 1;
    for process in processes {
        line += process.len();
        if !matches!(process.last(), Some(Instruction::Term)) {
            return refuse(16, line);
        }
    }
    if processes.len() < header.processes {
        return refuse(16, line);
    }
    Ok(())
}
