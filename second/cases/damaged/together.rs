//! Several faults in one input, of which one is told.

use super::inputs::all_nine;
use crate::input::{BLANK, Batch, Input};
use crate::lines::LONGEST_INPUT;
use crate::program::Instruction::Fence;

/// Faults that can be put into ALL_NINE, in the order in which they are told; but places and operands go by their
/// lines.
#[derive(Clone, Copy)]
enum Fault {
    Length,
    Memory,
    Cut,
    Blank,
    Header,
    Place(usize),
    Operand(usize),
    End,
    Missing,
    Steps,
    Target,
}

use Fault::*;

fn with_fault(input: &Input, fault: Fault) -> Input {
    match fault {
        Length => input.filled_to(LONGEST_INPUT + 1),
        Memory => input.with_number(0, 1, 2),
        Cut => input.cut_to(input.0.len() - 1),
        Blank => input.with_field(17, 6, BLANK),
        Header => input.with_number(1, 4, 9),
        Place(line) => input.with_number(line, 2, 31),
        Operand(line) => input.with_number(line, 4, 7),
        End => input.with_instruction(8, Fence),
        Missing => input.with_number(1, 1, 4),
        Steps => input.with_number(0, 2, 25),
        Target => input.with_number(0, 4, 8),
    }
}

/// Faults that stand in one input together, of which one is told.
const TOGETHER: &[&[Fault]] = &[
    &[Steps, Target],
    &[End, Steps],
    &[End, Target],
    &[End, Missing],
    &[Missing, Steps],
    &[Missing, Target],
    &[Operand(16), Target],
    &[Operand(16), Missing],
    &[Operand(17), End],
    &[Operand(6), Operand(11)],
    &[Place(16), Steps],
    &[Place(16), Missing],
    &[Place(17), End],
    &[Place(12), Place(15)],
    &[Place(4), Operand(4)],
    &[Place(3), Operand(5)],
    &[Place(5), Operand(3)],
    &[Header, Steps],
    &[Header, End],
    &[Header, Place(2)],
    &[Blank, Target],
    &[Blank, Header],
    &[Blank, Place(2)],
    &[Blank, Operand(2)],
    &[Blank, Cut],
    &[Cut, Steps],
    &[Cut, Header],
    &[Memory, Steps, Target],
    &[Memory, Blank],
    &[Memory, Cut],
    &[Length, Memory],
    &[Length, Blank],
    &[Place(9), Operand(5), End, Steps, Target],
    &[Header, Place(9), Operand(5), End, Steps, Target],
    &[Blank, Header, Place(9), Operand(5), End, Steps, Target],
    &[Memory, Blank, Header, Place(9), Operand(5), End, Steps, Target],
    &[Blank, Header, Place(9), Operand(5), End, Steps, Target, Cut],
    &[Blank, Header, Place(9), Operand(5), End, Steps, Target, Memory, Cut],
    &[Blank, Header, Place(9), Operand(5), End, Steps, Target, Memory, Length],
];

pub fn add_precedence(batch: &mut Batch) {
    for faults in TOGETHER {
        let input = faults.iter().fold(all_nine(), |input, &fault| with_fault(&input, fault));
        batch.add(&input);
    }
}
