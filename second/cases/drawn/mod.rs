//! Drawn programs: tables that are accepted, each drawn from a seed, with a question about it.

mod questions;

use crate::draws::Draws;
use crate::input::{Batch, Input};
use crate::program::Instruction::{self, *};
use crate::program::{Sizes, table_of};
use questions::DRAWN;

/// How often each instruction is drawn, by its number.
const MIX: &[usize] = &[1, 1, 1, 1, 1, 2, 2, 2, 2, 2, 3, 3, 3, 3, 4, 4, 4, 5, 5, 6, 6, 7, 7, 8, 8, 9];

pub fn add_drawn(batch: &mut Batch) {
    for (seed, question) in DRAWN {
        batch.add(&Input::new(question, &drawn_table(*seed)));
    }
}

fn drawn_table(seed: u64) -> String {
    let mut draws = Draws::new(seed);
    let processes = draws.within(1, 4);
    let sizes = Sizes { variables: draws.within(1, 4), registers: draws.within(1, 4), values: draws.within(2, 8) };
    let longest = [12, 9, 7, 6][processes - 1];
    let processes: Vec<Vec<Instruction>> =
        (0..processes).map(|_| drawn_process(&mut draws, sizes, longest)).collect();
    table_of(sizes, &processes)
}

fn drawn_process(draws: &mut Draws, sizes: Sizes, longest: usize) -> Vec<Instruction> {
    let labels = draws.within(2, longest);
    let mut instructions = Vec::new();
    while instructions.len() + 1 < labels {
        let next = drawn_instruction(draws, sizes, instructions.last(), labels);
        instructions.push(next);
    }
    instructions.push(Term);
    instructions
}

/// An instruction with operands in their ranges. So that what the memory shows decides where a process gets, many
/// begin with a constant other than 0 in register 1 and later compare what they have read with it.
fn drawn_instruction(draws: &mut Draws, sizes: Sizes, above: Option<&Instruction>, labels: usize) -> Instruction {
    let Sizes { registers, values, .. } = sizes;
    if above.is_none() && draws.below(4) > 0 {
        let highest = draws.of(&[1, 1, 2, values - 1]).min(values - 1);
        return Set(1, draws.within(1, highest));
    }
    if let Some(&Read(register, _)) = above
        && draws.below(2) == 0
    {
        return Assume(register, draws.of(&[1, 1, registers]));
    }
    any_instruction(draws, sizes, labels)
}

/// Operands of most kinds are drawn first, whichever the instruction takes.
fn any_instruction(draws: &mut Draws, sizes: Sizes, labels: usize) -> Instruction {
    let Sizes { variables, registers, values } = sizes;
    let lowest = draws.of(&[1, 2, 2, 2]).min(registers);
    let got = draws.within(lowest, registers);
    let first = draws.within(1, registers);
    let second = draws.within(1, registers);
    let variable = draws.within(1, variables);
    match draws.of(MIX) {
        1 => Read(got, variable),
        2 => Write(variable, first),
        3 => Cas(variable, first, second),
        4 => Set(got, draws.below(values)),
        5 => Add(got, first, second),
        6 => Jeq(first, second, draws.within(1, labels)),
        7 => Assume(first, second),
        8 => Fence,
        _ => Term,
    }
}
