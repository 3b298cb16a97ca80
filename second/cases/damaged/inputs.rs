//! The inputs that are damaged.

use crate::input::{Input, Question};
use crate::known::programs::{ALL_NINE, IDLE, MESSAGE_PASSING, STORE_BUFFERING};
use crate::program::Instruction::{self, *};
use crate::program::{Sizes, table_of};

pub const LOWEST: Sizes = Sizes { variables: 1, registers: 1, values: 2 };
pub const HIGHEST: Sizes = Sizes { variables: 4, registers: 4, values: 8 };

pub fn store_buffering() -> Input {
    STORE_BUFFERING.asked(&[1, 8, 0, 5, 5, 0, 0])
}

pub fn message_passing() -> Input {
    MESSAGE_PASSING.asked(&[1, 6, 1, 0, 4, 0, 0])
}

pub fn all_nine() -> Input {
    ALL_NINE.asked(&[0, 6, 2, 5, 4, 0, 0])
}

pub fn idle() -> Input {
    IDLE.asked(&[0, 1, 0, 1, 0, 0, 0])
}

/// Every number of the table as high as it can be: 129 lines, of which four processes have 32 labels each.
pub fn largest(question: &Question) -> Input {
    let instruction = |process: usize, label: usize| match label % 8 {
        _ if label == 32 => Term,
        1 => Set(4, 1),
        2 => Write(process, 4),
        3 => Read(3, process % 4 + 1),
        4 => Add(2, 3, 4),
        5 => Cas(process, 4, 2),
        6 => Jeq(1, 4, 32),
        7 => Assume(1, 1),
        _ => Fence,
    };
    let process = |process| (1..=32).map(|label| instruction(process, label)).collect();
    let processes: Vec<Vec<Instruction>> = (1..=4).map(process).collect();
    Input::new(question, &table_of(HIGHEST, &processes))
}

/// A table of one process with so many labels, all but the last JEQ that lead to the next one.
pub fn long_process(question: &Question, labels: usize) -> Input {
    let mut process: Vec<Instruction> = (2..=labels).map(|next| Jeq(1, 1, next)).collect();
    process.push(Term);
    Input::new(question, &table_of(LOWEST, &[process]))
}

/// So many processes that have TERM alone.
pub fn idle_processes(count: usize, sizes: Sizes) -> Input {
    Input::new(&[1, 2, 2, 0, 0, 0, 0], &table_of(sizes, &vec![[Term]; count]))
}
