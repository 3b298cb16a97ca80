//! Memories: what a process asks of one, and what it answers.

mod release_acquire;
mod sequential;

pub use release_acquire::ReleaseAcquire;
pub use sequential::Sequential;

use crate::table::MOST_VARIABLES;

/// Variables 1 to 4 are the table's. Variable 0 is the one that fences swap.
const VARIABLES: usize = 1 + MOST_VARIABLES;

#[derive(Clone, Copy)]
pub enum Action {
    Local,
    Read { variable: usize },
    Write { variable: usize, value: u8 },
    Swap { variable: usize, old: u8, new: u8 },
}

/// A fence takes its place after the last fence by a swap of the variable that no table names.
pub const FENCE: Action = Action::Swap { variable: 0, old: 0, new: 0 };

/// A set of timestamps from 0 to 24, one bit for each.
pub type Timestamps = u32;

/// The timestamps of a set, from the lowest.
pub fn each(mut left: Timestamps) -> impl Iterator<Item = u8> {
    std::iter::from_fn(move || {
        let lowest = left.trailing_zeros() as u8;
        (left != 0).then(|| {
            left &= left - 1;
            lowest
        })
    })
}

/// What a step shows its process, and whether the memory marks it as a switch.
#[derive(Clone, Copy)]
pub struct Seen {
    pub value: u8,
    pub switch: bool,
}

/// A configuration of a memory. It is small, so that a step can be done on a copy.
pub trait Memory: Copy {
    fn start(ceiling: usize) -> Self;

    /// The choices of a process for an action, each by a timestamp; they are counted from the lowest.
    fn choices(&self, process: usize, action: Action) -> Timestamps;

    /// Takes one of the choices.
    fn take(&mut self, process: usize, action: Action, timestamp: u8) -> Seen;
}
