//! Sequential memory: one value for each variable.

use super::{Action, Memory, Seen, Timestamps, VARIABLES};

/// Its only timestamp is 0.
#[derive(Clone, Copy)]
pub struct Sequential {
    values: [u8; VARIABLES],
    /// The process of the step before.
    last: Option<usize>,
}

impl Memory for Sequential {
    fn start(_ceiling: usize) -> Self {
        Sequential { values: [0; VARIABLES], last: None }
    }

    fn choices(&self, _process: usize, action: Action) -> Timestamps {
        match action {
            Action::Swap { variable, old, .. } => Timestamps::from(self.values[variable] == old),
            _ => 1,
        }
    }

    fn take(&mut self, process: usize, action: Action, _timestamp: u8) -> Seen {
        let value = match action {
            Action::Local => 0,
            Action::Read { variable } => self.values[variable],
            Action::Write { variable, value } => {
                self.values[variable] = value;
                0
            }
            Action::Swap { variable, new, .. } => std::mem::replace(&mut self.values[variable], new),
        };
        let switch = self.last.is_some_and(|last| last != process);
        self.last = Some(process);
        Seen { value, switch }
    }
}
