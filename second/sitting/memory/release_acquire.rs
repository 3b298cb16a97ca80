//! Release-acquire memory: messages with timestamps and views.

use super::{Action, Memory, Seen, Timestamps, VARIABLES, each};
use crate::question::MOST_STEPS;
use crate::table::MOST_PROCESSES;

/// All timestamps from this one on.
fn at_least(timestamp: u8) -> Timestamps {
    !0 << timestamp
}

/// A timestamp for each variable.
type View = [u8; VARIABLES];

/// The message's own timestamp is its view's entry at its variable.
#[derive(Clone, Copy)]
struct Message {
    variable: u8,
    value: u8,
    view: View,
}

/// The first message of each variable, and one more for each step.
const MOST_MESSAGES: usize = VARIABLES + MOST_STEPS;

/// Timestamps go up to a ceiling.
#[derive(Clone, Copy)]
pub struct ReleaseAcquire {
    /// The timestamps up to the ceiling.
    allowed: Timestamps,
    views: [View; MOST_PROCESSES],
    /// The timestamps that messages of each variable have.
    taken: [Timestamps; VARIABLES],
    /// The messages in the order in which they were added; those from `count` on mean nothing.
    messages: [Message; MOST_MESSAGES],
    count: usize,
}

impl ReleaseAcquire {
    /// The message of a variable at a timestamp that is taken.
    fn message(&self, variable: usize, timestamp: u8) -> Message {
        let is_it =
            |message: &&Message| usize::from(message.variable) == variable && message.view[variable] == timestamp;
        let found = self.messages[..self.count].iter().find(is_it);
        *found.expect("a taken timestamp is that of a message")
    }

    /// The timestamps of a variable from a view's entry on that have the old value and a free place behind them.
    fn swappable(&self, process: usize, variable: usize, old: u8) -> Timestamps {
        let taken = self.taken[variable];
        let free_behind = (self.allowed & !taken) >> 1;
        let candidates = taken & free_behind & at_least(self.views[process][variable]);
        let fits = |&timestamp: &u8| self.message(variable, timestamp).value == old;
        each(candidates).filter(fits).fold(0, |swappable, timestamp| swappable | 1 << timestamp)
    }

    /// Joins the message's view to that of the process.
    fn read(&mut self, process: usize, variable: usize, timestamp: u8) -> Seen {
        let message = self.message(variable, timestamp);
        let view = &mut self.views[process];
        let before = *view;
        for (own, other) in view.iter_mut().zip(message.view) {
            *own = (*own).max(other);
        }
        Seen { value: message.value, switch: *view != before }
    }

    /// Enters the timestamp in the view of the process and adds a message with that view.
    fn add(&mut self, process: usize, variable: usize, value: u8, timestamp: u8) {
        let view = &mut self.views[process];
        view[variable] = timestamp;
        self.messages[self.count] = Message { variable: variable as u8, value, view: *view };
        self.count += 1;
        self.taken[variable] |= 1 << timestamp;
    }
}

impl Memory for ReleaseAcquire {
    fn start(ceiling: usize) -> Self {
        let mut messages = [Message { variable: 0, value: 0, view: [0; VARIABLES] }; MOST_MESSAGES];
        for (variable, message) in messages[..VARIABLES].iter_mut().enumerate() {
            message.variable = variable as u8;
        }
        ReleaseAcquire {
            allowed: !at_least(ceiling as u8 + 1),
            views: [[0; VARIABLES]; MOST_PROCESSES],
            taken: [1; VARIABLES],
            messages,
            count: VARIABLES,
        }
    }

    fn choices(&self, process: usize, action: Action) -> Timestamps {
        let view = &self.views[process];
        match action {
            Action::Local => 1,
            Action::Read { variable } => self.taken[variable] & at_least(view[variable]),
            Action::Write { variable, .. } => self.allowed & !self.taken[variable] & at_least(view[variable] + 1),
            Action::Swap { variable, old, .. } => self.swappable(process, variable, old),
        }
    }

    fn take(&mut self, process: usize, action: Action, timestamp: u8) -> Seen {
        match action {
            Action::Local => Seen { value: 0, switch: false },
            Action::Read { variable } => self.read(process, variable, timestamp),
            Action::Write { variable, value } => {
                self.add(process, variable, value, timestamp);
                Seen { value: 0, switch: false }
            }
            Action::Swap { variable, new, .. } => {
                let seen = self.read(process, variable, timestamp);
                self.add(process, variable, new, timestamp + 1);
                seen
            }
        }
    }
}
