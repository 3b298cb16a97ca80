//! The program `walking` in plain Rust, to compare how fast release-acquire memory answers. Its memory is its own:
//! that of the second implementation, made for runs of 24 steps, takes at least a quarter longer on such walks.

#[derive(Clone, Copy)]
enum Action {
    Read { variable: usize },
    Write { variable: usize, value: u8 },
    Swap { variable: usize, old: u8, new: u8 },
}

type View = [u8; 5];

#[derive(Clone, Copy)]
struct Message {
    value: u8,
    view: View,
}

const CEILING: usize = 24;

/// After so many turns the memory starts again, since it fills up.
const LENGTH: u32 = 60;

const FIRST: Message = Message { value: 0, view: [0; 5] };

/// The messages by variable and timestamp, and the view of each process.
struct Memory {
    messages: [[Option<Message>; CEILING + 1]; 5],
    views: [View; 5],
}

impl Memory {
    fn new() -> Memory {
        let mut row = [None; CEILING + 1];
        row[0] = Some(FIRST);
        Memory { messages: [row; 5], views: [[0; 5]; 5] }
    }

    fn admits(&self, process: usize, action: Action, at: usize) -> bool {
        match action {
            Action::Read { variable } => {
                at >= usize::from(self.views[process][variable]) && self.messages[variable][at].is_some()
            }
            Action::Write { variable, .. } => {
                at > usize::from(self.views[process][variable]) && self.messages[variable][at].is_none()
            }
            Action::Swap { variable, old, .. } => {
                at < CEILING
                    && at >= usize::from(self.views[process][variable])
                    && self.messages[variable][at].is_some_and(|message| message.value == old)
                    && self.messages[variable][at + 1].is_none()
            }
        }
    }

    fn offers(&self, process: usize, action: Action) -> usize {
        (0..=CEILING).filter(|at| self.admits(process, action, *at)).count()
    }

    /// What the process sees in a message, and its view then.
    fn reading(&self, process: usize, message: Message) -> (u8, bool, View) {
        let mut view = self.views[process];
        let mut switch = false;
        for (mine, other) in view.iter_mut().zip(message.view) {
            if *mine < other {
                *mine = other;
                switch = true;
            }
        }
        (message.value, switch, view)
    }

    fn post(&mut self, process: usize, variable: usize, at: usize, value: u8, mut view: View) {
        view[variable] = at as u8;
        self.views[process] = view;
        self.messages[variable][at] = Some(Message { value, view });
    }

    /// The value and the mark of a choice, or how many are offered.
    fn take(&mut self, process: usize, action: Action, choice: usize) -> Result<(u8, bool), usize> {
        let mut passed = 0;
        for at in 0..=CEILING {
            if self.admits(process, action, at) {
                if passed == choice {
                    return Ok(self.perform(process, action, at));
                }
                passed += 1;
            }
        }
        Err(passed)
    }

    fn perform(&mut self, process: usize, action: Action, at: usize) -> (u8, bool) {
        match action {
            Action::Read { variable } => {
                let message = self.messages[variable][at].unwrap_or(FIRST);
                let (value, switch, view) = self.reading(process, message);
                self.views[process] = view;
                (value, switch)
            }
            Action::Write { variable, value } => {
                self.post(process, variable, at, value, self.views[process]);
                (0, false)
            }
            Action::Swap { variable, new, .. } => {
                let message = self.messages[variable][at].unwrap_or(FIRST);
                let (value, switch, view) = self.reading(process, message);
                self.post(process, variable, at + 1, new, view);
                (value, switch)
            }
        }
    }
}

fn bit(seed: u32, place: u32) -> u8 {
    (seed >> place & 1) as u8
}

fn quarter(seed: u32, low: u32) -> usize {
    1 + usize::from(bit(seed, low) + 2 * bit(seed, low + 1))
}

fn action(kind: u32, seed: u32) -> Action {
    let variable = quarter(seed, 12);
    let value = bit(seed, 20);
    match kind % 3 {
        0 => Action::Read { variable },
        1 => Action::Write { variable, value },
        _ => Action::Swap { variable, old: value, new: bit(seed, 22) },
    }
}

#[derive(Default)]
struct Tally {
    offered: u32,
    taken: u32,
    refused: u32,
    values: u32,
    switches: u32,
}

fn walk(turns: u32, asks: bool) -> Tally {
    let mut tally = Tally::default();
    let mut memory = Memory::new();
    let mut seed: u32 = 1;
    for turn in 0..turns {
        if turn % LENGTH == 0 {
            memory = Memory::new();
        }
        seed = seed.wrapping_mul(1664525).wrapping_add(1013904223);
        let process = quarter(seed, 8);
        if asks {
            for kind in 0..3 {
                let offered = memory.offers(process, action(kind, seed));
                tally.offered = tally.offered.wrapping_add(offered as u32);
            }
        }
        match memory.take(process, action(turn, seed), usize::from(bit(seed, 16))) {
            Ok((value, switch)) => {
                tally.taken += 1;
                tally.values = tally.values.wrapping_add(u32::from(value));
                tally.switches += u32::from(switch);
            }
            Err(_) => tally.refused += 1,
        }
    }
    tally
}

fn main() {
    let mut args = std::env::args().skip(1);
    let turns = args.next().and_then(|word| word.parse().ok()).unwrap_or(1000);
    let Tally { offered, taken, refused, values, switches } = walk(turns, args.next().is_some());
    println!(
        "{turns} turns: {taken} taken, {refused} refused; {offered} offered; values {values}, {switches} switches"
    );
}
