//! Worlds: where the processes stand, and the memory that they share.

use crate::memory::{Action, FENCE, Memory};
use crate::table::{Instruction, MOST_PROCESSES, MOST_REGISTERS};

/// Where a process stands: its label, counted from 0, and its registers.
#[derive(Clone, Copy)]
pub struct Place {
    pub label: usize,
    registers: [u8; MOST_REGISTERS],
}

impl Place {
    /// What the instruction at this place asks of the memory, if the process has a move at all.
    pub fn action(&self, instruction: Instruction) -> Option<Action> {
        let value = |register: usize| self.registers[register];
        match instruction {
            Instruction::Read { variable, .. } => Some(Action::Read { variable }),
            Instruction::Write { variable, register } => Some(Action::Write { variable, value: value(register) }),
            Instruction::Cas { variable, old, new } => {
                Some(Action::Swap { variable, old: value(old), new: value(new) })
            }
            Instruction::Set { .. } | Instruction::Add { .. } | Instruction::Jeq { .. } => Some(Action::Local),
            Instruction::Assume { left, right } => (value(left) == value(right)).then_some(Action::Local),
            Instruction::Fence => Some(FENCE),
            Instruction::Term => None,
        }
    }

    /// Goes where the instruction leads after the memory has shown a value.
    pub fn advance(&mut self, instruction: Instruction, seen: u8, values: u8) {
        let mut next = self.label + 1;
        match instruction {
            Instruction::Read { register, .. } => self.registers[register] = seen,
            Instruction::Set { register, constant } => self.registers[register] = constant,
            Instruction::Add { register, left, right } => {
                self.registers[register] = (self.registers[left] + self.registers[right]) % values;
            }
            Instruction::Jeq { left, right, label } if self.registers[left] == self.registers[right] => next = label,
            _ => (),
        }
        self.label = next;
    }
}

/// Where a run has led: the places of the processes and the configuration of the memory.
#[derive(Clone, Copy)]
pub struct World<M> {
    pub places: [Place; MOST_PROCESSES],
    pub memory: M,
}

impl<M: Memory> World<M> {
    pub fn start(ceiling: usize) -> Self {
        let place = Place { label: 0, registers: [0; MOST_REGISTERS] };
        World { places: [place; MOST_PROCESSES], memory: M::start(ceiling) }
    }

    pub fn reaches(&self, targets: &[usize; MOST_PROCESSES]) -> bool {
        let stands = |(place, &target): (&Place, &usize)| target == 0 || place.label + 1 == target;
        self.places.iter().zip(targets).all(stands)
    }
}
