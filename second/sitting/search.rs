//! The search along the list of runs.

use std::ops::ControlFlow::{self, Break, Continue};

use crate::memory::{Memory, ReleaseAcquire, Seen, Sequential, each};
use crate::question::{Kind, Question};
use crate::table::Table;
use crate::world::World;

/// A search that has looked at so many runs in vain stays open.
const MOST_RUNS: u64 = 1_000 * 1_000_000;

/// A step of a run as the report tells it, with process and label counted from 1.
pub struct Step {
    pub process: usize,
    pub label: usize,
    pub choice: usize,
    pub seen: Seen,
}

pub enum Verdict {
    Found,
    None,
    Open,
}

/// How many runs were looked at so far, and the steps and switches of the one that is looked at.
pub struct Search<'a> {
    table: &'a Table,
    question: &'a Question,
    pub looked: u64,
    pub run: Vec<Step>,
    pub switches: usize,
}

impl<'a> Search<'a> {
    pub fn new(table: &'a Table, question: &'a Question) -> Self {
        Search { table, question, looked: 0, run: Vec::new(), switches: 0 }
    }

    /// Goes along the list from its first run, the one of no steps.
    pub fn go(&mut self) -> Verdict {
        // The ceiling for timestamps: a run of so many steps needs no higher ones.
        let ceiling = self.question.steps;
        let looked = match self.question.kind {
            Kind::Sequential => self.look(&World::<Sequential>::start(ceiling)),
            Kind::ReleaseAcquire => self.look(&World::<ReleaseAcquire>::start(ceiling)),
        };
        match looked {
            Break(verdict) => verdict,
            Continue(()) => Verdict::None,
        }
    }

    /// Looks at the run that led to this world, and then at those that it begins, by process and by choice.
    fn look<M: Memory>(&mut self, world: &World<M>) -> ControlFlow<Verdict> {
        if self.looked == MOST_RUNS {
            return Break(Verdict::Open);
        }
        self.looked += 1;
        if world.reaches(&self.question.targets) {
            return Break(Verdict::Found);
        }
        if self.run.len() < self.question.steps {
            for process in 0..self.table.processes.len() {
                self.look_at_moves(world, process)?;
            }
        }
        Continue(())
    }

    /// Looks at the runs that go on with a move of this process.
    fn look_at_moves<M: Memory>(&mut self, world: &World<M>, process: usize) -> ControlFlow<Verdict> {
        let place = &world.places[process];
        let instruction = self.table.processes[process][place.label];
        let Some(action) = place.action(instruction) else {
            return Continue(());
        };
        let choices = world.memory.choices(process, action);
        for (choice, timestamp) in each(choices).enumerate() {
            let mut next = *world;
            let seen = next.memory.take(process, action, timestamp);
            next.places[process].advance(instruction, seen.value, self.table.values);
            let step = Step { process: process + 1, label: place.label + 1, choice, seen };
            self.look_behind(step, &next)?;
        }
        Continue(())
    }

    /// Looks at the runs that go on with this step, unless it is a switch too many. A run that is found, or at
    /// which the search stops, remains.
    fn look_behind<M: Memory>(&mut self, step: Step, next: &World<M>) -> ControlFlow<Verdict> {
        let switch = usize::from(step.seen.switch);
        if self.switches + switch <= self.question.switches {
            self.switches += switch;
            self.run.push(step);
            self.look(next)?;
            self.run.pop();
            self.switches -= switch;
        }
        Continue(())
    }
}
