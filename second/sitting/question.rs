//! The question line, and whether its question can be asked of a table.

use crate::lines::numbers_of;
use crate::refusal::{Refusal, refuse};
use crate::table::{MOST_PROCESSES, Table};

pub const MOST_STEPS: usize = 24;

/// The memory over which runs go.
#[derive(Clone, Copy)]
pub enum Kind {
    Sequential,
    ReleaseAcquire,
}

/// It asks for runs of at most so many steps and switches that bring each process to its target, a label counted from
/// 1, or 0 where any label will do.
pub struct Question {
    pub kind: Kind,
    pub steps: usize,
    pub switches: usize,
    pub targets: [usize; MOST_PROCESSES],
}

impl Question {
    /// Reads a question line. A blank switch bound, and no other blank, is a number: 2.
    pub fn read(line: &[u8]) -> Option<Question> {
        let mut line = line.to_vec();
        if &line[8..12] == b"    " {
            line[8..12].copy_from_slice(b"   2");
        }
        let [kind, steps, switches, targets @ ..] = numbers_of::<7>(&line)?.map(usize::from);
        let kind = match kind {
            0 => Kind::Sequential,
            1 => Kind::ReleaseAcquire,
            _ => return None,
        };
        Some(Question { kind, steps, switches, targets })
    }

    /// Whether the question can be asked of the table.
    pub fn judge(&self, table: &Table) -> Result<(), Refusal> {
        if self.steps > MOST_STEPS || self.switches > MOST_STEPS {
            return refuse(22, 0);
        }
        for (process, &target) in self.targets.iter().enumerate() {
            let labels = table.processes.get(process).map_or(0, Vec::len);
            if target > labels {
                return refuse(23, process + 1);
            }
        }
        Ok(())
    }
}
