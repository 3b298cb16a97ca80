//! Known programs: litmus tests, those of the examples among them, and programs for one rule each.

use super::Program;
use crate::program::Instruction::{self, *};
use crate::program::Sizes;

/// Both processes write one variable and then are to read 0 from the other.
pub const STORE_BUFFERING: Program = Program::Example(include_str!("../../../examples/store-buffering.table"));

/// The same with a fence behind each write.
pub const STORE_BUFFERING_FENCED: Program =
    Program::Example(include_str!("../../../examples/store-buffering-fenced.table"));

/// One process writes a message and then a flag; the other waits for the flag.
pub const MESSAGE_PASSING: Program = Program::Example(include_str!("../../../examples/message-passing.table"));

/// The other reads the message after the flag, and it is to be the old one.
pub const MESSAGE_PASSING_STALE: Program =
    Program::Example(include_str!("../../../examples/message-passing-stale.table"));

/// A reader is to see the new value and then the old one.
pub const COHERENCE: Program = Program::Example(include_str!("../../../examples/coherence.table"));

/// Both processes read what the other writes only afterwards.
pub const LOAD_BUFFERING: Program = Program::Example(include_str!("../../../examples/load-buffering.table"));

/// Two readers are to see two writes in opposite orders.
pub const IRIW: Program = Program::Example(include_str!("../../../examples/iriw.table"));

/// A list head that goes from one cell to another and back while a process is about to swap it.
pub const FREE_LIST: Program = Program::Example(include_str!("../../../examples/free-list.table"));

/// Two writers cross, and two readers are to see both orders.
pub const TWO_PLUS_TWO_WRITES: Program =
    Program::Example(include_str!("../../../examples/two-plus-two-writes.table"));

/// Both processes swap one variable from 0 to 1. Only one can.
pub const LOCK: Program = Program::Own(
    Sizes { variables: 1, registers: 3, values: 2 },
    &[&[Set(1, 1), Cas(1, 2, 1), Term], &[Set(1, 1), Cas(1, 2, 1), Term]],
);

/// One process swaps 0 to 1, the other 1 to 2, and a third reads.
pub const CHAIN: Program = Program::Own(
    Sizes { variables: 1, registers: 3, values: 3 },
    &[
        &[Set(1, 1), Cas(1, 2, 1), Term],
        &[Set(1, 1), Set(2, 2), Cas(1, 1, 2), Term],
        &[Read(1, 1), Assume(1, 2), Term],
    ],
);

/// A swap of the first message after a write, for which the write must leave the place behind it free.
pub const GAP: Program = Program::Own(
    Sizes { variables: 1, registers: 2, values: 2 },
    &[&[Set(1, 1), Write(1, 1), Term], &[Cas(1, 1, 2), Cas(1, 1, 2), Term]],
);

/// One process that swaps 0 to 0 in a row, up to the ceiling.
pub const SWAPS: Program = Program::Own(
    Sizes { variables: 1, registers: 1, values: 2 },
    &[&[Cas(1, 1, 1), Cas(1, 1, 1), Cas(1, 1, 1), Cas(1, 1, 1), Term]],
);

/// Fences alone, which join the views of all processes.
pub const FENCES: Program = Program::Own(
    Sizes { variables: 1, registers: 1, values: 2 },
    &[&[Fence, Fence, Term], &[Fence, Fence, Term], &[Fence, Fence, Term]],
);

/// A process that never leaves its label, and one that counts round modulo 3.
pub const LOOPS: Program = Program::Own(
    Sizes { variables: 1, registers: 2, values: 3 },
    &[&[Jeq(1, 1, 1), Term], &[Set(1, 1), Add(2, 2, 1), Jeq(2, 2, 2), Term]],
);

/// A process that leaves its loop once its sum is 0 again, modulo 8.
pub const COUNTER: Program = Program::Own(
    Sizes { variables: 1, registers: 3, values: 8 },
    &[&[Set(1, 3), Add(2, 2, 1), Jeq(2, 3, 5), Jeq(1, 1, 2), Assume(2, 3), Term]],
);

/// Two swaps of the same old value, each of which must take a message of its own.
pub const TWIN: Program = Program::Own(
    Sizes { variables: 2, registers: 3, values: 2 },
    &[
        &[Set(1, 1), Write(1, 1), Write(2, 1), Write(1, 1), Term],
        &[Set(1, 1), Cas(1, 1, 2), Read(3, 2), Assume(3, 1), Term],
        &[Set(1, 1), Cas(1, 1, 2), Read(3, 2), Assume(3, 2), Term],
    ],
);

/// Two processes that wait for each other in turn.
pub const PING_PONG: Program = Program::Own(
    Sizes { variables: 4, registers: 2, values: 2 },
    &[
        &[Set(1, 1), Write(1, 1), Read(2, 2), Assume(2, 1), Write(3, 1), Read(2, 4), Assume(2, 1), Term],
        &[Set(1, 1), Read(2, 1), Assume(2, 1), Write(2, 1), Read(2, 3), Assume(2, 1), Write(4, 1), Term],
    ],
);

/// Each process writes last where the other wrote first, so one write goes below a message that is there.
pub const CROSS: Program = Program::Own(
    Sizes { variables: 2, registers: 3, values: 2 },
    &[
        &[Set(1, 1), Write(1, 1), Write(2, 1), Read(2, 2), Assume(2, 3), Term],
        &[Write(2, 2), Write(1, 2), Read(1, 1), Jeq(1, 2, 4), Term],
    ],
);

/// A process that is to read the first of its two writes.
pub const OWN_WRITES: Program = Program::Own(
    Sizes { variables: 1, registers: 3, values: 2 },
    &[&[Set(1, 1), Write(1, 1), Write(1, 2), Read(3, 1), Assume(3, 1), Term]],
);

const FIVE_WRITES: &[Instruction] = &[Write(1, 1), Write(1, 1), Write(1, 1), Write(1, 1), Write(1, 1), Term];

/// Writes alone, to one variable. With a ceiling of 24 instead of the step bound its list would be longer than any
/// search.
pub const CROWD: Program = Program::Own(Sizes { variables: 1, registers: 1, values: 2 }, &[FIVE_WRITES; 4]);

/// TERM above the last row, jumped over.
pub const MIDDLE_TERM: Program = Program::Own(
    Sizes { variables: 1, registers: 2, values: 2 },
    &[&[Jeq(1, 2, 3), Term, Set(1, 1), Term], &[Term, Set(1, 1), Term]],
);

/// All nine instructions, with every limit of the header below the highest that a table can have.
pub const ALL_NINE: Program = Program::Own(
    Sizes { variables: 3, registers: 3, values: 5 },
    &[
        &[Set(1, 4), Write(1, 1), Read(2, 3), Add(3, 1, 2), Jeq(1, 2, 7), Fence, Term],
        &[Set(3, 1), Cas(2, 1, 3), Assume(1, 2), Write(3, 3), Term],
        &[Read(1, 1), Jeq(1, 2, 1), Cas(3, 2, 1), Term],
    ],
);

/// The smallest table.
pub const IDLE: Program = Program::Own(Sizes { variables: 1, registers: 1, values: 2 }, &[&[Term]]);
