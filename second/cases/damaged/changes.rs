//! Changes at random.

use crate::draws::Draws;
use crate::input::{Batch, Input};
use crate::known::programs::{ALL_NINE, CHAIN, GAP, LOCK, MESSAGE_PASSING};

const CHANGES: usize = 60;
const CHANGES_SEED: u64 = 1;

/// Good inputs with one byte or one field changed at random. The questions are so small that no changed bound
/// makes a long list.
pub fn add_changes(batch: &mut Batch) {
    let inputs = [
        MESSAGE_PASSING.asked(&[0, 6, 1, 0, 4, 0, 0]),
        MESSAGE_PASSING.asked(&[1, 6, 1, 0, 4, 0, 0]),
        LOCK.asked(&[1, 4, 1, 2, 3, 0, 0]),
        CHAIN.asked(&[1, 5, 1, 3, 4, 0, 0]),
        GAP.asked(&[1, 4, 1, 3, 3, 0, 0]),
        ALL_NINE.asked(&[0, 6, 2, 5, 4, 0, 0]),
    ];
    let mut draws = Draws::new(CHANGES_SEED);
    for turn in 0..CHANGES {
        let input = &inputs[turn % inputs.len()];
        batch.add(&changed_byte(&mut draws, input));
        batch.add(&changed_field(&mut draws, input));
    }
}

fn changed_byte(draws: &mut Draws, input: &Input) -> Input {
    let at = draws.below(input.0.len());
    let any = draws.below(256) as u8;
    let likely = draws.of(b"0123456789  \n");
    input.with_bytes(at, &[draws.of(&[any, likely, likely])])
}

fn changed_field(draws: &mut Draws, input: &Input) -> Input {
    let line = draws.below(input.lines() + 1);
    let field = draws.within(1, if line == 0 { 7 } else { 6 });
    input.with_number(line, field, draws.of(&[0, 1, 2, 3, 4, 5, 6, 7, 8, 9, 10, 24, 25, 32, 128]))
}
