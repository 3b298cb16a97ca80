//! Damaged inputs, one refusal's number after another, and beside them inputs that are just right.

mod buffers;
mod changes;
mod inputs;
mod lines;
mod questions;
mod tables;
mod together;

use crate::input::Batch;

pub fn add_damaged(batch: &mut Batch) {
    lines::add_lengths(batch);
    lines::add_question_lines(batch);
    lines::add_wrong_lines(batch);
    tables::add_headers(batch);
    tables::add_places(batch);
    tables::add_operands(batch);
    tables::add_ends(batch);
    questions::add_bounds(batch);
    questions::add_targets(batch);
    questions::add_largest(batch);
    buffers::add_buffers(batch);
    together::add_precedence(batch);
    changes::add_changes(batch);
}
