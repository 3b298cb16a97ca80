//! 22 and 23: questions that cannot be asked of their table, and those of the largest table.

use super::inputs::{idle, largest, long_process};
use crate::input::{BLANK, Batch};
use crate::known::programs::ALL_NINE;

/// 22: step and switch bounds at and beyond their limit.
pub fn add_bounds(batch: &mut Batch) {
    let small = idle();
    for (steps, switches) in [(24, 24), (25, 0), (0, 25), (25, 25), (24, 25), (25, 24), (9_999, 0), (0, 9_999)] {
        batch.add(&small.with_number(0, 2, steps).with_number(0, 3, switches));
    }
    batch.add(&small.with_number(0, 2, 25).with_field(0, 3, BLANK));
}

/// 23: targets at and beyond the labels of their processes.
pub fn add_targets(batch: &mut Batch) {
    for target in [2, 25, 9_999] {
        batch.add(&idle().with_number(0, 4, target));
    }
    for [first, second, third, fourth] in [
        [8, 0, 0, 0],
        [0, 6, 0, 0],
        [0, 0, 5, 0],
        [0, 0, 0, 1],
        [7, 5, 4, 1],
        [8, 6, 5, 1],
        [7, 6, 5, 0],
        [7, 5, 5, 1],
        [9_999, 0, 0, 0],
        [0, 9_999, 0, 0],
        [0, 0, 9_999, 0],
        [0, 0, 0, 9_999],
        [7, 0, 0, 0],
        [0, 0, 4, 0],
    ] {
        batch.add(&ALL_NINE.asked(&[0, 4, 1, first, second, third, fourth]));
    }
    let most = largest(&[1, 1, 0, 32, 32, 32, 32]);
    batch.add(&most);
    for process in 1..=4 {
        batch.add(&most.with_number(0, 3 + process, 33));
    }
}

/// The largest table, with runs of 24 steps that fill the whole buffer.
pub fn add_largest(batch: &mut Batch) {
    for question in [
        [0, 24, 24, 25, 0, 0, 0],
        [1, 24, 0, 7, 0, 0, 0],
        [1, 3, 3, 2, 2, 2, 0],
        [0, 3, 1, 0, 0, 3, 2],
        [1, 4, 1, 0, 4, 0, 0],
        [1, 2, 2, 0, 0, 0, 3],
        [0, 4, 4, 32, 0, 0, 0],
    ] {
        batch.add(&largest(&question));
    }
    for (memory, target) in [(0, 25), (1, 25), (0, 26), (1, 26)] {
        batch.add(&long_process(&[memory, 24, 0, target, 0, 0, 0], 32));
    }
}
