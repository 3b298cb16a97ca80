//! 73: buffers.

use super::inputs::{all_nine, idle, long_process, store_buffering};
use crate::input::{Batch, Input};
use crate::lines::{LONGEST_INPUT, SHORTEST_BUFFER};

/// 73, which comes before all else, and buffers that are just long enough.
pub fn add_buffers(batch: &mut Batch) {
    let found = long_process(&[0, 24, 0, 25, 0, 0, 0], 32);
    let inputs = [
        store_buffering(),
        found.clone(),
        store_buffering().cut_to(28),
        Input(Vec::new()),
        store_buffering().filled_to(LONGEST_INPUT + 1),
        store_buffering().with_number(0, 1, 2),
        all_nine().with_end(5, b' '),
        idle().with_number(0, 2, 25),
    ];
    for (index, input) in inputs.iter().enumerate() {
        batch.add_with_buffer(input, [0, 1, 24, 25, 250, 600, 623, 624][index]);
        batch.add_with_buffer(input, SHORTEST_BUFFER - 1);
        batch.add_with_buffer(input, SHORTEST_BUFFER);
        batch.add_with_buffer(input, SHORTEST_BUFFER + 1);
    }
    for buffer in [650, 1_000, 4_096, 100_000] {
        batch.add_with_buffer(&store_buffering(), buffer);
        batch.add_with_buffer(&found, buffer);
    }
}
