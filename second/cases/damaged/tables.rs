//! 13 to 16: headers, rows' places, instructions and the ends of processes.

use super::inputs::{HIGHEST, LOWEST, all_nine, idle, idle_processes, largest, long_process};
use crate::input::Batch;
use crate::known::programs::MIDDLE_TERM;
use crate::lines::{QUESTION_LINE, TABLE_LINE, line_of};
use crate::program::Instruction::*;
use crate::program::row_of;

/// 13: the header's numbers, at and beyond their limits.
pub fn add_headers(batch: &mut Batch) {
    let below = [0, 0, 0, 1, 0, 1];
    let above = [5, 5, 5, 9, 129, 9_999];
    for good in [idle_processes(1, LOWEST), idle_processes(4, HIGHEST)] {
        batch.add(&good);
        for field in 1..=6 {
            for wrong in [below[field - 1], above[field - 1], 9_999] {
                batch.add(&good.with_number(1, field, wrong));
            }
        }
    }
    let good = all_nine();
    for rows in [15, 17, 128] {
        batch.add(&good.with_number(1, 5, rows));
    }
    batch.add(&good.with_number(1, 6, 1).with_number(1, 1, 0));
    batch.add(&good.without_line(good.lines()));
    batch.add(&good.with_more(line_of(&row_of(3, 5, Term)).as_bytes()));
    batch.add(&good.filled_to(QUESTION_LINE + TABLE_LINE * 129).with_number(1, 5, 128));
    // Numbers inside their limits, of which the lower ones leave some row outside its own.
    for (field, numbers) in [(1, [1, 2, 4]), (2, [1, 2, 4]), (3, [1, 2, 4]), (4, [2, 4, 8])] {
        for number in numbers {
            batch.add(&good.with_number(1, field, number));
        }
    }
}

/// 14: rows that do not follow those above. A line, a process and a label.
#[rustfmt::skip]
const WRONG_PLACES: &[[usize; 3]] = &[
    [2, 0, 1], [2, 2, 1], [2, 1, 0], [2, 1, 2], [2, 3, 1], [3, 1, 1], [3, 1, 3], [3, 2, 2], [3, 0, 2], [5, 1, 3],
    [5, 2, 1], [8, 1, 8], [9, 1, 8], [9, 1, 1], [9, 2, 2], [9, 2, 0], [9, 3, 1], [9, 4, 1], [10, 3, 1], [10, 1, 2],
    [13, 2, 6], [14, 2, 6], [14, 3, 2], [14, 4, 1], [14, 9_999, 1], [16, 2, 3], [17, 3, 5], [17, 3, 3], [17, 4, 1],
    [17, 3, 9_999], [17, 1, 4],
];

pub fn add_places(batch: &mut Batch) {
    let good = all_nine();
    for &[line, process, label] in WRONG_PLACES {
        batch.add(&good.with_number(line, 1, process).with_number(line, 2, label));
    }
    for labels in [31, 32, 33, 34] {
        batch.add(&long_process(&[1, 24, 0, 25, 0, 0, 0], labels));
    }
    let full = largest(&[0, 1, 0, 0, 0, 0, 0]);
    batch.add(&full.with_number(129, 2, 33));
    batch.add(&full.with_number(34, 1, 1).with_number(34, 2, 33));
    let four = idle_processes(4, LOWEST);
    batch.add(&four.with_number(1, 1, 3));
    batch.add(&four.with_row(5, &row_of(5, 1, Term)));
}

/// 15: instruction numbers and operands. A line of ALL_NINE, a field and a number.
#[rustfmt::skip]
const WRONG_OPERANDS: &[[usize; 3]] = &[
    [2, 4, 0], [2, 4, 4], [2, 5, 5], [2, 5, 9_999], [2, 6, 1],
    [3, 4, 0], [3, 4, 4], [3, 5, 0], [3, 5, 4], [3, 6, 1],
    [4, 4, 0], [4, 4, 4], [4, 5, 0], [4, 5, 4], [4, 6, 1],
    [5, 4, 0], [5, 4, 4], [5, 5, 0], [5, 5, 4], [5, 6, 0], [5, 6, 4],
    [6, 4, 0], [6, 4, 4], [6, 5, 0], [6, 5, 4], [6, 6, 0], [6, 6, 8], [6, 6, 9_999],
    [7, 4, 1], [7, 5, 1], [7, 6, 1], [7, 6, 9_999],
    [8, 4, 1], [8, 5, 1], [8, 6, 1],
    [10, 4, 0], [10, 4, 4], [10, 5, 0], [10, 5, 4], [10, 6, 0], [10, 6, 4],
    [11, 4, 0], [11, 4, 4], [11, 5, 0], [11, 5, 4], [11, 6, 1],
    [15, 6, 0], [15, 6, 5], [15, 6, 16],
    [2, 3, 0], [4, 3, 10], [9, 3, 9_999], [17, 3, 0], [17, 3, 10], [17, 4, 3], [13, 6, 4],
];

/// Numbers in the same fields that are still in their ranges.
#[rustfmt::skip]
const GOOD_OPERANDS: &[[usize; 3]] = &[
    [2, 4, 3], [2, 5, 0], [2, 5, 4], [3, 4, 3], [3, 5, 3], [4, 4, 3], [4, 5, 1], [5, 6, 3], [6, 6, 1], [6, 6, 5],
    [10, 4, 3], [10, 6, 3], [11, 5, 3], [15, 6, 4], [15, 6, 2],
];

pub fn add_operands(batch: &mut Batch) {
    let good = all_nine();
    for &[line, field, number] in WRONG_OPERANDS.iter().chain(GOOD_OPERANDS) {
        batch.add(&good.with_number(line, field, number));
    }
    // A row that is out of place further down counts as a label of its process all the same.
    let far = good.with_number(17, 1, 1);
    for label in [7, 8, 9] {
        batch.add(&far.with_number(6, 6, label));
    }
    let far = good.with_number(2, 1, 2);
    for label in [6, 7] {
        batch.add(&far.with_number(6, 6, label));
        batch.add(&good.with_number(5, 1, 3).with_number(6, 6, label));
    }
}

/// 16: processes without TERM at their end, and processes that are missing.
pub fn add_ends(batch: &mut Batch) {
    let good = all_nine();
    for line in [8, 13, 17] {
        for last in [Fence, Set(1, 1), Jeq(1, 1, 1)] {
            batch.add(&good.with_instruction(line, last));
        }
    }
    for lines in [[8, 13].as_slice(), &[13, 17], &[8, 13, 17]] {
        batch.add(&lines.iter().fold(good.clone(), |input, &line| input.with_instruction(line, Fence)));
    }
    batch.add(&good.with_number(1, 1, 4));
    batch.add(&good.with_instruction(17, Fence).with_number(1, 1, 4));
    batch.add(&good.with_instruction(8, Fence).with_number(1, 1, 4));
    for (processes, count) in [(2, 1), (3, 1), (4, 1), (4, 2), (4, 3)] {
        batch.add(&idle_processes(count, LOWEST).with_number(1, 1, processes));
    }
    let middle = MIDDLE_TERM.asked(&[0, 2, 0, 0, 0, 0, 0]);
    for line in [5, 8] {
        batch.add(&middle.with_instruction(line, Fence));
    }
    batch.add(&idle().with_instruction(2, Fence));
    let full = largest(&[0, 1, 0, 0, 0, 0, 0]);
    for line in [129, 33, 97] {
        batch.add(&full.with_instruction(line, Fence));
    }
}
