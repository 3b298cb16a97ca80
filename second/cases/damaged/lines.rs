//! 71, 11, 72 and 12: lengths, question lines and the table's lines.

use super::inputs::{all_nine, message_passing, store_buffering};
use crate::input::{BLANK, Batch, Input};
use crate::lines::{LONGEST_INPUT, QUESTION_LINE, TABLE_LINE};

/// Fields that are no number, or are not written as one.
#[rustfmt::skip]
const WRONG_FIELDS: &[&[u8; 4]] = &[
    b"0000", b"  01", b"1   ", b" 1 2", b"  1 ", b"  -1", b"  +1", b"\t  1", b"  \t1", b"\t\t\t\t", b"   \t", b"   /",
    b"   :", b"   a", b" 1.0", b"0x01", b"\x00\x00\x001", b"   \0", b"\xff\xff\xff\xff", b"   \n", b"\n  1", b"  1\n",
    b"  00", b" 000", b"   ,", b"1 1 ",
];

/// Bytes that end no line.
const WRONG_ENDS: &[u8] = b" \r\x000\t\x0b\x8a";

/// 71 and 11: inputs and tables of wrong lengths, and those that are just long or short enough.
pub fn add_lengths(batch: &mut Batch) {
    let good = store_buffering();
    let wrong = good.with_number(0, 1, 2);
    for length in [0, 1, 28] {
        batch.add(&good.cut_to(length));
        batch.add(&wrong.cut_to(length));
    }
    for length in [LONGEST_INPUT + 1, LONGEST_INPUT + TABLE_LINE] {
        batch.add(&good.filled_to(length));
        batch.add(&wrong.filled_to(length));
    }
    for length in [QUESTION_LINE, LONGEST_INPUT] {
        let sized = if length < good.0.len() { good.cut_to(length) } else { good.filled_to(length) };
        batch.add(&sized);
        batch.add(&sized.with_number(0, 1, 2));
    }
    for length in [30, 53, 54, 55, 78, 79, 80, good.0.len() - 1, good.0.len() - TABLE_LINE] {
        batch.add(&good.cut_to(length));
    }
    for lines in [128, 129, 130] {
        batch.add(&good.filled_to(QUESTION_LINE + TABLE_LINE * lines));
    }
    batch.add(&good.filled_to(LONGEST_INPUT - 1));
    batch.add(&good.with_more(b"\n"));
    batch.add(&good.with_more(b" "));
    batch.add(&good.with_empty_line(0));
    batch.add(&good.with_end(0, b'\r').with_more(b"\n"));
}

/// 72: question lines.
pub fn add_question_lines(batch: &mut Batch) {
    let good = message_passing();
    for field in 1..=7 {
        batch.add(&good.with_field(0, field, BLANK));
    }
    for (index, wrong) in WRONG_FIELDS.iter().enumerate() {
        batch.add(&good.with_field(0, 3, wrong));
        batch.add(&good.with_field(0, 1 + index % 7, wrong));
    }
    for half_blank in [b"   \0", b"  2 ", b" 2  ", b"2   ", b"   -"] {
        batch.add(&good.with_field(0, 3, half_blank));
    }
    for &end in WRONG_ENDS {
        batch.add(&good.with_end(0, end));
    }
    for memory in [0, 1, 2, 3, 10, 9_999] {
        batch.add(&good.with_number(0, 1, memory));
    }
    batch.add(&good.without_line(0));
    // A question line of six fields.
    batch.add(&Input([&good.0[..TABLE_LINE - 1], b"\n", &good.0[QUESTION_LINE..]].concat()));
}

/// 12: fields and ends of the table's lines, at the first, in the middle and at the last.
pub fn add_wrong_lines(batch: &mut Batch) {
    let good = all_nine();
    let last = good.lines();
    for (index, wrong) in WRONG_FIELDS.iter().enumerate() {
        let line = [1, 2 + index % (last - 2), last][index % 3];
        batch.add(&good.with_field(line, 1 + index % 6, wrong));
    }
    for field in 1..=6 {
        batch.add(&good.with_field([1, 1 + field, last][field % 3], field, BLANK));
    }
    for (index, &end) in WRONG_ENDS.iter().enumerate() {
        for line in [1, 2 + index, last] {
            batch.add(&good.with_end(line, end));
        }
    }
    batch.add(&good.with_end(9, b' ').with_field(4, 6, BLANK));
    batch.add(&good.with_end(4, b' ').with_field(9, 1, BLANK));
    batch.add(&good.with_empty_line(1).cut_to(good.0.len()));
}
