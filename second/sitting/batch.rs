//! Batches of cases.

use std::io::{self, Write};

use crate::answer::answer;
use crate::lines::SHORTEST_BUFFER;

struct Case<'a> {
    input: &'a [u8],
    buffer: usize,
}

/// The most digits of a number.
const MOST_DIGITS: usize = 9;

/// The number of a word of 1 to 9 digits.
fn decimal(word: &[u8]) -> Option<usize> {
    if word.len() > MOST_DIGITS || !word.iter().all(u8::is_ascii_digit) {
        return None;
    }
    std::str::from_utf8(word).ok()?.parse().ok()
}

/// Takes the first case off the batch.
fn next_case<'a>(batch: &mut &'a [u8]) -> Option<Case<'a>> {
    let end = batch.iter().position(|&byte| byte == b'\n')?;
    let (head, rest) = (&batch[..end], &batch[end + 1..]);
    let space = head.iter().position(|&byte| byte == b' ')?;
    let length = decimal(&head[..space])?;
    let buffer = decimal(&head[space + 1..])?;
    let (input, rest) = rest.split_at_checked(length)?;
    *batch = rest;
    Some(Case { input, buffer })
}

fn answer_case(case: &Case, out: &mut impl Write) -> io::Result<()> {
    if case.buffer < SHORTEST_BUFFER {
        writeln!(out, "refused 73")
    } else {
        let text = answer(case.input);
        write!(out, "{}\n{text}", text.len())
    }
}

/// Answers the cases, up to the first that cannot be read.
pub fn answer_batch(batch: &[u8], out: &mut impl Write) -> io::Result<()> {
    let mut rest = batch;
    let mut number = 1;
    while !rest.is_empty() {
        let Some(case) = next_case(&mut rest) else {
            return writeln!(
                out,
                "case {number} cannot be read: a case is a line of two numbers, the bytes of its input and of its \
                 buffer, and then its input"
            );
        };
        answer_case(&case, out)?;
        number += 1;
    }
    Ok(())
}
