//! Lines of fields: reading them and writing them.

/// The bytes of a field.
const FIELD: usize = 4;
/// Seven fields and a byte 10.
pub const QUESTION_LINE: usize = 29;
/// Six fields and a byte 10.
pub const TABLE_LINE: usize = 25;
pub const LONGEST_INPUT: usize = 4_000;
/// Room for the longest report, of 24 steps.
pub const SHORTEST_BUFFER: usize = 25 * TABLE_LINE;

/// The number of a field: spaces, then digits that start with 0 only where 0 is all.
fn number_of(field: &[u8]) -> Option<u16> {
    let digit = |byte: u8| u16::from(byte - b'0');
    match *field {
        [b' ', b' ', b' ', d @ b'0'..=b'9'] => Some(digit(d)),
        [b' ', b' ', c @ b'1'..=b'9', d @ b'0'..=b'9'] => Some(10 * digit(c) + digit(d)),
        [b' ', b @ b'1'..=b'9', c @ b'0'..=b'9', d @ b'0'..=b'9'] => Some(100 * digit(b) + 10 * digit(c) + digit(d)),
        [a @ b'1'..=b'9', b @ b'0'..=b'9', c @ b'0'..=b'9', d @ b'0'..=b'9'] => {
            Some(1000 * digit(a) + 100 * digit(b) + 10 * digit(c) + digit(d))
        }
        _ => None,
    }
}

/// The numbers of a line of N fields, which ends with a byte 10.
pub fn numbers_of<const N: usize>(line: &[u8]) -> Option<[u16; N]> {
    if line.len() != FIELD * N + 1 || line[FIELD * N] != b'\n' {
        return None;
    }
    let mut numbers = [0; N];
    for (number, field) in numbers.iter_mut().zip(line.chunks_exact(FIELD)) {
        *number = number_of(field)?;
    }
    Some(numbers)
}

/// The line of these numbers.
pub fn line_of(numbers: &[usize]) -> String {
    let fields: String = numbers.iter().map(|number| format!("{number:4}")).collect();
    fields + "\n"
}
