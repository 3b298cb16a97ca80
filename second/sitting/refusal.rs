//! What is wrong with an input.

/// The number of what is wrong, and where: a line of the table, a process, or 0.
pub struct Refusal {
    pub number: usize,
    pub place: usize,
}

pub fn refuse<T>(number: usize, place: usize) -> Result<T, Refusal> {
    Err(Refusal { number, place })
}
