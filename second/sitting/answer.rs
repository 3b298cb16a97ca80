//! What a sitting writes: the report of a search, or the line of a refusal.

use crate::lines::{LONGEST_INPUT, QUESTION_LINE, line_of};
use crate::question::Question;
use crate::refusal::{Refusal, refuse};
use crate::search::{Search, Verdict};
use crate::table::Table;

/// The text that a sitting writes to the front of its buffer.
pub fn answer(input: &[u8]) -> String {
    match ask(input) {
        Ok(report) => report,
        Err(refusal) => line_of(&[0, 9, refusal.number, refusal.place, 0, 0]),
    }
}

/// Reads the question and the table, searches and reports.
fn ask(input: &[u8]) -> Result<String, Refusal> {
    if !(QUESTION_LINE..=LONGEST_INPUT).contains(&input.len()) {
        return refuse(71, 0);
    }
    let (line, text) = input.split_at(QUESTION_LINE);
    let Some(question) = Question::read(line) else {
        return refuse(72, 0);
    };
    let table = Table::read(text)?;
    question.judge(&table)?;
    let mut search = Search::new(&table, &question);
    Ok(match search.go() {
        Verdict::Found => report_run(&search),
        Verdict::None => line_of(&[0, 2, 0, 0, 0, 0]),
        Verdict::Open => line_of(&[0, 3, 0, 0, 0, 0]),
    })
}

/// The report of the run that the search has found.
fn report_run(search: &Search) -> String {
    let mut text = line_of(&[0, 1, search.run.len(), search.switches, 0, 0]);
    for (index, step) in search.run.iter().enumerate() {
        let (value, mark) = (usize::from(step.seen.value), usize::from(step.seen.switch));
        text += &line_of(&[index + 1, step.process, step.label, step.choice, value, mark]);
    }
    text
}
