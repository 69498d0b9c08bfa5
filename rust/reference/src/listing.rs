//! The text that the listing program prints.

use crate::read::Refusal;
use crate::run::{End, Outcome};
use crate::word::{kind, show, ANSWER};

pub fn listing(result: &Result<Outcome, Refusal>) -> String {
    let outcome = match result {
        Err(refusal) => return format!("refused {} at {}\n", refusal.number, refusal.place),
        Ok(outcome) => outcome,
    };
    let mut text = format!(
        "end {} round {} steps {} answers {} cut {}\n",
        end(outcome.end),
        outcome.round,
        outcome.steps,
        outcome.answers,
        outcome.cut
    );
    let mut rest = &outcome.words[..];
    while let Some((_, inside)) = rest.split_first() {
        let next = inside.iter().position(|&word| kind(word) == ANSWER);
        let (answer, later) = rest.split_at(next.map_or(rest.len(), |at| at + 1));
        text.push_str(&show(answer));
        text.push('\n');
        rest = later;
    }
    text
}

pub fn end(end: End) -> String {
    match end {
        End::Finished => "finished".to_string(),
        End::Rounds => "rounds".to_string(),
        End::Steps => "steps".to_string(),
        End::Output => "output".to_string(),
        End::Path(bound) => format!("path {bound}"),
    }
}
