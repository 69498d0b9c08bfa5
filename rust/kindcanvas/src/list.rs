//! A run's list for people: each answer with its conditions, then what the list means.

use kindcanvas::{Answer, Ending, Limits, Outcome, Program, Report, USABLE_WORDS};
use std::io::{self, Write};
use words::Names;

pub fn print(
    out: &mut impl Write,
    program: &Program,
    limits: Limits,
    outcome: &Outcome,
) -> io::Result<()> {
    for (at, answer) in outcome.answers().enumerate() {
        print_answer(out, at + 1, answer, program.names())?;
    }
    let report = outcome.report();
    if report.answers > 0 {
        writeln!(out)?;
    }
    if outcome.answers().any(has_variables) {
        writeln!(
            out,
            "_0, _1 and so on stand for any value that meets the conditions of their answer."
        )?;
    }
    let answers = counted(report.answers, "answer", "answers");
    let steps = counted(report.steps, "step", "steps");
    writeln!(out, "{answers} in {steps}.\n{}", meaning(limits, report))
}

fn counted(count: u32, one: &str, many: &str) -> String {
    let what = if count == 1 { one } else { many };
    format!("{count} {what}")
}

fn print_answer(
    out: &mut impl Write,
    number: usize,
    answer: Answer,
    names: &Names,
) -> io::Result<()> {
    let terms: Vec<String> = answer
        .terms()
        .map(|term| term.named(names).to_string())
        .collect();
    match &terms[..] {
        // The query has no parameters.
        [] => writeln!(out, "{number}. the query holds")?,
        terms => writeln!(out, "{number}. {}", terms.join(", "))?,
    }
    for constraint in answer.constraints() {
        writeln!(out, "     where {}", constraint.named(names))?;
    }
    Ok(())
}

fn has_variables(answer: Answer) -> bool {
    answer.words().iter().any(|word| word >> 28 == 0)
}

/// What the list means: it is complete, or why it may not be, what is known of it, and what to do.
fn meaning(limits: Limits, report: Report) -> String {
    let round = report.round;
    let (reason, advice) = match report.end {
        Ending::Finished if report.answers == 0 => {
            return "The list is complete: the rules give nothing.".to_string()
        }
        Ending::Finished => {
            return "The list is complete: it shows all that the rules give, and nothing else."
                .to_string()
        }
        Ending::Rounds => (
            format!("the round limit was used up with round {round}"),
            raise("--rounds", limits.rounds.into(), u8::MAX.into()),
        ),
        Ending::Steps => (
            format!("the step limit was used up in round {round}"),
            raise("--steps", limits.steps as usize, u32::MAX as usize),
        ),
        Ending::Output => (
            format!(
                "in round {round} an answer did not fit into what was left of {} words",
                limits.output_words
            ),
            raise("--output-words", limits.output_words, USABLE_WORDS),
        ),
        Ending::Path(bound) => (
            format!(
                "a path in round {round} needs more than {} {bound}",
                bound.most()
            ),
            "No option raises this bound; the rules must ask less of one path.".to_string(),
        ),
    };
    let known = match (report.completed(), report.answers) {
        (None, 0) => "No round was completed, so anything may be missing.".to_string(),
        (None, _) => {
            "Every answer is right, but no round was completed, so anything else may be missing."
                .to_string()
        }
        (Some(round), answers) => {
            let calls = counted(round, "call", "calls");
            let shown = match answers {
                0 => format!("The rules give nothing with at most {calls}"),
                _ => format!("Every answer is right, and all that the rules give with at most {calls} is shown"),
            };
            let branches = counted(report.cut, "branch", "branches");
            format!("{shown}; what takes more may be missing: round {round} left {branches} open.")
        }
    };
    format!("The list may be incomplete: {reason}.\n{known}\n{advice}")
}

fn raise(option: &str, limit: usize, most: usize) -> String {
    match limit < most {
        true => format!("To search further, raise {option}: it is {limit}, and may be {most}."),
        false => format!("{option} is {limit} and cannot be raised."),
    }
}
