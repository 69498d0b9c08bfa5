//! Tables of programs and pages in text: `k:p` words, `k:p*N` and `(...)*N` for repetition, `deep*N` for pairs nested in first
//! parts, `nest*N` for their pair words alone, `#` for comments.
//! For files of this repository only, so a fault in one is a panic.

use crate::cases::Case;
use crate::gen::deep_term;
use crate::listing::end;
use crate::pages::PageCase;
use crate::read::Refusal;
use crate::run::Outcome;
use crate::word::{show, word};
use std::ops::Range;

/// A line of the table of refusals.
pub struct Row {
    pub line: usize,
    pub words: Vec<u32>,
    pub expected: Result<(), Refusal>,
}

/// The table of refusals, worked out by hand.
pub fn refusals() -> Vec<Row> {
    let rows = rows(include_str!("../tests/refusals.txt"));
    rows.map(|(line, text)| row(line, text)).collect()
}

/// A line of the table of pages.
pub struct Page {
    pub line: usize,
    pub case: PageCase,
    pub expected: Result<Range<usize>, Refusal>,
}

/// The table of pages, worked out by hand.
pub fn pages() -> Vec<Page> {
    let rows = rows(include_str!("../tests/pages.txt"));
    rows.map(|(line, text)| page(line, text)).collect()
}

/// A program on which a reading of docs/DECISIONS.md shows, and what it says of the run.
pub struct Decision {
    pub number: u32,
    pub case: Case,
    /// What is said, `end`, `round`, `steps`, `words` or `cut`, with the value.
    pub expected: Vec<(String, String)>,
}

impl Decision {
    /// The value of what is said, in an outcome.
    pub fn found(&self, what: &str, outcome: &Outcome) -> String {
        match what {
            "end" => end(outcome.end),
            "round" => outcome.round.to_string(),
            "steps" => outcome.steps.to_string(),
            "words" => show(&outcome.words),
            "cut" => outcome.cut.to_string(),
            _ => panic!("reading {}: {what}", self.number),
        }
    }
}

/// The readings' programs, worked out by hand.
pub fn decisions() -> Vec<Decision> {
    let rows = limited_rows(include_str!("../tests/decisions.txt"));
    rows.map(|(label, case, outcome)| Decision {
        number: number(label),
        case,
        expected: items(outcome),
    })
    .collect()
}

/// A run, and what the listing program prints of it.
pub struct Run {
    pub label: String,
    pub case: Case,
    pub expected: String,
}

/// The runs of document 01 and each end, worked out by hand.
pub fn runs() -> Vec<Run> {
    let rows = limited_rows(include_str!("../tests/runs.txt"));
    rows.map(|(label, case, text)| Run {
        label: label.to_string(),
        case,
        expected: text.replace(" | ", "\n") + "\n",
    })
    .collect()
}

/// The rows with the numbers of their lines.
fn rows(table: &str) -> impl Iterator<Item = (usize, &str)> {
    let rows = table.lines().map(without_comment).enumerate();
    rows.map(|(at, text)| (at + 1, text))
        .filter(|(_, text)| !text.is_empty())
}

/// Rows `label: words ; limits => outcome`.
fn limited_rows(table: &str) -> impl Iterator<Item = (&str, Case, &str)> {
    rows(table).map(|(_, text)| {
        let (label, rest) = text.split_once(": ").expect("a line without a label");
        let (program, outcome) = rest.split_once("=>").expect("a line without =>");
        let (program, limits) = program.split_once(';').unwrap_or((program, ""));
        (label, limited(program, limits), outcome.trim())
    })
}

/// The program with these limits; without them, with those of the listing program.
fn limited(program: &str, limits: &str) -> Case {
    let mut case = Case::new("table", words(program));
    for (what, value) in items(limits) {
        match &what[..] {
            "rounds" => case.rounds = number(&value),
            "steps" => case.steps = number(&value),
            "output" => case.output = number(&value) as usize,
            _ => panic!("no limit: {what}"),
        }
    }
    case
}

/// `what value, what value`
fn items(text: &str) -> Vec<(String, String)> {
    let items = text
        .split(',')
        .map(str::trim)
        .filter(|item| !item.is_empty());
    items
        .map(|item| item.split_once(' ').unwrap_or((item, "")))
        .map(|(what, value)| (what.to_string(), value.to_string()))
        .collect()
}

/// The words of a text of several lines.
pub fn words(text: &str) -> Vec<u32> {
    let lines: Vec<&str> = text.lines().map(without_comment).collect();
    // The innermost open group is the last.
    let mut groups: Vec<Vec<u32>> = vec![Vec::new()];
    for token in lines.join(" ").replace('(', " ( ").split_whitespace() {
        if token == "(" {
            groups.push(Vec::new());
            continue;
        }
        let (item, count) = match token.split_once('*') {
            Some((item, count)) => (item, number(count) as usize),
            None => (token, 1),
        };
        let closes = item.ends_with(')');
        let item = item.trim_end_matches(')');
        let within = groups.last_mut().expect("a group is open");
        if item == "deep" {
            within.extend(deep_term(count as u32));
            continue;
        }
        if item == "nest" {
            within.extend(&deep_term(count as u32)[..count]);
            continue;
        }
        if !closes {
            within.extend(vec![one_word(item); count]);
            continue;
        }
        if !item.is_empty() {
            within.push(one_word(item));
        }
        let group = groups.pop().expect("a group is open");
        let outer = groups.last_mut().expect("a bracket closes none");
        outer.extend(group.repeat(count));
    }
    assert_eq!(groups.len(), 1, "a bracket is left open");
    groups.remove(0)
}

fn row(line: usize, text: &str) -> Row {
    let (program, outcome) = text.split_once("=>").expect("a line without =>");
    let expected = match outcome.trim() {
        "accepted" => Ok(()),
        other => Err(refusal(other).unwrap_or_else(|| panic!("line {line}: no outcome"))),
    };
    Row {
        line,
        words: words(program),
        expected,
    }
}

/// A row `words ; answer N => words at PLACE`, or `=> refused N at PLACE`.
pub fn page(line: usize, text: &str) -> Page {
    let (given, outcome) = text.split_once("=>").expect("a line without =>");
    let (page, answer) = given
        .split_once("; answer ")
        .expect("a page without an answer");
    let case = PageCase {
        made: "table",
        page: words(page),
        answer: number(answer.trim()),
    };
    let expected = match refusal(outcome) {
        Some(refusal) => Err(refusal),
        None => Ok(place(line, &case.page, outcome)),
    };
    Page {
        line,
        case,
        expected,
    }
}

/// `words at PLACE`, which have to stand on the page.
fn place(line: usize, page: &[u32], outcome: &str) -> Range<usize> {
    let (part, start) = outcome.split_once(" at ").expect("words without a place");
    let (part, start) = (words(part), number(start) as usize);
    let place = start..start + part.len();
    assert_eq!(page.get(place.clone()), Some(&part[..]), "line {line}");
    place
}

/// `refused N at PLACE`, if it is that.
fn refusal(outcome: &str) -> Option<Refusal> {
    let outcome: Vec<&str> = outcome.split_whitespace().collect();
    match outcome[..] {
        ["refused", condition, "at", place] => Some(Refusal {
            number: number(condition),
            place: number(place) as usize,
        }),
        _ => None,
    }
}

fn without_comment(line: &str) -> &str {
    line.split('#').next().unwrap_or("").trim()
}

fn one_word(text: &str) -> u32 {
    let (kind, payload) = text.split_once(':').expect("a word without a colon");
    word(number(kind), number(payload))
}

fn number(text: &str) -> u32 {
    text.parse().expect("no number")
}
