//! Makes a failing case smaller.

use crate::cases::Case;
use crate::read::read;
use crate::run::SCRATCH_WORDS;
use crate::word::*;
use std::collections::BTreeSet;
use std::iter;

/// A case that still fails, and of which no smaller one that is tried does.
pub fn shrink(mut case: Case, fails: impl Fn(&Case) -> bool) -> Case {
    let mut from = 0;
    loop {
        let parts = Parts::of(&case.words);
        let changes = changes(&case, &parts);
        let mut tries = changes[from.min(changes.len())..].iter();
        let found = tries.position(|change| fails(&change.made(&case, &parts)));
        // The changes before the last that was made have mostly been tried, so they come again only at the end.
        match found {
            Some(at) => {
                from += at;
                case = changes[from].made(&case, &parts);
            }
            None if from == 0 => return case,
            None => from = 0,
        }
    }
}

/// A goal that holds.
const HOLDS: [u32; 3] = [EQUAL << 28 | 2, EMPTY << 28, EMPTY << 28];

/// A way to make a case smaller. None leads back: relations, words, words other than `3:0`, kinds, variables or limits get fewer or lower.
enum Change {
    Rounds(usize),
    Steps(usize),
    Output(usize),
    Scratch,
    /// Words of a program that is not accepted go.
    Cut(usize, usize),
    /// The parts from one to another are replaced.
    Replace(usize, usize, By),
    /// A relation goes. Its calls hold; if it was the query, the next one is it.
    Without(usize),
    /// A relation's counts of parameters and variables are lowered by so much.
    Counts(usize, u32, u32),
    /// In a relation a variable becomes the one before it.
    Merge(usize, u32),
}

enum By {
    Nothing,
    EmptyList,
    /// By a goal that holds.
    Holds,
    /// By a part in it.
    Part(usize),
}

impl Change {
    fn made(&self, case: &Case, parts: &Parts) -> Case {
        let mut case = case.clone();
        match self {
            Change::Rounds(rounds) => case.rounds = *rounds as u32,
            Change::Steps(steps) => case.steps = *steps as u32,
            Change::Output(output) => case.output = *output,
            Change::Scratch => case.scratch = SCRATCH_WORDS,
            Change::Cut(from, to) => {
                case.words.drain(from..to);
            }
            Change::Replace(first, last, by) => {
                let by = match by {
                    By::Nothing => &[],
                    By::EmptyList => &HOLDS[1..2],
                    By::Holds => &HOLDS[..],
                    By::Part(part) => &parts.words[*part..parts.end[*part]],
                };
                case.words = parts.with(*first, *last, by);
            }
            Change::Without(relation) => case.words = parts.without(*relation),
            Change::Counts(relation, parameters, variables) => {
                case.words[relation + 1] -= parameters;
                case.words[relation + 2] -= variables;
            }
            Change::Merge(relation, variable) => {
                for place in parts.variables(*relation) {
                    case.words[place] -= (payload(case.words[place]) == *variable) as u32;
                }
            }
        }
        case
    }
}

/// All that is tried, what changes much first.
fn changes(case: &Case, parts: &Parts) -> Vec<Change> {
    let mut all = match read(&case.words) {
        Ok(_) => smaller_programs(parts),
        Err(_) => cuts(case.words.len()),
    };
    all.extend(lower(case.rounds as usize).map(Change::Rounds));
    all.extend(lower(case.steps as usize).map(Change::Steps));
    all.extend(lower(case.output).map(Change::Output));
    if case.scratch > SCRATCH_WORDS {
        all.push(Change::Scratch);
    }
    all
}

/// The number, a half of it, a quarter and so on, down to 1.
fn halves(number: usize) -> impl Iterator<Item = usize> {
    iter::successors(Some(number), |chunk| Some(chunk / 2)).take_while(|&chunk| chunk > 0)
}

/// 0, a half, three quarters and so on, up to one less.
fn lower(number: usize) -> impl Iterator<Item = usize> {
    halves(number).map(move |less| number - less)
}

fn cuts(length: usize) -> Vec<Change> {
    let mut all = Vec::new();
    for size in halves(length) {
        for from in (0..length).step_by(size) {
            all.push(Change::Cut(from, length.min(from + size)));
        }
    }
    all
}

fn smaller_programs(parts: &Parts) -> Vec<Change> {
    let mut all = Vec::new();
    if parts.relations.len() > 1 {
        all.extend((0..parts.relations.len()).map(Change::Without));
    }
    for &relation in &parts.relations {
        let counts = [1, 2].map(|at| payload(parts.words[relation + at]));
        for (parameters, variables) in [(1, 1), (1, 0), (0, 1)] {
            if parameters <= counts[0] && variables <= counts[1] {
                all.push(Change::Counts(relation, parameters, variables));
            }
        }
        let there: BTreeSet<u32> = parts
            .variables(relation)
            .map(|place| payload(parts.words[place]))
            .collect();
        let merged = there.into_iter().filter(|&variable| variable > 0);
        all.extend(merged.map(|variable| Change::Merge(relation, variable)));
    }
    for &part in &parts.all {
        let kind = kind(parts.words[part]);
        let inside = parts.inside(part);
        let mut replace = |by| all.push(Change::Replace(part, part, by));
        match kind {
            EQUAL..=CALL => {
                let words = &parts.words[part..parts.end[part]];
                if words.len() >= HOLDS.len() && words != HOLDS {
                    replace(By::Holds);
                }
            }
            VARIABLE..=NUMBER | PAIR => replace(By::EmptyList),
            _ => (),
        }
        match (kind, &inside[..]) {
            (PAIR, &[first, second]) => {
                replace(By::Part(first));
                replace(By::Part(second));
            }
            (CONJUNCTION | DISJUNCTION, &[only]) => replace(By::Part(only)),
            (CONJUNCTION | DISJUNCTION, goals) => {
                for size in halves(goals.len() / 2) {
                    let some = goals.chunks(size);
                    all.extend(
                        some.map(|some| {
                            Change::Replace(some[0], some[some.len() - 1], By::Nothing)
                        }),
                    );
                }
            }
            _ => (),
        }
    }
    all
}

/// The parts of an accepted program: relations, goals and terms, each named by the place of its first word. Found without recursion, as
/// they may be nested deep. Of other words nothing is asked.
struct Parts<'w> {
    words: &'w [u32],
    /// Where the part that begins at a place ends.
    end: Vec<usize>,
    /// The part whose first word counts the words of the one at a place.
    counted_by: Vec<Option<usize>>,
    all: Vec<usize>,
    relations: Vec<usize>,
}

impl Parts<'_> {
    fn of(words: &[u32]) -> Parts<'_> {
        let mut parts = Parts {
            words,
            end: vec![0; words.len()],
            counted_by: vec![None; words.len()],
            all: Vec::new(),
            relations: Vec::new(),
        };
        if read(words).is_err() {
            return parts;
        }
        for at in (0..words.len()).rev() {
            let counted = at + 1 + payload(words[at]) as usize;
            parts.end[at] = match kind(words[at]) {
                VARIABLE..=EMPTY => at + 1,
                PAIR => parts.end[counted],
                _ => counted,
            };
        }
        let mut is_part = vec![false; words.len()];
        let mut at = 0;
        while at < words.len() {
            parts.relations.push(at);
            is_part[at] = true;
            at = parts.end[at];
        }
        // What is in a part stands behind its first word.
        for at in 0..words.len() {
            if is_part[at] {
                parts.all.push(at);
                let counted = at + 1 + payload(words[at]) as usize;
                for inside in parts.inside(at) {
                    is_part[inside] = true;
                    parts.counted_by[inside] = match inside < counted {
                        true => Some(at),
                        false => parts.counted_by[at],
                    };
                }
            }
        }
        parts
    }

    /// The places of the variables in a relation.
    fn variables(&self, relation: usize) -> impl Iterator<Item = usize> + '_ {
        let inside = relation..self.end[relation];
        let parts = self.all.iter().copied();
        parts.filter(move |part| inside.contains(part) && kind(self.words[*part]) == VARIABLE)
    }

    /// The parts of a part. Counts, tags and numbers of relations are none.
    fn inside(&self, part: usize) -> Vec<usize> {
        let first = match kind(self.words[part]) {
            RELATION => part + 3,
            ABSENTO | CALL => part + 2,
            _ => part + 1,
        };
        let next = |&at: &usize| self.end.get(at).copied();
        let end = self.end[part];
        iter::successors(Some(first), next)
            .take_while(|&at| at < end)
            .collect()
    }

    /// The program with other words in the place of parts that follow one another.
    fn with(&self, first: usize, last: usize, by: &[u32]) -> Vec<u32> {
        let mut words = self.words.to_vec();
        self.replace(&mut words, first, self.end[last], by);
        words
    }

    /// Replaces words that are still as they were, with all before them, and changes the counts.
    fn replace(&self, words: &mut Vec<u32>, from: usize, to: usize, by: &[u32]) {
        let counting = |&at: &usize| self.counted_by[at];
        for at in iter::successors(self.counted_by[from], counting) {
            let count = payload(words[at]) as usize + by.len() - (to - from);
            words[at] = word(kind(words[at]), count as u32);
        }
        words.splice(from..to, by.iter().copied());
    }

    /// The program without a relation, by number.
    fn without(&self, number: usize) -> Vec<u32> {
        let mut words = self.words.to_vec();
        // From the back, so that places before stay.
        for &at in self.all.iter().rev() {
            if at == self.relations[number] {
                words.drain(at..at + 1 + payload(words[at]) as usize);
            } else if kind(words[at]) == CALL {
                let called = payload(words[at + 1]) as usize;
                if called == number {
                    self.replace(&mut words, at, self.end[at], &HOLDS);
                } else if called > number {
                    words[at + 1] = word(NUMBER, called as u32 - 1);
                }
            }
        }
        words
    }
}
