//! Demand 3 of the runs of one program: the tuples that the answers show against those that the relations give.

use crate::clause::{self, Clause};
use crate::model::model;
use crate::syntax::{self, kind, pair, payload, show, show_tuple, word, Literal, Term};
use crate::syntax::{EMPTY, NUMBER, SYMBOL};

/// What an engine says of a run.
pub struct Run {
    pub end: End,
    /// The last round completed, or the one broken off.
    pub round: u32,
    pub words: Vec<u32>,
}

#[derive(Clone, Copy, Debug, PartialEq, Eq)]
pub enum End {
    Finished,
    Rounds,
    /// Steps used up, output full or path limit reached.
    BrokenOff,
}

/// A program with what its relations give with at most `most` calls.
pub struct Subject<'w> {
    words: &'w [u32],
    parameters: usize,
    most: u32,
    clauses: Vec<Clause>,
    /// For trees: the program's own atoms and some that it doesn't have.
    atoms: Vec<u32>,
}

/// How much there was to see in a check.
#[derive(Debug)]
pub struct Seen {
    /// The end of the run with the highest round limit, and its answers.
    pub end: End,
    pub answers: usize,
    /// The tuples that were looked at, and those of them that the relations give.
    pub tuples: usize,
    pub given: usize,
    /// Those of them that a completed round shows no more, as an earlier one has shown them, though they are given with its calls.
    pub not_again: usize,
}

struct Answer {
    round: u32,
    clauses: Vec<Clause>,
}

/// Tuples of any trees that a check looks at.
const RANDOM: usize = 20;
/// Tuples that fit the relations, and as many that fit the answers.
const FITTING: usize = 10;

impl Subject<'_> {
    /// None if there are more than `limit` clauses.
    pub fn new(words: &[u32], most: u32, limit: usize) -> Option<Subject<'_>> {
        let program = syntax::program(words).expect("a program's form");
        let is_atom = |word: &u32| (SYMBOL..=EMPTY).contains(&kind(*word));
        let mut atoms: Vec<u32> = words.iter().copied().filter(is_atom).collect();
        let unused = 1 + atoms.iter().map(|&atom| payload(atom)).max().unwrap_or(0);
        atoms.extend([word(SYMBOL, unused), word(NUMBER, unused), word(EMPTY, 0)]);
        atoms.sort();
        atoms.dedup();
        Some(Subject {
            words,
            parameters: program[0].parameters,
            most,
            clauses: clause::of_program(&program, most, limit)?,
            atoms,
        })
    }

    /// The numbers of calls, up to `most`, with which the relations give the tuple: bit n for n.
    pub fn given(&self, tuple: &[Term]) -> u32 {
        let mut calls = 0;
        for clause in &self.clauses {
            if calls & 1 << clause.calls == 0 && clause.gives(tuple) {
                calls |= 1 << clause.calls;
            }
        }
        calls
    }

    /// Holds the runs with round limits 0 to `most` to demand 3, or says what is wrong. `below` gives random numbers
    /// below a bound.
    pub fn check(
        &self,
        run: impl Fn(u32) -> Run,
        below: &mut impl FnMut(usize) -> usize,
    ) -> Result<Seen, String> {
        let runs: Vec<Run> = (0..=self.most).map(run).collect();
        self.compare(&runs, below)
            .map_err(|wrong| format!("program {}\n{wrong}", show(self.words)))
    }

    fn compare(
        &self,
        runs: &[Run],
        below: &mut impl FnMut(usize) -> usize,
    ) -> Result<Seen, String> {
        let answers = self.answers(runs)?;
        let mut seen = Seen {
            end: runs[self.most as usize].end,
            answers: answers.len(),
            tuples: 0,
            given: 0,
            not_again: 0,
        };
        for tuple in self.tuples(&answers, below) {
            let given = self.given(&tuple);
            let shown = shown(&answers, &tuple);
            for (limit, run) in runs.iter().enumerate() {
                let shown = shown & rounds_before(limit as u32 + 1);
                let completed = rounds_before(match run.end {
                    End::BrokenOff => run.round,
                    _ => run.round + 1,
                });
                // Once a run has finished, all calls are within its rounds.
                let beyond = run.end == End::Finished && given & !completed != 0;
                // An answer shows only what is given with its round's number of calls. An answer of a round may be missing, as it
                // repeats an earlier one (document 02, Note 2); so of all completed rounds the first in which a tuple is shown
                // is the first number of calls with which it is given.
                let first_shown = first(shown & completed);
                if shown & !given != 0 || first_shown != first(given & completed) || beyond {
                    return Err(format!(
                        "round limit {limit}: {:?}, round {}, answers {}\ntuple {}: the relations give it with calls \
                         {:?}, the answers show it in rounds {:?}",
                        run.end,
                        run.round,
                        show(&run.words),
                        show_tuple(&tuple),
                        numbers(given),
                        numbers(shown)
                    ));
                }
                if limit as u32 == self.most {
                    seen.not_again += (given & !shown & completed != 0) as usize;
                }
            }
            seen.tuples += 1;
            seen.given += (given != 0) as usize;
        }
        Ok(seen)
    }

    /// The answers of all runs: those that a round limit of one more adds are of that round.
    fn answers(&self, runs: &[Run]) -> Result<Vec<Answer>, String> {
        let mut answers = Vec::new();
        let mut before: &[u32] = &[];
        for (round, run) in (0..).zip(runs) {
            let Some(mut rest) = run.words.strip_prefix(before) else {
                return Err(format!("round limit {round} changes answers before"));
            };
            while !rest.is_empty() {
                let length = 1 + payload(rest[0]) as usize;
                let words = rest.get(..length).ok_or("half an answer")?;
                let wrong = |what| format!("answer {}: {what}", show(words));
                let clauses = clause::of_answer(words, self.parameters).map_err(wrong)?;
                if clauses.is_empty() {
                    return Err(wrong("it shows no tuple"));
                }
                answers.push(Answer { round, clauses });
                rest = &rest[length..];
            }
            before = &run.words;
        }
        Ok(answers)
    }

    fn tuples(&self, answers: &[Answer], below: &mut impl FnMut(usize) -> usize) -> Vec<Vec<Term>> {
        let mut tuples = Vec::new();
        for _ in 0..RANDOM {
            tuples.push((0..self.parameters).map(|_| self.tree(below)).collect());
        }
        let given: Vec<&Clause> = self.clauses.iter().collect();
        let shown: Vec<&Clause> = answers.iter().flat_map(|answer| &answer.clauses).collect();
        for clauses in [given, shown] {
            if !clauses.is_empty() {
                for _ in 0..FITTING {
                    tuples.push(self.fitting(clauses[below(clauses.len())], below));
                }
            }
        }
        tuples
    }

    /// A tuple for which the clause's equalities hold, and the other literals maybe: the sides of some disequalities are
    /// made the same, and some variables random trees.
    fn fitting(&self, clause: &Clause, below: &mut impl FnMut(usize) -> usize) -> Vec<Term> {
        let mut equal = Vec::new();
        let mut more = Vec::new();
        for literal in &clause.literals {
            match literal {
                Literal::Equal(..) => equal.push(literal.clone()),
                Literal::Differ(left, right) => more.push((left.clone(), right.clone())),
                _ => (),
            }
        }
        for variable in 0..clause.variables {
            more.push((Term::Variable(variable), self.tree(below)));
        }
        for (left, right) in more {
            equal.push(Literal::Equal(left, right));
            if below(2) == 0 || model(clause.variables, &equal).is_none() {
                equal.pop();
            }
        }
        let assignment = model(clause.variables, &equal).expect("the clause has a model");
        let query_terms = clause.query_terms.iter();
        query_terms.map(|term| term.tree(&assignment)).collect()
    }

    fn tree(&self, below: &mut impl FnMut(usize) -> usize) -> Term {
        match below(4) {
            0 => pair(self.tree(below), self.tree(below)),
            _ => Term::Atom(self.atoms[below(self.atoms.len())]),
        }
    }
}

/// The rounds of the answers that show the tuple, as bits.
fn shown(answers: &[Answer], tuple: &[Term]) -> u32 {
    let mut rounds = 0;
    for answer in answers {
        if answer.clauses.iter().any(|clause| clause.gives(tuple)) {
            rounds |= 1 << answer.round;
        }
    }
    rounds
}

fn rounds_before(round: u32) -> u32 {
    1u32.checked_shl(round).map_or(u32::MAX, |bit| bit - 1)
}

/// The lowest of the numbers, if there is one.
fn first(bits: u32) -> Option<u32> {
    (bits != 0).then(|| bits.trailing_zeros())
}

fn numbers(bits: u32) -> Vec<u32> {
    (0..u32::BITS).filter(|n| bits & 1 << n != 0).collect()
}
