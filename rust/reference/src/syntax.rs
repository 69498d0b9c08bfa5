//! Programs as syntax trees.
//!
//! Goals and terms stand in two tables and name their parts by number, so that building, walking and
//! dropping a deep tree needs no deep recursion. A part always stands before what holds it.

use crate::word::*;
use std::ops::Index;

#[derive(Clone, Copy, Debug, PartialEq, Eq)]
pub struct GoalId(usize);

#[derive(Clone, Copy, Debug, PartialEq, Eq, PartialOrd, Ord)]
pub struct TermId(usize);

#[derive(Clone, Debug, PartialEq, Eq)]
pub enum Term {
    /// A variable of the relation that the term stands in.
    Variable(usize),
    Symbol(u32),
    Number(u32),
    Empty,
    Pair(TermId, TermId),
}

#[derive(Clone, Debug, PartialEq, Eq)]
pub enum Goal {
    Equal(TermId, TermId),
    Differ(TermId, TermId),
    Symbolo(TermId),
    Numbero(TermId),
    /// The tag, a symbol or a number, and the term that it may not occur in.
    Absento(TermId, TermId),
    Conjunction(Vec<GoalId>),
    Disjunction(Vec<GoalId>),
    /// The relation's number and the arguments.
    Call(usize, Vec<TermId>),
}

impl Goal {
    /// The kind of the goal's first word.
    pub fn kind(&self) -> u32 {
        match self {
            Goal::Equal(..) => EQUAL,
            Goal::Differ(..) => DIFFER,
            Goal::Symbolo(_) => SYMBOLO,
            Goal::Numbero(_) => NUMBERO,
            Goal::Absento(..) => ABSENTO,
            Goal::Conjunction(_) => CONJUNCTION,
            Goal::Disjunction(_) => DISJUNCTION,
            Goal::Call(..) => CALL,
        }
    }
}

#[derive(Clone, Debug, PartialEq, Eq)]
pub struct Relation {
    pub parameters: usize,
    /// All variables, the parameters among them.
    pub variables: usize,
    pub goal: GoalId,
}

#[derive(Clone, Debug, Default, PartialEq, Eq)]
pub struct Program {
    pub relations: Vec<Relation>,
    goals: Vec<Goal>,
    terms: Vec<Term>,
}

impl Program {
    pub fn add_goal(&mut self, goal: Goal) -> GoalId {
        self.goals.push(goal);
        GoalId(self.goals.len() - 1)
    }

    pub fn add_term(&mut self, term: Term) -> TermId {
        self.terms.push(term);
        TermId(self.terms.len() - 1)
    }
}

impl Index<GoalId> for Program {
    type Output = Goal;
    fn index(&self, id: GoalId) -> &Goal {
        &self.goals[id.0]
    }
}

impl Index<TermId> for Program {
    type Output = Term;
    fn index(&self, id: TermId) -> &Term {
        &self.terms[id.0]
    }
}

/// How many words each term takes.
fn term_words(program: &Program) -> Vec<usize> {
    let mut words: Vec<usize> = Vec::new();
    for term in &program.terms {
        words.push(match term {
            Term::Pair(first, second) => 1 + words[first.0] + words[second.0],
            _ => 1,
        });
    }
    words
}

/// The words of the program's largest term.
pub fn largest_term(program: &Program) -> usize {
    term_words(program).into_iter().max().unwrap_or(0)
}

/// The words of the program, such that reading them gives the program again.
pub fn written(program: &Program) -> Vec<u32> {
    let term_words = term_words(program);
    let mut goal_words: Vec<usize> = Vec::new();
    for goal in &program.goals {
        goal_words.push(match goal {
            Goal::Equal(first, second)
            | Goal::Differ(first, second)
            | Goal::Absento(first, second) => 1 + term_words[first.0] + term_words[second.0],
            Goal::Symbolo(term) | Goal::Numbero(term) => 1 + term_words[term.0],
            Goal::Conjunction(goals) | Goal::Disjunction(goals) => {
                1 + goals.iter().map(|goal| goal_words[goal.0]).sum::<usize>()
            }
            Goal::Call(_, arguments) => {
                2 + arguments
                    .iter()
                    .map(|term| term_words[term.0])
                    .sum::<usize>()
            }
        });
    }

    enum Item {
        Goal(GoalId),
        Term(TermId),
    }
    let mut words = Vec::new();
    for relation in &program.relations {
        words.push(part(RELATION, 3 + goal_words[relation.goal.0]));
        words.push(word(NUMBER, relation.parameters as u32));
        words.push(word(NUMBER, relation.variables as u32));
        let mut items = vec![Item::Goal(relation.goal)];
        while let Some(item) = items.pop() {
            let mut parts: Vec<Item> = Vec::new();
            match item {
                Item::Goal(id) => {
                    let count = goal_words[id.0];
                    words.push(part(program[id].kind(), count));
                    match &program[id] {
                        Goal::Equal(first, second)
                        | Goal::Differ(first, second)
                        | Goal::Absento(first, second) => {
                            parts.extend([Item::Term(*first), Item::Term(*second)]);
                        }
                        Goal::Symbolo(term) | Goal::Numbero(term) => parts.push(Item::Term(*term)),
                        Goal::Conjunction(goals) | Goal::Disjunction(goals) => {
                            parts.extend(goals.iter().map(|&goal| Item::Goal(goal)));
                        }
                        Goal::Call(relation, arguments) => {
                            words.push(word(NUMBER, *relation as u32));
                            parts.extend(arguments.iter().map(|&term| Item::Term(term)));
                        }
                    }
                }
                Item::Term(id) => match &program[id] {
                    Term::Variable(number) => words.push(word(VARIABLE, *number as u32)),
                    Term::Symbol(payload) => words.push(word(SYMBOL, *payload)),
                    Term::Number(payload) => words.push(word(NUMBER, *payload)),
                    Term::Empty => words.push(word(EMPTY, 0)),
                    Term::Pair(first, second) => {
                        words.push(word(PAIR, term_words[first.0] as u32));
                        parts.extend([Item::Term(*first), Item::Term(*second)]);
                    }
                },
            }
            items.extend(parts.into_iter().rev());
        }
    }
    words
}

/// The word of a part that takes `count` words, its own included.
fn part(kind: u32, count: usize) -> u32 {
    word(kind, count as u32 - 1)
}
