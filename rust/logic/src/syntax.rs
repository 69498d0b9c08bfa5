//! Goals and terms, read from the words of a program or of an answer.

use std::rc::Rc;

/// A tree is a term without variables.
#[derive(Clone, Debug, PartialEq, Eq, PartialOrd, Ord)]
pub enum Term {
    Variable(usize),
    /// A symbol, a number or the empty list, as its word.
    Atom(u32),
    Pair(Rc<Term>, Rc<Term>),
}

/// A goal that holds or not by the trees of its terms alone.
#[derive(Clone, Debug)]
pub enum Literal {
    Equal(Term, Term),
    Differ(Term, Term),
    Symbolo(Term),
    Numbero(Term),
    /// The tag, and the term that it may not be in.
    Absento(Term, Term),
}

#[derive(Clone, Debug)]
pub enum Goal {
    Literal(Literal),
    Conjunction(Vec<Goal>),
    Disjunction(Vec<Goal>),
    /// The relation's number and the arguments.
    Call(usize, Vec<Term>),
}

#[derive(Clone, Debug)]
pub struct Relation {
    pub parameters: usize,
    /// All variables, the parameters among them.
    pub variables: usize,
    pub goal: Goal,
}

pub const VARIABLE: u32 = 0;
pub const SYMBOL: u32 = 1;
pub const NUMBER: u32 = 2;
pub const EMPTY: u32 = 3;
pub const PAIR: u32 = 4;

pub fn word(kind: u32, payload: u32) -> u32 {
    assert!(payload < 1 << 28, "no such word");
    kind << 28 | payload
}

pub fn kind(word: u32) -> u32 {
    word >> 28
}

pub fn payload(word: u32) -> u32 {
    word & 0x0fff_ffff
}

/// The words as `k:p` text.
pub fn show(words: &[u32]) -> String {
    let shown = words.iter().map(|&w| format!("{}:{}", kind(w), payload(w)));
    shown.collect::<Vec<_>>().join(" ")
}

/// The trees of a tuple as `k:p` text.
pub fn show_tuple(tuple: &[Term]) -> String {
    let shown: Vec<String> = tuple.iter().map(|tree| show(&tree.words())).collect();
    format!("({})", shown.join(", "))
}

pub fn pair(first: Term, second: Term) -> Term {
    Term::Pair(Rc::new(first), Rc::new(second))
}

impl Term {
    /// The term with its variables numbered from `base` on.
    pub fn shifted(&self, base: usize) -> Term {
        match self {
            Term::Variable(number) => Term::Variable(base + number),
            Term::Atom(word) => Term::Atom(*word),
            Term::Pair(first, second) => pair(first.shifted(base), second.shifted(base)),
        }
    }

    /// The term's tree under an assignment.
    pub fn tree(&self, assignment: &[Term]) -> Term {
        match self {
            Term::Variable(number) => assignment[*number].clone(),
            Term::Atom(word) => Term::Atom(*word),
            Term::Pair(first, second) => pair(first.tree(assignment), second.tree(assignment)),
        }
    }

    /// The variables and atoms in the term.
    pub fn leaves(&self) -> Vec<&Term> {
        let mut leaves = Vec::new();
        let mut rest = vec![self];
        while let Some(term) = rest.pop() {
            match term {
                Term::Pair(first, second) => rest.extend([&**second, &**first]),
                leaf => leaves.push(leaf),
            }
        }
        leaves
    }

    fn words(&self) -> Vec<u32> {
        match self {
            Term::Variable(number) => vec![word(VARIABLE, *number as u32)],
            Term::Atom(word) => vec![*word],
            Term::Pair(first, second) => {
                let (first, second) = (first.words(), second.words());
                [vec![word(PAIR, first.len() as u32)], first, second].concat()
            }
        }
    }
}

impl Literal {
    pub fn terms(&self) -> Vec<&Term> {
        match self {
            Literal::Symbolo(term) | Literal::Numbero(term) => vec![term],
            Literal::Equal(left, right)
            | Literal::Differ(left, right)
            | Literal::Absento(left, right) => vec![left, right],
        }
    }

    /// The literal with its variables numbered from `base` on.
    pub fn shifted(&self, base: usize) -> Literal {
        let shifted = |term: &Term| term.shifted(base);
        match self {
            Literal::Equal(left, right) => Literal::Equal(shifted(left), shifted(right)),
            Literal::Differ(left, right) => Literal::Differ(shifted(left), shifted(right)),
            Literal::Symbolo(term) => Literal::Symbolo(shifted(term)),
            Literal::Numbero(term) => Literal::Numbero(shifted(term)),
            Literal::Absento(tag, term) => Literal::Absento(tag.clone(), shifted(term)),
        }
    }

    /// Whether it holds under an assignment.
    pub fn holds(&self, assignment: &[Term]) -> bool {
        let tree = |term: &Term| term.tree(assignment);
        let is = |term, wanted| matches!(tree(term), Term::Atom(word) if kind(word) == wanted);
        match self {
            Literal::Equal(left, right) => tree(left) == tree(right),
            Literal::Differ(left, right) => tree(left) != tree(right),
            Literal::Symbolo(term) => is(term, SYMBOL),
            Literal::Numbero(term) => is(term, NUMBER),
            Literal::Absento(tag, term) => !tree(term).leaves().contains(&tag),
        }
    }
}

/// The relations of a program. None if the words don't have a program's form.
pub fn program(words: &[u32]) -> Option<Vec<Relation>> {
    sequence(words, |words| {
        let (13, mut inside) = part(words)? else {
            return None;
        };
        let relation = Relation {
            parameters: number(&mut inside)?,
            variables: number(&mut inside)?,
            goal: goal(&mut inside)?,
        };
        inside.is_empty().then_some(relation)
    })
}

/// The query terms of an answer, so many, and its constraints. None if the words don't have this form.
pub fn answer(mut words: &[u32], parameters: usize) -> Option<(Vec<Term>, Vec<Goal>)> {
    let (15, mut inside) = part(&mut words)? else {
        return None;
    };
    let mut query_terms = Vec::new();
    for _ in 0..parameters {
        query_terms.push(term(&mut inside)?);
    }
    let constraints = sequence(inside, goal)?;
    words.is_empty().then_some((query_terms, constraints))
}

/// The terms that the words are, one after the other. None if they don't have this form.
pub fn terms(words: &[u32]) -> Option<Vec<Term>> {
    sequence(words, term)
}

// Each reader takes what it reads from the front of the words.

fn goal(words: &mut &[u32]) -> Option<Goal> {
    let (kind, mut inside) = part(words)?;
    let literal = match kind {
        5 => Literal::Equal(term(&mut inside)?, term(&mut inside)?),
        6 => Literal::Differ(term(&mut inside)?, term(&mut inside)?),
        7 => Literal::Symbolo(term(&mut inside)?),
        8 => Literal::Numbero(term(&mut inside)?),
        9 => Literal::Absento(tag(&mut inside)?, term(&mut inside)?),
        10 => return Some(Goal::Conjunction(sequence(inside, goal)?)),
        11 => return Some(Goal::Disjunction(sequence(inside, goal)?)),
        12 => return Some(Goal::Call(number(&mut inside)?, sequence(inside, term)?)),
        _ => return None,
    };
    inside.is_empty().then_some(Goal::Literal(literal))
}

fn term(words: &mut &[u32]) -> Option<Term> {
    let head = take(words, 1)?[0];
    match kind(head) {
        VARIABLE => Some(Term::Variable(payload(head) as usize)),
        SYMBOL | NUMBER | EMPTY => Some(Term::Atom(head)),
        PAIR => {
            let mut first = take(words, payload(head) as usize)?;
            let pair = pair(term(&mut first)?, term(words)?);
            first.is_empty().then_some(pair)
        }
        _ => None,
    }
}

/// A symbol or a number (document 02, Note 3).
fn tag(words: &mut &[u32]) -> Option<Term> {
    let word = take(words, 1)?[0];
    matches!(kind(word), SYMBOL | NUMBER).then_some(Term::Atom(word))
}

fn number(words: &mut &[u32]) -> Option<usize> {
    let word = take(words, 1)?[0];
    (kind(word) == NUMBER).then_some(payload(word) as usize)
}

/// A word and as many more as its payload says: its kind, and those.
fn part<'w>(words: &mut &'w [u32]) -> Option<(u32, &'w [u32])> {
    let head = take(words, 1)?[0];
    Some((kind(head), take(words, payload(head) as usize)?))
}

fn take<'w>(words: &mut &'w [u32], count: usize) -> Option<&'w [u32]> {
    let taken;
    (taken, *words) = words.split_at_checked(count)?;
    Some(taken)
}

/// Items up to the end.
fn sequence<T>(mut words: &[u32], read: impl Fn(&mut &[u32]) -> Option<T>) -> Option<Vec<T>> {
    let mut items = Vec::new();
    while !words.is_empty() {
        items.push(read(&mut words)?);
    }
    Some(items)
}
