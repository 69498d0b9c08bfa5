//! Answers, read from their words. Terms are views of the words, so nothing recurses and nothing is copied, however long
//! a list is. That the words are well formed is the engine's promise.

use crate::word::*;
use std::fmt;
use std::iter::FusedIterator;

/// The answers of a run.
#[derive(Clone, Debug)]
pub struct Answers<'a> {
    rest: &'a [u32],
    left: usize,
}

impl<'a> Answers<'a> {
    pub(crate) fn new(words: &'a [u32], count: usize) -> Answers<'a> {
        Answers {
            rest: words,
            left: count,
        }
    }
}

impl<'a> Iterator for Answers<'a> {
    type Item = Answer<'a>;

    fn next(&mut self) -> Option<Answer<'a>> {
        let &header = self.rest.first()?;
        let (words, rest) = self.rest.split_at(1 + count(header));
        self.rest = rest;
        self.left -= 1;
        Some(Answer::new(words))
    }

    fn size_hint(&self) -> (usize, Option<usize>) {
        (self.left, Some(self.left))
    }
}

impl ExactSizeIterator for Answers<'_> {}
impl FusedIterator for Answers<'_> {}

/// One answer: a term for each of the query's parameters, and what must hold of their variables.
///
/// It shows each tuple that its terms become when its variables are replaced by values for which all constraints hold.
///
/// ```
/// use kindcanvas::{Constraint, Limits, Program, Term};
///
/// // A query of q (0:0) and r (0:1): the pairs (q . r) and (1 . 2) differ.
/// let program: Program = "13:9 2:2 2:2 6:6 4:1 0:0 0:1 4:1 2:1 2:2".parse()?;
/// let outcome = program.run(Limits::default());
/// let answer = outcome.answers().next().unwrap();
/// assert!(answer.terms().eq([Term::Variable(0), Term::Variable(1)]));
/// let not_both = Constraint::NotAll(vec![(0, Term::Number(1)), (1, Term::Number(2))]);
/// assert!(answer.constraints().eq([not_both]));
/// # Ok::<(), kindcanvas::ParseError>(())
/// ```
#[derive(Clone, Copy, Debug, PartialEq, Eq, Hash)]
pub struct Answer<'a> {
    words: &'a [u32],
}

impl<'a> Answer<'a> {
    /// The answer that the engine wrote in these words.
    pub(crate) fn new(words: &'a [u32]) -> Answer<'a> {
        Answer { words }
    }

    /// Its words, `15:n` and the n words that follow.
    pub fn words(self) -> &'a [u32] {
        self.words
    }

    /// The query terms.
    pub fn terms(self) -> Terms<'a> {
        Terms(Parts(&self.words[1..]))
    }

    /// What must hold of the variables, all of it.
    pub fn constraints(self) -> Constraints<'a> {
        Constraints(Parts(&self.words[1..]))
    }
}

/// The query terms of an answer.
#[derive(Clone, Debug)]
pub struct Terms<'a>(Parts<'a>);

impl<'a> Iterator for Terms<'a> {
    type Item = Term<'a>;

    fn next(&mut self) -> Option<Term<'a>> {
        self.0.next().filter(|part| is_term(part)).map(Term::new)
    }
}

/// The constraints of an answer. They stand behind its terms.
#[derive(Clone, Debug)]
pub struct Constraints<'a>(Parts<'a>);

impl<'a> Iterator for Constraints<'a> {
    type Item = Constraint<'a>;

    fn next(&mut self) -> Option<Constraint<'a>> {
        self.0.find(|part| !is_term(part)).map(Constraint::new)
    }
}

/// A term of an answer.
///
/// ```
/// use kindcanvas::{Limits, Program, Term};
///
/// // The query's one answer is the list (1 2 3).
/// let program: Program = "13:11 2:1 2:1 5:8 0:0 4:1 2:1 4:1 2:2 4:1 2:3 3:0".parse()?;
/// let outcome = program.run(Limits::default());
/// let mut term = outcome.answers().next().unwrap().terms().next().unwrap();
/// assert_eq!(term.to_string(), "(1 2 3)");
///
/// let mut numbers = Vec::new();
/// while let Term::Pair(pair) = term {
///     if let Term::Number(number) = pair.first() {
///         numbers.push(number);
///     }
///     term = pair.second();
/// }
/// assert_eq!((numbers, term), (vec![1, 2, 3], Term::Empty));
/// # Ok::<(), kindcanvas::ParseError>(())
/// ```
#[derive(Clone, Copy, Debug, PartialEq, Eq, Hash)]
pub enum Term<'a> {
    /// An open variable, numbered from 0 in each answer.
    Variable(u32),
    /// A symbol.
    Symbol(u32),
    /// A number.
    Number(u32),
    /// The empty list.
    Empty,
    /// A pair. A list is a pair of its first element and the list of the others.
    Pair(Pair<'a>),
}

/// A pair of terms.
#[derive(Clone, Copy, PartialEq, Eq, Hash)]
pub struct Pair<'a> {
    first: &'a [u32],
    second: &'a [u32],
}

impl<'a> Term<'a> {
    /// The term that the words are.
    fn new(words: &'a [u32]) -> Term<'a> {
        let word = words[0];
        match kind(word) {
            VARIABLE => Term::Variable(payload(word)),
            SYMBOL => Term::Symbol(payload(word)),
            NUMBER => Term::Number(payload(word)),
            EMPTY => Term::Empty,
            PAIR => {
                let (first, second) = words[1..].split_at(count(word));
                Term::Pair(Pair { first, second })
            }
            kind => unreachable!("kind {kind} begins no term"),
        }
    }
}

impl<'a> Pair<'a> {
    /// Its first part.
    pub fn first(self) -> Term<'a> {
        Term::new(self.first)
    }

    /// Its second part.
    pub fn second(self) -> Term<'a> {
        Term::new(self.second)
    }
}

impl fmt::Debug for Pair<'_> {
    fn fmt(&self, f: &mut fmt::Formatter) -> fmt::Result {
        fmt::Display::fmt(&Term::Pair(*self), f)
    }
}

/// What must hold of an answer's variables.
#[derive(Clone, Debug, PartialEq, Eq, Hash)]
pub enum Constraint<'a> {
    /// The variable is not this term.
    Differ(u32, Term<'a>),
    /// The variables are not all these terms at once; there are two or more.
    NotAll(Vec<(u32, Term<'a>)>),
    /// The variable is a symbol.
    Symbol(u32),
    /// The variable is a number.
    Number(u32),
    /// The tag, a symbol or a number, stands nowhere in the variable's value.
    Absent {
        /// What stands nowhere in it.
        tag: Term<'a>,
        /// The variable.
        variable: u32,
    },
}

impl<'a> Constraint<'a> {
    fn new(words: &'a [u32]) -> Constraint<'a> {
        let inside = &words[1..];
        match kind(words[0]) {
            DIFFER => {
                let (variable, term) = binding(words);
                Constraint::Differ(variable, term)
            }
            DISJUNCTION => Constraint::NotAll(Parts(inside).map(binding).collect()),
            SYMBOLO => Constraint::Symbol(payload(inside[0])),
            NUMBERO => Constraint::Number(payload(inside[0])),
            ABSENTO => Constraint::Absent {
                tag: Term::new(&inside[..1]),
                variable: payload(inside[1]),
            },
            kind => unreachable!("kind {kind} begins no constraint"),
        }
    }
}

/// The variable and the term of a disequality.
fn binding(words: &[u32]) -> (u32, Term<'_>) {
    (payload(words[1]), Term::new(&words[2..]))
}

fn is_term(part: &[u32]) -> bool {
    kind(part[0]) <= PAIR
}

/// The words of terms and constraints that follow one another.
#[derive(Clone, Debug)]
struct Parts<'a>(&'a [u32]);

impl<'a> Iterator for Parts<'a> {
    type Item = &'a [u32];

    fn next(&mut self) -> Option<&'a [u32]> {
        let &word = self.0.first()?;
        let len = match kind(word) {
            VARIABLE..=PAIR => term_len(self.0),
            _ => 1 + count(word),
        };
        let (part, rest) = self.0.split_at(len);
        self.0 = rest;
        Some(part)
    }
}

/// The length of the term that begins the words: over the first parts, along the second ones.
fn term_len(words: &[u32]) -> usize {
    let mut at = 0;
    while kind(words[at]) == PAIR {
        at += 1 + count(words[at]);
    }
    at + 1
}
