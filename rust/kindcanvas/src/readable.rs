//! Terms and constraints as text for people.

use crate::answer::{Constraint, Term};
use std::fmt;
use words::Names;

static NO_NAMES: Names = Names::new();

/// A term or a constraint, shown with symbols by their names.
///
/// Symbols have a quote before their name, or before their number if they have none; numbers stand alone; open variables
/// are `_0`, `_1` and so on; `()` is the empty list, `(a b)` a list and `(a b . c)` one that ends in another term.
///
/// ```
/// use kindcanvas::{Limits, Program};
///
/// // The query's one answer is the list of symbol 1, symbol 2, number 2 and an open variable, which is not symbol 1.
/// let text = "13:17 2:1 2:2 10:14 6:2 0:1 1:1 5:10 0:0 4:1 1:1 4:1 1:2 4:1 2:2 4:1 0:1 3:0  # symbol 1 = O";
/// let program: Program = text.parse()?;
/// let outcome = program.run(Limits::default());
/// let answer = outcome.answers().next().unwrap();
/// let term = answer.terms().next().unwrap();
/// assert_eq!(term.to_string(), "('1 '2 2 _0)");
/// assert_eq!(term.named(program.names()).to_string(), "('O '2 2 _0)");
/// let constraint = answer.constraints().next().unwrap();
/// assert_eq!(constraint.named(program.names()).to_string(), "_0 is not 'O");
/// # Ok::<(), kindcanvas::ParseError>(())
/// ```
#[derive(Clone, Debug)]
pub struct Readable<'n, T> {
    item: T,
    names: &'n Names,
}

impl<'a> Term<'a> {
    /// To show it with symbols by these names.
    pub fn named(self, names: &Names) -> Readable<'_, Term<'a>> {
        Readable { item: self, names }
    }
}

impl<'a> Constraint<'a> {
    /// To show it with symbols by these names.
    pub fn named(self, names: &Names) -> Readable<'_, Constraint<'a>> {
        Readable { item: self, names }
    }
}

/// Without names, as [`Readable`] says.
impl fmt::Display for Term<'_> {
    fn fmt(&self, f: &mut fmt::Formatter) -> fmt::Result {
        self.named(&NO_NAMES).fmt(f)
    }
}

/// Without names, as [`Readable`] says.
impl fmt::Display for Constraint<'_> {
    fn fmt(&self, f: &mut fmt::Formatter) -> fmt::Result {
        self.clone().named(&NO_NAMES).fmt(f)
    }
}

/// What is still to be shown of a term.
enum Todo<'a> {
    Term(Term<'a>),
    /// The rest of a list that is begun.
    Rest(Term<'a>),
}

impl fmt::Display for Readable<'_, Term<'_>> {
    /// Without recursion, as a list may be long.
    fn fmt(&self, f: &mut fmt::Formatter) -> fmt::Result {
        let mut todo = vec![Todo::Term(self.item)];
        while let Some(next) = todo.pop() {
            match next {
                Todo::Term(Term::Variable(variable)) => write!(f, "_{variable}")?,
                Todo::Term(Term::Symbol(symbol)) => match self.names.get(symbol) {
                    Some(name) => write!(f, "'{name}")?,
                    None => write!(f, "'{symbol}")?,
                },
                Todo::Term(Term::Number(number)) => write!(f, "{number}")?,
                Todo::Term(Term::Empty) => f.write_str("()")?,
                Todo::Term(Term::Pair(pair)) => {
                    f.write_str("(")?;
                    todo.extend([Todo::Rest(pair.second()), Todo::Term(pair.first())]);
                }
                Todo::Rest(Term::Empty) => f.write_str(")")?,
                Todo::Rest(Term::Pair(pair)) => {
                    f.write_str(" ")?;
                    todo.extend([Todo::Rest(pair.second()), Todo::Term(pair.first())]);
                }
                Todo::Rest(end) => {
                    f.write_str(" . ")?;
                    todo.extend([Todo::Rest(Term::Empty), Todo::Term(end)]);
                }
            }
        }
        Ok(())
    }
}

impl fmt::Display for Readable<'_, Constraint<'_>> {
    fn fmt(&self, f: &mut fmt::Formatter) -> fmt::Result {
        let named = |term: Term<'_>| term.named(self.names).to_string();
        match &self.item {
            Constraint::Differ(variable, term) => write!(f, "_{variable} is not {}", named(*term)),
            Constraint::NotAll(bindings) => {
                let equations: Vec<String> = bindings
                    .iter()
                    .map(|&(variable, term)| format!("_{variable} = {}", named(term)))
                    .collect();
                let all = if equations.len() == 2 {
                    "both"
                } else {
                    "all of"
                };
                write!(f, "not {all} {}", equations.join(" and "))
            }
            Constraint::Symbol(variable) => write!(f, "_{variable} is a symbol"),
            Constraint::Number(variable) => write!(f, "_{variable} is a number"),
            Constraint::Absent { tag, variable } => {
                write!(f, "{} stands nowhere in _{variable}", named(*tag))
            }
        }
    }
}
