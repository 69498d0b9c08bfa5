//! Kindcanvas: a proved rule engine. A program states relations, and a run lists what they give.
//!
//! The engine is written and proved in Rattle and linked as a static library; this crate gives it Rust's types. A
//! [`Program`] is words that were checked, so running one cannot fail. Its [`Outcome`] has the answers and a [`Report`],
//! which says how the run ended:
//!
//! ```
//! use kindcanvas::{Ending, Limits, Program, Term};
//!
//! // A query of one variable (0:0): it is the symbol 7, or it is the number 5.
//! let program: Program = "13:9 2:1 2:1 11:6 5:2 0:0 1:7 5:2 0:0 2:5".parse()?;
//! let outcome = program.run(Limits::default());
//!
//! // Finished: the answers show exactly what the relations give.
//! assert_eq!(outcome.report().end, Ending::Finished);
//! let terms: Vec<Term> = outcome.answers().flat_map(|answer| answer.terms()).collect();
//! assert_eq!(terms, [Term::Symbol(7), Term::Number(5)]);
//! # Ok::<(), kindcanvas::ParseError>(())
//! ```
//!
//! A run that did not finish met a limit. Its answers are right, and complete for as many calls as
//! [`Report::completed`] says; [`Report::cut`] says how many branches were left open there:
//!
//! ```
//! use kindcanvas::{Ending, Limits, Program};
//!
//! // A query that calls relation 1, which is 5 or calls itself: each further call gives the same answer, which is listed once.
//! let program: Program = "13:5 2:1 2:1 12:2 2:1 0:0  13:9 2:1 2:1 11:6 12:2 2:1 0:0 5:2 0:0 2:5".parse()?;
//! let outcome = program.run(Limits { rounds: 2, ..Limits::default() });
//! assert_eq!(outcome.report().end, Ending::Rounds);
//! assert_eq!(outcome.report().completed(), Some(2));
//! // One branch was left open: it asks for a third call.
//! assert_eq!(outcome.report().cut, 1);
//! assert_eq!(outcome.answers().len(), 1);
//! # Ok::<(), kindcanvas::ParseError>(())
//! ```
//!
//! [`check`], [`run`] and [`view`] are the proved functions themselves, on lent words.
//!
//! # Stack
//!
//! The engine recurses over nested goals. A call of this crate needs less than 1 MiB of stack: a program of more than 4,096
//! words is read and run in a thread of its own with 8 MiB, which lasts as long as the call. If the system gives no such
//! thread, the call panics.

#![warn(missing_docs)]

mod answer;
mod engine;
mod explain;
mod program;
mod readable;
mod refusal;
mod word;

pub use answer::{Answer, Answers, Constraint, Constraints, Pair, Term, Terms};
pub use engine::{check, run, view, Bound, Ending, Report, SCRATCH_WORDS, USABLE_WORDS};
pub use program::{Limits, NoProgram, Outcome, ParseError, Program};
pub use readable::Readable;
pub use refusal::Refusal;
/// Rule files in `k:p` notation.
pub use words;
