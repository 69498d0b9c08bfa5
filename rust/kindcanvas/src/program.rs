//! Programs, and what a run of one gives.

use crate::answer::{Answer, Answers};
use crate::engine::{self, Report, SCRATCH_WORDS, USABLE_WORDS};
use crate::explain::explain;
use crate::refusal::Refusal;
use std::error::Error;
use std::fmt;
use std::str::FromStr;
use words::{Names, Place, Source, TextError};

/// A program: words that the engine accepts, and the names of its symbols, if it has any.
#[derive(Clone, Debug, PartialEq, Eq)]
pub struct Program {
    words: Vec<u32>,
    names: Names,
}

/// How far a run may go. The defaults are those of the listing program.
#[derive(Clone, Copy, Debug, PartialEq, Eq)]
pub struct Limits {
    /// The last round that is run; round k looks for answers that take k calls. Default 16.
    pub rounds: u8,
    /// The steps of all rounds together. Default 1,000,000.
    pub steps: u32,
    /// The words that the answers may take. Default 4,096; [`USABLE_WORDS`] are as good as more.
    pub output_words: usize,
}

impl Default for Limits {
    fn default() -> Limits {
        Limits {
            rounds: 16,
            steps: 1_000_000,
            output_words: 4_096,
        }
    }
}

impl Program {
    /// The program in these words, if it is one.
    ///
    /// ```
    /// use kindcanvas::Program;
    ///
    /// // 13:5 2:1 2:1 5:2 0:0 1:7, the kind in the top four bits
    /// let words = vec![0xd000_0005, 0x2000_0001, 0x2000_0001, 0x5000_0002, 0x0000_0000, 0x1000_0007];
    /// assert!(Program::new(words).is_ok());
    ///
    /// let error = Program::new(vec![0x5000_0000]).unwrap_err();
    /// assert_eq!((error.refusal.number, error.refusal.place), (2, 0));
    /// assert_eq!(error.detail.as_deref(), Some("5:0 (an equality) stands where a relation must"));
    /// ```
    ///
    /// # Panics
    ///
    /// As [`check`](crate::check) does.
    pub fn new(words: Vec<u32>) -> Result<Program, NoProgram> {
        match engine::check(&words) {
            Ok(()) => Ok(Program {
                words,
                names: Names::new(),
            }),
            Err(refusal) => Err(NoProgram {
                refusal,
                detail: explain(&words, refusal, |at| format!("word {at}")),
            }),
        }
    }

    /// Its words.
    pub fn words(&self) -> &[u32] {
        &self.words
    }

    /// The names that its text gives symbols.
    pub fn names(&self) -> &Names {
        &self.names
    }

    /// Runs it through its rounds.
    ///
    /// # Panics
    ///
    /// As [`run`](crate::run) does.
    pub fn run(&self, limits: Limits) -> Outcome {
        let mut words = vec![0; limits.output_words.min(USABLE_WORDS)];
        let mut scratch = vec![0; SCRATCH_WORDS];
        let rounds = u32::from(limits.rounds);
        let report = engine::run(&self.words, rounds, limits.steps, &mut words, &mut scratch)
            .expect("the program is accepted and the settings are in bounds");
        words.truncate(report.words);
        words.shrink_to_fit();
        Outcome { report, words }
    }
}

/// From `k:p` text, as [`words`] reads it. It panics as [`check`](crate::check) does.
///
/// ```
/// use kindcanvas::{ParseError, Program, Refusal};
///
/// let program: Program = "13:5 2:1 2:1 5:2 0:0 1:7   # symbol 7 = B7".parse().unwrap();
/// assert_eq!(program.words().len(), 6);
/// assert_eq!(program.names().get(7), Some("B7"));
///
/// let error = "13:5 2:1 2:1\n  5:2 0:1 3:0".parse::<Program>().unwrap_err();
/// assert!(matches!(error, ParseError::Refused { refusal: Refusal { number: 5, place: 4 }, .. }));
/// assert_eq!(
///     error.to_string(),
///     "refused 5 at 4: word 4 names a variable that its relation doesn't have (line 2, column 7): variable 1, but the \
///      relation at line 1, column 1 (13:5) has 1, numbered from 0"
/// );
/// ```
impl FromStr for Program {
    type Err = ParseError;

    fn from_str(text: &str) -> Result<Program, ParseError> {
        let Source {
            words,
            places,
            names,
        } = Source::parse(text).map_err(ParseError::Text)?;
        match engine::check(&words) {
            Ok(()) => Ok(Program { words, names }),
            Err(refusal) => Err(ParseError::Refused {
                refusal,
                place: places.get(refusal.place).copied(),
                detail: explain(&words, refusal, |at| places[at].to_string()),
            }),
        }
    }
}

/// Why words are no program.
#[derive(Clone, Debug, PartialEq, Eq)]
pub struct NoProgram {
    /// What is wrong with them.
    pub refusal: Refusal,
    /// Which case it is in these words, and in which part.
    pub detail: Option<String>,
}

impl fmt::Display for NoProgram {
    fn fmt(&self, f: &mut fmt::Formatter) -> fmt::Result {
        self.refusal.fmt(f)?;
        show_detail(f, &self.detail)
    }
}

impl Error for NoProgram {
    fn source(&self) -> Option<&(dyn Error + 'static)> {
        Some(&self.refusal)
    }
}

fn show_detail(f: &mut fmt::Formatter, detail: &Option<String>) -> fmt::Result {
    match detail {
        Some(detail) => write!(f, ": {detail}"),
        None => Ok(()),
    }
}

/// Why a text is no program.
#[derive(Clone, Debug, PartialEq, Eq)]
pub enum ParseError {
    /// It is no `k:p` text.
    Text(TextError),
    /// Its words are no program.
    Refused {
        /// What is wrong with the words.
        refusal: Refusal,
        /// Where in the text the refusal's word stands; none if that is the end.
        place: Option<Place>,
        /// Which case it is in these words, and in which part.
        detail: Option<String>,
    },
}

impl fmt::Display for ParseError {
    fn fmt(&self, f: &mut fmt::Formatter) -> fmt::Result {
        let (refusal, place, detail) = match self {
            ParseError::Text(error) => return error.fmt(f),
            ParseError::Refused {
                refusal,
                place,
                detail,
            } => (refusal, place, detail),
        };
        write!(
            f,
            "refused {} at {}: {refusal}",
            refusal.number, refusal.place
        )?;
        match (refusal.number, place) {
            // About the file as a whole.
            (1, _) => (),
            (_, Some(place)) => write!(f, " ({place})")?,
            (_, None) => write!(f, " (the end of the file)")?,
        }
        show_detail(f, detail)
    }
}

impl Error for ParseError {
    fn source(&self) -> Option<&(dyn Error + 'static)> {
        match self {
            ParseError::Text(error) => Some(error),
            ParseError::Refused { refusal, .. } => Some(refusal),
        }
    }
}

/// What a run gave.
#[derive(Clone, Debug, PartialEq, Eq)]
pub struct Outcome {
    report: Report,
    words: Vec<u32>,
}

impl Outcome {
    /// How it ended, with its counts.
    pub fn report(&self) -> Report {
        self.report
    }

    /// The words of all answers, one answer after the other.
    pub fn words(&self) -> &[u32] {
        &self.words
    }

    /// The answers, in the order in which they were found.
    pub fn answers(&self) -> Answers<'_> {
        Answers::new(&self.words, self.report.answers as usize)
    }

    /// The answer of this number, from 0, opened by [`view`](crate::view).
    ///
    /// ```
    /// use kindcanvas::{Limits, Program, Term};
    ///
    /// let program: Program = "13:9 2:1 2:1 11:6 5:2 0:0 1:7 5:2 0:0 2:5".parse()?;
    /// let outcome = program.run(Limits::default());
    /// assert!(outcome.answer(1).unwrap().terms().eq([Term::Number(5)]));
    /// let refusal = outcome.answer(2).unwrap_err();
    /// assert_eq!((refusal.number, refusal.place), (10, outcome.words().len()));
    /// # Ok::<(), kindcanvas::ParseError>(())
    /// ```
    pub fn answer(&self, number: u32) -> Result<Answer<'_>, Refusal> {
        engine::view(&self.words, number).map(Answer::new)
    }
}
