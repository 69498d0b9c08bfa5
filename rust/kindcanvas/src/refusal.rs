//! Why a call was turned away.

use std::error::Error;
use std::fmt;

/// Why a program, a setting or an answer's number was turned away: the number of the condition that failed first, and where.
/// Shown, it is a sentence that says what is wrong:
///
/// ```
/// let words = kindcanvas::words::parse("13:5 2:1 2:1 5:2 0:1 3:0")?;
/// let refusal = kindcanvas::check(&words).unwrap_err();
/// assert_eq!((refusal.number, refusal.place), (5, 4));
/// assert_eq!(refusal.to_string(), "word 4 names a variable that its relation doesn't have");
/// # Ok::<(), kindcanvas::words::TextError>(())
/// ```
#[derive(Clone, Copy, Debug, PartialEq, Eq)]
pub struct Refusal {
    /// 1 to 10.
    pub number: u32,
    /// A word's place in the program or, for 10, on the page, counted from 0, or the word count.
    pub place: usize,
}

impl fmt::Display for Refusal {
    fn fmt(&self, f: &mut fmt::Formatter) -> fmt::Result {
        let place = self.place;
        match self.number {
            1 => write!(f, "the file must hold 1 to 16,384 words"),
            2 => write!(f, "word {place} has a kind that is not allowed there"),
            3 => write!(
                f,
                "at word {place} a part overruns what encloses it, is missing or is left over, or an empty list \
                 has a payload"
            ),
            4 => write!(
                f,
                "the relation with variables word {place} has over 255 variables or more parameters than variables"
            ),
            5 => write!(f, "word {place} names a variable that its relation doesn't have"),
            6 => write!(f, "a 257th relation begins at word {place}; 256 are allowed"),
            7 => write!(f, "the call at word {place} names a relation that isn't there"),
            8 => write!(
                f,
                "the call at word {place} has another number of arguments than its relation has parameters"
            ),
            9 => write!(
                f,
                "the round limit is over 255 or the scratch shorter than 12,288 words"
            ),
            10 => write!(
                f,
                "the page has no whole answer of this number: the walk over its headers stopped at word {place}"
            ),
            number => write!(f, "condition {number} turned the file away at word {place}"),
        }
    }
}

impl Error for Refusal {}

#[cfg(test)]
mod tests {
    use super::*;

    #[test]
    fn each_condition_has_its_sentence() {
        let mut sentences: Vec<String> = (1..=10)
            .map(|number| Refusal { number, place: 77 }.to_string())
            .collect();
        for sentence in sentences[1..8].iter().chain(&sentences[9..]) {
            assert!(sentence.contains("word 77"), "{sentence}");
        }
        assert_eq!(crate::SCRATCH_WORDS, 12_288);
        assert!(sentences[8].contains("12,288 words"), "{}", sentences[8]);
        sentences.sort();
        sentences.dedup();
        assert_eq!(sentences.len(), 10);
    }
}
