//! Programs as text: words `k:p`, kind and payload decimal, separated by blanks and line ends; `#` starts a comment
//! to the end of its line.
//!
//! A comment `# symbol N = NAME` names symbol N for those who read the answers. It changes no word. A name is a letter,
//! then letters, digits and `-`, `*`, `:`; no symbol has two, and no two symbols have the same.

#![warn(missing_docs)]

use std::collections::BTreeMap;
use std::error::Error;
use std::fmt;
use std::fs;
use std::io::{self, Read};

/// What a text says.
#[derive(Clone, Debug, Default, PartialEq, Eq)]
pub struct Source {
    /// Its words.
    pub words: Vec<u32>,
    /// Where each word stands.
    pub places: Vec<Place>,
    /// The names that it gives symbols.
    pub names: Names,
}

/// A place in a text; columns are counted in characters.
#[derive(Clone, Copy, Debug, PartialEq, Eq)]
pub struct Place {
    /// From 1.
    pub line: usize,
    /// From 1.
    pub column: usize,
}

/// Names of symbols.
#[derive(Clone, Debug, Default, PartialEq, Eq)]
pub struct Names(BTreeMap<u32, String>);

/// What is wrong with a text, and where.
#[derive(Clone, Debug, PartialEq, Eq)]
pub struct TextError {
    /// Where the word, or the comment that names a symbol, begins.
    pub place: Place,
    /// What is wrong.
    pub fault: Fault,
}

/// What can be wrong with a text.
#[derive(Clone, Copy, Debug, PartialEq, Eq)]
pub enum Fault {
    /// Not two decimal numbers with a colon between.
    Form,
    /// A kind over 15.
    Kind,
    /// A payload of 2^28 or more.
    Payload,
    /// A symbol's name is none.
    Name,
    /// The symbol has a name already, or another symbol has this one.
    NamedBefore,
}

impl fmt::Display for Place {
    fn fmt(&self, f: &mut fmt::Formatter) -> fmt::Result {
        write!(f, "line {}, column {}", self.line, self.column)
    }
}

impl fmt::Display for TextError {
    fn fmt(&self, f: &mut fmt::Formatter) -> fmt::Result {
        let fault = match self.fault {
            Fault::Form => "a word must be kind:payload, both decimal",
            Fault::Kind => "the kind is over 15",
            Fault::Payload => "the payload is over 268435455",
            Fault::Name => {
                "a symbol's name must be a letter, then letters, digits and '-', '*', ':'"
            }
            Fault::NamedBefore => "the symbol has a name already, or another symbol has this one",
        };
        write!(f, "{}: {fault}", self.place)
    }
}

impl Error for TextError {}

impl Names {
    /// No names.
    pub const fn new() -> Names {
        Names(BTreeMap::new())
    }

    /// The symbol's name, if it has one.
    pub fn get(&self, symbol: u32) -> Option<&str> {
        self.0.get(&symbol).map(String::as_str)
    }

    fn add(&mut self, symbol: u32, name: &str) -> Result<(), Fault> {
        let is_name = name.starts_with(char::is_alphabetic)
            && name
                .chars()
                .all(|char| char.is_alphanumeric() || "-*:".contains(char));
        if !is_name {
            return Err(Fault::Name);
        }
        if self.0.contains_key(&symbol) || self.0.values().any(|other| other == name) {
            return Err(Fault::NamedBefore);
        }
        self.0.insert(symbol, name.to_string());
        Ok(())
    }
}

/// The words of a file; `-` is standard input. What is wrong is said with the file's name.
pub fn read(file: &str) -> Result<Vec<u32>, String> {
    let text = contents(file).map_err(|error| format!("{file}: {error}"))?;
    parse(&text).map_err(|error| format!("{file}: {error}"))
}

/// The text of a file; `-` is standard input.
pub fn contents(file: &str) -> io::Result<String> {
    if file == "-" {
        let mut text = String::new();
        io::stdin().read_to_string(&mut text)?;
        Ok(text)
    } else {
        fs::read_to_string(file)
    }
}

/// The words of a text. Its comments are not looked at, nor the names in them.
pub fn parse(text: &str) -> Result<Vec<u32>, TextError> {
    Source::without_names(text).map(|source| source.words)
}

/// The lines, each with its number, the text of its words and its comment.
fn lines(text: &str) -> impl Iterator<Item = (usize, &str, &str)> {
    text.lines().enumerate().map(|(at, line)| {
        let (words, comment) = line.split_once('#').unwrap_or((line, ""));
        (at + 1, words, comment)
    })
}

impl Source {
    /// Reads a text, with the names in its comments.
    pub fn parse(text: &str) -> Result<Source, TextError> {
        let mut source = Source::default();
        for (line, words, comment) in lines(text) {
            source.add_words(line, words)?;
            let column = words.chars().count() + 1;
            let place = Place { line, column };
            source
                .add_name(comment)
                .map_err(|fault| TextError { place, fault })?;
        }
        Ok(source)
    }

    /// Reads a text's words alone. Its comments are not looked at, nor the names in them.
    pub fn without_names(text: &str) -> Result<Source, TextError> {
        let mut source = Source::default();
        for (line, words, _) in lines(text) {
            source.add_words(line, words)?;
        }
        Ok(source)
    }

    fn add_words(&mut self, line: usize, words: &str) -> Result<(), TextError> {
        let mut place = Place { line, column: 1 };
        for token in words.split([' ', '\t', '\r']) {
            if !token.is_empty() {
                let word = parse_word(token).map_err(|fault| TextError { place, fault })?;
                self.words.push(word);
                self.places.push(place);
            }
            place.column += token.chars().count() + 1;
        }
        Ok(())
    }

    /// Takes the name that a comment gives a symbol. Any other comment is left to its readers.
    fn add_name(&mut self, comment: &str) -> Result<(), Fault> {
        let naming = comment.trim().strip_prefix("symbol ");
        match naming.and_then(|naming| naming.split_once('=')) {
            Some((symbol, name)) if is_decimal(symbol.trim()) => {
                let symbol = parse_payload(symbol.trim())?;
                self.names.add(symbol, name.trim())
            }
            _ => Ok(()),
        }
    }
}

/// The text of the words, on one line.
pub fn show(words: &[u32]) -> String {
    let shown: Vec<String> = words
        .iter()
        .map(|word| format!("{}:{}", word >> 28, word & 0x0fff_ffff))
        .collect();
    shown.join(" ")
}

fn parse_word(token: &str) -> Result<u32, Fault> {
    let (kind, payload) = token.split_once(':').ok_or(Fault::Form)?;
    if !is_decimal(kind) || !is_decimal(payload) {
        return Err(Fault::Form);
    }
    let kind = parse_below(kind, 16).ok_or(Fault::Kind)?;
    Ok(kind << 28 | parse_payload(payload)?)
}

fn parse_payload(digits: &str) -> Result<u32, Fault> {
    parse_below(digits, 1 << 28).ok_or(Fault::Payload)
}

fn is_decimal(text: &str) -> bool {
    !text.is_empty() && text.bytes().all(|byte| byte.is_ascii_digit())
}

/// Digits alone: what fails to parse is too large.
fn parse_below(digits: &str, bound: u32) -> Option<u32> {
    digits.parse().ok().filter(|&number| number < bound)
}

#[cfg(test)]
mod tests {
    use super::*;

    #[test]
    fn words_blanks_and_comments() {
        let text = "# a relation\n13:5 2:1\t2:1   # its counts\r\n\n  5:2 0:0 1:7#end";
        let words = parse(text).unwrap();
        assert_eq!(
            words,
            [
                0xd000_0005,
                0x2000_0001,
                0x2000_0001,
                0x5000_0002,
                0,
                0x1000_0007
            ]
        );
        assert_eq!(show(&words), "13:5 2:1 2:1 5:2 0:0 1:7");
        assert_eq!(parse(&show(&words)).unwrap(), words);
        assert_eq!(parse(""), Ok(vec![]));
        assert_eq!(parse("15:268435455"), Ok(vec![u32::MAX]));
    }

    #[test]
    fn faults_are_placed() {
        let cases = [
            ("13", 1, 1, Fault::Form),
            ("13:5 2:", 1, 6, Fault::Form),
            ("13:5\n 2:1 :1", 2, 6, Fault::Form),
            ("1:-1", 1, 1, Fault::Form),
            ("+1:1", 1, 1, Fault::Form),
            ("1:1:1", 1, 1, Fault::Form),
            ("1:1,2:2", 1, 1, Fault::Form),
            ("1:1 16:0", 1, 5, Fault::Kind),
            ("99999999999999:0", 1, 1, Fault::Kind),
            ("# 1:x\n1:268435456", 2, 1, Fault::Payload),
            ("1:99999999999999", 1, 1, Fault::Payload),
            ("1:1 \u{e9} 2:2", 1, 5, Fault::Form),
            ("# symbol 1 = ", 1, 1, Fault::Name),
            ("1:1 # symbol 1 = A 24", 1, 5, Fault::Name),
            ("# symbol 1 = 7", 1, 1, Fault::Name),
            ("# symbol 1 = A(2)", 1, 1, Fault::Name),
            ("# symbol 268435456 = A", 1, 1, Fault::Payload),
            ("# symbol 1 = A\n # symbol 1 = B", 2, 2, Fault::NamedBefore),
            ("# symbol 1 = A\n# symbol 2 = A", 2, 1, Fault::NamedBefore),
        ];
        for (text, line, column, fault) in cases {
            let place = Place { line, column };
            let error = TextError { place, fault };
            assert_eq!(Source::parse(text), Err(error.clone()), "{text:?}");
            let is_naming = text.contains("symbol");
            assert_eq!(parse(text).err(), (!is_naming).then_some(error), "{text:?}");
        }
    }

    #[test]
    fn words_are_placed() {
        let source = Source::parse("# none\n13:5  2:1\n\n\t5:2#").unwrap();
        let places = [(2, 1), (2, 7), (4, 2)].map(|(line, column)| Place { line, column });
        assert_eq!(source.places, places);
    }

    #[test]
    fn names() {
        let text = "#symbol 1=O\n1:2 # symbol 002 = A*02:01 \r\n# symbol A = B\n# symbols 3 = C\n# symbol 4";
        let source = Source::parse(text).unwrap();
        let names = (0..5).map(|symbol| source.names.get(symbol));
        assert!(names.eq([None, Some("O"), Some("A*02:01"), None, None]));
    }
}
