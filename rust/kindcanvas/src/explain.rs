//! What is wrong in the words of a refused program.
//!
//! The engine tells the condition and the place. A wrong count shows only where its part ends, at a word that may be
//! innocent. So the words are read again, and what is wrong is said with the numbers in it and the part that holds
//! the place.

use crate::refusal::Refusal;
use crate::word::*;

const MOST_WORDS: usize = 16_384;
const MOST_RELATIONS: usize = 256;
const MOST_VARIABLES: usize = 255;

/// What is wrong, to stand after the refusal's own sentence; `place` shows where a word is. None if it is another
/// refusal than that of these words: the engine decides, and nothing else is said beside it.
pub fn explain(words: &[u32], refusal: Refusal, place: impl Fn(usize) -> String) -> Option<String> {
    let mut reader = Reader {
        words,
        place,
        at: 0,
        parts: Vec::new(),
        relations: Vec::new(),
        calls: Vec::new(),
    };
    let fault = reader.program().err()?;
    (fault.refusal == refusal).then_some(fault.sentence)
}

struct Fault {
    refusal: Refusal,
    sentence: String,
}

fn fault<T>(number: u32, place: usize, sentence: String) -> Result<T, Fault> {
    let refusal = Refusal { number, place };
    Err(Fault { refusal, sentence })
}

struct Reader<'w, P> {
    words: &'w [u32],
    place: P,
    /// The next word to read.
    at: usize,
    /// The parts that are begun, each inside the one before. Goals may be nested as deep as a program is long, so nothing
    /// recurses.
    parts: Vec<Part>,
    /// Where the relations begin that were read.
    relations: Vec<usize>,
    calls: Vec<Call>,
}

/// A part of which not all was read.
struct Part {
    /// Its first word.
    at: usize,
    /// Where its words end. A pair's are first those of its first part, then what its enclosing part has left.
    end: usize,
    /// How many parts of it were read.
    read: usize,
    /// Where the last of them begins.
    last: usize,
}

struct Call {
    at: usize,
    arguments: usize,
}

/// What may stand somewhere.
#[derive(Clone, Copy, PartialEq, Eq)]
enum Wanted {
    Relation,
    Parameters,
    Variables,
    Called,
    Tag,
    Goal,
    Term,
}

/// How a part goes on.
enum Next {
    Needed(Wanted),
    /// Or the part ends.
    Optional(Wanted),
    End,
    /// The end of a pair is that of its second part.
    Read,
}

impl<P: Fn(usize) -> String> Reader<'_, P> {
    fn program(&mut self) -> Result<(), Fault> {
        match self.words.len() {
            0 => return fault(1, 0, "there are none".to_string()),
            count if count > MOST_WORDS => {
                return fault(1, 0, format!("there are {}", grouped(count)));
            }
            _ => (),
        }
        while self.at < self.words.len() {
            self.begin(Wanted::Relation, false)?;
            while let Some(part) = self.parts.last() {
                let ended = self.at == part.end;
                match self.next(part) {
                    Next::Needed(_) if ended => return self.missing(part),
                    Next::Needed(wanted) => self.begin(wanted, true)?,
                    Next::Optional(wanted) if !ended => self.begin(wanted, false)?,
                    Next::End if !ended => return self.left_over(part),
                    Next::Optional(_) | Next::End | Next::Read => self.finish(),
                }
            }
        }
        self.check_calls()
    }

    fn kind(&self, at: usize) -> u32 {
        kind(self.words[at])
    }

    fn next(&self, part: &Part) -> Next {
        match (self.kind(part.at), part.read) {
            (RELATION, 0) => Next::Needed(Wanted::Parameters),
            (RELATION, 1) => Next::Needed(Wanted::Variables),
            (RELATION, 2) => Next::Needed(Wanted::Goal),
            (EQUAL | DIFFER, 0 | 1) => Next::Needed(Wanted::Term),
            (SYMBOLO | NUMBERO, 0) => Next::Needed(Wanted::Term),
            (ABSENTO, 0) => Next::Needed(Wanted::Tag),
            (ABSENTO, 1) => Next::Needed(Wanted::Term),
            (CONJUNCTION | DISJUNCTION, 0) => Next::Needed(Wanted::Goal),
            (CONJUNCTION | DISJUNCTION, _) => Next::Optional(Wanted::Goal),
            (CALL, 0) => Next::Needed(Wanted::Called),
            (CALL, _) => Next::Optional(Wanted::Term),
            // Nothing may be left over in the first part.
            (PAIR, 1) if self.at < self.first_end(part) => Next::End,
            (PAIR, 0 | 1) => Next::Needed(Wanted::Term),
            (PAIR, _) => Next::Read,
            _ => Next::End,
        }
    }

    /// Reads the word with which something begins; `needed` says that the part cannot end before it.
    fn begin(&mut self, wanted: Wanted, needed: bool) -> Result<(), Fault> {
        let at = self.at;
        let word = self.words[at];
        let fits = match wanted {
            Wanted::Relation => kind(word) == RELATION,
            Wanted::Parameters | Wanted::Variables | Wanted::Called => kind(word) == NUMBER,
            Wanted::Tag => matches!(kind(word), SYMBOL | NUMBER),
            Wanted::Goal => is_goal(kind(word)),
            Wanted::Term => is_term(kind(word)),
        };
        if !fits {
            return self.misplaced(wanted, needed);
        }
        match kind(word) {
            PAIR..=RELATION => return self.open(),
            VARIABLE => self.check_variable()?,
            EMPTY if payload(word) != 0 => {
                let sentence = format!("{} is the empty list, which is 3:0", show(word));
                return fault(3, at, sentence);
            }
            _ => (),
        }
        if wanted == Wanted::Variables {
            self.check_counts()?;
        }
        self.at += 1;
        self.was_read(at);
        Ok(())
    }

    /// Begins a part whose payload counts words.
    fn open(&mut self) -> Result<(), Fault> {
        let at = self.at;
        let word = self.words[at];
        let left = self.end() - at - 1;
        if count(word) > left {
            let claim = match (kind(word), count(word)) {
                (PAIR, count) => format!("its first part takes {}", several(count, "word")),
                (_, 1) => "1 word follows".to_string(),
                (_, count) => format!("{} follow", several(count, "word")),
            };
            let inside = match self.holder() {
                Some(part) => format!(" in {}", self.named(part)),
                None => String::new(),
            };
            let sentence = format!(
                "{} says that {claim}, but {} left{inside}",
                show(word),
                are(left)
            );
            return fault(3, at, sentence);
        }
        if kind(word) == RELATION && self.relations.len() == MOST_RELATIONS {
            let sentence = "relations are numbered from 0, so it would be relation 256".to_string();
            return fault(6, at, sentence);
        }
        self.at += 1;
        self.parts.push(Part {
            at,
            end: self.at + count(word),
            read: 0,
            last: at,
        });
        Ok(())
    }

    /// Ends the innermost part.
    fn finish(&mut self) {
        let Some(part) = self.parts.pop() else {
            return;
        };
        match self.kind(part.at) {
            RELATION => self.relations.push(part.at),
            CALL => self.calls.push(Call {
                at: part.at,
                arguments: part.read - 1,
            }),
            _ => (),
        }
        self.was_read(part.at);
    }

    /// Counts what was read, from this word on, to the part that it is in.
    fn was_read(&mut self, at: usize) {
        let next = self.at;
        let Some((part, enclosing)) = self.parts.split_last_mut() else {
            return;
        };
        part.read += 1;
        part.last = at;
        // A pair's first part is over: the second has what is left of the enclosing part.
        if kind(self.words[part.at]) == PAIR && part.read == 1 && next == part.end {
            part.end = enclosing.last().map_or(next, |part| part.end);
        }
    }

    /// Where a pair's first part ends.
    fn first_end(&self, pair: &Part) -> usize {
        pair.at + 1 + count(self.words[pair.at])
    }

    /// Where the innermost part ends.
    fn end(&self) -> usize {
        self.parts.last().map_or(self.words.len(), |part| part.end)
    }

    /// The part whose count says where the innermost one ends: a pair's second part ends with what the pair is in.
    fn holder(&self) -> Option<&Part> {
        let is_second = |part: &Part| {
            self.kind(part.at) == PAIR && part.read == 1 && self.at >= self.first_end(part)
        };
        self.parts.iter().rev().find(|part| !is_second(part))
    }

    fn misplaced<T>(&self, wanted: Wanted, needed: bool) -> Result<T, Fault> {
        let word = self.words[self.at];
        let stands = match wanted {
            Wanted::Relation => "a relation",
            Wanted::Parameters => "the number of parameters",
            Wanted::Variables => "the number of variables",
            Wanted::Called => "the number of a relation",
            Wanted::Tag => "the tag, a symbol or a number,",
            Wanted::Goal => "a goal",
            Wanted::Term => "a term",
        };
        // What ends just before, if this may be more of it.
        let before = match (wanted, self.parts.last()) {
            (Wanted::Relation, _) => self.relations.last().copied(),
            (Wanted::Goal, Some(part)) if !needed && is_term(kind(word)) => Some(part.last),
            _ => None,
        };
        // Whether this begins something that stands behind the part, not in it.
        let is_next = match wanted {
            Wanted::Goal => kind(word) == RELATION,
            _ => is_goal(kind(word)) || kind(word) == RELATION,
        };
        let suspect = match (before, self.holder()) {
            // No program has such a word, so no count is to blame.
            _ if kind(word) > RELATION => String::new(),
            (Some(before), _) => self.too_low(before),
            (None, Some(part)) if !needed && is_next => self.too_high(part, kind(word)),
            (None, Some(part)) => format!(", in {}", self.named(part)),
            (None, None) => String::new(),
        };
        let sentence = format!(
            "{} ({}) stands where {stands} must{suspect}",
            show(word),
            with_article(kind(word))
        );
        fault(2, self.at, sentence)
    }

    /// What stands here belongs behind the part, and a relation behind the relation too.
    fn too_high(&self, part: &Part, kind: u32) -> String {
        match self.parts.first() {
            Some(relation) if kind == RELATION => format!(
                "; {} and {} reach up to here: are their counts too high?",
                self.named(part),
                self.named(relation)
            ),
            _ => format!(
                "; {} reaches up to here: is its count too high?",
                self.named(part)
            ),
        }
    }

    /// What stands here may belong to what ends before it.
    fn too_low(&self, before: usize) -> String {
        format!(
            "; {} ends just before: is its count too low?",
            self.named_at(before)
        )
    }

    /// The innermost part ends too early.
    fn missing<T>(&self, part: &Part) -> Result<T, Fault> {
        let named = self.named(self.holder().unwrap_or(part));
        let sentence = match (self.kind(part.at), part.read) {
            (PAIR, 0) => format!("{named} is missing"),
            (PAIR, _) => format!(
                "the second part of {} is missing: {named} ends before it",
                self.named_at(part.at)
            ),
            (RELATION, 0) => format!("{named} ends before its number of parameters"),
            (RELATION, 1) => format!("{named} ends before its number of variables"),
            (RELATION, _) => format!("{named} ends before its goal"),
            (EQUAL | DIFFER, 0) => format!("{named} needs two terms and has none"),
            (EQUAL | DIFFER, _) => format!("{named} needs two terms and has one"),
            (SYMBOLO | NUMBERO, _) => format!("{named} needs a term and has none"),
            (ABSENTO, 0) => format!("{named} needs a tag and a term and has neither"),
            (ABSENTO, _) => format!("{named} needs a tag and a term and has only the tag"),
            (CALL, _) => format!("{named} ends before the number of the relation called"),
            _ => format!("{named} needs one or more goals and has none"),
        };
        fault(3, self.at, sentence)
    }

    /// The innermost part has all that it needs, and words behind it.
    fn left_over<T>(&self, part: &Part) -> Result<T, Fault> {
        let word = self.words[self.at];
        let has = match self.kind(part.at) {
            RELATION => "its goal",
            EQUAL | DIFFER => "its two terms",
            ABSENTO => "its tag and its term",
            _ => "its term",
        };
        let suspect = match is_goal(self.kind(part.last)) && kind(word) != RELATION {
            true => self.too_low(part.last),
            false => ": is its count too high?".to_string(),
        };
        let sentence = format!(
            "{} ({}) is left over in {}, which has {has}{suspect}",
            show(word),
            with_article(kind(word)),
            self.named(part)
        );
        fault(3, self.at, sentence)
    }

    fn check_counts(&self) -> Result<(), Fault> {
        let parameters = count(self.words[self.at - 1]);
        let variables = count(self.words[self.at]);
        let sentence = if variables > MOST_VARIABLES {
            format!("it has {}", several(variables, "variable"))
        } else if parameters > variables {
            format!(
                "it has {} and {}; parameters are variables too",
                several(parameters, "parameter"),
                several(variables, "variable")
            )
        } else {
            return Ok(());
        };
        fault(4, self.at, sentence)
    }

    fn check_variable(&self) -> Result<(), Fault> {
        let variable = count(self.words[self.at]);
        let Some(relation) = self.parts.first() else {
            return Ok(());
        };
        let has = match count(self.words[relation.at + 2]) {
            variables if variable < variables => return Ok(()),
            0 => "none".to_string(),
            variables => format!("{variables}, numbered from 0"),
        };
        let sentence = format!(
            "variable {variable}, but {} has {has}",
            self.named(relation)
        );
        fault(5, self.at, sentence)
    }

    fn check_calls(&self) -> Result<(), Fault> {
        for call in &self.calls {
            let number = count(self.words[call.at + 1]);
            let Some(&relation) = self.relations.get(number) else {
                let there = match self.relations.len() {
                    1 => "is 1".to_string(),
                    relations => format!("are {relations}"),
                };
                let sentence =
                    format!("relation {number} is called, but there {there}, numbered from 0");
                return fault(7, call.at, sentence);
            };
            let parameters = count(self.words[relation + 1]);
            if call.arguments != parameters {
                let sentence = format!(
                    "relation {number} at {} takes {}, but {} given",
                    (self.place)(relation),
                    several(parameters, "argument"),
                    are(call.arguments)
                );
                return fault(8, call.at, sentence);
            }
        }
        Ok(())
    }

    /// The part by name, place and word; of a pair, the first part.
    fn named(&self, part: &Part) -> String {
        let of = match self.kind(part.at) {
            PAIR => "the first part of ",
            _ => "",
        };
        format!("{of}{}", self.named_at(part.at))
    }

    fn named_at(&self, at: usize) -> String {
        let word = self.words[at];
        format!(
            "the {} at {} ({})",
            name(kind(word)),
            (self.place)(at),
            show(word)
        )
    }
}

fn is_term(kind: u32) -> bool {
    kind <= PAIR
}

fn is_goal(kind: u32) -> bool {
    (EQUAL..=CALL).contains(&kind)
}

fn show(word: u32) -> String {
    words::show(&[word])
}

fn name(kind: u32) -> &'static str {
    match kind {
        VARIABLE => "variable",
        SYMBOL => "symbol",
        NUMBER => "number",
        EMPTY => "empty list",
        PAIR => "pair",
        EQUAL => "equality",
        DIFFER => "disequality",
        SYMBOLO => "symbolo",
        NUMBERO => "numbero",
        ABSENTO => "absento",
        CONJUNCTION => "conjunction",
        DISJUNCTION => "disjunction",
        CALL => "call",
        RELATION => "relation",
        ANSWER => "answer, in output only",
        _ => "kind that is not used",
    }
}

/// The name with its article.
fn with_article(kind: u32) -> String {
    let article = match kind {
        EMPTY | EQUAL | ABSENTO | ANSWER => "an",
        _ => "a",
    };
    format!("{article} {}", name(kind))
}

fn several(count: usize, what: &str) -> String {
    match count {
        0 => format!("no {what}s"),
        1 => format!("1 {what}"),
        _ => format!("{} {what}s", grouped(count)),
    }
}

fn are(count: usize) -> String {
    match count {
        0 => "none is".to_string(),
        1 => "1 is".to_string(),
        _ => format!("{} are", grouped(count)),
    }
}

/// With a comma before each three digits.
fn grouped(count: usize) -> String {
    match count {
        0..=999 => count.to_string(),
        _ => format!("{},{:03}", grouped(count / 1_000), count % 1_000),
    }
}

#[cfg(test)]
mod tests {
    use super::*;

    /// Of these words another refusal, or none, is the engine's to tell.
    #[test]
    fn only_the_refusal_of_the_words_is_explained() {
        let explained = |text: &str, number, place| {
            let words = words::parse(text).unwrap();
            explain(&words, Refusal { number, place }, |at| format!("word {at}"))
        };
        let text = "13:5 2:1 2:1 5:2 0:1 3:0";
        assert!(explained(text, 5, 4).is_some());
        assert_eq!(explained(text, 5, 5), None);
        assert_eq!(explained(text, 2, 4), None);
        assert_eq!(explained("13:5 2:1 2:1 5:2 0:0 3:0", 5, 4), None);
    }

    #[test]
    fn groups_of_digits() {
        let shown = [0, 12, 999, 1_000, 16_390, 268_435_455].map(grouped);
        let expected = ["0", "12", "999", "1,000", "16,390", "268,435,455"];
        assert_eq!(shown, expected);
    }
}
