//! Random pages with the number of an answer to view, and what they cover.

use crate::cases::{self, Case};
use crate::fault::PageFault;
use crate::gen::{part, Rng};
use crate::read::Refusal;
use crate::run::Outcome;
use crate::view::{view, view_with};
use crate::word::*;
use std::collections::BTreeSet;
use std::fmt;
use std::ops::Range;

/// What a view is given.
#[derive(Clone, Debug, PartialEq, Eq)]
pub struct PageCase {
    /// How the page was made.
    pub made: &'static str,
    pub page: Vec<u32>,
    pub answer: u32,
}

impl PageCase {
    pub fn view(&self) -> Result<Range<usize>, Refusal> {
        view(&self.page, self.answer)
    }

    /// The same with an error put in.
    pub fn view_with(&self, fault: PageFault) -> Result<Range<usize>, Refusal> {
        view_with(Some(fault), &self.page, self.answer)
    }
}

/// The number of the answer, and the page as text.
impl fmt::Display for PageCase {
    fn fmt(&self, f: &mut fmt::Formatter) -> fmt::Result {
        let words = show(&self.page);
        write!(f, "{}: answer {}\n{words}", self.made, self.answer)
    }
}

/// The places of the answers that the page begins with.
pub fn answers(page: &[u32]) -> Vec<Range<usize>> {
    let mut all = Vec::new();
    let mut at = 0;
    while let Ok(first) = view(&page[at..], 0) {
        let end = at + first.end;
        all.push(at..end);
        at = end;
    }
    all
}

/// The output as a run of the case leaves it: its answers, then zeros.
pub fn left_by_run(case: &Case, outcome: &Outcome) -> Vec<u32> {
    let mut page = outcome.words.clone();
    page.resize(case.output, 0);
    page
}

/// How pages are made.
const MADE: [&str; 15] = [
    "whole answers",
    "answers of no words",
    "zeros behind",
    "words behind",
    "header of another kind",
    "payload raised",
    "payload lowered",
    "cut short",
    "word inserted",
    "word lost",
    "random words",
    "no words",
    "left by a run",
    "many answers",
    "long answer",
];

pub fn page_case(rng: &mut Rng) -> PageCase {
    let (made, page) = match rng.below(200) {
        0..=33 => ("whole answers", whole(rng)),
        34..=41 => ("answers of no words", without_words(rng)),
        42..=58 => ("zeros behind", zeros_behind(rng)),
        59..=73 => ("words behind", words_behind(rng)),
        74..=95 => ("header of another kind", other_kind(rng)),
        96..=125 => ("payload raised", raised(rng)),
        126..=135 => ("payload lowered", lowered(rng)),
        136..=150 => ("cut short", cut_short(rng)),
        151..=160 => ("word inserted", inserted(rng)),
        161..=170 => ("word lost", lost(rng)),
        171..=180 => ("random words", random_words(rng)),
        181..=185 => ("no words", Vec::new()),
        186..=191 => ("left by a run", left_by_some_run(rng)),
        192..=194 => ("many answers", many(rng)),
        _ => ("long answer", long(rng)),
    };
    let answer = number(rng, answers(&page).len() as u32);
    PageCase { made, page, answer }
}

/// The number of an answer: of one that is there, or round about how many there are.
fn number(rng: &mut Rng, count: u32) -> u32 {
    let there = rng.below(count.max(1) as usize) as u32;
    match rng.below(12) {
        0..=3 => there,
        4..=6 => count.saturating_sub(1),
        7..=8 => count,
        9 => count + 1,
        10 => u32::MAX,
        // One that is there, had the number fewer bits.
        _ => there + rng.pick(&[1 << 8, 1 << 16, 1 << 31]),
    }
}

/// A word of any kind, often a header's, which mostly counts few words.
fn any_word(rng: &mut Rng) -> u32 {
    let kind = match rng.chance(40) {
        true => ANSWER,
        false => rng.below(16) as u32,
    };
    let payload = match rng.below(10) {
        0..=7 => rng.below(6),
        8 => rng.below(300),
        _ => rng.below(PAYLOADS as usize),
    };
    word(kind, payload as u32)
}

fn any_words(rng: &mut Rng, count: usize) -> Vec<u32> {
    (0..count).map(|_| any_word(rng)).collect()
}

/// So many answers, and nothing behind them.
fn some(rng: &mut Rng, count: usize) -> Vec<u32> {
    let mut page = Vec::new();
    for _ in 0..count {
        let inside = rng.pick(&[0, 0, 1, 1, 2, 3, 5, 9]);
        page.extend(part(ANSWER, any_words(rng, inside)));
    }
    page
}

fn whole(rng: &mut Rng) -> Vec<u32> {
    let count = rng.between(1, 6);
    some(rng, count)
}

fn without_words(rng: &mut Rng) -> Vec<u32> {
    vec![word(ANSWER, 0); rng.between(1, 9)]
}

fn zeros_behind(rng: &mut Rng) -> Vec<u32> {
    let count = rng.below(5);
    let mut page = some(rng, count);
    page.resize(page.len() + rng.between(1, 6), 0);
    page
}

fn words_behind(rng: &mut Rng) -> Vec<u32> {
    let (mut page, behind) = (whole(rng), rng.between(1, 4));
    page.extend(any_words(rng, behind));
    page
}

/// A page of whole answers in which the header of one is changed, given its payload and the words from it to the page's end.
fn with_header(rng: &mut Rng, change: fn(&mut Rng, u32, u32) -> u32) -> Vec<u32> {
    let mut page = whole(rng);
    let at = rng.pick(&answers(&page)).start;
    page[at] = change(rng, payload(page[at]), (page.len() - at) as u32);
    page
}

fn other_kind(rng: &mut Rng) -> Vec<u32> {
    with_header(rng, |rng, payload, _| {
        word(rng.below(ANSWER as usize) as u32, payload)
    })
}

/// One answer ends with the page, or overruns it by one word or more.
fn raised(rng: &mut Rng) -> Vec<u32> {
    with_header(rng, |rng, _, left| {
        let payload = match rng.below(6) {
            0 => left - 1,
            1..=2 => left,
            3 => left + rng.below(50) as u32,
            4 => rng.between(left as usize, PAYLOADS as usize - 1) as u32,
            _ => PAYLOADS - 1,
        };
        word(ANSWER, payload)
    })
}

fn lowered(rng: &mut Rng) -> Vec<u32> {
    with_header(rng, |rng, payload, _| {
        word(ANSWER, rng.below(payload.max(1) as usize) as u32)
    })
}

fn cut_short(rng: &mut Rng) -> Vec<u32> {
    let mut page = whole(rng);
    page.truncate(rng.below(page.len()));
    page
}

fn inserted(rng: &mut Rng) -> Vec<u32> {
    let mut page = whole(rng);
    page.insert(rng.between(0, page.len()), any_word(rng));
    page
}

fn lost(rng: &mut Rng) -> Vec<u32> {
    let mut page = whole(rng);
    page.remove(rng.below(page.len()));
    page
}

fn random_words(rng: &mut Rng) -> Vec<u32> {
    let count = rng.between(1, 8);
    any_words(rng, count)
}

/// The page of the first random case that is accepted.
fn left_by_some_run(rng: &mut Rng) -> Vec<u32> {
    loop {
        let case = cases::case(rng);
        if let Ok(outcome) = case.run() {
            return left_by_run(&case, &outcome);
        }
    }
}

/// As many answers as can just be numbered from 0 in 8 or in 16 bits, or a few more.
fn many(rng: &mut Rng) -> Vec<u32> {
    let numbers = rng.pick(&[1 << 8, 1 << 8, 1 << 8, 1 << 16]);
    vec![word(ANSWER, 0); numbers + rng.below(4)]
}

/// One answer has as many words as can just not, or just so, be counted in 8 or in 16 bits.
fn long(rng: &mut Rng) -> Vec<u32> {
    let numbers = rng.pick(&[1 << 8, 1 << 16]);
    let words = any_words(rng, 50).into_iter().cycle();
    let inside = words.take(numbers + rng.below(4) - 2).collect();
    let (before, behind) = (rng.below(3), rng.below(3));
    let page = [some(rng, before), part(ANSWER, inside)].concat();
    let behind = match rng.chance(50) {
        true => some(rng, behind),
        false => any_words(rng, behind),
    };
    [page, behind].concat()
}

/// How the walk of a case went.
struct Walked<'p> {
    answer: u32,
    passed: Vec<&'p [u32]>,
    /// The wanted answer, empty if the walk stopped before it had passed it.
    given: &'p [u32],
    /// The words behind it, or from where the walk stopped.
    left: &'p [u32],
}

impl Walked<'_> {
    fn of(case: &PageCase) -> Walked<'_> {
        let page = &case.page[..];
        let given = match case.view() {
            Ok(given) => given,
            Err(refusal) => refusal.place..refusal.place,
        };
        let passed = answers(&page[..given.start]).into_iter();
        Walked {
            answer: case.answer,
            passed: passed.map(|answer| &page[answer]).collect(),
            given: &page[given.clone()],
            left: &page[given.end..],
        }
    }
}

/// Why a walk stops.
#[derive(Clone, Copy, Debug, PartialEq, Eq)]
enum Stop {
    PageEnd,
    NoHeader,
    Overrun,
}

impl Stop {
    const ALL: [Stop; 3] = [Stop::PageEnd, Stop::NoHeader, Stop::Overrun];

    /// Why a walk would stop at these words; it need not.
    fn at(words: &[u32]) -> Option<Stop> {
        match words.first() {
            None => Some(Stop::PageEnd),
            Some(&first) if kind(first) != ANSWER => Some(Stop::NoHeader),
            Some(&first) if payload(first) as usize >= words.len() => Some(Stop::Overrun),
            Some(_) => None,
        }
    }
}

/// What may hold of a walk, with its name.
type Fact = (&'static str, fn(&Walked) -> bool);

/// Of a walk that passed the wanted answer.
const OF_GIVEN: [Fact; 15] = [
    ("at word 0", |walked| walked.passed.is_empty()),
    ("behind another", |walked| !walked.passed.is_empty()),
    ("of no words", |walked| walked.given.len() == 1),
    ("behind one of no words", no_words_passed),
    ("with a header's kind inside", |walked| {
        header_inside(walked.given)
    }),
    ("behind one with a header's kind inside", header_in_passed),
    ("up to the page's end", |walked| walked.left.is_empty()),
    ("with another behind it", |walked| {
        Stop::at(walked.left).is_none()
    }),
    ("with no header behind it", |walked| {
        Stop::at(walked.left) == Some(Stop::NoHeader)
    }),
    ("with an overrun behind it", |walked| {
        Stop::at(walked.left) == Some(Stop::Overrun)
    }),
    ("with zeros behind it", |walked| {
        !walked.left.is_empty() && walked.left.iter().all(|&word| word == 0)
    }),
    ("with a number over 255", |walked| walked.answer > 255),
    ("with a number over 65,535", |walked| walked.answer > 65_535),
    ("of over 65,535 words", |walked| walked.given.len() > 65_535),
    ("behind one of over 65,535 words", long_passed),
];

/// Of a walk that stopped before, whatever for.
const OF_STOP: [Fact; 8] = [
    ("at word 0", |walked| walked.passed.is_empty()),
    ("behind an answer", |walked| !walked.passed.is_empty()),
    ("behind one of no words", no_words_passed),
    ("behind one with a header's kind inside", header_in_passed),
    ("behind one of over 65,535 words", long_passed),
    ("at the wanted answer", |walked| {
        walked.passed.len() == walked.answer as usize
    }),
    ("before the wanted answer", |walked| {
        walked.passed.len() < walked.answer as usize
    }),
    ("before answer 4294967295", |walked| {
        walked.answer == u32::MAX
    }),
];

/// Of a walk that stopped at a header.
const OF_OVERRUN: [Fact; 4] = [
    ("by one word", |walked| overrun(walked) == 1),
    ("by several words", |walked| overrun(walked) > 1),
    ("by the largest payload", |walked| {
        payload(walked.left[0]) == PAYLOADS - 1
    }),
    ("at the last word", |walked| walked.left.len() == 1),
];

fn no_words_passed(walked: &Walked) -> bool {
    walked.passed.iter().any(|answer| answer.len() == 1)
}

fn long_passed(walked: &Walked) -> bool {
    walked.passed.iter().any(|answer| answer.len() > 65_535)
}

fn header_in_passed(walked: &Walked) -> bool {
    walked.passed.iter().any(|answer| header_inside(answer))
}

fn header_inside(answer: &[u32]) -> bool {
    answer[1..].iter().any(|&word| kind(word) == ANSWER)
}

/// How many words the page is short of.
fn overrun(walked: &Walked) -> usize {
    1 + payload(walked.left[0]) as usize - walked.left.len()
}

fn given(name: &str) -> String {
    format!("answer {name}")
}

fn stopped(stop: Stop, name: &str) -> String {
    format!("{stop:?} {name}")
}

fn no_header(kind: u32) -> String {
    format!("NoHeader, but kind {kind}")
}

fn told_apart(reading: PageFault) -> String {
    format!("view is another by {reading:?}")
}

/// All that random cases must cover.
pub fn wanted() -> Vec<String> {
    let mut all: Vec<String> = MADE.map(|made| format!("made: {made}")).to_vec();
    all.extend(OF_GIVEN.map(|(name, _)| given(name)));
    for stop in Stop::ALL {
        all.extend(OF_STOP.map(|(name, _)| stopped(stop, name)));
    }
    all.extend(OF_OVERRUN.map(|(name, _)| stopped(Stop::Overrun, name)));
    all.extend((VARIABLE..ANSWER).map(no_header));
    all.extend(PageFault::ALL.map(told_apart));
    all
}

/// What the case covers; each is said once.
pub fn covered(case: &PageCase) -> BTreeSet<String> {
    let walked = Walked::of(case);
    let holding = |facts: &'static [Fact]| {
        let holding = facts.iter().filter(|(_, holds)| holds(&walked));
        holding.map(|(name, _)| *name)
    };
    let mut all = BTreeSet::from([format!("made: {}", case.made)]);
    match Stop::at(walked.left) {
        Some(stop) if walked.given.is_empty() => {
            all.extend(holding(&OF_STOP).map(|name| stopped(stop, name)));
            match stop {
                Stop::PageEnd => (),
                Stop::NoHeader => {
                    all.insert(no_header(kind(walked.left[0])));
                }
                Stop::Overrun => all.extend(holding(&OF_OVERRUN).map(|name| stopped(stop, name))),
            }
        }
        _ => all.extend(holding(&OF_GIVEN).map(given)),
    }
    let result = case.view();
    let mut readings = PageFault::ALL.to_vec();
    readings.retain(|&reading| case.view_with(reading) != result);
    all.extend(readings.into_iter().map(told_apart));
    all
}
