//! What is said of a refused program beside the condition's sentence.

use kindcanvas::words::{self, show};
use kindcanvas::{check, ParseError, Program};
use reference::gen::{self, Rng};
use std::collections::BTreeMap;

/// Number, place and detail of the refusal.
fn refused(words: Vec<u32>) -> (u32, usize, String) {
    let error = Program::new(words).unwrap_err();
    let detail = error.detail.unwrap_or_default();
    (error.refusal.number, error.refusal.place, detail)
}

/// Number and place, words, and what is said.
const CASES: &[(u32, usize, &str, &str)] = &[
    (1, 0, "", "there are none"),
    // A wrong kind: nothing before it, behind something too short, inside something too long, or else.
    (
        2,
        0,
        "5:0",
        "5:0 (an equality) stands where a relation must",
    ),
    (
        2,
        6,
        "13:5 2:0 2:0 5:2 3:0 3:0 3:0",
        "3:0 (an empty list) stands where a relation must; the relation at word 0 (13:5) ends just before: is its \
         count too low?",
    ),
    (
        2,
        1,
        "13:5 1:0 2:0 5:2 3:0 3:0",
        "1:0 (a symbol) stands where the number of parameters must, in the relation at word 0 (13:5)",
    ),
    (
        2,
        2,
        "13:5 2:0 0:0 5:2 3:0 3:0",
        "0:0 (a variable) stands where the number of variables must, in the relation at word 0 (13:5)",
    ),
    (
        2,
        3,
        "13:5 2:0 2:0 4:1 3:0 3:0",
        "4:1 (a pair) stands where a goal must, in the relation at word 0 (13:5)",
    ),
    (
        2,
        3,
        "13:3 2:0 2:0 14:0",
        "14:0 (a kind that is not used) stands where a goal must",
    ),
    (
        2,
        4,
        "13:5 2:0 2:0 7:2 15:1 3:0",
        "15:1 (an answer, in output only) stands where a term must",
    ),
    (
        2,
        4,
        "13:5 2:0 2:0 9:2 3:0 3:0",
        "3:0 (an empty list) stands where the tag, a symbol or a number, must, in the absento at word 3 (9:2)",
    ),
    (
        2,
        4,
        "13:5 2:0 2:0 9:2 0:9 3:0",
        "0:9 (a variable) stands where the tag, a symbol or a number, must, in the absento at word 3 (9:2)",
    ),
    (
        2,
        4,
        "13:6 2:0 2:0 9:3 4:1 1:7 3:0",
        "4:1 (a pair) stands where the tag, a symbol or a number, must, in the absento at word 3 (9:3)",
    ),
    (
        2,
        4,
        "13:4 2:0 2:0 12:1 1:0",
        "1:0 (a symbol) stands where the number of a relation must, in the call at word 3 (12:1)",
    ),
    (
        2,
        6,
        "13:6 2:0 2:0 10:3 7:1 1:0 1:1",
        "1:1 (a symbol) stands where a goal must; the symbolo at word 4 (7:1) ends just before: is its count too low?",
    ),
    (
        2,
        7,
        "13:11 2:0 2:0 10:8 5:2 3:0 3:0 13:4 2:0 2:0 7:1 1:0",
        "13:4 (a relation) stands where a goal must; the conjunction at word 3 (10:8) and the relation at word 0 (13:11) \
         reach up to here: are their counts too high?",
    ),
    (
        2,
        6,
        "13:8 2:0 2:0 10:5 12:4 2:0 7:1 1:0 1:0",
        "7:1 (a symbolo) stands where a term must; the call at word 4 (12:4) reaches up to here: is its count too high?",
    ),
    (
        2,
        6,
        "13:8 2:0 2:0 10:5 5:4 3:0 6:2 3:0 3:0",
        "6:2 (a disequality) stands where a term must, in the equality at word 4 (5:4)",
    ),
    (
        2,
        6,
        "13:6 2:0 2:0 8:3 4:1 3:0 8:0",
        "8:0 (a numbero) stands where a term must, in the numbero at word 3 (8:3)",
    ),
    (
        2,
        5,
        "13:6 2:0 2:0 8:3 4:1 11:0 3:0",
        "11:0 (a disjunction) stands where a term must, in the first part of the pair at word 4 (4:1)",
    ),
    // Overruns.
    (
        3,
        0,
        "13:6 2:0 2:0 5:2 3:0 3:0",
        "13:6 says that 6 words follow, but 5 are left",
    ),
    (3, 0, "13:1", "13:1 says that 1 word follows, but none is left"),
    (
        3,
        3,
        "13:5 2:0 2:0 5:268435455 3:0 3:0",
        "5:268435455 says that 268,435,455 words follow, but 2 are left in the relation at word 0 (13:5)",
    ),
    (
        3,
        5,
        "13:6 2:0 2:0 5:3 3:0 4:2 3:0",
        "4:2 says that its first part takes 2 words, but 1 is left in the equality at word 3 (5:3)",
    ),
    (
        3,
        5,
        "13:7 2:0 2:0 7:4 4:2 4:3 3:0 3:0",
        "4:3 says that its first part takes 3 words, but 1 is left in the first part of the pair at word 4 (4:2)",
    ),
    // Missing parts.
    (
        3,
        1,
        "13:0",
        "the relation at word 0 (13:0) ends before its number of parameters",
    ),
    (
        3,
        2,
        "13:1 2:0 2:0",
        "the relation at word 0 (13:1) ends before its number of variables",
    ),
    (
        3,
        3,
        "13:2 2:0 2:0 5:2 3:0 3:0",
        "the relation at word 0 (13:2) ends before its goal",
    ),
    (
        3,
        4,
        "13:3 2:0 2:0 6:0",
        "the disequality at word 3 (6:0) needs two terms and has none",
    ),
    (
        3,
        5,
        "13:5 2:0 2:0 5:1 3:0 3:0",
        "the equality at word 3 (5:1) needs two terms and has one",
    ),
    (
        3,
        4,
        "13:3 2:0 2:0 7:0",
        "the symbolo at word 3 (7:0) needs a term and has none",
    ),
    (
        3,
        4,
        "13:3 2:0 2:0 9:0",
        "the absento at word 3 (9:0) needs a tag and a term and has neither",
    ),
    (
        3,
        5,
        "13:4 2:0 2:0 9:1 1:7",
        "the absento at word 3 (9:1) needs a tag and a term and has only the tag",
    ),
    (
        3,
        4,
        "13:3 2:0 2:0 11:0",
        "the disjunction at word 3 (11:0) needs one or more goals and has none",
    ),
    (
        3,
        4,
        "13:3 2:0 2:0 12:0",
        "the call at word 3 (12:0) ends before the number of the relation called",
    ),
    (
        3,
        5,
        "13:5 2:0 2:0 7:2 4:0 3:0",
        "the first part of the pair at word 4 (4:0) is missing",
    ),
    (
        3,
        6,
        "13:5 2:0 2:0 7:2 4:1 3:0",
        "the second part of the pair at word 4 (4:1) is missing: the symbolo at word 3 (7:2) ends before it",
    ),
    (
        3,
        7,
        "13:7 2:0 2:0 7:4 4:2 4:1 3:0 3:0",
        "the second part of the pair at word 5 (4:1) is missing: the first part of the pair at word 4 (4:2) ends \
         before it",
    ),
    // Words left over.
    (
        3,
        6,
        "13:8 2:0 2:0 5:2 3:0 3:0 5:2 3:0 3:0",
        "5:2 (an equality) is left over in the relation at word 0 (13:8), which has its goal; the equality at word 3 (5:2) \
         ends just before: is its count too low?",
    ),
    (
        3,
        6,
        "13:6 2:0 2:0 5:2 3:0 3:0 13:4 2:0 2:0 7:1 1:0",
        "13:4 (a relation) is left over in the relation at word 0 (13:6), which has its goal: is its count too high?",
    ),
    (
        3,
        6,
        "13:6 2:0 2:0 5:3 3:0 3:0 0:9",
        "0:9 (a variable) is left over in the equality at word 3 (5:3), which has its two terms: is its count too high?",
    ),
    (
        3,
        5,
        "13:5 2:0 2:0 8:2 2:0 14:0",
        "14:0 (a kind that is not used) is left over in the numbero at word 3 (8:2), which has its term: is its count too high?",
    ),
    (
        3,
        6,
        "13:6 2:0 2:0 9:3 1:7 3:0 3:0",
        "3:0 (an empty list) is left over in the absento at word 3 (9:3), which has its tag and its term: is its count too high?",
    ),
    (
        3,
        6,
        "13:7 2:0 2:0 7:4 4:2 3:0 1:7 3:0",
        "1:7 (a symbol) is left over in the first part of the pair at word 4 (4:2), which has its term: is its count too high?",
    ),
    (
        3,
        4,
        "13:5 2:0 2:0 5:2 3:5 3:0",
        "3:5 is the empty list, which is 3:0",
    ),
    // Counts of variables.
    (4, 2, "13:5 2:0 2:1000 5:2 3:0 3:0", "it has 1,000 variables"),
    (
        4,
        2,
        "13:5 2:2 2:1 5:2 0:0 3:0",
        "it has 2 parameters and 1 variable; parameters are variables too",
    ),
    (
        4,
        2,
        "13:5 2:1 2:0 5:2 3:0 3:0",
        "it has 1 parameter and no variables; parameters are variables too",
    ),
    (
        5,
        10,
        "13:5 2:0 2:9 5:2 3:0 3:0 13:5 2:1 2:3 5:2 0:4 3:0",
        "variable 4, but the relation at word 6 (13:5) has 3, numbered from 0",
    ),
    (
        5,
        4,
        "13:5 2:0 2:0 5:2 0:0 3:0",
        "variable 0, but the relation at word 0 (13:5) has none",
    ),
    // Calls.
    (
        7,
        3,
        "13:4 2:0 2:0 12:1 2:1",
        "relation 1 is called, but there is 1, numbered from 0",
    ),
    (
        7,
        3,
        "13:4 2:0 2:0 12:1 2:7 13:4 2:0 2:0 12:1 2:0",
        "relation 7 is called, but there are 2, numbered from 0",
    ),
    (
        8,
        3,
        "13:7 2:0 2:0 12:4 2:1 3:0 3:0 3:0 13:5 2:2 2:2 5:2 3:0 3:0",
        "relation 1 at word 8 takes 2 arguments, but 3 are given",
    ),
    (
        8,
        3,
        "13:7 2:0 2:0 12:4 2:0 4:1 3:0 3:0",
        "relation 0 at word 0 takes no arguments, but 1 is given",
    ),
    (
        8,
        4,
        "13:8 2:1 2:1 10:5 12:1 2:0 12:2 2:0 0:0",
        "relation 0 at word 0 takes 1 argument, but none is given",
    ),
];

#[test]
fn each_case_is_told() {
    for &(number, place, text, detail) in CASES {
        let words = words::parse(text).unwrap();
        let expected = (number, place, detail.to_string());
        assert_eq!(refused(words), expected, "{text}");
    }
}

#[test]
fn the_bounds_of_a_program() {
    let expected = (1, 0, "there are 16,390".to_string());
    assert_eq!(refused(vec![0; 16_390]), expected);
    let relation = words::parse("13:5 2:0 2:0 5:2 3:0 3:0").unwrap();
    let detail = "relations are numbered from 0, so it would be relation 256";
    let expected = (6, 1_536, detail.to_string());
    assert_eq!(refused(relation.repeat(257)), expected);
}

/// Shown, it stands behind the condition's sentence; with lines and columns if it is from a text.
#[test]
fn shown_behind_the_sentence() {
    let text = "13:7 2:0 2:0  # too few\n\n  12:4 2:1 3:0 3:0 3:0\n13:5 2:2 2:2\n  5:2 3:0 3:0";
    let sentence =
        "the call at word 3 has another number of arguments than its relation has parameters";
    let error = Program::new(words::parse(text).unwrap()).unwrap_err();
    assert_eq!(
        error.to_string(),
        format!("{sentence}: relation 1 at word 8 takes 2 arguments, but 3 are given")
    );
    let error = text.parse::<Program>().unwrap_err();
    assert_eq!(
        error.to_string(),
        format!(
            "refused 8 at 3: {sentence} (line 3, column 3): relation 1 at line 4, column 1 takes 2 arguments, \
             but 3 are given"
        )
    );
}

/// A phrase of each case, with its condition's number.
const PHRASES: [(u32, &str); 26] = [
    (1, "there are none"),
    (1, "there are 16,"),
    (2, "must"),
    (2, "must, in "),
    (2, "is its count too low?"),
    (2, "is its count too high?"),
    (2, "are their counts too high?"),
    (3, " follow"),
    (3, "its first part takes"),
    (3, "ends before its number of parameters"),
    (3, "ends before its number of variables"),
    (3, "ends before its goal"),
    (3, "ends before the number of the relation called"),
    (3, "needs two terms"),
    (3, "needs a term"),
    (3, "needs a tag and a term"),
    (3, "needs one or more goals"),
    (3, ") is missing"),
    (3, "is left over"),
    (3, "is the empty list"),
    (4, "parameters are variables too"),
    (4, "variables"),
    (5, "variable "),
    (6, "it would be relation 256"),
    (7, "is called"),
    (8, "given"),
];

/// Whatever the words, a refusal is explained, by a sentence of its condition.
#[test]
fn every_refusal_is_explained() {
    let mut rng = Rng::new(20_240_630);
    let mut counts = BTreeMap::new();
    for case in 0..20_000 {
        let words = match case % 10 {
            0..=5 => gen::damaged(&mut rng),
            6..=8 => gen::random_words(&mut rng),
            _ => (0..rng.below(20)).map(|_| rng.number() as u32).collect(),
        };
        let Err(refusal) = check(&words) else {
            continue;
        };
        let error = Program::new(words.clone()).unwrap_err();
        assert_eq!(error.refusal, refusal);
        let detail = error.detail.unwrap_or_default();
        let phrases = PHRASES
            .iter()
            .filter(|(number, phrase)| *number == refusal.number && detail.contains(phrase));
        let mut found = false;
        for phrase in phrases {
            *counts.entry(*phrase).or_insert(0) += 1;
            found = true;
        }
        assert!(found, "{refusal:?}: {detail:?}\n{}", show(&words));
        let read = show(&words).parse::<Program>();
        let Err(ParseError::Refused {
            detail: Some(_), ..
        }) = read
        else {
            panic!("{read:?}\n{}", show(&words));
        };
    }
    for phrase in PHRASES {
        let count = counts.get(&phrase).copied().unwrap_or(0);
        assert!(count >= 5, "{phrase:?} came only {count} times");
    }
}

/// Deep programs too, whose parts are kept without recursion.
#[test]
fn deep_programs_are_explained() {
    let mut words = gen::nested_goals(16_378, [10, 11]);
    words[16_383] = 7;
    let (number, place, detail) = refused(words);
    assert_eq!((number, place), (5, 16_383));
    assert_eq!(
        detail,
        "variable 7, but the relation at word 0 (13:16383) has none"
    );
    let mut words = gen::list(8_000);
    let last = words.len() - 1;
    words[last] = 3 << 28 | 1;
    let (number, place, detail) = refused(words);
    assert_eq!((number, place), (3, last));
    assert_eq!(detail, "3:1 is the empty list, which is 3:0");
}
