//! Conditions 1 to 8, and the way back from a program to its words.

use reference::gen;
use reference::table::refusals;
use reference::word::{show, word};
use reference::{read, written};

#[test]
fn table_of_refusals() {
    let rows = refusals();
    for row in &rows {
        let result = read(&row.words).map(|_| ());
        assert_eq!(result, row.expected, "refusals.txt line {}", row.line);
    }
    // The eight rows of document 01 and at least forty more.
    assert!(rows.len() >= 48);
    for number in 1..=8 {
        assert!(rows
            .iter()
            .any(|row| matches!(row.expected, Err(refusal) if refusal.number == number)));
    }
}

#[test]
fn accepted_programs_are_written_as_they_were() {
    for row in refusals() {
        if let Ok(program) = read(&row.words) {
            assert!(
                written(&program) == row.words,
                "refusals.txt line {}",
                row.line
            );
        }
    }
}

/// The depth of a program may be anything up to its length: neither reading nor dropping may need a stack
/// that grows with it. (A test's thread has 2 MiB.)
#[test]
fn deep_programs() {
    for words in [
        gen::nested_goals(16_378, [10, 10]),
        gen::nested_goals(16_378, [10, 11]),
        gen::first_parts(8_189),
    ] {
        let program = read(&words).unwrap_or_else(|refusal| panic!("{refusal:?}"));
        assert!(written(&program) == words);
        let cut_short = &words[..words.len() - 1];
        assert_eq!(read(cut_short).map(|_| ()).unwrap_err().place, 0);
        let mut damaged = words.clone();
        *damaged.last_mut().unwrap() = word(14, 0);
        let refusal = read(&damaged).map(|_| ()).unwrap_err();
        assert_eq!((refusal.number, refusal.place), (2, words.len() - 1));
        assert!(show(&words).starts_with("13:"));
    }
}
