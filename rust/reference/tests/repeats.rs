//! Note 2 of document 02, the same patient on several lines: what it claims holds of the reference, and other readings show.

mod readings;

use readings::{show_in_random_cases, show_in_the_table, Shown};
use reference::cases::{case, larger, Case};
use reference::gen::Rng;
use reference::pages::answers;
use reference::run::OUTPUT_WORDS;
use reference::{End, Fault, Outcome};

const SHOWN: [Shown; 12] = [
    (
        Fault::RepeatsWritten,
        "a repeat that just fits",
        "end finished round 0 steps 5 answers 2 cut 0 | 15:0 | 15:0",
    ),
    (
        Fault::ComparedBeforeFull,
        "a repeat that no longer fits",
        "end finished round 0 steps 5 answers 1 cut 0 | 15:0",
    ),
    (
        Fault::ComparedInRound,
        "C",
        "end rounds round 2 steps 20 answers 2 cut 1 | 15:1 2:5 | 15:1 2:5",
    ),
    (
        Fault::ComparedWithLast,
        "two routes, another answer between",
        "end finished round 0 steps 13 answers 3 cut 0 | 15:1 1:7 | 15:1 1:8 | 15:1 1:7",
    ),
    (
        Fault::EarlierStruck,
        "two routes, another answer between",
        "end finished round 0 steps 13 answers 2 cut 0 | 15:1 1:8 | 15:1 1:7",
    ),
    (
        Fault::RepeatTakesStep,
        "a repeat with the last step",
        "end steps round 0 steps 5 answers 1 cut 0 | 15:0",
    ),
    (
        Fault::RepeatCounted,
        "a repeat that just fits",
        "end finished round 0 steps 5 answers 2 cut 0 | 15:0",
    ),
    (
        Fault::RepeatTakesRoom,
        "a repeat takes no room",
        "end output round 0 steps 13 answers 1 cut 0 | 15:1 1:7",
    ),
    (
        Fault::ComparedByTerms,
        "other constraints, and none",
        "end finished round 0 steps 28 answers 1 cut 0 | 15:4 0:0 6:2 0:0 2:5",
    ),
    (
        Fault::ComparedInAnyOrder,
        "the same words in another order",
        "end finished round 0 steps 19 answers 1 cut 0 | 15:2 1:7 1:8",
    ),
    (
        Fault::ComparedButLastWord,
        "other constraints, and none",
        "end finished round 0 steps 28 answers 2 cut 0 | 15:4 0:0 6:2 0:0 2:5 | 15:1 0:0",
    ),
    (
        Fault::FinishedWithRepeats,
        "C",
        "end finished round 2 steps 20 answers 1 cut 1 | 15:1 2:5",
    ),
];

#[test]
fn other_readings_show_in_the_table() {
    show_in_the_table(&Fault::OF_REPEATS, &SHOWN);
}

#[test]
fn other_readings_show_in_random_cases() {
    show_in_random_cases(&Fault::OF_REPEATS, 15, 4_000);
}

/// The answers of a run, each with its round.
fn with_rounds(outcome: &Outcome) -> Vec<(u32, &[u32])> {
    let parts = answers(&outcome.words).into_iter();
    let parts = parts.map(|place| &outcome.words[place]);
    outcome.answer_rounds.iter().copied().zip(parts).collect()
}

/// "The expected order is that of the old run with the same limits and endless output, later repeats struck out, as far as this run
/// gets": to the first answer of the old run, be it a repeat or not, that does not fit, or else to the old run's end.
#[test]
fn later_repeats_are_struck_out() {
    let mut rng = Rng::new(16);
    let (mut struck, mut full, mut full_by_repeat) = (0, 0, 0);
    for at in 0..8_000 {
        let case = match at % 16 {
            0 => larger(&mut rng),
            _ => case(&mut rng),
        };
        let Ok(now) = case.run() else {
            continue;
        };
        let endless = Case {
            output: OUTPUT_WORDS,
            ..case.clone()
        };
        let old = endless.run_with(Some(Fault::RepeatsWritten));
        let old = old.expect("the same program");
        let mut kept: Vec<(u32, &[u32])> = Vec::new();
        let mut used = 0;
        let mut not_fitting = None;
        for (number, (round, answer)) in with_rounds(&old).into_iter().enumerate() {
            let repeat = kept.iter().any(|(_, earlier)| *earlier == answer);
            if used + answer.len() > case.output {
                not_fitting = Some(number);
                full += 1;
                full_by_repeat += repeat as usize;
                break;
            }
            if repeat {
                struck += 1;
            } else {
                used += answer.len();
                kept.push((round, answer));
            }
        }
        assert_eq!(with_rounds(&now), kept, "{case}");
        assert_eq!((now.answers, now.words.len()), (kept.len(), used), "{case}");
        let ended = (now.end, now.round, now.steps, now.cut);
        let expected = match not_fitting {
            None => (old.end, old.round, old.steps, old.cut),
            Some(number) => {
                let given = &old.trace.given[number];
                let before = given.round.checked_sub(1);
                let cut = before.map_or(0, |round| old.trace.cuts[round as usize]);
                (End::Output, given.round, given.steps, cut)
            }
        };
        assert_eq!(ended, expected, "{case}");
    }
    println!(
        "{struck} repeats, {full} runs with output full, {full_by_repeat} of them by a repeat"
    );
    assert!(struck >= 5_000 && full >= 500 && full_by_repeat >= 50);
}
