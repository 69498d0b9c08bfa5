//! The occurs check by Note 10 of document 02: what it claims holds of the reference, and other readings show.

mod readings;

use readings::{show_in_random_cases, show_in_the_table, Shown};
use reference::cases::{case, Case};
use reference::gen::Rng;
use reference::shared;
use reference::{largest_term, read, End, Fault};

const SHOWN: [Shown; 8] = [
    (
        Fault::EnteredAgain,
        "one variable twice",
        "end finished round 0 steps 15 answers 1 cut 0 | 15:0",
    ),
    (
        Fault::EnteredAgainInTrials,
        "one variable twice, on trial",
        "end finished round 0 steps 31 answers 1 cut 0 | 15:0",
    ),
    (
        Fault::AbsenceEntersOnce,
        "one variable twice in an absence",
        "end finished round 0 steps 20 answers 1 cut 0 | 15:0",
    ),
    (
        Fault::FirstVariableMarked,
        "one variable for two parameters",
        "end finished round 1 steps 23 answers 1 cut 0 | 15:0",
    ),
    (
        Fault::ValueMarked,
        "one value under two variables",
        "end finished round 0 steps 18 answers 1 cut 0 | 15:0",
    ),
    (
        Fault::MarksKept,
        "one variable for two checks",
        "end finished round 0 steps 18 answers 1 cut 0 | 15:0",
    ),
    (
        Fault::SecondArrivalFree,
        "one variable twice",
        "end finished round 0 steps 12 answers 1 cut 0 | 15:0",
    ),
    (
        Fault::SecondArrivalBounded,
        "512 nodes wait at a variable met twice",
        "end path 5 round 0 steps 524 answers 0 cut 0",
    ),
];

#[test]
fn other_readings_show_in_the_table() {
    show_in_the_table(&Fault::OF_CHECKS, &SHOWN);
}

#[test]
fn other_readings_show_in_random_cases() {
    show_in_random_cases(&Fault::OF_CHECKS, 12, 10_000);
}

/// "Then one check looks at no more than T times (v + 1) nodes, T being the words of the program's largest term and v the bound
/// variables of the path, a trial's own among them."
#[test]
fn nodes_of_one_check() {
    let within = |case: &Case, fault| {
        let Ok(outcome) = case.run_with(fault) else {
            return true;
        };
        let program = read(&case.words).expect("it was run");
        let largest = largest_term(&program);
        let mut checks = outcome.trace.checks.iter();
        checks.all(|(bound, &nodes)| nodes as usize <= largest * (bound + 1))
    };
    let mut rng = Rng::new(13);
    let mut more_before = 0;
    for at in 0..10_000 {
        let case = match at % 20 {
            0 => Case {
                steps: 20_000,
                ..Case::new("doubled", shared::doubled(&mut rng, 1 + at / 100))
            },
            _ => case(&mut rng),
        };
        assert!(within(&case, None), "{case}");
        more_before += !within(&case, Some(Fault::EnteredAgain)) as usize;
    }
    println!("{more_before} runs had more before");
    assert!(more_before >= 5);
}

/// "Success and failure are as before": where all checks came to an end, only the steps are other, and no more.
#[test]
fn success_and_failure_are_as_before() {
    let mut rng = Rng::new(14);
    let (mut fewer, mut failed) = (0, 0);
    for _ in 0..5_000 {
        let case = Case {
            rounds: 3,
            ..Case::new("shared parts", shared::parts(&mut rng))
        };
        let before = case.run_with(Some(Fault::EnteredAgain)).expect("accepted");
        let now = case.run().expect("accepted");
        assert!(!matches!(before.end, End::Steps | End::Path(_)), "{case}");
        assert!(now.steps <= before.steps, "{case}");
        let mut told = now.told();
        fewer += (now.steps < before.steps) as usize;
        failed += (now.answers == 0) as usize;
        told.steps = before.steps;
        assert_eq!(told, before.told(), "{case}");
    }
    println!("{fewer} runs with fewer steps, {failed} with no answer");
    assert!(fewer >= 1_000 && failed >= 100);
}
