//! Engines held to demand 3 on random programs, and that it finds the errors this trade has made and answers struck out wrongly.

mod programs;

use logic::demand::{End, Run, Seen, Subject};
use logic::syntax::show;
use reference::gen::{self, Rng};
use reference::run::SCRATCH_WORDS;
use reference::{repeats, run_with, Fault};

const PROGRAMS: usize = 10_000;
/// Runs have round limits up to this, and relations are looked at with as many calls.
const CALLS: u32 = 3;
/// Programs with more clauses are left out.
const CLAUSES: usize = 100;

/// A program and the limits of its runs, round limits aside.
struct Case {
    words: Vec<u32>,
    steps: u32,
    output: usize,
}

/// Holds an engine to demand 3 on all programs: what there was to see, or what is wrong with the first that fails.
fn check(engine: impl Fn(&Case, u32) -> Run) -> Result<Vec<Seen>, String> {
    let mut rng = Rng::new(20_240_701);
    let mut all = Vec::new();
    for number in 0..PROGRAMS {
        let case = Case {
            words: match number % 8 {
                0 | 4 => gen::program(&mut rng),
                1 => repeats::few(&mut rng),
                _ => programs::program(&mut rng, 3),
            },
            // Mostly enough; sometimes the run breaks off.
            steps: rng.pick(&[20, 60, 200, 20_000, 20_000, 20_000, 20_000]),
            output: rng.pick(&[10, 30, 10_000, 10_000, 10_000, 10_000, 10_000]),
        };
        // Of its own, so that the programs don't depend on the engine.
        let mut tuples = Rng::new(rng.number());
        let Some(subject) = Subject::new(&case.words, CALLS, CLAUSES) else {
            continue;
        };
        let run = |rounds| engine(&case, rounds);
        let seen = subject.check(run, &mut |bound| tuples.below(bound));
        all.push(seen.map_err(|wrong| format!("program number {number}: {wrong}"))?);
    }
    Ok(all)
}

/// Holds an engine to demand 3, and the programs to being worth it.
fn expect_right(name: &str, engine: impl Fn(&Case, u32) -> Run) {
    let all = check(engine).unwrap_or_else(|wrong| panic!("{name}, {wrong}"));
    let sum = |count: fn(&Seen) -> usize| all.iter().map(count).sum::<usize>();
    let (answers, tuples, given) = (sum(|s| s.answers), sum(|s| s.tuples), sum(|s| s.given));
    let not_again = sum(|s| s.not_again);
    println!(
        "{name}: {} programs, {answers} answers, {given} of {tuples} tuples given, {not_again} not shown again",
        all.len()
    );
    assert!(all.len() * 100 > PROGRAMS * 99);
    assert!(answers * 2 > PROGRAMS);
    assert!(given * 4 > tuples && given * 4 < tuples * 3);
    assert!(
        not_again * 200 > given,
        "repeats came only {not_again} times"
    );
    for end in [End::Finished, End::Rounds, End::BrokenOff] {
        let runs = all.iter().filter(|seen| seen.end == end).count();
        assert!(runs * 20 > PROGRAMS, "{end:?} came only {runs} times");
    }
}

fn reference(fault: Option<Fault>, case: &Case, rounds: u32) -> Run {
    let outcome = run_with(
        fault,
        &case.words,
        rounds,
        case.steps,
        case.output,
        SCRATCH_WORDS,
    );
    let outcome = outcome.unwrap_or_else(|refusal| panic!("{refusal:?}: {}", show(&case.words)));
    Run {
        end: match outcome.end {
            reference::End::Finished => End::Finished,
            reference::End::Rounds => End::Rounds,
            _ => End::BrokenOff,
        },
        round: outcome.round,
        words: outcome.words,
    }
}

fn library(case: &Case, rounds: u32) -> Run {
    let (mut output, mut scratch) = (vec![0; case.output], vec![0; SCRATCH_WORDS]);
    let report = kindcanvas::run(&case.words, rounds, case.steps, &mut output, &mut scratch);
    let report = report.unwrap_or_else(|refusal| panic!("{refusal}: {}", show(&case.words)));
    output.truncate(report.words);
    Run {
        end: match report.end {
            kindcanvas::Ending::Finished => End::Finished,
            kindcanvas::Ending::Rounds => End::Rounds,
            _ => End::BrokenOff,
        },
        round: report.round,
        words: output,
    }
}

#[test]
fn the_static_library() {
    expect_right("the static library", library);
}

#[test]
fn the_reference() {
    expect_right("the reference", |case, rounds| {
        reference(None, case, rounds)
    });
}

#[test]
fn each_fault_is_found() {
    let mut missed = Vec::new();
    for fault in Fault::OF_ANSWERS.into_iter().chain(Fault::STRIKING) {
        match check(|case, rounds| reference(Some(fault), case, rounds)) {
            Err(wrong) => println!("{fault:?}, {wrong}"),
            Ok(_) => missed.push(fault),
        }
    }
    assert!(missed.is_empty(), "not found: {missed:?}");
}
