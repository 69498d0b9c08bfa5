//! The static library's runs against the reference: the whole result, and every word that is lent.
//!
//! The gate compares 100,000 random cases from a fixed seed. A longer run, from another seed each time, which it prints:
//!
//!     cargo test --offline --release -p kindcanvas --test runs -- --ignored --nocapture
//!
//! KINDCANVAS_CASES sets how many (a million if it is not set), and KINDCANVAS_SEED where to begin. Each case has a seed of its own, so
//! KINDCANVAS_CASES=1 with the seed that a failure names runs that case alone.

mod seeds;

use kindcanvas::{Bound, Ending, Refusal, Report};
use reference::cases::{self, Case};
use reference::coverage::{covered, wanted};
use reference::gen::{self, Rng};
use reference::repeats::all_again;
use reference::run::leave_scratch;
use reference::shrink::shrink;
use reference::table;
use reference::trace::Event;
use reference::word::{show, ABSENTO};
use reference::{Fault, Outcome};
use seeds::Comparison;
use std::collections::BTreeSet;
use std::thread;

type Expected = Result<Outcome, reference::Refusal>;

/// Lent words, in the middle of more, all of them rubbish.
struct Lent {
    all: Vec<u32>,
    from: usize,
    len: usize,
}

impl Lent {
    fn new(rng: &mut Rng, len: usize) -> Lent {
        let from = rng.below(8);
        let behind = rng.below(8);
        let all = (0..from + len + behind).map(|_| rng.number() as u32);
        Lent {
            all: all.collect(),
            from,
            len,
        }
    }

    fn part(&mut self) -> &mut [u32] {
        &mut self.all[self.from..self.from + self.len]
    }

    /// All of it, once the lent part is changed so.
    fn with(&self, change: impl Fn(&mut [u32])) -> Vec<u32> {
        let mut all = self.all.clone();
        change(&mut all[self.from..self.from + self.len]);
        all
    }
}

/// What the reference says, in the wrapper's types.
fn report(outcome: &Outcome) -> Report {
    Report {
        end: match outcome.end {
            reference::End::Finished => Ending::Finished,
            reference::End::Rounds => Ending::Rounds,
            reference::End::Steps => Ending::Steps,
            reference::End::Output => Ending::Output,
            reference::End::Path(bound) => Ending::Path(Bound::ALL[bound as usize - 1]),
        },
        round: outcome.round,
        steps: outcome.steps,
        answers: outcome.answers as u32,
        words: outcome.words.len(),
        cut: outcome.cut,
    }
}

/// Runs the case by the library, on lent words that are rubbish from a seed, and says what differs from the result expected.
fn difference(case: &Case, seed: u64, expected: &Expected) -> Option<String> {
    let mut rng = Rng::new(seed);
    let mut scratch = Lent::new(&mut rng, case.scratch);
    let mut output = Lent::new(&mut rng, case.output);
    let (expected, page, cleared) = match expected {
        Ok(outcome) => (
            Ok(report(outcome)),
            output.with(|part| {
                part.fill(0);
                part[..outcome.words.len()].copy_from_slice(&outcome.words);
            }),
            scratch.with(leave_scratch),
        ),
        Err(refusal) => (
            Err(Refusal {
                number: refusal.number,
                place: refusal.place,
            }),
            output.all.clone(),
            scratch.all.clone(),
        ),
    };
    let result = kindcanvas::run(
        &case.words,
        case.rounds,
        case.steps,
        output.part(),
        scratch.part(),
    );
    if result != expected {
        return Some(format!("{result:?}, expected {expected:?}"));
    }
    if output.all != page {
        let (found, wanted) = (show(&output.all), show(&page));
        return Some(format!("output and around it {found}, expected {wanted}"));
    }
    (scratch.all != cleared).then(|| "scratch or around it".to_string())
}

/// Compares the case with what `reference` says of it, and gives that. If they differ, what is told of it, and a smaller case.
fn compare_with(
    case: &Case,
    seed: u64,
    reference: impl Fn(&Case) -> Expected,
) -> Result<Expected, (String, Case)> {
    let expected = reference(case);
    let Some(found) = difference(case, seed, &expected) else {
        return Ok(expected);
    };
    let differs = |case: &Case| difference(case, seed, &reference(case));
    let small = shrink(case.clone(), |case| differs(case).is_some());
    let left = differs(&small).expect("it still differs");
    let told = format!("{found}\n{case}\n\nsmaller: {left}\n{small}");
    Err((told, small))
}

fn compare(case: &Case, seed: u64, name: &str) {
    if let Err((told, _)) = compare_with(case, seed, Case::run) {
        panic!("{name}: {told}");
    }
}

fn random_case(seed: u64) -> Case {
    let mut rng = Rng::new(seed);
    match rng.below(10) {
        0 => cases::larger(&mut rng),
        _ => cases::case(&mut rng),
    }
}

/// Compares the case of a seed, and says what it covers.
fn compare_seed(seed: u64) -> BTreeSet<String> {
    let case = random_case(seed);
    let expected = compare_with(&case, seed, Case::run)
        .unwrap_or_else(|(told, _)| panic!("seed {seed}: {told}"));
    covered(&case, &expected)
}

const COMPARISON: Comparison = Comparison {
    gate_cases: 100_000,
    wanted,
    compare: compare_seed,
};

#[test]
fn random_programs_of_the_gate() {
    COMPARISON.of_the_gate(20_240_612);
}

#[test]
#[ignore = "takes minutes; see the head of this file"]
fn more_random_programs() {
    COMPARISON.longer(1_000_000);
}

/// The reference with an error in what it says of a run.
fn wrong(change: impl Fn(&mut Outcome)) -> impl Fn(&Case) -> Expected {
    move |case| {
        case.run().map(|mut outcome| {
            change(&mut outcome);
            outcome
        })
    }
}

/// References with an error, to see that it is found and made small.
#[test]
fn differences_are_found_and_made_small() {
    // A step too many where an absence fails after an equality.
    let late_absence = wrong(|outcome| {
        let failed = Event::FailedLater(ABSENTO);
        outcome.steps += outcome.trace.events.contains(&failed) as u32;
    });
    // Only the first answer is counted.
    let no_second_answer = wrong(|outcome| outcome.answers = outcome.answers.min(1));
    // The cuts of the last round begun, be it completed or broken off.
    let cuts_when_broken = wrong(|outcome| {
        outcome.cut = *outcome.trace.cuts.last().expect("a round was begun");
    });
    // The cuts of all completed rounds.
    let cuts_added_up = wrong(|outcome| outcome.cut = outcome.completed_cuts().iter().sum());
    // No cuts once the rounds are used up.
    let no_cut_told = wrong(|outcome| {
        if outcome.end == reference::End::Rounds {
            outcome.cut = 0;
        }
    });
    // Condition 3 at the next word.
    let misplaced = |case: &Case| {
        case.run().map_err(|refusal| reference::Refusal {
            place: refusal.place + (refusal.number == 3) as usize,
            ..refusal
        })
    };
    // Each with as many words as suffice for it to show, and the most that a case may keep: no change unfolds a call or takes
    // a parameter away, so a run that shows it only after a call, or in a call with arguments, stays longer. Of refused words
    // any are cut.
    made_small("late absence", late_absence, 10, 30);
    made_small("no second answer", no_second_answer, 10, 20);
    made_small("cuts when broken", cuts_when_broken, 8, 20);
    made_small("cuts added up", cuts_added_up, 8, 20);
    made_small("no cut told", no_cut_told, 8, 20);
    made_small("misplaced", misplaced, 1, 1);
}

/// Other readings of the occurs check's rule (document 02, Note 10). All but one show in few words; where a run differs at the bound of
/// waiting nodes, as it always does by that one, these have to stay.
#[test]
fn other_readings_of_occurs_checks_are_found() {
    for reading in Fault::OF_CHECKS {
        let suffice = match reading {
            Fault::SecondArrivalBounded => 1_038,
            _ => 30,
        };
        let wrong = move |case: &Case| case.run_with(Some(reading));
        made_small(&format!("{reading:?}"), wrong, suffice, 1_100);
    }
}

/// Other readings of the rule on repeats (document 02, Note 2), by programs that are neither long nor made for many answers: to make
/// one with many answers small takes its time, and where these just fill the output they have to stay.
#[test]
fn other_readings_of_repeats_are_found() {
    for reading in Fault::OF_REPEATS {
        let wrong = move |case: &Case| match case.words.len() {
            0..=200 if !case.made.ends_with("many answers") => case.run_with(Some(reading)),
            _ => case.run(),
        };
        made_small(&format!("{reading:?}"), wrong, 24, 60);
    }
}

/// The first cases that such a reference gets wrong are made small and told as text: each to at most so many words, and most to
/// as few as suffice.
fn made_small(name: &str, wrong: impl Fn(&Case) -> Expected, suffice: usize, most: usize) {
    let differences = (0..)
        .map(|seed| (seed, random_case(seed)))
        .filter_map(|(seed, case)| compare_with(&case, seed, &wrong).err());
    let mut smallest = 0;
    for (told, small) in differences.take(20) {
        assert!(small.words.len() <= most, "{name}: {told}");
        assert!(told.ends_with(&show(&small.words)), "{told}");
        smallest += (small.words.len() <= suffice) as usize;
    }
    assert!(smallest > 10, "{name}: {smallest}");
}

#[test]
fn tables() {
    for run in table::runs() {
        compare(&run.case, 8, &run.label);
    }
    for decision in table::decisions() {
        compare(&decision.case, 8, &format!("reading {}", decision.number));
    }
    for row in table::refusals() {
        let name = format!("refusals.txt line {}", row.line);
        compare(&Case::new("table", row.words), 8, &name);
    }
}

/// 600 answers and all of them again: with words for one more behind them, with fewer, and with many.
#[test]
fn many_answers_twice() {
    for output in [1_199, 1_200, 1_201, 1_202, 4_096] {
        let case = Case {
            output,
            ..Case::new("600 twice", all_again(600))
        };
        compare(&case, 8, &format!("output {output}"));
    }
}

/// Scratch lengths on either side of the 12,288 words that a run uses, and of the 16,384 that it once took. One word short is
/// refused by 9; else the run is the same, and the words beyond 12,288 are as lent.
#[test]
fn scratch_lengths() {
    for row in table::runs() {
        for scratch in [0, 12_287, 12_288, 12_289, 16_383, 16_384, 20_000] {
            let case = Case {
                scratch,
                ..row.case.clone()
            };
            let result = compare_with(&case, 8, Case::run);
            let result = result.unwrap_or_else(|(told, _)| panic!("{}: {told}", row.label));
            match scratch {
                0..=12_287 => assert_eq!(
                    result,
                    Err(reference::Refusal {
                        number: 9,
                        place: 0
                    })
                ),
                _ => assert_eq!(result, row.case.run()),
            }
        }
    }
}

/// What is lent beyond 12,288 words stays, and after a refusal all that is lent: each word compared, without the reference.
#[test]
fn words_beyond_those_used() {
    let accepted = table::words("13:5 2:1 2:1 5:2 0:0 1:7");
    let unknown_relation = table::words("13:4 2:0 2:0 12:1 2:1");
    let refused = |number, place| Some(Refusal { number, place });
    for (words, scratch_len, refusal) in [
        (&accepted, 12_287, refused(9, 0)),
        (&accepted, 12_288, None),
        (&accepted, 12_289, None),
        (&accepted, 20_000, None),
        (&unknown_relation, 12_287, refused(9, 0)),
        (&unknown_relation, 20_000, refused(7, 3)),
    ] {
        // Rubbish, none of it 0.
        let lent = (1..=scratch_len).map(|i: u32| i.wrapping_mul(0x9e37_79b9));
        let lent: Vec<u32> = lent.collect();
        let (mut scratch, mut output) = (lent.clone(), vec![3; 4]);
        let result = kindcanvas::run(words, 16, 99, &mut output, &mut scratch);
        assert_eq!(result.err(), refusal);
        match refusal {
            Some(_) => assert!(scratch == lent && output == [3; 4]),
            None => {
                assert_eq!(show(&output), "15:1 1:7 0:0 0:0");
                assert!(scratch[..12_288].iter().all(|&word| word == 0));
                assert!(scratch[12_288..] == lent[12_288..]);
            }
        }
    }
}

/// However deep a program, a thread can run it; 2 MiB of stack are what a thread has if nothing else is said. The longest
/// programs for which the library makes no thread of its own need less.
#[test]
fn deep_programs_in_a_thread() {
    let programs = [
        (2, "conjunctions", gen::nested_goals(16_378, [10, 10])),
        (2, "goals", gen::nested_goals(16_378, [10, 11])),
        (2, "first parts", gen::first_parts(8_000)),
        (2, "a list", gen::list(8_000)),
        (1, "4,096 words", gen::nested_goals(4_090, [10, 10])),
        (
            1,
            "512 waiting",
            table::words("13:2053 2:0 2:0 5:2050 deep*512 deep*512"),
        ),
    ];
    for (mib, name, words) in programs {
        let case = Case::new(name, words);
        thread::Builder::new()
            .stack_size(mib << 20)
            .spawn(move || compare(&case, 9, name))
            .unwrap()
            .join()
            .unwrap();
    }
}
