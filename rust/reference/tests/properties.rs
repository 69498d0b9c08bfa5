//! What must hold between runs of the same random program with different limits.

use reference::gen::{self, Rng};
use reference::run::SCRATCH_WORDS;
use reference::word::show;
use reference::{read, run, written, End, Outcome};

const STEPS: u32 = 1_500;
const OUTPUT: usize = 4_000;

fn run_with(words: &[u32], rounds: u32, steps: u32, output: usize) -> Outcome {
    run(words, rounds, steps, output, SCRATCH_WORDS).unwrap()
}

#[test]
fn accepted_programs_are_written_as_they_were() {
    let mut rng = Rng::new(1);
    for _ in 0..3_000 {
        let words = gen::accepted(&mut rng);
        let program =
            read(&words).unwrap_or_else(|refusal| panic!("{refusal:?}: {}", show(&words)));
        assert!(written(&program) == words, "{}", show(&words));
        let damaged = gen::damaged(&mut rng);
        if let Ok(program) = read(&damaged) {
            assert!(written(&program) == damaged, "{}", show(&damaged));
        }
    }
}

#[test]
fn limits_break_off_where_they_must() {
    let mut rng = Rng::new(2);
    for at in 0..6_000 {
        let words = match at % 4 {
            0 => gen::constrained(&mut rng),
            _ => gen::program(&mut rng),
        };
        let rounds = rng.below(5) as u32;
        let full = run_with(&words, rounds, STEPS, OUTPUT);
        let text = show(&words);

        // As many steps as were taken are enough, unless something else broke the run off: steps are tested first.
        let exact = run_with(&words, rounds, full.steps, OUTPUT);
        match full.end {
            End::Path(_) => assert_eq!(exact.end, End::Steps, "{text}"),
            _ => assert_eq!(exact, full, "{text}"),
        }
        if full.steps > 0 {
            let limit = match at % 2 {
                0 => full.steps - 1,
                _ => rng.below(full.steps as usize) as u32,
            };
            let short = run_with(&words, rounds, limit, OUTPUT);
            assert_eq!((short.end, short.steps), (End::Steps, limit), "{text}");
            assert!(short.round <= full.round, "{text}");
            // It tells the branches cut by the round before, the last of a run that may go no further.
            let cut = match short.round.checked_sub(1) {
                None => 0,
                Some(last) => run_with(&words, last, STEPS, OUTPUT).cut,
            };
            assert_eq!(short.cut, cut, "{text}");
            assert!(full.words.starts_with(&short.words), "{text}");
        }

        match full.end {
            End::Finished => assert_eq!(full.cut, 0, "{text}"),
            End::Rounds => assert!(full.cut > 0, "{text}"),
            _ => assert_eq!(full.cut > 0, full.round > 0, "{text}"),
        }

        // Output just long enough, for a repeat too, and one word short.
        let needed = full.trace.needed();
        if full.end != End::Output {
            assert_eq!(run_with(&words, rounds, STEPS, needed), full, "{text}");
        }
        let first = full.trace.given.iter().find(|one| one.needs() == needed);
        if let Some(first) = first {
            let short = run_with(&words, rounds, STEPS, needed - 1);
            assert_eq!(short.end, End::Output, "{text}");
            assert_eq!(short.answers, first.written, "{text}");
            assert_eq!(short.steps, first.steps, "{text}");
            assert!(full.words.starts_with(&short.words), "{text}");
        }
        // Without the last word written the last answer is missing.
        if let Some(less) = full.words.len().checked_sub(1) {
            let short = run_with(&words, rounds, STEPS, less);
            assert_eq!(short.end, End::Output, "{text}");
            assert!(short.answers < full.answers, "{text}");
        }

        // A lower round limit gives the answers of its rounds.
        if rounds > 0 {
            let fewer = run_with(&words, rounds - 1, STEPS, OUTPUT);
            assert!(
                full.answer_rounds.starts_with(&fewer.answer_rounds),
                "{text}"
            );
            assert!(full.words.starts_with(&fewer.words), "{text}");
            if fewer.end != End::Rounds {
                assert_eq!(fewer, full, "{text}");
            }
        }
    }
}
