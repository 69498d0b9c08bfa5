//! The static library against the reference: which programs are accepted, and how the others are refused.

use kindcanvas::words::show;
use kindcanvas::{ParseError, Program, Refusal};
use reference::gen::{self, Rng};
use reference::table;
use reference::word::word;
use std::thread;

/// The reference's result in the wrapper's type.
fn expected(words: &[u32]) -> Result<(), Refusal> {
    match reference::read(words) {
        Ok(_) => Ok(()),
        Err(refusal) => Err(Refusal {
            number: refusal.number,
            place: refusal.place,
        }),
    }
}

#[test]
fn table_of_refusals() {
    for row in table::refusals() {
        let expected = row.expected.map_err(|refusal| Refusal {
            number: refusal.number,
            place: refusal.place,
        });
        assert_eq!(
            kindcanvas::check(&row.words),
            expected,
            "refusals.txt line {}",
            row.line
        );
    }
}

#[test]
fn random_programs() {
    const CASES: usize = 240_000;
    let mut rng = Rng::new(20_240_601);
    // How often each outcome came: at 0 accepted, else the condition's number.
    let mut counts = [0; 9];
    for case in 0..CASES {
        let words = match case % 10 {
            0..=2 => gen::accepted(&mut rng),
            3..=7 => gen::damaged(&mut rng),
            _ => gen::random_words(&mut rng),
        };
        let expected = expected(&words);
        let result = kindcanvas::check(&words);
        if result != expected {
            panic!(
                "case {case}: the library says {result:?}, the reference {expected:?}\n{}",
                show(&words)
            );
        }
        counts[expected.map_or_else(|refusal| refusal.number as usize, |()| 0)] += 1;
        if case % 10 <= 2 {
            assert_eq!(expected, Ok(()), "case {case}\n{}", show(&words));
        }
    }
    println!("accepted, refused 1 to 8: {counts:?}");
    for (outcome, &count) in counts.iter().enumerate() {
        assert!(count >= 1000, "outcome {outcome} came only {count} times");
    }
}

/// `check` in a thread with so many MiB of stack, which must agree with [`Program::new`] and with the text read.
fn check_with_stack(mib: usize, words: &[u32]) -> Result<(), Refusal> {
    let words = words.to_vec();
    let thread = thread::Builder::new().stack_size(mib << 20).spawn(move || {
        let result = kindcanvas::check(&words);
        let made = Program::new(words.clone()).map(|_| ());
        assert_eq!(made.map_err(|error| error.refusal), result);
        let read = show(&words).parse::<Program>().map(|_| ());
        let read = read.map_err(|error| match error {
            ParseError::Refused { refusal, .. } => refusal,
            ParseError::Text(error) => panic!("{error}"),
        });
        assert_eq!(read, result);
        result
    });
    thread.unwrap().join().unwrap()
}

/// 2 MiB are what a thread has if nothing else is said.
fn check_in_a_thread(words: &[u32]) -> Result<(), Refusal> {
    check_with_stack(2, words)
}

/// However deep a program, a thread can read it.
#[test]
fn deep_programs_in_a_thread() {
    let programs = [
        ("conjunctions", gen::nested_goals(16_378, [10, 10])),
        (
            "disjunctions and conjunctions",
            gen::nested_goals(16_378, [11, 10]),
        ),
        ("first parts", gen::first_parts(8_000)),
        ("a list", gen::list(8_000)),
    ];
    for (name, words) in programs {
        assert_eq!(check_in_a_thread(&words), Ok(()), "{name}");
    }
}

/// The longest programs for which no thread is made.
#[test]
fn short_programs_need_little_stack() {
    let mut words = gen::nested_goals(4_090, [10, 10]);
    assert_eq!(words.len(), 4_096);
    assert_eq!(check_with_stack(1, &words), Ok(()));
    words[4_095] = word(0, 0);
    let refusal = Refusal {
        number: 5,
        place: 4_095,
    };
    assert_eq!(check_with_stack(1, &words), Err(refusal));
}

#[test]
fn the_whole_range_of_places() {
    // The last word of a full-length program can be the place, and the word count itself.
    let mut words = gen::nested_goals(16_378, [10, 10]);
    assert_eq!(words.len(), 16_384);
    words[16_383] = word(0, 0);
    assert_eq!(
        check_in_a_thread(&words),
        Err(Refusal {
            number: 5,
            place: 16_383
        })
    );
    words[16_381] = word(10, 2);
    words[16_382] = word(7, 1);
    words[16_383] = word(4, 0);
    assert_eq!(
        check_in_a_thread(&words),
        Err(Refusal {
            number: 3,
            place: 16_384
        })
    );
}
