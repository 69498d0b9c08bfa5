//! The static library's viewer against the reference: the part of the page or the refusal, and the page as it was.
//!
//! The gate compares 200,000 random pages from a fixed seed. A longer run, from another seed each time, which it prints:
//!
//!     cargo test --offline --release -p kindcanvas --test pages -- --ignored --nocapture
//!
//! KINDCANVAS_CASES sets how many (five million if it is not set), and KINDCANVAS_SEED where to begin. Each case has a seed of its own,
//! so KINDCANVAS_CASES=1 with the seed that a failure names runs that case alone.

mod seeds;

use kindcanvas::Refusal;
use reference::gen::Rng;
use reference::pages::{covered, page_case, wanted, PageCase};
use reference::word::show;
use reference::{table, PageFault};
use seeds::Comparison;
use std::collections::BTreeSet;
use std::ops::Range;

type Expected = Result<Range<usize>, reference::Refusal>;

/// Views the case's answer by the library, on a page in the middle of rubbish from a seed, and says what differs from the result
/// expected.
fn difference(case: &PageCase, seed: u64, expected: &Expected) -> Option<String> {
    let mut rng = Rng::new(seed);
    let [before, behind] = [(); 2].map(|()| {
        let words = (0..rng.below(8)).map(|_| rng.number() as u32);
        words.collect::<Vec<u32>>()
    });
    let all = [&before[..], &case.page, &behind].concat();
    let lent = all.clone();
    let page = &lent[before.len()..][..case.page.len()];
    let result = kindcanvas::view(page, case.answer);
    let same = match (result, expected) {
        // The part is of the page itself, not of a copy.
        (Ok(part), Ok(place)) => part.as_ptr_range() == page[place.clone()].as_ptr_range(),
        (Err(refusal), Err(expected)) => {
            let reference::Refusal { number, place } = *expected;
            refusal == Refusal { number, place }
        }
        _ => false,
    };
    if !same {
        let told = match result {
            Ok(part) => format!("{} at {:?}", show(part), part.as_ptr_range()),
            Err(refusal) => format!("{refusal:?}"),
        };
        let from = page.as_ptr();
        return Some(format!(
            "{told}, expected {expected:?} of the page at {from:?}"
        ));
    }
    (lent != all).then(|| "the page or around it".to_string())
}

fn compare(case: &PageCase, seed: u64, name: &str) {
    if let Some(found) = difference(case, seed, &case.view()) {
        panic!("{name}: {found}\n{case}");
    }
}

fn random_case(seed: u64) -> PageCase {
    page_case(&mut Rng::new(seed))
}

/// Compares the case of a seed, and says what it covers.
fn compare_seed(seed: u64) -> BTreeSet<String> {
    let case = random_case(seed);
    compare(&case, seed, &format!("seed {seed}"));
    covered(&case)
}

const COMPARISON: Comparison = Comparison {
    gate_cases: 200_000,
    wanted,
    compare: compare_seed,
};

#[test]
fn random_pages_of_the_gate() {
    COMPARISON.of_the_gate(20_240_701);
}

#[test]
#[ignore = "takes minutes; see the head of this file"]
fn more_random_pages() {
    COMPARISON.longer(5_000_000);
}

#[test]
fn table_of_pages() {
    for row in table::pages() {
        let name = format!("pages.txt line {}", row.line);
        compare(&row.case, 8, &name);
        assert_eq!(row.case.view(), row.expected, "{name}");
    }
}

/// References with an error, to see that it is found.
#[test]
fn other_readings_are_found() {
    for reading in PageFault::ALL {
        let differs = |seed: &u64| {
            let case = random_case(*seed);
            difference(&case, *seed, &case.view_with(reading)).is_some()
        };
        let found = (0..2_000).filter(differs).count();
        assert!(found >= 5, "{reading:?}: {found}");
    }
}
