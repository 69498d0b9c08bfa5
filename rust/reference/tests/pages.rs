//! Note 1 of document 02, the viewer: its table, its other readings, and what it claims holds of the reference.

use reference::cases;
use reference::gen::Rng;
use reference::listing::listing;
use reference::pages::{answers, covered, left_by_run, page_case, wanted, PageCase};
use reference::word::{kind, payload, show, ANSWER, PAYLOADS};
use reference::{table, view, PageFault, Refusal};
use std::collections::BTreeMap;
use std::ops::Range;

#[test]
fn table_of_pages() {
    let rows = table::pages();
    assert!(rows.len() >= 40);
    for row in rows {
        assert_eq!(row.case.view(), row.expected, "pages.txt line {}", row.line);
    }
}

/// Each other reading with a row of the table on which it shows, and what it would make of that row, worked out by hand.
const SHOWN: [(PageFault, &str); 13] = [
    (
        PageFault::NumberedFromOne,
        "15:1 2:5 15:1 2:5 ; answer 1 => 15:1 2:5 at 0",
    ),
    (PageFault::HeaderLeftOut, "15:1 1:7 ; answer 0 => 1:7 at 1"),
    (PageFault::HeaderCounted, "15:1 1:7 ; answer 0 => 15:1 at 0"),
    (PageFault::AnyKind, "0:1 1:7 ; answer 0 => 0:1 1:7 at 0"),
    (
        PageFault::InsideLookedAt,
        "15:2 15:0 15:9 ; answer 0 => 15:2 at 0",
    ),
    (
        PageFault::NextLookedAt,
        "15:0 15:9 ; answer 0 => refused 10 at 1",
    ),
    (
        PageFault::FullPageOverruns,
        "15:1 1:7 ; answer 0 => refused 10 at 0",
    ),
    (
        PageFault::OverrunCut,
        "15:3 1:7 1:8 ; answer 0 => 15:3 1:7 1:8 at 0",
    ),
    (
        PageFault::OverrunAtEnd,
        "15:3 1:7 1:8 ; answer 0 => refused 10 at 3",
    ),
    (
        PageFault::EndAtLastWord,
        "15:0 ; answer 1 => refused 10 at 0",
    ),
    (
        PageFault::NoHeaderSkipped,
        "15:0 11:1 15:0 ; answer 1 => 15:0 at 2",
    ),
    (
        PageFault::ZerosEndThePage,
        "15:1 1:7 0:0*3 ; answer 1 => refused 10 at 5",
    ),
    (PageFault::PlaceTooFar, "; answer 0 => refused 10 at 1"),
];

#[test]
fn other_readings_show_in_the_table() {
    let rows = table::pages();
    assert_eq!(SHOWN.map(|(reading, _)| reading), PageFault::ALL);
    for (reading, text) in SHOWN {
        let shown = table::page(0, text);
        let row = rows.iter().find(|row| row.case == shown.case);
        let row = row.unwrap_or_else(|| panic!("no row: {text}"));
        assert_eq!(row.case.view_with(reading), shown.expected, "{reading:?}");
        assert_ne!(row.expected, shown.expected, "{reading:?}");
    }
}

#[test]
fn other_readings_show_in_random_cases() {
    let mut rng = Rng::new(21);
    let mut shown = [0; PageFault::ALL.len()];
    for _ in 0..2_000 {
        let case = page_case(&mut rng);
        let result = case.view();
        for (count, reading) in shown.iter_mut().zip(PageFault::ALL) {
            *count += (case.view_with(reading) != result) as usize;
        }
    }
    println!("{:?}: {shown:?}", PageFault::ALL);
    assert!(shown.iter().all(|&count| count >= 5), "{shown:?}");
}

#[test]
fn random_cases_cover_all() {
    let mut rng = Rng::new(22);
    let mut counts: BTreeMap<String, usize> = BTreeMap::new();
    for _ in 0..20_000 {
        for what in covered(&page_case(&mut rng)) {
            *counts.entry(what).or_default() += 1;
        }
    }
    let wanted = wanted();
    assert!(counts.keys().all(|what| wanted.contains(what)));
    for what in wanted {
        let count = counts.get(&what).copied().unwrap_or_default();
        println!("{count:8} {what}");
        assert!(count >= 5, "{what}");
    }
}

/// The answers of a run are those of its listing, one a line, and behind them is no other.
#[test]
fn pages_left_by_runs() {
    let mut rng = Rng::new(23);
    let (mut viewed, mut full, mut empty) = (0, 0, 0);
    for _ in 0..4_000 {
        let case = cases::case(&mut rng);
        let Ok(outcome) = case.run() else {
            continue;
        };
        let page = left_by_run(&case, &outcome);
        let used = outcome.words.len();
        let count = outcome.answers;
        let listed = listing(&Ok(outcome));
        let lines: Vec<&str> = listed.lines().skip(1).collect();
        assert_eq!(lines.len(), count, "{case}");
        for (number, line) in lines.iter().enumerate() {
            let place = view(&page, number as u32).unwrap_or_else(|found| {
                panic!("{found:?}, answer {number}\n{case}");
            });
            assert_eq!(show(&page[place]), *line, "{case}");
        }
        let refusal = Refusal {
            number: 10,
            place: used,
        };
        for number in [count as u32, count as u32 + 1, u32::MAX] {
            assert_eq!(view(&page, number), Err(refusal), "{case}");
        }
        viewed += count;
        full += (count > 0 && page.len() == used) as usize;
        empty += (count == 0) as usize;
    }
    println!("{viewed} answers, {full} pages used to the end, {empty} without an answer");
    assert!(viewed >= 1_000 && full >= 50 && empty >= 50);
}

/// The words that a view has no business with: inside the answers up to the wanted one, and behind it or behind the word where the
/// walk stopped.
fn not_looked_at(case: &PageCase, result: &Result<Range<usize>, Refusal>) -> Vec<usize> {
    let (passed, behind) = match result {
        Ok(part) => (part.end, part.end),
        Err(refusal) => (refusal.place, refusal.place + 1),
    };
    let inside = answers(&case.page[..passed])
        .into_iter()
        .flat_map(|answer| answer.start + 1..answer.end);
    inside.chain(behind..case.page.len()).collect()
}

/// "The page is walked by its answer headers, and nothing inside an answer is looked at."
#[test]
fn only_headers_decide() {
    let mut rng = Rng::new(24);
    let mut changed = 0;
    for _ in 0..20_000 {
        let case = page_case(&mut rng);
        let result = case.view();
        let free = not_looked_at(&case, &result);
        let mut other = case.clone();
        for &place in &free {
            if rng.chance(70) {
                other.page[place] = rng.number() as u32;
            }
        }
        changed += (other != case) as usize;
        assert_eq!(other.view(), result, "{case}\n{other}");
        // All of them headers, or none.
        for word in [ANSWER << 28, ANSWER << 28 | (PAYLOADS - 1), 0] {
            for &place in &free {
                other.page[place] = word;
            }
            assert_eq!(other.view(), result, "{case}\n{other}");
        }
    }
    println!("{changed} pages changed");
    assert!(changed >= 10_000);
}

/// Where the answer is there, the page may as well end with it, or go on for longer. An answer overruns as long as one of its words is
/// missing.
#[test]
fn lengths_of_the_page() {
    let mut rng = Rng::new(25);
    let (mut given, mut completed) = (0, 0);
    for _ in 0..20_000 {
        let case = page_case(&mut rng);
        let result = case.view();
        let resized = |length| {
            let mut other = case.clone();
            other.page.resize(length, 0);
            other.view()
        };
        match result {
            Ok(ref part) => {
                given += 1;
                for length in part.end..part.end + 3 {
                    assert_eq!(resized(length), result, "{case}");
                }
                // A word short, it overruns, or its header is missing.
                let refusal = Refusal {
                    number: 10,
                    place: part.start,
                };
                assert_eq!(resized(part.end - 1), Err(refusal), "{case}");
            }
            Err(refusal) => {
                let Some(&header) = case.page.get(refusal.place) else {
                    continue;
                };
                let words = 1 + payload(header) as usize;
                if kind(header) != ANSWER || words > 1_000 {
                    continue;
                }
                completed += 1;
                let end = refusal.place + words;
                assert_eq!(resized(end - 1), Err(refusal), "{case}");
                assert_ne!(resized(end), Err(refusal), "{case}");
            }
        }
    }
    println!("{given} answers given, {completed} overruns completed");
    assert!(given >= 5_000 && completed >= 500);
}
