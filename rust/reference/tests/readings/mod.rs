//! Other readings of a note, as faults: each shows in a run of the table, and in random cases.

use reference::cases::case;
use reference::gen::Rng;
use reference::listing::listing;
use reference::{table, Fault};

/// A reading, the label of a run of the table on which it shows, and what it would make of that run, worked out by hand: ` | `
/// stands for a line's end, as in the table.
pub type Shown = (Fault, &'static str, &'static str);

pub fn show_in_the_table(readings: &[Fault], shown: &[Shown]) {
    let rows = table::runs();
    assert!(shown.iter().map(|(reading, ..)| reading).eq(readings));
    for &(reading, label, told) in shown {
        let row = rows.iter().find(|row| row.label == label).expect(label);
        let told = told.replace(" | ", "\n") + "\n";
        assert_eq!(
            listing(&row.case.run_with(Some(reading))),
            told,
            "{reading:?}"
        );
        assert_ne!(row.expected, told, "{reading:?}");
    }
}

/// Each shows in five of so many cases or more.
pub fn show_in_random_cases(readings: &[Fault], seed: u64, cases: usize) {
    let mut rng = Rng::new(seed);
    let mut shown = vec![0; readings.len()];
    for _ in 0..cases {
        let case = case(&mut rng);
        let Ok(outcome) = case.run() else {
            continue;
        };
        for (count, &reading) in shown.iter_mut().zip(readings) {
            let other = case.run_with(Some(reading)).expect("the same program");
            *count += (other.told() != outcome.told()) as usize;
        }
    }
    println!("{readings:?}: {shown:?}");
    assert!(shown.iter().all(|&count| count >= 5), "{shown:?}");
}
