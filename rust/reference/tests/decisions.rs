//! The readings of docs/DECISIONS.md on search, steps, ends and answers hold of the reference.

use reference::table::decisions;

#[test]
fn readings_hold() {
    let decisions = decisions();
    assert!(decisions.len() >= 34);
    for decision in decisions {
        let outcome = decision.case.run().expect("an accepted program");
        for (what, expected) in &decision.expected {
            assert_eq!(
                &decision.found(what, &outcome),
                expected,
                "reading {}: {what}",
                decision.number
            );
        }
    }
}
