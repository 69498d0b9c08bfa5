//! The cases made for other checkers: all ends are among them, and they stay small.

use reference::cases::case;
use reference::gen::Rng;
use reference::run::End;
use std::collections::BTreeMap;

#[test]
fn all_ends_in_small_cases() {
    let mut rng = Rng::new(11);
    let mut ends: BTreeMap<String, usize> = BTreeMap::new();
    let mut refusals: BTreeMap<u32, usize> = BTreeMap::new();
    for _ in 0..4_000 {
        let case = case(&mut rng);
        assert!(case.words.len() <= 1_100);
        match case.run() {
            Ok(outcome) => {
                assert!(outcome.steps <= 2_001);
                *ends.entry(format!("{:?}", outcome.end)).or_default() += 1;
            }
            Err(refusal) => *refusals.entry(refusal.number).or_default() += 1,
        }
    }
    println!("ends {ends:?}, refusals {refusals:?}");
    let paths = (1..=5).map(End::Path);
    for end in [End::Finished, End::Rounds, End::Steps, End::Output]
        .into_iter()
        .chain(paths)
    {
        let end = format!("{end:?}");
        assert!(ends.get(&end).is_some_and(|&count| count >= 40), "{end}");
    }
    assert!(refusals.len() >= 7);
}
