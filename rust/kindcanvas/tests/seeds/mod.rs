//! A comparison on random cases, each with a seed of its own: the gate's, and a longer one.

use reference::gen::Rng;
use std::collections::{BTreeMap, BTreeSet};
use std::env;
use std::ops::Range;
use std::thread;
use std::time::{SystemTime, UNIX_EPOCH};

/// A comparison: of how many cases the gate's is, what they have to cover, and how the case of a seed is compared, which says what it
/// covers.
pub struct Comparison {
    pub gate_cases: u64,
    pub wanted: fn() -> Vec<String>,
    pub compare: fn(u64) -> BTreeSet<String>,
}

impl Comparison {
    /// As many cases as the gate's, from this seed.
    pub fn of_the_gate(&self, seed: u64) {
        self.run(seed, self.gate_cases);
    }

    /// KINDCANVAS_CASES cases from KINDCANVAS_SEED; else so many, from another seed each time.
    pub fn longer(&self, cases: u64) {
        let set = |name| env::var(name).map(|text| text.parse().expect(name)).ok();
        let now = SystemTime::now().duration_since(UNIX_EPOCH).unwrap();
        // Any clock gives seeds far from each other, and room for the cases behind them.
        let seed = Rng::new(now.as_nanos() as u64).number() >> 1;
        self.run(
            set("KINDCANVAS_SEED").unwrap_or(seed),
            set("KINDCANVAS_CASES").unwrap_or(cases),
        );
    }

    /// Compares in two threads. If the cases are many, each thing wanted must have been covered several times.
    fn run(&self, seed: u64, cases: u64) {
        println!("{cases} cases from seed {seed}");
        let (middle, end) = (seed + cases / 2, seed + cases);
        let mut counts = thread::scope(|scope| {
            let first = scope.spawn(|| self.count(seed..middle));
            let mut counts = self.count(middle..end);
            for (what, count) in first.join().expect("no difference in the first half") {
                *counts.entry(what).or_default() += count;
            }
            counts
        });
        for what in (self.wanted)() {
            counts.entry(what).or_default();
        }
        for (what, count) in &counts {
            println!("{count:8} {what}");
        }
        if cases >= self.gate_cases {
            counts.retain(|_, count| *count < 5);
            assert!(counts.is_empty(), "hardly covered: {counts:?}");
        }
    }

    /// Compares the cases of these seeds, and says how often what was covered.
    fn count(&self, seeds: Range<u64>) -> BTreeMap<String, usize> {
        let mut counts = BTreeMap::new();
        for seed in seeds {
            for what in (self.compare)(seed) {
                *counts.entry(what).or_default() += 1;
            }
        }
        counts
    }
}
