//! Answers found to be repeats or not: the proved engine beside the plain one, in nanoseconds an answer.

use crate::programs::{self, Choices};
use crate::{best, median, missed, nanoseconds, rules, words, Bench, TURNS};
use std::fmt::Write;

/// The best nanoseconds of an answer, written or not, of the proved engine and of the plain one, and how many times as long the proved
/// one takes, the median of the turns.
fn measure(choices: &Choices, room: bool) -> ([f64; 2], f64) {
    let rules = rules::parse(&choices.program.text);
    let (mut bench, report) = Bench::new(words::words(&rules), choices.program.rounds, u32::MAX);
    assert_eq!(report.answers, choices.written, "{}", choices.program.name);
    if !room {
        bench.output.truncate(report.words);
        assert_eq!(bench.agreed(), report);
    }
    let mut least = [f64::INFINITY; 2];
    let mut ratios = Vec::new();
    for _ in 0..TURNS {
        let proved = best(|| assert_eq!(bench.proved(), report));
        let plain = best(|| assert_eq!(bench.plain(), report));
        least = [least[0].min(proved), least[1].min(plain)];
        ratios.push(proved / plain);
    }
    let least = least.map(|seconds| nanoseconds(seconds, choices.given));
    (least, median(ratios))
}

/// The table, and whether its goals are met.
pub fn table() -> (String, String) {
    let mut text = String::new();
    text +=
        "| run | answers given | written | proved, ns an answer given | plain | proved / plain |\n";
    text += "|---|--:|--:|--:|--:|--:|\n";
    let mut misses = Vec::new();
    let mut add = |name: &str, choices: &Choices, room: bool| {
        let ([proved, plain], ratio) = measure(choices, room);
        let (given, written) = (choices.given, choices.written);
        if ratio > 1.3 {
            misses.push(format!("{name}, {given}"));
        }
        writeln!(
            text,
            "| {name} | {given} | {written} | {proved:.1} | {plain:.1} | {ratio:.2} |"
        )
        .unwrap();
        proved
    };
    let mut grown = Vec::new();
    for kind in programs::choices() {
        let name = kind[0].program.name;
        let proved = kind.each_ref().map(|choices| add(name, choices, true));
        if proved[2] > 1.5 * proved[0] {
            grown.push(format!("{name}, growth"));
        }
    }
    let [different, ..] = programs::choices();
    for choices in &different[..2] {
        add("all different, no room to spare", choices, false);
    }
    misses.extend(grown);
    let misses: Vec<&str> = misses.iter().map(String::as_str).collect();
    (text, missed(&misses))
}
