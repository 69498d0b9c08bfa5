//! The proved engine of an earlier landing beside this one's, each in the benchmark that its own checkout builds.

use crate::programs::{self, Program};
use crate::{best, count_and_seconds, median, nanoseconds, rules, words, Bench, TURNS};
use std::env;
use std::path::Path;
use std::process::Command;

/// The step limit of each run. The programs of the first table end below it, but not in an engine that takes more steps by its rules.
const LIMIT: u32 = 20_000_000;

/// `bench time ROUNDS STEPS WORDS`: runs the program, sees that the plain engine agrees, and prints the steps and the best seconds of a
/// run. Both engines are given the words, as an earlier landing may have timed other programs.
pub fn time(numbers: &[&str]) {
    let numbers: Vec<u32> = numbers
        .iter()
        .map(|number| number.parse().expect("a number of 32 bits"))
        .collect();
    let [rounds, steps, ref words @ ..] = numbers[..] else {
        panic!("two limits, then words");
    };
    let (mut bench, report) = Bench::new(words.to_vec(), rounds, steps);
    let seconds = best(|| assert_eq!(bench.proved(), report));
    println!("{} {seconds}", report.steps);
}

/// `bench beside EARLIER`, the benchmark of the earlier landing: the steps of a run, or that it came to its limit, nanoseconds a step, the
/// best of all turns, and how many times as long a run takes, the median of the turns. Each lends as much output as its own landing needs:
/// before repeats were struck out, just the words written.
pub fn table(earlier: &Path) -> String {
    let this = env::current_exe().expect("the benchmark's own path");
    let engines = [earlier, &this];
    let mut text = String::new();
    text += "| program | steps before | after | before, ns a step | after | after / before |\n";
    text += "|---|--:|--:|--:|--:|--:|\n";
    for program in programs::compared().iter().chain(&programs::endless()) {
        text += &row(program.name, program, engines);
    }
    for choices in programs::choices().iter().flatten() {
        let name = format!("{}, {} given", choices.program.name, choices.given);
        text += &row(&name, &choices.program, engines);
    }
    text
}

fn row(name: &str, program: &Program, engines: [&Path; 2]) -> String {
    let words = words::words(&rules::parse(&program.text));
    let numbers = [vec![program.rounds, LIMIT], words].concat();
    let arguments: Vec<String> = numbers.iter().map(u32::to_string).collect();
    let mut steps = [0; 2];
    let mut best_of = [f64::INFINITY; 2];
    let mut ratios = Vec::new();
    for turn in 0..TURNS {
        let mut times = [0.0; 2];
        // Each goes first in every other turn.
        for engine in [turn % 2, 1 - turn % 2] {
            let mut command = Command::new(engines[engine]);
            command.arg("time").args(&arguments);
            (steps[engine], times[engine]) = count_and_seconds(&mut command);
            best_of[engine] = times[engine].min(best_of[engine]);
        }
        ratios.push(times[1] / times[0]);
    }
    let [before, after] = [0, 1].map(|engine| nanoseconds(best_of[engine], steps[engine]));
    let [steps_before, steps_after] = steps.map(|steps| match steps {
        LIMIT => format!("{LIMIT}, the limit"),
        _ => steps.to_string(),
    });
    let ratio = median(ratios);
    format!("| {name} | {steps_before} | {steps_after} | {before:.2} | {after:.2} | {ratio:.3} |\n")
}
