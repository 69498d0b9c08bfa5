//! `bench DATE FILE`: times the proved engine beside the same engine in plain Rust and beside SWI-Prolog, prints the tables and
//! writes them to FILE. `bench beside EARLIER` times it beside the engine of an earlier landing, and prints a table.

mod before;
mod opening;
mod plain;
mod programs;
mod prolog;
mod repeats;
mod rules;
mod words;

use kindcanvas::{Ending, Report, SCRATCH_WORDS};
use programs::Program;
use prolog::Style;
use std::fmt::Write;
use std::fs;
use std::path::{Path, PathBuf};
use std::process::{exit, Command};
use std::time::Instant;

/// How often the two engines are measured in turn, and SWI-Prolog once in how many of these turns.
const TURNS: usize = 20;
const TURNS_PER_SWI: usize = 5;
/// How long one engine is timed in one turn, at least.
const SPAN: f64 = 0.05;
/// How many steps are timed in all for each step limit of the second table in one pass, at least, and how many passes there are.
const STEPS: u32 = 100_000_000;
const PASSES: usize = 5;

const STYLES: [Style; 2] = [Style::Body, Style::Clauses];

/// A program in words, with the memory that it is run in.
struct Bench {
    words: Vec<u32>,
    rounds: u32,
    steps: u32,
    output: Vec<u32>,
    scratch: Vec<u32>,
}

impl Bench {
    /// Runs both engines once. Then the output is cut to what is written and some room to spare, so that clearing its rest takes little
    /// time: four words an answer, as no index has more, and as many as the longest answer has, as a repeat is written before it is seen
    /// to be one.
    fn new(words: Vec<u32>, rounds: u32, steps: u32) -> (Bench, Report) {
        let mut bench = Bench {
            words,
            rounds,
            steps,
            output: vec![0; 1 << 22],
            scratch: vec![0; SCRATCH_WORDS],
        };
        let report = bench.agreed();
        let spare = 4 * report.answers as usize + longest(&bench.output[..report.words]);
        bench.output.truncate(report.words + spare);
        bench.output.shrink_to_fit();
        (bench, report)
    }

    /// Runs both engines and sees that they agree on everything.
    fn agreed(&mut self) -> Report {
        self.output.fill(1);
        self.scratch.fill(1);
        let report = self.proved();
        let page = self.output.clone();
        self.output.fill(2);
        self.scratch.fill(2);
        assert_eq!(self.plain(), report);
        assert!(page == self.output, "the two engines write the same page");
        assert!(self.scratch.iter().all(|&word| word == 0));
        report
    }

    fn proved(&mut self) -> Report {
        kindcanvas::run(
            &self.words,
            self.rounds,
            self.steps,
            &mut self.output,
            &mut self.scratch,
        )
        .expect("the program is accepted")
    }

    fn plain(&mut self) -> Report {
        // SAFETY: the proved engine has accepted the program, and the scratch is long enough.
        unsafe {
            plain::run(
                &self.words,
                self.rounds,
                self.steps,
                &mut self.output,
                &mut self.scratch,
            )
        }
    }
}

/// The words of the longest answer.
fn longest(page: &[u32]) -> usize {
    let mut longest = 0;
    let mut rest = page;
    while let Some(&header) = rest.first() {
        let words = 1 + (header & 0x0fff_ffff) as usize;
        longest = longest.max(words);
        rest = &rest[words..];
    }
    longest
}

/// The best seconds of one run, over at least `SPAN` seconds.
fn best(mut run: impl FnMut()) -> f64 {
    let begun = Instant::now();
    let mut best = f64::INFINITY;
    while begun.elapsed().as_secs_f64() < SPAN {
        best = best.min(seconds(&mut run));
    }
    best
}

fn seconds(run: impl FnOnce()) -> f64 {
    let start = Instant::now();
    run();
    start.elapsed().as_secs_f64()
}

/// A row of the first table.
struct Row {
    name: &'static str,
    report: Report,
    /// The best seconds of a run, of the proved engine and of the plain one.
    best: [f64; 2],
    /// The time of the proved engine over that of the plain one: the median of the turns.
    over_plain: f64,
    /// The time of SWI-Prolog in each style over that of the proved engine, where it is installed.
    swi: Option<[f64; 2]>,
}

fn measure(program: &Program, swi: Option<&Path>) -> Row {
    let rules = rules::parse(&program.text);
    let (mut bench, report) = Bench::new(words::words(&rules), program.rounds, u32::MAX);
    assert!(
        matches!(report.end, Ending::Finished | Ending::Rounds),
        "{}: {report:?}",
        program.name
    );
    let texts = STYLES.map(|style| prolog::program(&rules, program.rounds, style));
    let mut best_of = [f64::INFINITY; 2];
    let mut over_plain = Vec::new();
    let mut over_proved = [Vec::new(), Vec::new()];
    for turn in 0..TURNS {
        let proved = best(|| assert_eq!(bench.proved(), report));
        let plain = best(|| assert_eq!(bench.plain(), report));
        best_of = [best_of[0].min(proved), best_of[1].min(plain)];
        over_plain.push(proved / plain);
        if let (Some(folder), 0) = (swi, turn % TURNS_PER_SWI) {
            for (text, ratios) in texts.iter().zip(&mut over_proved) {
                ratios.push(run_prolog(folder, text, report.answers) / proved);
            }
        }
    }
    Row {
        name: program.name,
        report,
        best: best_of,
        over_plain: median(over_plain),
        swi: swi.map(|_| over_proved.map(median)),
    }
}

fn median(mut values: Vec<f64>) -> f64 {
    values.sort_by(f64::total_cmp);
    values[values.len() / 2]
}

/// The seconds that SWI-Prolog takes for the rounds, once its program is loaded.
fn run_prolog(folder: &Path, text: &str, answers: u32) -> f64 {
    let file = folder.join("program.pl");
    fs::write(&file, text).expect("the temporary folder can be written");
    let (counted, seconds) = count_and_seconds(Command::new("swipl").arg(&file));
    assert_eq!(counted, answers, "the answers of SWI-Prolog");
    seconds
}

/// A count and the seconds that something took, which the command prints.
fn count_and_seconds(command: &mut Command) -> (u32, f64) {
    let run = command.output().expect("the command can be run");
    let said = String::from_utf8_lossy(&run.stdout);
    let numbers: Vec<&str> = said.split_whitespace().collect();
    if let [count, seconds] = numbers[..] {
        if let (Ok(count), Ok(seconds)) = (count.parse(), seconds.parse()) {
            return (count, seconds);
        }
    }
    panic!(
        "{:?} says {said}{}",
        command.get_program(),
        String::from_utf8_lossy(&run.stderr)
    )
}

/// Nanoseconds a step of the proved engine and of the plain one, with a step limit: the mean over as many runs as `STEPS` needs, in
/// turn. The best of many short runs would not compare with one of 10^9 steps.
fn at_steps(program: &Program, steps: u32) -> [f64; 2] {
    let mut bench = Bench {
        words: words::words(&rules::parse(&program.text)),
        rounds: program.rounds,
        steps,
        output: Vec::new(),
        scratch: vec![0; SCRATCH_WORDS],
    };
    let runs = STEPS.div_ceil(steps);
    let mut sums = [0.0; 2];
    for _ in 0..runs {
        let (mut proved, mut plain) = (None, None);
        sums[0] += seconds(|| proved = Some(bench.proved()));
        sums[1] += seconds(|| plain = Some(bench.plain()));
        assert_eq!(proved, plain);
        assert_eq!(
            proved.map(|report| report.end),
            Some(Ending::Steps),
            "{}",
            program.name
        );
    }
    sums.map(|sum| nanoseconds(sum / f64::from(runs), steps))
}

fn nanoseconds(seconds: f64, steps: u32) -> f64 {
    seconds * 1e9 / f64::from(steps)
}

fn first_table(rows: &[Row]) -> String {
    let mut text = String::new();
    text += "| program | steps | answers | proved, ns a step | plain, ns a step | proved / plain | SWI / proved | SWI by clauses / proved |\n";
    text += "|---|--:|--:|--:|--:|--:|--:|--:|\n";
    for row in rows {
        let [proved, plain] = row.best.map(|best| nanoseconds(best, row.report.steps));
        let swi = match row.swi {
            Some([body, clauses]) => format!("{body:.2} | {clauses:.2}"),
            None => "not installed | not installed".to_string(),
        };
        writeln!(
            text,
            "| {} | {} | {} | {proved:.2} | {plain:.2} | {:.2} | {swi} |",
            row.name, row.report.steps, row.report.answers, row.over_plain,
        )
        .unwrap();
    }
    text
}

/// Which of the rows miss a goal, in a sentence.
fn missed(names: &[&str]) -> String {
    match names {
        [] => "Met in each row.".to_string(),
        _ => format!("Missed: {}.", names.join(", ")),
    }
}

fn first_goals(rows: &[Row]) -> String {
    let misses = rows
        .iter()
        .filter(|row| row.over_plain > 1.3 || row.swi.is_some_and(|[body, _]| body <= 1.0));
    missed(&misses.map(|row| row.name).collect::<Vec<_>>())
}

/// The second table, and whether its goal is met. Each number is the best of some passes through the step limits, so that a slow
/// moment of the machine weighs little.
fn second_table() -> (String, String) {
    const LIMITS: [u32; 3] = [100_000, 10_000_000, 1_000_000_000];
    let mut misses = Vec::new();
    let mut text = String::new();
    text += "| program | proved: 10^5 steps | 10^7 | 10^9 | plain: 10^5 steps | 10^7 | 10^9 | proved: 10^9 / 10^5 | plain: 10^9 / 10^5 |\n";
    text += "|---|--:|--:|--:|--:|--:|--:|--:|--:|\n";
    for program in programs::endless() {
        let passes: Vec<[[f64; 2]; 3]> = (0..PASSES)
            .map(|_| LIMITS.map(|steps| at_steps(&program, steps)))
            .collect();
        let times = |engine: usize| {
            let best = |limit: usize| {
                passes
                    .iter()
                    .map(|pass| pass[limit][engine])
                    .fold(f64::INFINITY, f64::min)
            };
            [0, 1, 2].map(best)
        };
        let [proved, plain] = [0, 1].map(times);
        let growths = [proved, plain].map(|time| time[2] / time[0]);
        if growths[0] > 1.1 {
            misses.push(program.name);
        }
        let cells: Vec<String> = [&proved[..], &plain, &growths]
            .concat()
            .iter()
            .map(|cell| format!("{cell:.2}"))
            .collect();
        writeln!(text, "| {} | {} |", program.name, cells.join(" | ")).unwrap();
    }
    (text, missed(&misses))
}

fn processor() -> String {
    let info = fs::read_to_string("/proc/cpuinfo").unwrap_or_default();
    let model = info
        .lines()
        .find_map(|line| line.strip_prefix("model name")?.split_once(": "));
    model.map_or("an unknown processor".to_string(), |(_, name)| {
        name.trim().to_string()
    })
}

/// Makes a folder for programs where SWI-Prolog is installed, and says its version.
fn find_swi() -> Option<(PathBuf, String)> {
    let version = Command::new("swipl").arg("--version").output().ok()?;
    let folder = std::env::temp_dir().join(format!("bench-{}", std::process::id()));
    fs::create_dir_all(&folder).expect("the temporary folder can be written");
    Some((
        folder,
        String::from_utf8_lossy(&version.stdout).trim().to_string(),
    ))
}

fn main() {
    let arguments: Vec<String> = std::env::args().skip(1).collect();
    let arguments: Vec<&str> = arguments.iter().map(String::as_str).collect();
    match arguments[..] {
        ["time", ref numbers @ ..] => before::time(numbers),
        ["beside", earlier] => print!("{}", before::table(Path::new(earlier))),
        [date, file] => tables(date, file),
        _ => {
            eprintln!("usage: bench DATE FILE, or bench beside EARLIER");
            exit(2);
        }
    }
}

fn tables(date: &str, file: &str) {
    let swi = find_swi();
    let folder = swi.as_ref().map(|swi| swi.0.as_path());
    let rows: Vec<Row> = programs::compared()
        .iter()
        .map(|program| measure(program, folder))
        .collect();
    if let Some(folder) = folder {
        fs::remove_dir_all(folder).expect("the temporary folder can be removed");
    }
    let version = swi.map_or("SWI-Prolog is not installed".to_string(), |swi| swi.1);
    let (second, second_goal) = second_table();
    let (third, third_goal) = opening::table();
    let (fourth, fourth_goals) = repeats::table();
    let text = include_str!("benchmark.md")
        .replace("{date}", date)
        .replace("{processor}", &processor())
        .replace("{swi}", &version)
        .replace("{first}", first_table(&rows).trim_end())
        .replace("{first goals}", &first_goals(&rows))
        .replace("{second}", second.trim_end())
        .replace("{second goal}", &second_goal)
        .replace("{third}", third.trim_end())
        .replace("{third goal}", &third_goal)
        .replace("{fourth}", fourth.trim_end())
        .replace("{fourth goals}", &fourth_goals);
    print!("{text}");
    fs::write(file, text).unwrap_or_else(|error| {
        eprintln!("{file}: {error}");
        exit(1);
    });
}
