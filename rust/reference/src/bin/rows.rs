//! `rows N SEED FOLDER`: the programs of docs/DECISIONS.md and N random programs with limits, and the table of pages, without long ones,
//! and N random pages, with the reference's results, as theorems over the definitions of crates semantics and page, which are below FOLDER too, in a crate
//! `rows` there. Each is proved by computing both sides, so a difference is an error at its row.

use reference::cases::{case, Case};
use reference::gen::Rng;
use reference::pages::{page_case, PageCase};
use reference::run::{End, Outcome};
use reference::table::{decisions, pages};
use reference::Refusal;
use std::collections::BTreeMap;
use std::env;
use std::fs;
use std::io;
use std::iter;
use std::path::Path;
use std::process::ExitCode;

/// Rows in a file: the checker takes a file at a time.
const ROWS: usize = 50;

const HEADER: &str = "\
use Rattle.std.specs.Prelude.{[], ◌∷◌, ◌≡◌, refl}
use Rattle.semantics.specs.Steps.{variables, goals, disjunctions, constraints, waiting}
use Rattle.semantics.specs.Round.{finished, rounds_used, steps_used, output_full, path_limit, once}
use Rattle.semantics.specs.Path.{as_written}
use Rattle.semantics.specs.Run.{refusal, ran, returns_by}
";

const PAGES_HEADER: &str = "\
use Rattle.std.specs.Prelude.{[], ◌∷◌, ◌≡◌, refl}
use Rattle.page.specs.Page.{find, part, refused}
";

/// The definitions of crate rules that a row computes through, as the crate's own rows name them.
struct Unfolded {
    imports: String,
    unfolding: String,
}

impl Unfolded {
    fn read(folder: &Path) -> io::Result<Unfolded> {
        let text = fs::read_to_string(folder.join("crates/semantics/proofs/RowsHold.antt"))?;
        let lines = |start| text.lines().filter(move |line| line.starts_with(start));
        Ok(Unfolded {
            imports: lines("use Rattle.rules.")
                .map(|line| format!("{line}\n"))
                .collect(),
            unfolding: lines("unfolding ")
                .next()
                .expect("the rows unfold")
                .to_string(),
        })
    }
}

fn main() -> ExitCode {
    let arguments: Vec<String> = env::args().skip(1).collect();
    let [count, seed, folder] = &arguments[..] else {
        return usage();
    };
    let (Ok(count), Ok(seed)) = (count.parse(), seed.parse()) else {
        return usage();
    };
    match write(count, seed, Path::new(folder)) {
        Ok(()) => ExitCode::SUCCESS,
        Err(error) => {
            eprintln!("rows: {error}");
            ExitCode::from(1)
        }
    }
}

fn usage() -> ExitCode {
    eprintln!("usage: rows N SEED FOLDER");
    ExitCode::from(2)
}

/// Writes the crate and prints how many rows end in which way.
fn write(count: usize, seed: u64, folder: &Path) -> io::Result<()> {
    let unfolded = Unfolded::read(folder)?;
    let specs = folder.join("crates/rows/specs");
    fs::create_dir_all(&specs)?;
    fs::create_dir_all(folder.join("crates/rows/src"))?;
    fs::write(
        folder.join("crates/rows/src/lib.rt"),
        "// No code: the rows are theorems.\n",
    )?;
    let mut rng = Rng::new(seed);
    let fixed = decisions().into_iter().map(|decision| decision.case);
    let random = iter::repeat_with(|| case(&mut rng))
        .filter(computable)
        .take(count);
    let cases: Vec<Case> = fixed.chain(random).collect();
    let mut ends: BTreeMap<String, usize> = BTreeMap::new();
    let mut modules = String::new();
    for (file, chunk) in cases.chunks(ROWS).enumerate() {
        let mut text = format!("{HEADER}{}", unfolded.imports);
        for (at, case) in chunk.iter().enumerate() {
            let result = case.run();
            *ends.entry(name(&result)).or_default() += 1;
            text.push_str(&row(file * ROWS + at, case, &result, &unfolded.unfolding));
        }
        fs::write(specs.join(format!("Rows{file}.antt")), text)?;
        modules.push_str(&format!("pub mod Rows{file}\n"));
    }
    let short = |case: &PageCase| case.page.len() <= LONG;
    let fixed = pages().into_iter().map(|row| row.case).filter(short);
    let random = iter::repeat_with(|| page_case(&mut rng))
        .filter(short)
        .take(count);
    let pages: Vec<PageCase> = fixed.chain(random).collect();
    for (file, chunk) in pages.chunks(ROWS).enumerate() {
        let mut text = PAGES_HEADER.to_string();
        for (at, case) in chunk.iter().enumerate() {
            text.push_str(&page_row(file * ROWS + at, case));
        }
        fs::write(specs.join(format!("Pages{file}.antt")), text)?;
        modules.push_str(&format!("pub mod Pages{file}\n"));
    }
    fs::write(specs.join("Lib.antt"), modules)?;
    println!("{:6} pages", pages.len());
    for (end, count) in ends {
        println!("{count:6} {end}");
    }
    Ok(())
}

/// The checker reads a word by walking the list up to it, so it gets no long programs and pages and no long runs.
const LONG: usize = 1_500;

fn computable(case: &Case) -> bool {
    case.words.len() <= LONG && case.run().map_or(true, |outcome| outcome.steps <= 5_000)
}

fn name(result: &Result<Outcome, Refusal>) -> String {
    match result {
        Err(refusal) => format!("refused by {}", refusal.number),
        Ok(outcome) => end(outcome.end),
    }
}

fn row(number: usize, case: &Case, result: &Result<Outcome, Refusal>, unfolding: &str) -> String {
    let report = match result {
        Err(refusal) => format!("refusal {} {}", refusal.number, refusal.place),
        Ok(outcome) => format!(
            "ran (record {{ end = {}; round = {}; steps = {}; answers = {}; cut = {} }})",
            end(outcome.end),
            outcome.round,
            outcome.steps,
            answers(outcome),
            outcome.cut
        ),
    };
    format!(
        "\nrow_{number} : returns_by (once as_written) ({}) {} {} {} {} ≡ {report}\n{unfolding}\nrow_{number} = refl\n",
        list(&case.words),
        case.rounds,
        case.steps,
        case.output,
        case.scratch
    )
}

fn page_row(number: usize, case: &PageCase) -> String {
    let found = match case.view() {
        Err(refusal) => format!("refused {} {}", refusal.number, refusal.place),
        Ok(place) => format!("part {} {}", place.start, place.end),
    };
    format!(
        "\npage_{number} : find ({}) {} ≡ {found}\npage_{number} = refl\n",
        list(&case.page),
        case.answer
    )
}

fn end(end: End) -> String {
    let bounds = [
        "variables",
        "goals",
        "disjunctions",
        "constraints",
        "waiting",
    ];
    match end {
        End::Finished => "finished".to_string(),
        End::Rounds => "rounds_used".to_string(),
        End::Steps => "steps_used".to_string(),
        End::Output => "output_full".to_string(),
        End::Path(bound) => format!("path_limit {}", bounds[bound as usize - 1]),
    }
}

/// The answers, each with its round; they follow one another in the words, and the first word of each counts the others.
fn answers(outcome: &Outcome) -> String {
    let mut rest = &outcome.words[..];
    let mut text = String::new();
    for round in &outcome.answer_rounds {
        let (answer, later) = rest.split_at(1 + (rest[0] & 0x0fff_ffff) as usize);
        text.push_str(&format!("({round}, {}) ∷ ", list(answer)));
        rest = later;
    }
    assert!(rest.is_empty());
    text + "[]"
}

fn list(words: &[u32]) -> String {
    let mut text = String::new();
    for word in words {
        text.push_str(&format!("{word} ∷ "));
    }
    text + "[]"
}
