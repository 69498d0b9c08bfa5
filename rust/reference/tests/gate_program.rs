//! The gate's own programs `gate_refusals`, `gate_pages` and `gate_runs` are run on the tables of refusals, of pages and of runs, and the
//! listing program on the first run: their input and expected output are made from the tables. After a change of a table, REWRITE=1 writes all anew.

use reference::cases::Case;
use reference::gen::nested_goals;
use reference::listing::listing;
use reference::table::{decisions, pages, refusals, runs, Row};
use reference::word::show;
use std::env;
use std::fs;
use std::path::{Path, PathBuf};

/// The buffer of `gate_refusals` holds 65,536 words, so of the long rows only those on the word count go in.
fn rows() -> Vec<Row> {
    let mut long = 0;
    let mut taken = |row: &Row| {
        long += usize::from(row.words.len() >= 2_000);
        row.words.len() < 2_000 || long <= 2
    };
    refusals().into_iter().filter(|row| taken(row)).collect()
}

fn compare(program: &str, file: &str, made: &[u8]) {
    let path: PathBuf = Path::new(env!("CARGO_MANIFEST_DIR"))
        .join("../../crates")
        .join(program)
        .join(file);
    if env::var_os("REWRITE").is_some() {
        fs::write(&path, made).unwrap();
    }
    assert!(
        fs::read(&path).unwrap() == made,
        "{file} of the program {program} isn't that of the table: run this test with REWRITE=1"
    );
}

fn bytes(words: &[u32]) -> Vec<u8> {
    words.iter().flat_map(|word| word.to_le_bytes()).collect()
}

#[test]
fn refusals_input_and_output_are_those_of_the_table() {
    let rows = rows();
    assert!(rows.len() > 160);
    assert!(rows.iter().any(|row| row.words.len() == 16_384));
    assert!(rows.iter().any(|row| row.words.len() == 16_385));
    let mut input = Vec::new();
    let mut output = String::new();
    for row in &rows {
        input.extend(bytes(&[row.words.len() as u32]));
        input.extend(bytes(&row.words));
        match &row.expected {
            Ok(()) => output.push_str("accepted\n"),
            Err(refusal) => output.push_str(&format!(
                "refused {} at {}\n",
                refusal.number, refusal.place
            )),
        }
    }
    assert!(input.len() <= 4 * 65_536);
    compare("gate_refusals", "stdin", &input);
    compare("gate_refusals", "stdout", output.as_bytes());
}

/// `gate_pages` takes pages of at most 256 words.
#[test]
fn pages_input_and_output_are_those_of_the_table() {
    let mut rows = pages();
    rows.retain(|row| row.case.page.len() <= 256);
    assert!(rows.len() >= 40);
    let mut input = bytes(&[rows.len() as u32]);
    let mut output = String::new();
    for row in rows {
        let page = &row.case.page;
        input.extend(bytes(&[row.case.answer, page.len() as u32]));
        input.extend(bytes(page));
        match row.expected {
            Ok(part) => output.push_str(&format!(
                "{} at {}\n",
                show(&page[part.clone()]),
                part.start
            )),
            Err(refusal) => output.push_str(&format!(
                "refused {} at {}\n",
                refusal.number, refusal.place
            )),
        }
    }
    compare("gate_pages", "stdin", &input);
    compare("gate_pages", "stdout", output.as_bytes());
}

#[test]
fn listing_input_and_output_are_those_of_run_a() {
    let a = runs().remove(0);
    compare("listing", "stdin", &bytes(&a.case.words));
    compare("listing", "stdout", a.expected.as_bytes());
}

/// The input and expected output of `gate_runs`.
#[derive(Default)]
struct Runs {
    count: usize,
    input: Vec<u8>,
    output: String,
}

impl Runs {
    /// The case with other bytes than its words may be.
    fn add_bytes(&mut self, case: &Case, bytes_given: &[u8], text: &str) {
        self.count += 1;
        let size = bytes_given.len() as u32;
        self.input
            .extend(bytes(&[case.rounds, case.steps, case.output as u32, size]));
        self.input.extend(bytes_given);
        self.output.push_str(text);
    }

    fn add(&mut self, case: &Case, text: &str) {
        self.add_bytes(case, &bytes(&case.words), text);
    }
}

#[test]
fn runs_input_and_output_are_those_of_the_tables() {
    let mut made = Runs::default();
    let mut last_words = 0;
    for row in runs() {
        made.add(&row.case, &row.expected);
        let (last, others) = row.case.words.split_last().unwrap_or((&0, &[]));
        last_words += usize::from(others.len() == 16_383 && !others.contains(last));
    }
    assert_eq!(
        last_words, 2,
        "rows of 16,384 words with a last one that stands nowhere else"
    );
    for decision in decisions() {
        made.add(&decision.case, &listing(&decision.case.run()));
    }
    // Byte counts: no whole words, a full-length program, and one word or byte more.
    let mut case = runs().remove(0).case;
    let a = bytes(&case.words);
    for count in 0..4 {
        made.add_bytes(&case, &a[..count], "refused 1 at 0\n");
    }
    made.add_bytes(&case, &a[..23], "refused 1 at 0\n");
    made.add_bytes(&case, &[&a[..], &[0]].concat(), "refused 1 at 0\n");
    case.words = nested_goals(16_378, [10, 10]);
    assert_eq!(case.words.len(), 16_384);
    made.add(&case, "end path 2 round 0 steps 1023 answers 0 cut 0\n");
    case.words.push(0);
    made.add(&case, "refused 1 at 0\n");
    let too_long = bytes(&case.words);
    made.add_bytes(&case, &too_long[..65_537], "refused 1 at 0\n");
    // The program's bounds: at most 1,000 runs of 65,544 bytes and 4,096 output words.
    assert!(made.count <= 1_000);
    compare("gate_runs", "stdin", &made.input);
    compare("gate_runs", "stdout", made.output.as_bytes());
}
