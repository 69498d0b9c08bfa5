//! `words FILE`: the rule file's words on standard output, four bytes each, low byte first, as the listing program reads them.
//! `-` reads standard input. Status 2: no such file, or no k:p text.

use std::env;
use std::io::{self, Write};
use std::process::ExitCode;

fn main() -> ExitCode {
    let arguments: Vec<String> = env::args().skip(1).collect();
    let [file] = &arguments[..] else {
        eprintln!("usage: words FILE    (- for standard input)");
        return ExitCode::from(2);
    };
    match write(file) {
        Ok(()) => ExitCode::SUCCESS,
        Err(error) => {
            eprintln!("{error}");
            ExitCode::from(2)
        }
    }
}

fn write(file: &str) -> Result<(), String> {
    let words = words::read(file)?;
    let bytes: Vec<u8> = words.iter().flat_map(|word| word.to_le_bytes()).collect();
    io::stdout()
        .write_all(&bytes)
        .map_err(|error| error.to_string())
}
