//! The command `kindcanvas`: `run` lists what the rules in a file give, `check` says whether a file is a program, `show` opens one
//! answer of a list.

mod list;
mod show;

use kindcanvas::{words, Ending, Limits, ParseError, Program, USABLE_WORDS};
use std::env;
use std::fmt::Display;
use std::io::{self, BufWriter, ErrorKind, Write};
use std::process::ExitCode;
use std::str::FromStr;

const USAGE: &str = "\
usage: kindcanvas run FILE [--rounds N] [--steps N] [--output-words N]
       kindcanvas check FILE
       kindcanvas show FILE N

run    runs the rules in FILE and prints the list of what they give
check  says whether FILE is a program
show   prints the words of answer N of the page in FILE; 0 is the first, '1.' in run's list

FILE is k:p text; - is standard input. A comment '# symbol 7 = B7' in it names symbol 7.
A page is the words of answers, one after the other; a list that ./list has printed is one.
--rounds N        the most calls that an answer may take: 0 to 255, else 16
--steps N         the most steps in all: 0 to 4294967295, else 1000000
--output-words N  room for the answers: 0 to 268435455 words, else 4096

In the list 'B7 or '7 is a symbol, 7 a number, _0 an open variable, () the empty list,
(a b) a list and (a b . c) one that ends in c. An answer is listed once, where it came first.
A branch that a round left open asks for more calls than the round's number.

status 0  the list is complete; for check, the file is a program; for show, the answer is there
       1  the file is no program; for show, it is no k:p text or has no such answer
       2  the file cannot be read, the output not written, or the command not understood
       3  the list may be incomplete";

/// The file is no program, or no page, or one without the answer that is asked for.
const REFUSED: u8 = 1;
const FAILED: u8 = 2;
const INCOMPLETE: u8 = 3;

/// Why a command failed: the status, and a sentence.
struct Failure(u8, String);

fn main() -> ExitCode {
    let arguments: Vec<String> = env::args().skip(1).collect();
    let arguments: Vec<&str> = arguments.iter().map(String::as_str).collect();
    let result = match &arguments[..] {
        ["run", arguments @ ..] => run(arguments),
        ["check", file] => check(file),
        ["show", file, answer] => show(file, answer),
        ["--help"] => say(USAGE),
        _ => Err(Failure(FAILED, USAGE.to_string())),
    };
    ExitCode::from(result.unwrap_or_else(|Failure(status, sentence)| {
        eprintln!("{sentence}");
        status
    }))
}

fn check(file: &str) -> Result<u8, Failure> {
    load(file)?;
    say("accepted")
}

fn show(file: &str, answer: &str) -> Result<u8, Failure> {
    let answer = number("N", Some(answer), u32::MAX).map_err(misunderstood)?;
    let words = show::answer(&contents(file)?, answer)
        .map_err(|error| Failure(REFUSED, format!("{file}: {error}")))?;
    say(&words)
}

fn say(line: &str) -> Result<u8, Failure> {
    match writeln!(io::stdout(), "{line}") {
        Ok(()) => Ok(0),
        Err(error) => Err(Failure(FAILED, format!("can't write: {error}"))),
    }
}

fn misunderstood(error: String) -> Failure {
    Failure(FAILED, format!("{error}; see kindcanvas --help"))
}

fn run(arguments: &[&str]) -> Result<u8, Failure> {
    let failed = |sentence| Failure(FAILED, sentence);
    let (file, limits) = parse_run(arguments).map_err(misunderstood)?;
    let program = load(file)?;
    let outcome = program.run(limits);
    let mut out = BufWriter::new(io::stdout().lock());
    list::print(&mut out, &program, limits, &outcome)
        .and_then(|()| out.flush())
        .map_err(|error| failed(format!("can't write the list: {error}")))?;
    Ok(match outcome.report().end {
        Ending::Finished => 0,
        _ => INCOMPLETE,
    })
}

/// The file and the limits in the arguments of `run`.
fn parse_run<'a>(arguments: &[&'a str]) -> Result<(&'a str, Limits), String> {
    let mut file = None;
    let mut limits = Limits::default();
    let mut arguments = arguments.iter().copied();
    while let Some(argument) = arguments.next() {
        match argument {
            "--rounds" => limits.rounds = number(argument, arguments.next(), u8::MAX)?,
            "--steps" => limits.steps = number(argument, arguments.next(), u32::MAX)?,
            "--output-words" => {
                limits.output_words = number(argument, arguments.next(), USABLE_WORDS)?
            }
            _ if argument.starts_with("--") => {
                return Err(format!("there is no option {argument}"))
            }
            _ if file.is_some() => return Err("run takes one file".to_string()),
            _ => file = Some(argument),
        }
    }
    match file {
        Some(file) => Ok((file, limits)),
        None => Err("run takes a file".to_string()),
    }
}

fn number<T: FromStr + PartialOrd + Display>(
    option: &str,
    value: Option<&str>,
    most: T,
) -> Result<T, String> {
    let number = value.and_then(|value| value.parse().ok());
    number
        .filter(|number| *number <= most)
        .ok_or_else(|| format!("{option} takes a number from 0 to {most}"))
}

fn load(file: &str) -> Result<Program, Failure> {
    contents(file)?
        .parse()
        .map_err(|error: ParseError| Failure(REFUSED, format!("{file}: {error}")))
}

fn contents(file: &str) -> Result<String, Failure> {
    words::contents(file).map_err(|error| {
        let status = match error.kind() {
            // It was read, and is no text.
            ErrorKind::InvalidData => REFUSED,
            _ => FAILED,
        };
        Failure(status, format!("{file}: {error}"))
    })
}
