//! The command: what it prints, and its exit status.

use std::fs;
use std::io::Write;
use std::path::Path;
use std::process::{Command, Stdio};

/// Runs `kindcanvas` with the arguments and a text as standard input.
fn kindcanvas(arguments: &[&str], text: impl AsRef<[u8]>) -> (Option<i32>, String, String) {
    let mut child = Command::new(env!("CARGO_BIN_EXE_kindcanvas"))
        .args(arguments)
        .stdin(Stdio::piped())
        .stdout(Stdio::piped())
        .stderr(Stdio::piped())
        .spawn()
        .unwrap();
    // The command may end without reading.
    let _ = child.stdin.take().unwrap().write_all(text.as_ref());
    let output = child.wait_with_output().unwrap();
    (
        output.status.code(),
        String::from_utf8(output.stdout).unwrap(),
        String::from_utf8(output.stderr).unwrap(),
    )
}

/// The path of a file in examples/.
fn example(file: &str) -> String {
    let folder = Path::new(env!("CARGO_MANIFEST_DIR")).join("../../examples");
    folder.join(file).to_str().unwrap().to_string()
}

const COMPLETE: &str =
    "The list is complete: it shows all that the rules give, and nothing else.\n";
const A: &str = "13:5 2:1 2:1 # run A\n5:2 0:0 1:7\n";
const C: &str = "13:5 2:1 2:1 12:2 2:1 0:0 13:9 2:1 2:1 11:6 12:2 2:1 0:0 5:2 0:0 2:5";

/// The files in examples/ with this extension, by name and without it.
fn examples(extension: &str) -> Vec<String> {
    let files = fs::read_dir(example("")).unwrap();
    let names = files.map(|entry| entry.unwrap().file_name().into_string().unwrap());
    let mut names: Vec<String> = names
        .filter_map(|name| name.strip_suffix(extension).map(str::to_string))
        .collect();
    names.sort();
    names
}

/// Beside each rule file is what `kindcanvas run` prints for it.
#[test]
fn lists_of_examples() {
    let names = examples(".kp");
    assert!(!names.is_empty());
    assert_eq!(examples(".txt"), names, "one list for each rule file");
    for name in names {
        let expected = fs::read_to_string(example(&format!("{name}.txt"))).unwrap();
        let file = example(&format!("{name}.kp"));
        let (status, output, error) = kindcanvas(&["run", &file], "");
        assert_eq!((output, error.as_str()), (expected.clone(), ""), "{name}");
        let complete = expected.contains("The list is complete: ");
        assert_eq!(status, Some(if complete { 0 } else { 3 }), "{name}");
    }
}

#[test]
fn complete_lists() {
    for (text, expected) in [
        (A, format!("1. '7\n\n1 answer in 4 steps.\n{COMPLETE}")),
        (
            "# Run B: a variable that would be in its own value.\n13:7 2:1 2:1 5:4 0:0 4:1 0:0 3:0",
            "0 answers in 4 steps.\nThe list is complete: the rules give nothing.\n".to_string(),
        ),
        (
            "# Run G\n13:9 2:2 2:2 6:6 4:1 0:0 0:1 4:1 2:1 2:2",
            format!(
                "1. _0, _1\n     where not both _0 = 1 and _1 = 2\n\n_0, _1 and so on stand for any value that meets \
                 the conditions of their answer.\n1 answer in 16 steps.\n{COMPLETE}"
            ),
        ),
        (
            "# No parameters\n13:5 2:0 2:0 5:2 3:0 3:0",
            format!("1. the query holds\n\n1 answer in 2 steps.\n{COMPLETE}"),
        ),
        (
            "# Two ways to 5, one to 6\n13:12 2:1 2:1 11:9 5:2 0:0 2:5 5:2 0:0 2:6 5:2 0:0 2:5",
            format!("1. 5\n2. 6\n\n2 answers in 13 steps.\n{COMPLETE}"),
        ),
        (
            "# Symbol 5 and number 5\n13:9 2:1 2:1 11:6 5:2 0:0 1:5 5:2 0:0 2:5",
            format!("1. '5\n2. 5\n\n2 answers in 9 steps.\n{COMPLETE}"),
        ),
    ] {
        let (status, output, _) = kindcanvas(&["run", "-"], text);
        assert_eq!((status, output), (Some(0), expected), "{text}");
    }
}

#[test]
fn incomplete_lists() {
    for (options, text, expected) in [
        (
            vec!["--rounds", "2"],
            C,
            "1. 5

1 answer in 20 steps.
The list may be incomplete: the round limit was used up with round 2.
Every answer is right, and all that the rules give with at most 2 calls is shown; what takes more may be missing: round 2 left 1 branch open.
To search further, raise --rounds: it is 2, and may be 255.
",
        ),
        (
            vec!["--rounds", "255", "--output-words", "0"],
            C,
            "0 answers in 8 steps.
The list may be incomplete: in round 1 an answer did not fit into what was left of 0 words.
The rules give nothing with at most 0 calls; what takes more may be missing: round 0 left 1 branch open.
To search further, raise --output-words: it is 0, and may be 268435455.
",
        ),
        (
            vec!["--steps", "10"],
            C,
            "1. 5

1 answer in 10 steps.
The list may be incomplete: the step limit was used up in round 2.
Every answer is right, and all that the rules give with at most 1 call is shown; what takes more may be missing: round 1 left 1 branch open.
To search further, raise --steps: it is 10, and may be 4294967295.
",
        ),
        (
            vec!["--steps", "3"],
            A,
            "0 answers in 3 steps.
The list may be incomplete: the step limit was used up in round 0.
No round was completed, so anything may be missing.
To search further, raise --steps: it is 3, and may be 4294967295.
",
        ),
        (
            vec!["--output-words", "2"],
            "13:9 2:1 2:1 11:6 5:2 0:0 1:1 5:2 0:0 1:2",
            "1. '1

1 answer in 9 steps.
The list may be incomplete: in round 0 an answer did not fit into what was left of 2 words.
Every answer is right, but no round was completed, so anything else may be missing.
To search further, raise --output-words: it is 2, and may be 268435455.
",
        ),
        (
            vec![],
            "13:4 2:0 2:255 12:1 2:0",
            "0 answers in 43 steps.
The list may be incomplete: a path in round 8 needs more than 2048 variables.
The rules give nothing with at most 7 calls; what takes more may be missing: round 7 left 1 branch open.
No option raises this bound; the rules must ask less of one path.
",
        ),
        (
            vec!["--steps", "25"],
            "# Rounds 0, 1, 2 cut 1, 2, 4 branches\n13:4 2:0 2:0 12:1 2:1  13:7 2:0 2:0 11:4 12:1 2:1 12:1 2:1",
            "0 answers in 25 steps.
The list may be incomplete: the step limit was used up in round 3.
The rules give nothing with at most 2 calls; what takes more may be missing: round 2 left 4 branches open.
To search further, raise --steps: it is 25, and may be 4294967295.
",
        ),
        (
            vec!["--rounds", "255"],
            "# A relation that calls itself\n13:4 2:0 2:0 12:1 2:0",
            "0 answers in 32896 steps.
The list may be incomplete: the round limit was used up with round 255.
The rules give nothing with at most 255 calls; what takes more may be missing: round 255 left 1 branch open.
--rounds is 255 and cannot be raised.
",
        ),
    ] {
        let arguments = [vec!["run"], options, vec!["-"]].concat();
        let (status, output, _) = kindcanvas(&arguments, text);
        assert_eq!((status, output.as_str()), (Some(3), expected), "{text}");
    }
}

/// Without options, the limits are the listing program's.
#[test]
fn default_limits() {
    let three_ways = "13:4 2:0 2:0 12:1 2:1 13:9 2:0 2:0 11:6 12:1 2:1 12:1 2:1 12:1 2:1";
    let list = "4:1 1:1 ".repeat(2_048) + "3:0";
    let long = format!("13:4101 2:1 2:1 5:4098 0:0 {list}");
    for (text, expected) in [
        (C, "raise --rounds: it is 16,"),
        (three_ways, "raise --steps: it is 1000000,"),
        (&long, "raise --output-words: it is 4096,"),
    ] {
        let (_, output, error) = kindcanvas(&["run", "-"], text);
        assert!(output.contains(expected), "{output}{error}");
    }
}

#[test]
fn accepted() {
    let (status, output, _) = kindcanvas(&["check", "-"], A);
    assert_eq!((status, output.as_str()), (Some(0), "accepted\n"));
    let (status, output, _) = kindcanvas(&["check", &example("abo.kp")], "");
    assert_eq!((status, output.as_str()), (Some(0), "accepted\n"));
}

#[test]
fn refused() {
    for (text, expected) in [
        (
            "# nothing\n",
            "-: refused 1 at 0: the file must hold 1 to 16,384 words: there are none\n",
        ),
        (
            "5:0",
            "-: refused 2 at 0: word 0 has a kind that is not allowed there (line 1, column 1): 5:0 (an equality) stands where \
             a relation must\n",
        ),
        (
            "13:0 # ends too early\n",
            "-: refused 3 at 1: at word 1 a part overruns what encloses it, is missing or is left over, or an empty \
             list has a payload (the end of the file): the relation at line 1, column 1 (13:0) ends before its number \
             of parameters\n",
        ),
        (
            "13:5 2:1 2:1\n  5:2 0:1 3:0",
            "-: refused 5 at 4: word 4 names a variable that its relation doesn't have (line 2, column 7): variable \
             1, but the relation at line 1, column 1 (13:5) has 1, numbered from 0\n",
        ),
        (
            "13:4 2:0 2:0 12:1 2:1",
            "-: refused 7 at 3: the call at word 3 names a relation that isn't there (line 1, column 14): relation 1 \
             is called, but there is 1, numbered from 0\n",
        ),
    ] {
        for command in ["check", "run"] {
            let (status, output, error) = kindcanvas(&[command, "-"], text);
            assert_eq!((status, output.as_str()), (Some(1), ""), "{text}");
            assert_eq!(error, expected, "{command}");
        }
    }
}

#[test]
fn answers_shown() {
    let list = example("endless-chains.list");
    // Comments change nothing, whatever names they have.
    let page = "15:1 1:7 # symbol 7 = A\n15:2 15:9 4:9 # symbol 7 = B\n15:0 0:0\n";
    for (arguments, expected) in [
        (["show", &list, "0"], "15:5 4:1 2:2 4:1 2:3 3:0\n"),
        (
            ["show", &list, "1"],
            "15:9 4:1 2:2 4:1 2:1 4:1 2:2 4:1 2:3 3:0\n",
        ),
        (["show", "-", "0"], "15:1 1:7\n"),
        (["show", "-", "1"], "15:2 15:9 4:9\n"),
        (["show", "-", "2"], "15:0\n"),
    ] {
        let (status, output, error) = kindcanvas(&arguments, page);
        assert_eq!(
            (output.as_str(), error.as_str()),
            (expected, ""),
            "{arguments:?}"
        );
        assert_eq!(status, Some(0));
    }
}

/// Each answer of each example's list is shown as its line, and the number behind the last is refused at the list's end.
#[test]
fn all_answers_of_examples() {
    let names = examples(".list");
    assert_eq!(names, examples(".kp"), "one list for each rule file");
    for name in names {
        let file = example(&format!("{name}.list"));
        let list = fs::read_to_string(&file).unwrap();
        let answers: Vec<&str> = list.lines().skip(1).collect();
        for (number, line) in answers.iter().enumerate() {
            let (status, output, _) = kindcanvas(&["show", &file, &number.to_string()], "");
            assert_eq!((status, output.trim_end()), (Some(0), *line), "{name}");
        }
        let (status, output, error) = kindcanvas(&["show", &file, &answers.len().to_string()], "");
        let words: usize = answers.iter().map(|line| line.split(' ').count()).sum();
        assert_eq!((status, output.as_str()), (Some(1), ""), "{name}");
        assert!(
            error.contains(&format!("refused 10 at {words}: ")),
            "{error}"
        );
    }
}

#[test]
fn no_answer_to_show() {
    const END: &str = "(the end of the page): its answers end there";
    for (page, number, place, case) in [
        ("", "0", 0, END),
        ("end finished round 0 steps 2 answers 0 cut 0", "0", 0, END),
        ("refused 1 at 0\n", "0", 0, END),
        (
            "end output round 0 steps 4 answers 1 cut 0\n15:1 1:7\n",
            "4294967295",
            2,
            END,
        ),
        (
            "15:1 1:7\n  0:0",
            "1",
            2,
            "(line 2, column 3): 0:0 is no answer's header",
        ),
        (
            "end finished round 0 steps 4 answers 2 cut 0\n15:0\n15:3 1:7 1:8\n",
            "1",
            1,
            "(line 3, column 1): 15:3 has only 2 of its 3 words on the page",
        ),
    ] {
        let (status, output, error) = kindcanvas(&["show", "-", number], page);
        assert_eq!((status, output.as_str()), (Some(1), ""), "{page}");
        let expected = format!(
            "-: refused 10 at {place}: the page has no whole answer of this number: the walk over its headers stopped \
             at word {place} {case}\n"
        );
        assert_eq!(error, expected);
    }
}

#[test]
fn no_words() {
    let cases: [(&[u8], &str); 3] = [
        (b"13:5 2:1\n2:x", "-: line 2, column 1: a word must be "),
        (b"16:0", "-: line 1, column 1: the kind is over 15\n"),
        (b"13:5 \xff", "-: "),
    ];
    for (command, further) in [("check", &[][..]), ("run", &[]), ("show", &["0"])] {
        let kindcanvas = |file, text| kindcanvas(&[&[command, file], further].concat(), text);
        for (text, expected) in cases {
            let (status, output, error) = kindcanvas("-", text);
            assert_eq!((status, output.as_str()), (Some(1), ""), "{error}");
            assert!(error.starts_with(expected), "{error}");
        }
        let (status, _, error) = kindcanvas("no such file", b"");
        assert_eq!(status, Some(2));
        assert!(error.starts_with("no such file: "), "{error}");
    }
}

/// A line that can't be written, here to a full device, is no success.
#[test]
fn not_written() {
    let list = example("abo.list");
    for arguments in [
        &["check", &example("abo.kp")][..],
        &["show", &list, "0"],
        &["--help"],
    ] {
        let full = fs::OpenOptions::new()
            .write(true)
            .open("/dev/full")
            .unwrap();
        let output = Command::new(env!("CARGO_BIN_EXE_kindcanvas"))
            .args(arguments)
            .stdout(full)
            .output()
            .unwrap();
        assert_eq!(output.status.code(), Some(2), "{arguments:?}");
        assert!(output.stderr.starts_with(b"can't write: "));
    }
}

#[test]
fn not_understood() {
    for (arguments, expected) in [
        (&[][..], "usage: "),
        (&["check"], "usage: "),
        (&["list", "-"], "usage: "),
        (&["show", "-"], "usage: "),
        (&["show", "-", "0", "1"], "usage: "),
        (
            &["show", "-", "4294967296"],
            "N takes a number from 0 to 4294967295; ",
        ),
        (
            &["show", "-", "-1"],
            "N takes a number from 0 to 4294967295; ",
        ),
        (&["run"], "run takes a file; "),
        (&["run", "-", "-"], "run takes one file; "),
        (&["run", "-", "--fast"], "there is no option --fast; "),
        (
            &["run", "-", "--rounds"],
            "--rounds takes a number from 0 to 255; ",
        ),
        (
            &["run", "--rounds", "256", "-"],
            "--rounds takes a number from 0 to 255; ",
        ),
        (
            &["run", "--steps", "-1", "-"],
            "--steps takes a number from 0 to 4294967295; ",
        ),
        (
            &["run", "--output-words", "268435456", "-"],
            "--output-words takes a number from 0 to 268435455; ",
        ),
    ] {
        let (status, output, error) = kindcanvas(arguments, A);
        assert_eq!((status, output.as_str()), (Some(2), ""), "{arguments:?}");
        assert!(error.starts_with(expected), "{error}");
    }
    let (status, output, _) = kindcanvas(&["--help"], "");
    assert_eq!(status, Some(0));
    assert!(output.starts_with("usage: "), "{output}");
    assert!(
        output.contains("An answer is listed once, where it came first."),
        "{output}"
    );
}
