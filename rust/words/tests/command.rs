//! The command `words`: what it writes, and its exit status.

use std::io::Write;
use std::process::{Command, Output, Stdio};

fn words(arguments: &[&str], text: &str) -> Output {
    let mut child = Command::new(env!("CARGO_BIN_EXE_words"))
        .args(arguments)
        .stdin(Stdio::piped())
        .stdout(Stdio::piped())
        .stderr(Stdio::piped())
        .spawn()
        .unwrap();
    // The command may end without reading.
    let _ = child.stdin.take().unwrap().write_all(text.as_bytes());
    child.wait_with_output().unwrap()
}

#[test]
fn four_bytes_each() {
    let output = words(&["-"], "13:5 2:258 # two words\n");
    assert!(output.status.success());
    assert_eq!(output.stdout, [5, 0, 0, 0xd0, 2, 1, 0, 0x20]);
    assert!(words(&["-"], "").stdout.is_empty());
}

/// The words are the same with names that no list could use: one that is none, and one given two times.
#[test]
fn names_are_not_looked_at() {
    let output = words(
        &["-"],
        "2:1 # symbol 1 = 7\n# symbol 2 = A\n# symbol 2 = B\n",
    );
    assert!(output.status.success());
    assert_eq!(output.stdout, [1, 0, 0, 0x20]);
}

#[test]
fn faults() {
    let output = words(&["-"], "13:5\n2:x");
    assert_eq!(output.status.code(), Some(2));
    assert!(output.stdout.is_empty());
    let error = String::from_utf8(output.stderr).unwrap();
    assert!(error.contains("line 2, column 1"), "{error}");
    assert_eq!(words(&["no such file"], "").status.code(), Some(2));
    assert_eq!(words(&[], "").status.code(), Some(2));
}
