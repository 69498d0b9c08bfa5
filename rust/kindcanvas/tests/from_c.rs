//! The static library's functions called from C, by the header beside them.

use std::path::Path;
use std::process::Command;

#[test]
fn answers_opened_from_c() {
    let here = Path::new(env!("CARGO_MANIFEST_DIR"));
    // Where the build script has put the library.
    let out = Path::new(env!("OUT_DIR"));
    let program = out.join("view");
    let compiled = Command::new("cc")
        .args(["-std=c99", "-Wall", "-Wextra", "-Werror", "-I"])
        .arg(here.join("../../crates/exports"))
        .arg(here.join("tests/c/view.c"))
        .arg(out.join("libexports.a"))
        .arg("-o")
        .arg(&program)
        .output()
        .expect("cc, which cargo links with, can be run");
    assert!(
        compiled.status.success(),
        "{}",
        String::from_utf8_lossy(&compiled.stderr)
    );
    let run = Command::new(&program).output().unwrap();
    assert!(run.status.success());
    assert_eq!(
        String::from_utf8_lossy(&run.stdout),
        "check 0\n\
         run 8: end 1 answers 2\n\
         answer 0: refusal 0 start 0 end 2: 15:1 2:5\n\
         answer 1: refusal 0 start 2 end 4: 15:1 1:7\n\
         answer 2: refusal 10 start 4 end 4:\n\
         answer 0: refusal 0 start 0 end 1: 15:0\n\
         answer 1: refusal 10 start 1 end 1:\n\
         answer 0: refusal 10 start 0 end 0:\n"
    );
}
