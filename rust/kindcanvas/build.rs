//! Has the rule engine proved and compiled to a static library, and links it.
//!
//! With KINDCANVAS_LIB_DIR set, the library is taken from that folder as it is.

use std::env;
use std::fs;
use std::path::{Path, PathBuf};
use std::process::{exit, Command};

/// The crate with the exported functions.
const LIBRARY: &str = "exports";
/// All crates that go into it.
const CRATES: [&str; 6] = ["word", "page", "rules", "semantics", "engine", LIBRARY];

fn main() {
    println!("cargo:rerun-if-changed=build.rs");
    println!("cargo:rerun-if-env-changed=KINDCANVAS_LIB_DIR");
    let file = format!("lib{LIBRARY}.a");
    let built = match env::var_os("KINDCANVAS_LIB_DIR").map(PathBuf::from) {
        Some(folder) => {
            println!("cargo:rerun-if-changed={}", folder.join(&file).display());
            folder.join(&file)
        }
        None => prove().join(&file),
    };
    // Linked from a copy: the folder that the library is built in is emptied by the repository's merge gate, and a file
    // that the build itself writes can't be watched for changes.
    let out = PathBuf::from(env::var_os("OUT_DIR").expect("cargo sets OUT_DIR"));
    if let Err(error) = fs::copy(&built, out.join(&file)) {
        fail(&format!("can't copy {}: {error}", built.display()));
    }
    println!("cargo:rustc-link-lib=static={LIBRARY}");
    println!("cargo:rustc-link-search=native={}", out.display());
}

/// Runs `rt lib` in the library's crate, which proves the crates below only if they have changed, and says in which folder
/// the library is.
fn prove() -> PathBuf {
    let manifest = env::var_os("CARGO_MANIFEST_DIR").expect("cargo sets CARGO_MANIFEST_DIR");
    let crates = match Path::new(&manifest).ancestors().nth(2) {
        Some(root) => root.join("crates"),
        None => fail("the crate must stand two folders below the repository's root"),
    };
    // Not a crate's whole folder, since rt writes to `out` in it, nor a folder that is not there, which cargo takes for one that has changed.
    for watched in CRATES {
        for part in ["src", "specs", "proofs"] {
            let folder = crates.join(watched).join(part);
            if folder.is_dir() {
                println!("cargo:rerun-if-changed={}", folder.display());
            }
        }
    }
    let library = crates.join(LIBRARY);
    let run = Command::new("rt").arg("lib").current_dir(&library).output();
    match run {
        Err(error) => fail(&format!(
            "can't run `rt lib`: {error}. Put rt on the PATH, or set KINDCANVAS_LIB_DIR to a folder that holds the library"
        )),
        Ok(output) if !output.status.success() => fail(&format!(
            "`rt lib` in {} failed ({}):\n{}{}",
            library.display(),
            output.status,
            String::from_utf8_lossy(&output.stdout),
            String::from_utf8_lossy(&output.stderr)
        )),
        Ok(_) => library.join("out"),
    }
}

/// Cargo shows what a build script writes to standard error only if it fails.
fn fail(message: &str) -> ! {
    eprintln!("kindcanvas: {message}");
    exit(1);
}
