//! The public contracts of this repository's crates.

use contracts::{contracts, imports, named_by, resolve, walk, Contract, Import, Module, KIT};
use std::collections::BTreeMap;
use std::fs;
use std::path::{Path, PathBuf};

fn crates() -> PathBuf {
    Path::new(env!("CARGO_MANIFEST_DIR")).join("../../crates")
}

/// The files under a folder with this ending, or none if there is no such folder.
fn files(folder: &Path, ending: &str) -> Vec<PathBuf> {
    let Ok(entries) = fs::read_dir(folder) else {
        return Vec::new();
    };
    let mut found = Vec::new();
    for entry in entries {
        let path = entry.unwrap().path();
        if path.is_dir() {
            found.extend(files(&path, ending));
        } else if path.extension().is_some_and(|e| e == ending) {
            found.push(path);
        }
    }
    found.sort();
    found
}

fn name(path: &Path) -> String {
    path.file_stem().unwrap().to_str().unwrap().to_string()
}

/// Every public function, with its crate, and the texts of all `specs/`.
fn tree() -> (Vec<(String, Contract)>, BTreeMap<Module, String>) {
    let mut found = Vec::new();
    let mut texts = BTreeMap::new();
    for entry in fs::read_dir(crates()).unwrap() {
        let folder = entry.unwrap().path();
        let krate = name(&folder);
        // A path into a library of the kit is not followed.
        assert!(!KIT.contains(&krate.as_str()), "{krate} is the kit's");
        for file in files(&folder.join("src"), "rt") {
            let said = contracts(&fs::read_to_string(&file).unwrap());
            let said = said.unwrap_or_else(|e| panic!("{}: {e}", file.display()));
            found.extend(said.into_iter().map(|c| (krate.clone(), c)));
        }
        for file in files(&folder.join("specs"), "antt") {
            // A path names a module by its crate and one word, so a folder in specs/ would not be walked.
            assert_eq!(file.parent(), Some(&*folder.join("specs")), "{file:?}");
            let module = Module {
                krate: krate.clone(),
                name: name(&file),
            };
            texts.insert(module, fs::read_to_string(&file).unwrap());
        }
    }
    found.sort_by(|a, b| (&a.0, &a.1.function).cmp(&(&b.0, &b.1.function)));
    (found, texts)
}

/// What was not found would not be held to anything.
#[test]
fn public_contracts_are_found_with_their_definitions() {
    let (found, texts) = tree();
    let names: Vec<String> = found
        .iter()
        .map(|(krate, contract)| format!("{krate}::{}", contract.function))
        .collect();
    assert!(names.len() >= 12, "only {names:?}");
    for (krate, contract) in &found {
        let function = &contract.function;
        assert!(!contract.imports.is_empty(), "{krate}::{function}");
    }
    for (function, module) in [
        ("engine::run", "semantics/specs/Round"),
        ("exports::kindcanvas_run", "rules/specs/Reading"),
        ("rules::check", "rules/specs/Calls"),
        ("word::kind", "word/specs/Word"),
    ] {
        let at = names.iter().position(|name| name == function);
        let at = at.unwrap_or_else(|| panic!("{function} is not among {names:?}"));
        let modules = walk(&found[at].1.imports, &texts).unwrap().modules;
        assert!(
            modules.iter().any(|reached| reached.to_string() == module),
            "{function} reaches only {modules:?}"
        );
    }
}

/// A caller may lend anything, and is promised something.
#[test]
fn public_functions_promise_and_require_nothing() {
    for (krate, contract) in tree().0 {
        let function = format!("{krate}::{}", contract.function);
        assert!(!contract.requires, "{function} has a requires");
        assert!(contract.ensures, "{function} has no ensures");
    }
}

#[test]
fn what_public_contracts_unfold_to_stands_in_specs() {
    let (found, texts) = tree();
    let mut bad = Vec::new();
    for (krate, contract) in found {
        let function = format!("{krate}::{}", contract.function);
        let walk = walk(&contract.imports, &texts).unwrap_or_else(|e| panic!("{function}: {e}"));
        for chain in walk.into_proofs {
            bad.push(format!("{function} -> {}", chain.join(" -> ")));
        }
    }
    assert!(
        bad.is_empty(),
        "public contracts that reach proofs/:\n{}",
        bad.join("\n")
    );
}

/// Private contracts too, and every definition: also those that no public contract reaches.
#[test]
fn no_definition_and_no_contract_comes_from_proofs() {
    let texts = tree().1;
    let is_module = |module: &Module| texts.contains_key(module);
    let mut named = 0;
    let mut bad = Vec::new();
    for entry in fs::read_dir(crates()).unwrap() {
        let folder = entry.unwrap().path();
        let read = |file: &PathBuf| fs::read_to_string(file).unwrap();
        let specs = files(&folder.join("specs"), "antt");
        let src = files(&folder.join("src"), "rt");
        let specs = specs.into_iter().map(|file| (imports(&read(&file)), file));
        let src = src.into_iter().map(|file| (named_by(&read(&file)), file));
        for (paths, file) in specs.chain(src) {
            named += paths.len();
            for path in paths {
                match resolve(&path, &is_module) {
                    Ok(Import::Leaf | Import::Specs(_)) => {}
                    Ok(Import::Proofs) => bad.push(format!("{}: {path}", file.display())),
                    Err(fault) => bad.push(format!("{}: {fault}", file.display())),
                }
            }
        }
    }
    assert!(named >= 500, "only {named} imports are found");
    assert!(
        bad.is_empty(),
        "imports from proofs/, or that cannot be read:\n{}",
        bad.join("\n")
    );
}
