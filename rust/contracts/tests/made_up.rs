//! The walk on small made-up texts.

use contracts::{contracts, imports, named_by, of_proofs, resolve, walk, Import, Module};
use std::collections::BTreeMap;

const CODE: &str = "\
// pub fn in a comment { }
ghost use Rattle.std.specs.Prelude.{◌≡◌};
ghost use Rattle.house.specs.Door.{Open, wide as broad};
ghost use Rattle.house.specs.Roof as roof;
ghost use Rattle.house.specs.Cellar.{Deep};

pub fn enter(door: u32) -> u32
    ensures { Open door (record { a = result }) × (result ≡ door) }
{
    door
}

pub(crate) fn dig(n: u32) -> u32
    requires { Deep n }
{
    n
}

impl House {
    pub extern \"C\" fn climb(
        self,
        n: u32,
    ) -> u32
        requires { broad n }
        ensures { result ≡ roof.top n }
    {
        if n == 0 { 0 } else { n }
    }

    pub fn look(self) {}
}
";

fn texts(all: &[(&str, &str, &str)]) -> BTreeMap<Module, String> {
    let module = |krate: &str, name: &str| Module {
        krate: krate.to_string(),
        name: name.to_string(),
    };
    all.iter()
        .map(|(krate, name, text)| (module(krate, name), text.to_string()))
        .collect()
}

#[test]
fn public_functions_are_found_with_their_imports() {
    let found = contracts(CODE).unwrap();
    let said: Vec<(&str, bool, bool)> = found
        .iter()
        .map(|c| (c.function.as_str(), c.requires, c.ensures))
        .collect();
    assert_eq!(
        said,
        [
            ("enter", false, true),
            ("climb", true, true),
            ("look", false, false)
        ]
    );
    assert_eq!(
        found[0].imports,
        ["Rattle.house.specs.Door", "Rattle.std.specs.Prelude"]
    );
    assert_eq!(
        found[1].imports,
        [
            "Rattle.house.specs.Door",
            "Rattle.std.specs.Prelude",
            "Rattle.house.specs.Roof"
        ]
    );
    assert!(found[2].imports.is_empty());
}

/// Names that are written around their operands, and operators written whole.
#[test]
fn names_of_several_words_are_found() {
    let text = "\
ghost use Rattle.std.specs.Prelude.{◌≡◌};
ghost use Rattle.house.specs.Gate.{◌is◌of◌, ◌⊑◌};

pub fn enter(a: u32, b: u32) -> u32
    ensures { (a is result of b) × (result ≡ result) }
{
    a
}

pub fn leave(a: u32, b: u32) -> u32
    ensures { (◌⊑◌ a b) × (result ≡ result) }
{
    b
}
";
    for contract in contracts(text).unwrap() {
        let gate = "Rattle.house.specs.Gate".to_string();
        assert!(contract.imports.contains(&gate), "{contract:?}");
    }
}

/// Several clauses, each with its name, and a type that is a parameter.
#[test]
fn clauses_with_names_are_read() {
    let text = "\
ghost use Rattle.std.specs.Prelude.{◌≡◌};
ghost use Rattle.house.specs.Door.{Open, Shut};
ghost use Rattle.house.specs.Gate.{High};
ghost use Rattle.house.specs.Roof.{top};

pub fn enter<D: Door>(door: &mut D) -> u32
    requires open { Open (D.name door.old) }
    requires high { High (D.height door.old) }
    ensures name { D.name door.new ≡ D.name door.old }
    ensures each { (λ n. n ≡ result) (top door.new) × Shut result.name }
{
    door.shut()
}
";
    let found = contracts(text).unwrap();
    assert_eq!(found.len(), 1);
    assert_eq!(found[0].function, "enter");
    assert!(found[0].requires && found[0].ensures);
    assert_eq!(
        found[0].imports,
        [
            "Rattle.house.specs.Door",
            "Rattle.house.specs.Gate",
            "Rattle.std.specs.Prelude",
            "Rattle.house.specs.Roof"
        ]
    );
}

/// Modules under their own or another name, a clause on lines of its own, bounds with parameters, a length that is a parameter, and `self` by reference.
#[test]
fn clauses_of_other_forms_are_read() {
    let text = "\
ghost use Rattle.house.specs.Door.{Open};
ghost use Rattle.house.specs.Roof.{covers_all};
ghost use Rattle.garden.specs.Wall as wall;
ghost use Rattle.garden.specs.Shed;

pub fn enter(
    n: u32,
) -> u32
    ensures {
        Shed.each (wall.of n).stones result
    }
{
    n
}

pub fn mend<R: Roof<Tile> + Drop, const N: usize>(roof: &mut R, tiles: &[u32; N]) -> Result<u32, Leak>
    ensures { covers_all N (R.tiles roof.new) tiles.now }
{
    roof.mend(tiles)
}

impl House {
    pub fn open(&mut self) -> u32
        ensures { Open self.old.doors × Open self.new.doors }
    {
        0
    }
}
";
    let found = contracts(text).unwrap();
    let names: Vec<&str> = found.iter().map(|c| c.function.as_str()).collect();
    assert_eq!(names, ["enter", "mend", "open"]);
    for contract in &found {
        assert!(!contract.requires && contract.ensures, "{contract:?}");
    }
    assert_eq!(
        found[0].imports,
        ["Rattle.garden.specs.Shed", "Rattle.garden.specs.Wall"]
    );
    assert_eq!(found[1].imports, ["Rattle.house.specs.Roof"]);
    assert_eq!(found[2].imports, ["Rattle.house.specs.Door"]);
}

#[test]
fn imports_of_definitions_are_read() {
    let text = "\
-- use Rattle.house.specs.Comment.{x}
use Prim.Native.Nat.{ℕ}
use Rattle.house.specs.Door as door
  use Rattle.garden.specs.Gate.{Gate}
unfoldable pub use Inner.*
a : Rattle.garden.proofs.Path.Walks 0
";
    assert_eq!(
        imports(text),
        [
            "Prim.Native.Nat",
            "Rattle.house.specs.Door",
            "Rattle.garden.specs.Gate",
            "Inner.*",
            "Rattle.house.specs.Door",
            "Rattle.garden.specs.Gate",
            "Rattle.garden.proofs.Path.Walks"
        ]
    );
}

/// Antt reads a name in quotes as the name.
#[test]
fn quoted_names_are_read() {
    let path = "Rattle.house.proofs.Laws".to_string();
    assert_eq!(imports("a : «Rattle».house.proofs.«Laws»\n"), [&*path]);
    assert_eq!(
        imports("use «Rattle».«house».proofs.Laws.{Stands}\n"),
        [&*path, &*path]
    );
    assert_eq!(
        named_by("ghost use «Rattle».house.«proofs».Laws;\n"),
        [path]
    );
}

#[test]
fn a_chain_into_proofs_is_found() {
    let texts = texts(&[
        (
            "house",
            "Door",
            "use Rattle.house.specs.Lock.{Lock}\nuse Rattle.garden.specs.Gate as gate\n",
        ),
        (
            "house",
            "Lock",
            "use Rattle.house.specs.Door.{Door}\nuse Rattle.house.specs.declared.Key.{Key}\n",
        ),
        (
            "garden",
            "Gate",
            "use lib.ListN.{length}\nuse Rattle.garden.specs.Wall.{Wall}\n",
        ),
        ("garden", "Wall", "use Rattle.house.proofs.Laws.{Stands}\n"),
        ("garden", "Shed", "use Rattle.garden.proofs.Laws.{Stands}\n"),
    ]);
    let from = |path: &str| walk(&[path.to_string()], &texts).unwrap();
    let house = from("Rattle.house.specs.Door");
    let chain = [
        "house/specs/Door",
        "garden/specs/Gate",
        "garden/specs/Wall",
        "Rattle.house.proofs.Laws",
    ];
    assert_eq!(house.into_proofs, [chain.map(String::from)]);
    assert_eq!(house.modules.len(), 4);
    for path in ["Rattle.garden.specs.Shed", "Rattle.garden.proofs.Laws"] {
        assert_eq!(from(path).into_proofs.len(), 1, "{path}");
    }
}

/// In a private contract as well, imported or named in full.
#[test]
fn what_code_names_of_proofs_is_found() {
    let text = "\
// ghost use Rattle.house.proofs.Comment.{x};
ghost use Rattle.house.proofs.Laws.{Stands};
ghost use Rattle.house.proofs.Laws as laws;
ghost use Rattle.house.specs.Door.{Open};

pub(crate) fn enter(door: u32) -> u32
    requires { Open door × Rattle.garden.proofs.Wall.High door }
{
    door
}
";
    let proofs: Vec<String> = named_by(text)
        .into_iter()
        .filter(|path| of_proofs(path))
        .collect();
    assert_eq!(
        proofs,
        [
            "Rattle.house.proofs.Laws",
            "Rattle.house.proofs.Laws",
            "Rattle.garden.proofs.Wall.High"
        ]
    );
    for path in [
        "Rattle.house.specs.proofs",
        "Rattle.std.proofs.Common",
        "mathlib.proofs.List",
    ] {
        assert!(!of_proofs(path), "{path}");
    }
}

/// The kit's own library has paths like a crate's, and its `proofs` are none of ours.
#[test]
fn a_library_of_the_kit_is_no_crate() {
    let none = |_: &Module| false;
    for path in [
        "Rattle.std.specs.Prelude",
        "Rattle.std.proofs.Common",
        "Rattle.std.proofs.lemmas.List.Edits",
    ] {
        assert!(!of_proofs(path), "{path}");
        assert_eq!(resolve(path, &none), Ok(Import::Leaf), "{path}");
    }
    for path in ["Rattle.stdlib.proofs.Common", "Rattle.house.proofs.std"] {
        assert!(of_proofs(path), "{path}");
        assert_eq!(resolve(path, &none), Ok(Import::Proofs), "{path}");
    }
    assert!(resolve("Rattle.io.specs.Io", &none).is_err());
    assert!(resolve("std.specs.Prelude", &none).is_err());
}

#[test]
fn a_tree_without_such_a_chain_passes() {
    let texts = texts(&[
        ("house", "Door", "use Rattle.house.specs.Lock.{Lock}\n"),
        (
            "house",
            "Lock",
            "use Rattle.house.specs.declared.proofs.{Key}\nuse mathlib.Core.List.{List}\n-- Rattle.house.proofs.Laws\n",
        ),
    ]);
    let house = walk(&["Rattle.house.specs.Door".to_string()], &texts).unwrap();
    assert_eq!(house.modules.len(), 2);
    assert!(house.into_proofs.is_empty());
}

#[test]
fn what_cannot_be_read_is_a_fault() {
    let all = |_: &Module| true;
    let none = |_: &Module| false;
    assert!(resolve("Rattle.house.specs.Door", &none).is_err());
    assert!(resolve("Rattle.house.src.Door", &all).is_err());
    assert!(resolve("specs.Door", &all).is_err());
    assert!(resolve("Inner.*", &all).is_err());
    assert_eq!(resolve("mathlib.Core.List", &none), Ok(Import::Leaf));
    assert!(contracts("pub fn f(x: u32) -> u32\n    ensures { (x\n").is_err());
    let unknown = "pub fn f(x: u32) -> u32\n    ensures { Known x result }\n{\n    x\n}\n";
    assert_eq!(
        contracts(unknown),
        Err("f: Known is in no ghost use".to_string())
    );
    // An older path, a crate as a whole, a part of a name, what a call returns before it is called, and clauses of other kinds.
    assert!(resolve("Rattle·house.specs.Door", &all).is_err());
    assert!(resolve("Rattle.house", &all).is_err());
    let said = |used: &str, clauses: &str| {
        let used = format!("ghost use Rattle.garden.specs.Gate.{{{used}}};");
        let code = format!("{used}\npub fn f(x: u32) -> u32\n    {clauses}\n{{\n    x\n}}\n");
        contracts(&code).unwrap_err()
    };
    for (used, clauses, fault) in [
        ("is_wide", "ensures { wide x }", "wide is in no ghost use"),
        ("W", "requires { W result }", "result is in no ghost use"),
        ("W", "ensures* { W x }", "the clause ensures* is not read"),
        ("W", "ghost y: { W x }", "the clause ghost y: is not read"),
    ] {
        assert_eq!(said(used, clauses), format!("f: {fault}"));
    }
}
