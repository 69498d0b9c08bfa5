//! What a reader has to believe is in `specs/`. So every definition that the contract of a public function unfolds to has to stand there: a chain of imports from such a
//! contract must not lead into `proofs/`. The walk goes by whole modules, and what it cannot read is a fault, never passed over.
//! Private contracts are held to the same: no file of `specs/` and no contract names a module of `proofs/`.

use std::collections::{BTreeMap, BTreeSet, VecDeque};
use std::fmt;

/// The toolchain's own libraries. Another root that is no crate of this repository is a fault, so that no chain is lost.
const LIBRARIES: [&str; 5] = ["Prim", "mathlib", "lib", "native", "borrow"];

/// The libraries of the kit whose paths are written as those of crates are: `Rattle.std.specs.Prelude`. No crate of this repository has such a name, and another library of
/// the kit is a fault as long as it is not named here.
pub const KIT: [&str; 1] = ["std"];

/// A public function with its contract, and the modules that the names in it are imported from.
#[derive(Debug, PartialEq)]
pub struct Contract {
    pub function: String,
    pub requires: bool,
    pub ensures: bool,
    /// As written, with the crate in front: `Rattle.engine.specs.Report`.
    pub imports: Vec<String>,
}

/// A module of `specs/`: crate and name.
#[derive(Clone, Debug, PartialEq, Eq, PartialOrd, Ord)]
pub struct Module {
    pub krate: String,
    pub name: String,
}

impl fmt::Display for Module {
    fn fmt(&self, f: &mut fmt::Formatter) -> fmt::Result {
        write!(f, "{}/specs/{}", self.krate, self.name)
    }
}

/// Where an import leads.
#[derive(Debug, PartialEq)]
pub enum Import {
    /// A library, or types that the code declares.
    Leaf,
    Specs(Module),
    Proofs,
}

/// The text without comments, which begin with `mark` at a line's start or after a space, and without quotes: `«Rattle».house` is `Rattle.house`.
fn code(text: &str, mark: &str) -> String {
    let mut kept = String::new();
    for line in text.lines() {
        let end = line
            .match_indices(mark)
            .map(|(at, _)| at)
            .find(|&at| at == 0 || line[..at].ends_with(char::is_whitespace));
        kept.push_str(&line[..end.unwrap_or(line.len())].replace(['«', '»'], ""));
        kept.push('\n');
    }
    kept
}

/// The words of a name: `◌≤◌` is written around its operands, as `a ≤ b`, or whole.
fn words_of(name: &str) -> impl Iterator<Item = &str> {
    name.split('◌').filter(|word| !word.is_empty())
}

/// The words that `ghost use` lines bring in, each with the modules of the names that have it.
fn ghost_words(code: &str) -> Result<BTreeMap<String, Vec<String>>, String> {
    let mut words: BTreeMap<String, Vec<String>> = BTreeMap::new();
    for (at, _) in code.match_indices("ghost use ") {
        let rest = &code[at + "ghost use ".len()..];
        let end = rest.find(';').ok_or("a ghost use without its end")?;
        let used = rest[..end].trim();
        let mut bring = |name: &str, module: &str| {
            let shown = name.split(" as ").last().unwrap_or(name).trim();
            for word in words_of(shown) {
                let modules = words.entry(word.to_string()).or_default();
                modules.push(module.to_string());
            }
        };
        if let Some((module, list)) = used.split_once(".{") {
            let list = list.strip_suffix('}').ok_or(format!("ghost use {used}"))?;
            list.split(',').for_each(|name| bring(name, module));
        } else if let Some((module, name)) = used.split_once(" as ") {
            bring(name, module);
        } else if let Some((_, name)) = used.rsplit_once('.') {
            bring(name, used);
        } else {
            return Err(format!("ghost use {used}"));
        }
    }
    Ok(words)
}

/// The end of the part in braces that begins at `open`.
fn closing(code: &str, open: usize) -> Result<usize, String> {
    let mut depth = 0;
    for (at, c) in code[open..].char_indices() {
        match c {
            '{' => depth += 1,
            '}' => depth -= 1,
            _ => {}
        }
        if depth == 0 {
            return Ok(open + at);
        }
    }
    Err("a brace is not closed".to_string())
}

/// The public functions of a file of code. `pub(crate)` ones are private.
pub fn contracts(text: &str) -> Result<Vec<Contract>, String> {
    let code = code(text, "//");
    let words = ghost_words(&code)?;
    let mut found = Vec::new();
    for (at, _) in code.match_indices("fn ") {
        let line = code[..at].rfind('\n').map_or(0, |end| end + 1);
        let before: Vec<&str> = code[line..at].split_whitespace().collect();
        let whole = code[..at].is_empty() || code[..at].ends_with(char::is_whitespace);
        if !whole || before.first() != Some(&"pub") {
            continue;
        }
        if !before[1..]
            .iter()
            .all(|word| ["extern", "\"C\"", "const", "unsafe"].contains(word))
        {
            return Err(format!("{} fn", before.join(" ")));
        }
        let rest = &code[at + 3..];
        let end = rest
            .find(['<', '('])
            .ok_or("a function without parameters")?;
        let function = rest[..end].trim();
        let mut names = parameters(&rest[end..])?;
        let mut contract = Contract {
            function: function.to_string(),
            requires: false,
            ensures: false,
            imports: Vec::new(),
        };
        // A clause is a word, perhaps a name, and a part in braces; the first part without such a word is the body.
        let mut from = at;
        loop {
            let open = from + code[from..].find('{').ok_or("a function without a body")?;
            match head(&code[from..open]).map_err(|e| format!("{function}: {e}"))? {
                Some("requires") => contract.requires = true,
                Some(_) => {
                    contract.ensures = true;
                    names.insert("result".to_string());
                }
                None => break,
            }
            let close = closing(&code, open)?;
            let clause = named(&code[open + 1..close], &words, &names);
            for import in clause.map_err(|e| format!("{function}: {e}"))? {
                if !contract.imports.contains(&import) {
                    contract.imports.push(import);
                }
            }
            from = close + 1;
        }
        found.push(contract);
    }
    Ok(found)
}

/// The word of the clause whose brace comes after this text, or none before a body: `requires` or `ensures`, with a name where a function has several of a kind.
fn head(text: &str) -> Result<Option<&str>, String> {
    let written: Vec<&str> = text.split_whitespace().collect();
    let clause =
        |word: &&str| matches!(word.trim_end_matches('*'), "requires" | "ensures" | "ghost");
    let Some(at) = written.iter().position(clause) else {
        return Ok(None);
    };
    match written[at] {
        word @ ("requires" | "ensures") if at + 2 >= written.len() => Ok(Some(word)),
        _ => Err(format!(
            "the clause {} is not read",
            written[at..].join(" ")
        )),
    }
}

/// The names of the parameters that `text` begins with: of types, in angle brackets, where there are any, and of values, in parentheses.
fn parameters(text: &str) -> Result<BTreeSet<String>, String> {
    let (types, rest) = match text.strip_prefix('<') {
        Some(rest) => rest.split_once(">(").ok_or("types without their end")?,
        None => ("", &text[1..]),
    };
    let (values, _) = rest.split_once(')').ok_or("parameters without their end")?;
    let list = types.split(',').chain(values.split(',')).map(str::trim);
    Ok(list
        .filter(|parameter| !parameter.is_empty())
        .map(|parameter| parameter.split(':').next().unwrap_or(parameter).trim())
        .map(|name| name.trim_start_matches('&').trim_start_matches("mut "))
        .map(|name| name.trim_start_matches("const ").to_string())
        .collect())
}

/// What the language itself has: products, functions, records and their fields' equations, the types of bound names, and what no import may bring.
const OF_THE_LANGUAGE: [&str; 12] = [
    "×", "→", "record", "=", ":", ".", "λ", "¬", "⊥", "Unit", "tt", "absurd",
];

/// The modules of the imported names in a clause, and those that are named in full. A word that is neither imported nor one of `names` (a parameter, or `result`), a bound
/// name, a field or a number is a fault. Of a parameter that is a type, as `R` in `R.remaining`, a clause names what its bounds have.
fn named(
    clause: &str,
    words: &BTreeMap<String, Vec<String>>,
    names: &BTreeSet<String>,
) -> Result<Vec<String>, String> {
    let spaced = clause.replace('λ', " λ ");
    let parts = |c: char| c.is_whitespace() || "(){},;".contains(c);
    let written: Vec<&str> = spaced.split(parts).filter(|w| !w.is_empty()).collect();
    // `λ r. …` binds r up to the clause's end, and `record { a = … }` has the field a
    let bound = |word: &str| {
        written
            .windows(2)
            .any(|w| w[0] == "λ" && w[1].trim_end_matches('.') == word)
    };
    let mut modules = in_full(clause);
    for (i, word) in written.iter().enumerate() {
        let field = word.starts_with('.') || written.get(i + 1) == Some(&"=");
        let full = word.starts_with("Rattle.");
        let number = word.chars().all(|c| c.is_ascii_digit());
        if field || full || number || OF_THE_LANGUAGE.contains(word) {
            continue;
        }
        let first = word.split('.').next().unwrap_or(word);
        for part in words_of(first) {
            match words.get(part) {
                Some(of) => modules.extend(of.iter().cloned()),
                None if names.contains(first) || bound(first) => {}
                None => return Err(format!("{part} is in no ghost use")),
            }
        }
    }
    Ok(modules)
}

/// The paths of modules of crates that stand in some code.
fn in_full(code: &str) -> Vec<String> {
    let end = |c: char| c.is_whitespace() || "(){},;".contains(c);
    code.match_indices("Rattle.")
        .map(|(at, _)| {
            code[at..]
                .split(end)
                .next()
                .unwrap_or("")
                .trim_end_matches('.')
                .to_string()
        })
        .collect()
}

/// All that a file of definitions imports: its `use` lines, and what it names in full.
pub fn imports(text: &str) -> Vec<String> {
    let code = code(text, "--");
    let used = code.lines().filter_map(|line| {
        let mut line = line.trim_start();
        while let Some(rest) = ["pub ", "unfoldable ", "abbrev "]
            .iter()
            .find_map(|mark| line.strip_prefix(mark))
        {
            line = rest.trim_start();
        }
        let path = line.strip_prefix("use ")?.trim_start();
        let end = path.find(|c: char| c == '{' || c.is_whitespace());
        Some(
            path[..end.unwrap_or(path.len())]
                .trim_end_matches('.')
                .to_string(),
        )
    });
    let mut all: Vec<String> = used.collect();
    all.extend(in_full(&code));
    all
}

/// All that a file of code names of the crates' specs and proofs, in its `ghost use` lines or in full.
pub fn named_by(text: &str) -> Vec<String> {
    in_full(&code(text, "//"))
}

/// Is this a path of a crate's proofs, `Rattle.X.proofs`? What the kit proves in its own libraries is none.
pub fn of_proofs(path: &str) -> bool {
    let mut parts = path.split('.');
    let (root, krate, part) = (parts.next(), parts.next(), parts.next());
    root == Some("Rattle")
        && !krate.is_some_and(|krate| KIT.contains(&krate))
        && part == Some("proofs")
}

/// Where a path leads; `is_module` says whether a crate's `specs/` has a module of that name.
pub fn resolve(path: &str, is_module: &dyn Fn(&Module) -> bool) -> Result<Import, String> {
    if of_proofs(path) {
        return Ok(Import::Proofs);
    }
    let mut parts = path.split('.');
    let root = parts.next().unwrap_or("");
    if LIBRARIES.contains(&root) {
        return Ok(Import::Leaf);
    }
    if root != "Rattle" {
        return Err(format!("{path} is of no known library"));
    }
    let krate = parts.next().unwrap_or("").to_string();
    if KIT.contains(&krate.as_str()) {
        return Ok(Import::Leaf);
    }
    match (parts.next(), parts.next()) {
        (Some("specs"), Some("declared")) => Ok(Import::Leaf),
        (Some("specs"), Some(name)) => {
            let module = Module {
                krate,
                name: name.to_string(),
            };
            if is_module(&module) {
                Ok(Import::Specs(module))
            } else {
                Err(format!("{path}: there is no {module}"))
            }
        }
        _ => Err(format!("{path} is no path of a module")),
    }
}

/// All that is reached from a contract's imports.
#[derive(Debug, Default)]
pub struct Walk {
    pub modules: BTreeSet<Module>,
    /// One chain for each import from `proofs`: from module to module, and the import last.
    pub into_proofs: Vec<Vec<String>>,
}

/// Follows imports through all modules that they reach; the shortest chain to a module comes first.
pub fn walk(from: &[String], texts: &BTreeMap<Module, String>) -> Result<Walk, String> {
    let is_module = |module: &Module| texts.contains_key(module);
    let mut walk = Walk::default();
    let mut next = VecDeque::from([(Vec::new(), from.to_vec())]);
    while let Some((chain, paths)) = next.pop_front() {
        for path in paths {
            let with = |last: String| {
                let mut longer: Vec<String> = chain.clone();
                longer.push(last);
                longer
            };
            match resolve(&path, &is_module)? {
                Import::Leaf => {}
                Import::Proofs => {
                    let longer = with(path);
                    if !walk.into_proofs.contains(&longer) {
                        walk.into_proofs.push(longer);
                    }
                }
                Import::Specs(module) => {
                    if walk.modules.insert(module.clone()) {
                        next.push_back((with(module.to_string()), imports(&texts[&module])));
                    }
                }
            }
        }
    }
    Ok(walk)
}
