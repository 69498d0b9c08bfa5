//! The programs that are timed.

use std::fmt::Write;

pub struct Program {
    pub name: &'static str,
    pub text: String,
    pub rounds: u32,
}

pub fn compared() -> Vec<Program> {
    let append = include_str!("../programs/append.rules").replace("{numbers}", &numbers(200));
    let reverse = include_str!("../programs/reverse.rules").replace("{numbers}", &numbers(17));
    let typing = include_str!("../programs/typing.rules").to_string();
    let absence = include_str!("../programs/absence.rules").replace("{donors}", &donors(40, 100));
    let wide = include_str!("../programs/wide.rules").replace("{rows}", &rows(200));
    vec![
        program("append backwards", append, 255),
        program("naive reverse", reverse, 255),
        program("typings with disequalities", typing, 255),
        program("absence over long lists", absence, 255),
        program("wide disjunctions", wide, 255),
        program("deep unification", deep(), 255),
        program("shared typings", shared(), 255),
        program(
            "metaKanren, a connective sought",
            metakanren(CONNECTIVE),
            255,
        ),
        program("metaKanren, a goal sought", metakanren(GOAL), 13),
    ]
}

/// Programs that take more than 10^9 steps.
pub fn endless() -> Vec<Program> {
    let typing = include_str!("../programs/typing_long.rules").replace("{antigens}", &antigens(24));
    let absence =
        include_str!("../programs/absence_long.rules").replace("{donors}", &donors(40, 100));
    vec![
        program("typings with disequalities", typing, 255),
        program("absence over long lists", absence, 255),
        program("metaKanren, a goal sought", metakanren(GOAL), 255),
    ]
}

/// A program that gives so many answers, some of them again.
pub struct Choices {
    pub program: Program,
    pub given: u32,
    pub written: u32,
}

/// Each kind of run with 2,000, 20,000 and 200,000 answers.
pub fn choices() -> [[Choices; 3]; 3] {
    let different = [[10, 10, 20], [20, 20, 50], [40, 50, 100]];
    let ten = [[10, 20], [40, 50], [100, 200]];
    let twice = [[10, 10, 10], [20, 20, 25], [40, 50, 50]];
    [
        different.map(|told| choice("all different", &[], &told)),
        ten.map(|untold| choice("ten, again and again", &untold, &[10])),
        twice.map(|told| choice("all of them twice", &[2], &told)),
    ]
}

/// Numbers below each of these are chosen, first those that no answer tells.
fn choice(name: &'static str, untold: &[u32], told: &[u32]) -> Choices {
    let below = [untold, told].concat();
    let names: Vec<String> = (0..below.len()).map(|i| format!("n{i}")).collect();
    let any = |(name, &below): (&String, &u32)| {
        let numbers: Vec<String> = (0..below).map(|n| format!("(same {name} {n})")).collect();
        format!("(any {})", numbers.join(" "))
    };
    let choices: Vec<String> = names.iter().zip(&below).map(any).collect();
    let text = include_str!("../programs/choices.rules")
        .replace("{told}", &names[untold.len()..].join(" "))
        .replace("{untold}", &names[..untold.len()].join(" "))
        .replace("{choices}", &choices.join(" "));
    Choices {
        program: program(name, text, 255),
        given: below.iter().product(),
        written: told.iter().product(),
    }
}

/// What joins two goals so that 2 is the only answer?
const CONNECTIVE: &str = "(rule query (x) ()
  (eval-program ('run ('z) (x ('disj ('== 'z 1) ('disj ('== 'z 2) ('== 'z 3))) ('== 'z 2))) (2)))";

/// Which goals have 5 as their only answer?
const GOAL: &str = "(rule query (x) () (eval-program ('run ('z) x) (5)))";

fn program(name: &'static str, text: String, rounds: u32) -> Program {
    Program { name, text, rounds }
}

fn metakanren(query: &str) -> String {
    include_str!("../programs/metakanren.rules").replace("{query}", query)
}

fn numbers(count: usize) -> String {
    let numbers: Vec<String> = (1..=count).map(|number| number.to_string()).collect();
    numbers.join(" ")
}

fn antigens(count: usize) -> String {
    let antigens: Vec<String> = (0..count)
        .map(|antigen| format!("(same x 'a{antigen})"))
        .collect();
    antigens.join(" ")
}

/// Numbers that look random and are the same in every run.
struct Random(u64);

impl Random {
    fn below(&mut self, bound: u64) -> u64 {
        self.0 = self
            .0
            .wrapping_mul(6364136223846793005)
            .wrapping_add(1442695040888963407);
        (self.0 >> 33) % bound
    }
}

/// A register: some donors have an antigen x1 to x4 near the end of their typing.
fn donors(count: usize, length: usize) -> String {
    let mut random = Random(1);
    let mut text = String::new();
    for donor in 0..count {
        let mut typing: Vec<String> = (0..length)
            .map(|_| format!("'a{}", random.below(60)))
            .collect();
        if random.below(2) == 0 {
            let place = length - 1 - random.below(10) as usize;
            typing[place] = format!("'x{}", 1 + random.below(4));
        }
        write!(
            text,
            "(all (same d 'd{donor}) (same t ({}))) ",
            typing.join(" ")
        )
        .unwrap();
    }
    text
}

fn rows(count: usize) -> String {
    let mut random = Random(2);
    let mut text = String::new();
    for _ in 0..count {
        write!(
            text,
            "(all (same x 'p{}) (same y 'p{})) ",
            random.below(50),
            random.below(50)
        )
        .unwrap();
    }
    text
}

/// Both terms are lists of 20 terms that nest 20 deep, each level with a leaf. Some leaves are variables on one side.
fn deep() -> String {
    let mut leaves = Vec::new();
    let mut left = Vec::new();
    let mut right = Vec::new();
    for item in 0..20 {
        let mut a = "()".to_string();
        let mut b = "()".to_string();
        for level in 0..20 {
            if level == item {
                let leaf = format!("v{item}");
                a = format!("({a} . {leaf})");
                b = format!("({b} . ({level} . {item}))");
                leaves.push(leaf);
            } else {
                a = format!("({a} . {level})");
                b = format!("({b} . {level})");
            }
        }
        left.push(a);
        right.push(b);
    }
    include_str!("../programs/deep.rules")
        .replace("{numbers}", &["1"; 80].join(" "))
        .replace("{leaves}", &leaves.join(" "))
        .replace("{left}", &format!("({})", left.join(" ")))
        .replace("{right}", &format!("({})", right.join(" ")))
}

/// After 100 generations there are donors whose typings are made of the last two.
fn shared() -> String {
    let donors: Vec<String> = (0..20)
        .map(|donor| format!("(all (same t (m 'x{donor} . f)) (same d 'd{donor}))"))
        .collect();
    include_str!("../programs/shared.rules")
        .replace("{numbers}", &["1"; 100].join(" "))
        .replace("{donors}", &donors.join(" "))
}
