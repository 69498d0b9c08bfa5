//! Answers as terms and constraints: nothing of their words is lost, and long ones need no stack.

use kindcanvas::{Answer, Constraint, Limits, Outcome, Program, Refusal, Term};
use reference::cases::case;
use reference::gen::{deep_term, pair, part, relation, Rng};
use reference::word::{show, word};
use std::thread;

fn run(words: Vec<u32>, limits: Limits) -> Outcome {
    Program::new(words).unwrap().run(limits)
}

/// Puts a term's words behind others.
fn put(mut term: Term, words: &mut Vec<u32>) {
    while let Term::Pair(pair) = term {
        let at = words.len();
        words.push(0);
        put(pair.first(), words);
        words[at] = word(4, (words.len() - at - 1) as u32);
        term = pair.second();
    }
    words.push(match term {
        Term::Variable(variable) => word(0, variable),
        Term::Symbol(symbol) => word(1, symbol),
        Term::Number(number) => word(2, number),
        Term::Empty | Term::Pair(_) => word(3, 0),
    });
}

fn differ(variable: u32, term: Term) -> Vec<u32> {
    let mut inside = vec![word(0, variable)];
    put(term, &mut inside);
    part(6, inside)
}

/// The words of an answer, made from its terms and constraints.
fn rewritten(answer: Answer) -> Vec<u32> {
    let mut inside = Vec::new();
    for term in answer.terms() {
        put(term, &mut inside);
    }
    for constraint in answer.constraints() {
        inside.extend(match constraint {
            Constraint::Differ(variable, term) => differ(variable, term),
            Constraint::NotAll(bindings) => {
                let lines = bindings.into_iter();
                part(11, lines.flat_map(|(v, term)| differ(v, term)).collect())
            }
            Constraint::Symbol(variable) => part(7, vec![word(0, variable)]),
            Constraint::Number(variable) => part(8, vec![word(0, variable)]),
            Constraint::Absent { tag, variable } => {
                let mut inside = Vec::new();
                put(tag, &mut inside);
                inside.push(word(0, variable));
                part(9, inside)
            }
        });
    }
    part(15, inside)
}

/// By their numbers the answers are those of the run in order, each a part of its words, and there are no others.
fn opened_by_number(outcome: &Outcome) {
    let count = outcome.report().answers;
    let mut at = 0;
    for (number, answer) in (0..count).zip(outcome.answers()) {
        assert_eq!(outcome.answer(number), Ok(answer));
        let words = outcome.answer(number).unwrap().words();
        assert_eq!(words.as_ptr(), outcome.words()[at..].as_ptr());
        at += words.len();
    }
    let refusal = Refusal {
        number: 10,
        place: at,
    };
    assert_eq!(at, outcome.words().len());
    for number in [count, count + 1, u32::MAX] {
        assert_eq!(outcome.answer(number), Err(refusal));
    }
}

#[test]
fn random_programs() {
    let mut rng = Rng::new(20_240_614);
    // How often each kind of term and constraint came.
    let mut terms = [0; 5];
    let mut constraints = [0; 6];
    for number in 0..30_000 {
        let case = case(&mut rng);
        let Ok(program) = Program::new(case.words.clone()) else {
            continue;
        };
        let outcome = program.run(Limits {
            rounds: u8::try_from(case.rounds).unwrap_or(u8::MAX),
            steps: case.steps,
            output_words: case.output,
        });
        assert_eq!(outcome.answers().len(), outcome.answers().count());
        opened_by_number(&outcome);
        let mut words = Vec::new();
        for answer in outcome.answers() {
            words.extend(rewritten(answer));
            for term in answer.terms() {
                terms[match term {
                    Term::Variable(_) => 0,
                    Term::Symbol(_) => 1,
                    Term::Number(_) => 2,
                    Term::Empty => 3,
                    Term::Pair(_) => 4,
                }] += 1;
            }
            for constraint in answer.constraints() {
                constraints[match constraint {
                    Constraint::Differ(..) => 0,
                    Constraint::NotAll(_) => 1,
                    Constraint::Symbol(_) => 2,
                    Constraint::Number(_) => 3,
                    Constraint::Absent { tag, .. } => match tag {
                        Term::Symbol(_) => 4,
                        Term::Number(_) => 5,
                        _ => panic!("case {number}: no tag"),
                    },
                }] += 1;
            }
        }
        if words != outcome.words() {
            panic!("case {number}\n{}", show(&case.words));
        }
    }
    println!("{terms:?} {constraints:?}");
    for count in terms.into_iter().chain(constraints) {
        assert!(count >= 100, "{terms:?} {constraints:?}");
    }
}

/// A list of so many sevens, and how it ends.
fn sevens(count: usize, end: Vec<u32>) -> Vec<u32> {
    let mut words = [word(4, 1), word(2, 7)].repeat(count);
    words.extend(end);
    words
}

/// Each call makes a list longer by 7,000 elements.
#[test]
fn a_list_far_longer_than_its_program() {
    let query = relation(1, 1, part(12, vec![word(2, 1), word(0, 0)]));
    let list = [vec![word(0, 0)], sevens(7_000, vec![word(0, 1)])].concat();
    let ends = part(5, vec![word(0, 1), word(3, 0)]);
    let goes_on = part(12, vec![word(2, 1), word(0, 1)]);
    let goals = [part(5, list), part(11, [ends, goes_on].concat())].concat();
    let words = [query, relation(1, 2, part(10, goals))].concat();
    let outcome = run(
        words,
        Limits {
            rounds: 20,
            steps: u32::MAX,
            output_words: 3_000_000,
        },
    );
    let longest = outcome.answers().last().unwrap();
    assert_eq!(rewritten(longest), longest.words());
    let term = longest.terms().next().unwrap();
    assert_eq!(term.to_string(), format!("({})", ["7"; 140_000].join(" ")));
    assert_eq!(format!("{term:?}").len(), "Pair()".len() + 280_001);
}

/// As deep in first parts as a run allows, with little stack.
#[test]
fn a_deep_term() {
    let outcome = run(
        relation(1, 1, part(5, [vec![word(0, 0)], deep_term(512)].concat())),
        Limits::default(),
    );
    let shown = thread::Builder::new()
        .stack_size(64 << 10)
        .spawn(move || {
            let term = outcome.answers().next().unwrap().terms().next();
            term.unwrap().to_string()
        })
        .unwrap()
        .join()
        .unwrap();
    assert!(shown.starts_with(&"(".repeat(512)), "{shown}");
}

/// The one answer's term to a query that is equal to this one.
fn shown(term: Vec<u32>) -> String {
    let outcome = run(
        relation(1, 2, part(5, [vec![word(0, 0)], term].concat())),
        Limits::default(),
    );
    let answer = outcome.answers().next().unwrap();
    answer.terms().next().unwrap().to_string()
}

#[test]
fn terms_are_shown() {
    let atoms = || [word(1, 7), word(2, 7), word(3, 0), word(0, 1)].map(|atom| vec![atom]);
    assert_eq!(atoms().map(shown), ["'7", "7", "()", "_0"]);
    let [symbol, number, empty, variable] = atoms();
    assert_eq!(shown(pair(number.clone(), empty.clone())), "(7)");
    assert_eq!(shown(pair(number.clone(), number.clone())), "(7 . 7)");
    assert_eq!(shown(pair(empty.clone(), empty.clone())), "(())");
    let inner = pair(symbol, variable);
    assert_eq!(
        shown(pair(inner.clone(), pair(number.clone(), empty))),
        "(('7 . _0) 7)"
    );
    assert_eq!(
        shown(pair(number, pair(inner.clone(), inner))),
        "(7 ('7 . _0) '7 . _0)"
    );
}

#[test]
fn constraints_are_shown() {
    // Of four variables: types, absence of a symbol and of a number, one disequality alone, two and three together.
    let text = "13:38 2:4 2:4 10:35
        7:1 0:0  8:1 0:1  9:2 1:7 0:3  9:2 2:7 0:3  6:2 0:3 3:0
        6:6 4:1 0:0 0:1 4:1 1:1 2:2
        6:14 4:1 0:0 4:1 0:1 4:1 0:3 3:0 4:1 1:3 4:1 2:4 4:1 0:2 3:0";
    let program: Program = text.parse().unwrap();
    let outcome = program.run(Limits::default());
    let answer = outcome.answers().next().unwrap();
    let shown: Vec<String> = answer.constraints().map(|c| c.to_string()).collect();
    assert_eq!(
        shown,
        [
            "_0 is a symbol",
            "_1 is a number",
            "'7 stands nowhere in _3",
            "7 stands nowhere in _3",
            "_3 is not ()",
            "not both _0 = '1 and _1 = 2",
            "not all of _0 = '3 and _1 = 4 and _3 = _2",
        ]
    );
}
