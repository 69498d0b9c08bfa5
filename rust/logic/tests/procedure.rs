//! The decision procedure itself: against document 01's runs, worked out by hand, and against document 01's definition,
//! evaluated as it stands with fresh variables tried from a list of trees.

mod programs;

use logic::clause;
use logic::demand::Subject;
use logic::model::model;
use logic::syntax::{self, show, show_tuple, Goal, Relation, Term};
use reference::gen::Rng;
use reference::table;

/// Programs with more clauses are left out.
const CLAUSES: usize = 100;

/// A tuple, and the numbers of calls up to 3 with which the relations give it.
type Given = (&'static str, &'static [u32]);

const RUNS: [(&str, &[Given]); 16] = [
    // A to H of document 01, and a relation that calls itself without end.
    ("13:5 2:1 2:1 5:2 0:0 1:7", &[("1:7", &[0]), ("2:7", &[])]),
    ("13:7 2:1 2:1 5:4 0:0 4:1 0:0 3:0", &[("3:0", &[]), ("4:1 3:0 3:0", &[])]),
    (
        "13:5 2:1 2:1 12:2 2:1 0:0 13:9 2:1 2:1 11:6 12:2 2:1 0:0 5:2 0:0 2:5",
        &[("2:5", &[1, 2, 3]), ("1:5", &[])],
    ),
    ("13:5 2:1 2:1 6:2 0:0 2:5", &[("2:5", &[]), ("2:6", &[0]), ("1:5", &[0])]),
    ("13:7 2:1 2:1 10:4 7:1 0:0 8:1 0:0", &[("1:0", &[]), ("2:0", &[])]),
    ("13:9 2:1 2:2 10:6 5:2 0:0 1:7 6:2 0:1 2:5", &[("1:7", &[0]), ("2:5", &[])]),
    (
        "13:9 2:2 2:2 6:6 4:1 0:0 0:1 4:1 2:1 2:2",
        &[("2:1 2:2", &[]), ("2:1 2:1", &[0]), ("2:2 2:2", &[0])],
    ),
    (
        "13:11 2:1 2:1 10:8 9:2 1:7 0:0 5:4 0:0 4:1 3:0 1:7",
        &[("4:1 3:0 1:7", &[]), ("3:0", &[])],
    ),
    // Absence of a number, which a symbol of its payload is not, and of a symbol.
    (
        "13:5 2:1 2:1 9:2 2:7 0:0",
        &[("2:7", &[]), ("4:1 1:7 2:7", &[]), ("2:8", &[0]), ("4:1 1:7 3:0", &[0])],
    ),
    ("13:5 2:1 2:1 9:2 1:7 0:0", &[("4:1 1:7 3:0", &[]), ("4:1 2:7 3:0", &[0])]),
    ("13:4 2:0 2:255 12:1 2:0", &[("", &[])]),
    // x symbolo, y numbero, x = z, y = z.
    ("13:13 2:0 2:3 10:10 7:1 0:0 8:1 0:1 5:2 0:0 0:2 5:2 0:1 0:2", &[("", &[])]),
    // x = (y . 1) and y = (x . 1): each a part of the other.
    ("13:13 2:0 2:2 10:10 5:4 0:0 4:1 0:1 1:1 5:4 0:1 4:1 0:0 1:1", &[("", &[])]),
    // z = (y . ()), and (x . y) is ((z . ()) . (z . ())): y is in z, which x's check has entered before y's.
    (
        "13:19 2:0 2:3 10:16 5:4 0:2 4:1 0:1 3:0 5:10 4:1 0:0 0:1 4:3 4:1 0:2 3:0 4:1 0:2 3:0",
        &[("", &[])],
    ),
    // x is ((y . z) . y), and neither q nor (q . q).
    (
        "13:18 2:1 2:4 10:15 6:2 0:1 0:0 6:4 0:1 4:1 0:0 0:0 5:6 0:1 4:3 4:1 0:2 0:3 0:2",
        &[("1:1", &[0]), ("4:3 4:1 1:1 1:2 1:1", &[0])],
    ),
    // Calls add up over a conjunction: one of a relation that takes one or more, and one of another.
    (
        "13:8 2:1 2:1 10:5 12:2 2:1 0:0 12:1 2:2 13:9 2:1 2:1 11:6 5:2 0:0 1:1 12:2 2:1 0:0 13:5 2:0 2:0 5:2 3:0 3:0",
        &[("1:1", &[2, 3]), ("1:2", &[])],
    ),
];

#[test]
fn worked_out_by_hand() {
    for (text, tuples) in RUNS {
        let words = table::words(text);
        let subject = Subject::new(&words, 3, CLAUSES).unwrap();
        for (tuple, expected) in tuples {
            let trees = syntax::terms(&table::words(tuple)).unwrap();
            let expected = expected.iter().fold(0, |calls, n| calls | 1 << n);
            assert_eq!(subject.given(&trees), expected, "{tuple} of {text}");
        }
    }
}

/// Document 01's definition, with fresh variables from a list.
struct Definition<'p> {
    program: &'p [Relation],
    trees: &'p [Term],
}

impl Definition<'_> {
    /// The numbers of calls with which the goal holds under the assignment: bit n for n.
    fn holds(&self, goal: &Goal, assignment: &[Term], most: u32) -> u32 {
        match goal {
            Goal::Literal(literal) => literal.holds(assignment) as u32,
            Goal::Conjunction(goals) => goals.iter().fold(1, |sums, goal| {
                if sums == 0 {
                    return 0;
                }
                let numbers = self.holds(goal, assignment, most);
                let added = (0..=most).filter(|n| numbers >> n & 1 == 1);
                added.fold(0, |all, n| all | sums << n) & ((2 << most) - 1)
            }),
            Goal::Disjunction(goals) => {
                let numbers = goals.iter().map(|goal| self.holds(goal, assignment, most));
                numbers.fold(0, |all, numbers| all | numbers)
            }
            Goal::Call(_, _) if most == 0 => 0,
            Goal::Call(number, arguments) => {
                let arguments = arguments.iter().map(|argument| argument.tree(assignment));
                self.gives(*number, arguments.collect(), most - 1) << 1
            }
        }
    }

    /// The same for a relation's goal under some assignment that begins with these trees.
    fn gives(&self, relation: usize, assignment: Vec<Term>, most: u32) -> u32 {
        let Relation {
            variables, goal, ..
        } = &self.program[relation];
        if assignment.len() == *variables {
            return self.holds(goal, &assignment, most);
        }
        let mut any = 0;
        for tree in self.trees {
            let mut longer = assignment.clone();
            longer.push(tree.clone());
            any |= self.gives(relation, longer, most);
        }
        any
    }
}

/// With fresh variables from a short list, the definition gives no more than is decided; without fresh variables just that.
#[test]
fn nothing_is_missed() {
    let trees = table::words("1:0 1:1 2:0 2:1 3:0 4:1 1:0 1:1 4:1 2:0 3:0");
    let trees = syntax::terms(&trees).unwrap();
    let mut rng = Rng::new(8);
    let mut counts = [0; 3];
    for at in 0..3_000 {
        let fresh = at % 3;
        let words = programs::program(&mut rng, fresh);
        let program = syntax::program(&words).unwrap();
        let Some(subject) = Subject::new(&words, 2, CLAUSES) else {
            continue;
        };
        let definition = Definition {
            program: &program,
            trees: &trees,
        };
        for _ in 0..5 {
            let parameters = 0..program[0].parameters;
            let tuple: Vec<Term> = parameters.map(|_| rng.pick(&trees)).collect();
            let decided = subject.given(&tuple);
            let defined = definition.gives(0, tuple.clone(), 2);
            let missed = defined & !decided;
            assert!(
                missed == 0 && (fresh > 0 || defined == decided),
                "{}: defined {defined:b}, decided {decided:b}: {}",
                show_tuple(&tuple),
                show(&words)
            );
            counts[fresh] += (defined != 0) as usize;
        }
    }
    println!("{counts:?} tuples with up to 0, 1 and 2 fresh variables");
    assert!(counts.iter().all(|&count| count > 300));
}

/// What is decided to be given, the definition gives with fresh variables from the trees of the model.
#[test]
fn nothing_is_made_up() {
    let mut rng = Rng::new(9);
    let mut checked = 0;
    for _ in 0..2_000 {
        let words = programs::program(&mut rng, 2);
        let program = syntax::program(&words).unwrap();
        for clause in clause::of_program(&program, 2, CLAUSES).iter().flatten() {
            let mut trees = model(clause.variables, &clause.literals).expect("a model");
            let query_terms = clause.query_terms.iter();
            let tuple: Vec<Term> = query_terms.map(|term| term.tree(&trees)).collect();
            trees.sort();
            trees.dedup();
            let definition = Definition {
                program: &program,
                trees: &trees,
            };
            let defined = definition.gives(0, tuple.clone(), 2);
            assert!(
                defined & 1 << clause.calls != 0,
                "{} with {} calls: {}",
                show_tuple(&tuple),
                clause.calls,
                show(&words)
            );
            checked += 1;
        }
    }
    println!("{checked} clauses");
    assert!(checked > 1_000);
}
