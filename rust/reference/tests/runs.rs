//! The runs of document 01, and each end with its limit met and missed by one.

use reference::gen::{pair, part, relation};
use reference::listing::listing;
use reference::repeats::all_again;
use reference::run::SCRATCH_WORDS;
use reference::table;
use reference::word::{show, word};
use reference::{run, End, Outcome, Refusal};

const MANY: usize = 100_000;

/// Runs with ample limits, but for the rounds.
fn run_rounds(words: &[u32], rounds: u32) -> Outcome {
    run(words, rounds, u32::MAX, MANY, SCRATCH_WORDS).unwrap()
}

fn run_limited(words: &[u32], steps: u32, output: usize) -> Outcome {
    run(words, 16, steps, output, SCRATCH_WORDS).unwrap()
}

/// End, round, steps and the answers' words of an outcome.
fn told(outcome: &Outcome) -> (End, u32, u32, String) {
    let headers = {
        let (mut at, mut headers) = (0, 0);
        while at < outcome.words.len() {
            assert_eq!(outcome.words[at] >> 28, 15);
            at += 1 + (outcome.words[at] & 0x0fff_ffff) as usize;
            headers += 1;
        }
        assert_eq!(at, outcome.words.len());
        headers
    };
    assert_eq!(outcome.answers, headers);
    assert_eq!(outcome.answers, outcome.answer_rounds.len());
    (
        outcome.end,
        outcome.round,
        outcome.steps,
        show(&outcome.words),
    )
}

/// A program that ends in round 0 or few later, with ample limits.
fn assert_run(text: &str, end: End, round: u32, steps: u32, answers: &str) {
    let outcome = run_rounds(&table::words(text), 16);
    assert_eq!(
        told(&outcome),
        (end, round, steps, answers.to_string()),
        "{text}"
    );
}

const A: &str = "13:5 2:1 2:1 5:2 0:0 1:7";
const B: &str = "13:7 2:1 2:1 5:4 0:0 4:1 0:0 3:0";
const C: &str = "13:5 2:1 2:1 12:2 2:1 0:0 13:9 2:1 2:1 11:6 12:2 2:1 0:0 5:2 0:0 2:5";
const D: &str = "13:5 2:1 2:1 6:2 0:0 2:5";
const E: &str = "13:7 2:1 2:1 10:4 7:1 0:0 8:1 0:0";
const F: &str = "13:9 2:1 2:2 10:6 5:2 0:0 1:7 6:2 0:1 2:5";
const G: &str = "13:9 2:2 2:2 6:6 4:1 0:0 0:1 4:1 2:1 2:2";
const H: &str = "13:11 2:1 2:1 10:8 9:2 1:7 0:0 5:4 0:0 4:1 1:7 3:0";

/// Worked out by hand, with all that the listing program prints.
#[test]
fn table_of_runs() {
    let rows = table::runs();
    assert!(rows.len() >= 40);
    for row in rows {
        assert_eq!(listing(&row.case.run()), row.expected, "{}", row.label);
    }
}

#[test]
fn runs_of_document_01() {
    assert_run(A, End::Finished, 0, 4, "15:1 1:7");
    assert_run(B, End::Finished, 0, 4, "");
    assert_run(D, End::Finished, 0, 8, "15:4 0:0 6:2 0:0 2:5");
    assert_run(E, End::Finished, 0, 5, "");
    assert_run(F, End::Finished, 0, 12, "15:1 1:7");
    let answer = "15:9 0:0 0:1 11:6 6:2 0:0 2:1 6:2 0:1 2:2";
    assert_run(G, End::Finished, 0, 16, answer);
    assert_run(H, End::Finished, 0, 12, "");

    let c = run_rounds(&table::words(C), 2);
    assert_eq!(told(&c), (End::Rounds, 2, 20, "15:1 2:5".into()));
    assert_eq!(c.answer_rounds, [1]);
    let c = run_rounds(&table::words(C), 0);
    assert_eq!(told(&c), (End::Rounds, 0, 1, String::new()));

    let many = table::words("13:4 2:0 2:255 12:1 2:0");
    let outcome = run_rounds(&many, 255);
    assert_eq!(told(&outcome), (End::Path(1), 8, 43, String::new()));
    // Up to round 7 all goes well.
    assert_eq!(
        told(&run_rounds(&many, 7)),
        (End::Rounds, 7, 36, String::new())
    );
}

#[test]
fn conditions_before_a_run() {
    let nine = Err(Refusal {
        number: 9,
        place: 0,
    });
    let a = table::words(A);
    assert_eq!(run(&a, 256, 9, 9, SCRATCH_WORDS), nine);
    assert_eq!(run(&a, 0, 9, 9, SCRATCH_WORDS - 1), nine);
    assert!(run(&a, 255, 9, 9, SCRATCH_WORDS).is_ok());
    // 9 comes before 1 and all others.
    assert_eq!(run(&[], 256, 9, 9, SCRATCH_WORDS), nine);
    assert_eq!(run(&[], 0, 9, 9, 0), nine);
    let refused = |number, place| Err(Refusal { number, place });
    assert_eq!(run(&[], 255, 9, 9, SCRATCH_WORDS), refused(1, 0));
    let seven = table::words("13:4 2:0 2:0 12:1 2:1");
    assert_eq!(run(&seven, 0, 0, 0, SCRATCH_WORDS), refused(7, 3));
}

#[test]
fn step_limit() {
    let none = String::new();
    let a = table::words(A);
    assert_eq!(
        told(&run_limited(&a, 4, MANY)),
        (End::Finished, 0, 4, "15:1 1:7".into())
    );
    for limit in 0..4 {
        assert_eq!(
            told(&run_limited(&a, limit, MANY)),
            (End::Steps, 0, limit, none.clone())
        );
    }
    // Met at the first step of a round, the limit names that round.
    let c = table::words(C);
    assert_eq!(
        told(&run_limited(&c, 1, MANY)),
        (End::Steps, 1, 1, none.clone())
    );
    // Answers given before it stay.
    let ended = run_limited(&c, 8, MANY);
    assert_eq!(told(&ended), (End::Steps, 2, 8, "15:1 2:5".into()));
    // A round completed with the last step is completed.
    let ended = run(&c, 2, 20, MANY, SCRATCH_WORDS).unwrap();
    assert_eq!((ended.end, ended.round, ended.steps), (End::Rounds, 2, 20));
    let ended = run(&c, 2, 19, MANY, SCRATCH_WORDS).unwrap();
    assert_eq!((ended.end, ended.round, ended.steps), (End::Steps, 2, 19));
    // Every limit below what is needed breaks off just there.
    for text in [A, B, D, E, F, G, H] {
        let words = table::words(text);
        let needed = run_limited(&words, u32::MAX, MANY).steps;
        assert_eq!(run_limited(&words, needed, MANY).end, End::Finished);
        for limit in 0..needed {
            let ended = run_limited(&words, limit, MANY);
            assert_eq!((ended.end, ended.steps), (End::Steps, limit), "{text}");
        }
    }
}

#[test]
fn output_room() {
    let a = table::words(A);
    for room in [0, 1] {
        let ended = run_limited(&a, u32::MAX, room);
        assert_eq!(told(&ended), (End::Output, 0, 4, String::new()));
    }
    let ended = run_limited(&a, u32::MAX, 2);
    assert_eq!(told(&ended), (End::Finished, 0, 4, "15:1 1:7".into()));
    // Tested once the writer has taken all its steps.
    assert_eq!(told(&run_limited(&a, 3, 0)).0, End::Steps);
    assert_eq!(told(&run_limited(&a, 4, 0)).0, End::Output);
    // No room at all is enough where there is no answer.
    let b = table::words(B);
    assert_eq!(told(&run_limited(&b, u32::MAX, 0)).0, End::Finished);
    // What is dropped or repeated needs no room.
    let f = table::words(F);
    assert_eq!(told(&run_limited(&f, u32::MAX, 2)).0, End::Finished);
    let twice = table::words("13:9 2:1 2:1 10:6 (6:2 0:0 2:5)*2");
    assert_eq!(told(&run_limited(&twice, u32::MAX, 4)).0, End::Output);
    let ended = run_limited(&twice, u32::MAX, 5);
    assert_eq!(
        (ended.end, show(&ended.words)),
        (End::Finished, "15:4 0:0 6:2 0:0 2:5".into())
    );
    // A repeat that doesn't fit ends the run too; where it fits, it takes no room, however often it comes.
    let c = table::words(C);
    let ended = run_limited(&c, u32::MAX, 3);
    assert_eq!((ended.end, ended.round, ended.answers), (End::Output, 2, 1));
    for rounds in [2, 3, 16] {
        let ended = run(&c, rounds, u32::MAX, 4, SCRATCH_WORDS).unwrap();
        assert_eq!(
            (ended.end, ended.round, ended.answers),
            (End::Rounds, rounds, 1)
        );
    }
    // Words past the usable ones make no difference.
    let ended = run_limited(&a, u32::MAX, usize::MAX);
    assert_eq!(ended.end, End::Finished);
}

#[test]
fn rounds() {
    // No call: finished in round 0, whatever the limit.
    let a = table::words(A);
    for limit in [0, 1, 255] {
        assert_eq!(
            told(&run_rounds(&a, limit)),
            (End::Finished, 0, 4, "15:1 1:7".into())
        );
    }
    // A run without answers isn't finished while it cuts.
    let endless = table::words("13:4 2:0 2:0 12:1 2:0");
    assert_eq!(
        told(&run_rounds(&endless, 3)),
        (End::Rounds, 3, 10, String::new())
    );
    // One call: round 0 cuts it, round 1 gives the answer and cuts none.
    let one = table::words("13:5 2:1 2:1 12:2 2:1 0:0 13:5 2:1 2:1 5:2 0:0 1:7");
    assert_eq!(
        told(&run_rounds(&one, 1)),
        (End::Finished, 1, 6, "15:1 1:7".into())
    );
    assert_eq!(
        told(&run_rounds(&one, 0)),
        (End::Rounds, 0, 1, String::new())
    );
    // The limit's own round completed without a cut is finished, here with the answer of an earlier one: an
    // alternative without calls answers in round 0 only.
    let either =
        table::words("13:9 2:1 2:1 11:6 5:2 0:0 1:7 12:2 2:1 0:0 13:5 2:1 2:1 5:2 0:0 1:8");
    let ended = run_rounds(&either, 1);
    assert_eq!(ended.end, End::Finished);
    assert_eq!(ended.answer_rounds, [0, 1]);
    assert_eq!(show(&ended.words), "15:1 1:7 15:1 1:8");
    // Round 0: disjunction, equal 3 steps, answer 1, cut call 1. Round 1: disjunction, equal 3, call, equal 3, answer 1.
    assert_eq!(ended.steps, 6 + 9);
}

/// Eight variables and eight calls of 255 more are 2,048.
#[test]
fn path_1_variables() {
    let program = |first: u32| {
        let mut words = relation(0, first as usize, vec![word(12, 1), word(2, 1)]);
        words.extend(relation(0, 255, vec![word(12, 1), word(2, 1)]));
        words
    };
    let fits = program(8);
    assert_eq!(
        told(&run_rounds(&fits, 8)),
        (End::Rounds, 8, 45, String::new())
    );
    assert_eq!(
        told(&run_rounds(&fits, 9)),
        (End::Path(1), 9, 53, String::new())
    );
    assert_eq!(
        told(&run_rounds(&program(9), 9)),
        (End::Path(1), 8, 43, String::new())
    );
    // Steps are tested first.
    let ended = run(&fits, 9, 53, MANY, SCRATCH_WORDS).unwrap();
    assert_eq!(ended.end, End::Steps);
    let ended = run(&fits, 9, 54, MANY, SCRATCH_WORDS).unwrap();
    assert_eq!(ended.end, End::Path(1));
    // A relation without variables may still be called when 2,048 are made.
    let mut last = relation(0, 8, table::words("10:18 (12:1 2:1)*8 12:1 2:2"));
    last.extend(relation(0, 255, table::words("5:2 0:254 3:0")));
    last.extend(relation(0, 0, table::words("5:2 3:0 3:0")));
    let ended = run_rounds(&last, 9);
    assert_eq!(
        (ended.end, ended.round, ended.answers),
        (End::Finished, 9, 1)
    );
}

#[test]
fn path_2_goals() {
    let program = |count: usize| {
        let goals = table::words("5:2 3:0 3:0").repeat(count);
        relation(0, 0, part(10, goals))
    };
    // The query's own goal and 1,023 more.
    assert_eq!(
        told(&run_rounds(&program(1023), 9)),
        (End::Finished, 0, 2047, "15:0".into())
    );
    assert_eq!(
        told(&run_rounds(&program(1024), 9)),
        (End::Path(2), 0, 0, String::new())
    );
    assert_eq!(run_limited(&program(1024), 0, MANY).end, End::Steps);
    // Taken ones still count: one disjunction or call after 1,023 goals.
    let and_then = |count: usize, goal: &str| {
        let mut goals = table::words("5:2 3:0 3:0").repeat(count);
        goals.extend(table::words(goal));
        relation(0, 0, part(10, goals))
    };
    let disjunction = "11:3 5:2 3:0 3:0";
    assert_eq!(
        run_rounds(&and_then(1021, disjunction), 9).end,
        End::Finished
    );
    let ended = run_rounds(&and_then(1022, disjunction), 9);
    assert_eq!((ended.end, ended.steps), (End::Path(2), 2045));
    // A disjunction puts one goal to wait on each path.
    let two = "11:6 5:2 3:0 3:0 5:2 3:0 3:0";
    let ended = run_rounds(&and_then(1021, two), 9);
    assert_eq!((ended.end, ended.trace.given.len()), (End::Finished, 2));
    // A call that is cut puts none.
    let call = and_then(1022, "12:1 2:0");
    assert_eq!(run_rounds(&call, 0).end, End::Rounds);
    let ended = run_rounds(&call, 1);
    assert_eq!(
        (ended.end, ended.round, ended.steps),
        (End::Path(2), 1, 2046 + 2045)
    );
    // Of two bounds that one call exceeds, the first is named: with 1,001 fillers the eighth call finds 2,040 variables
    // made and 1,024 goals put; with one filler more the seventh body exceeds the goals alone.
    let filler = table::words("5:2 3:0 3:0");
    let both = |fillers: usize| {
        let goals = [table::words("(12:1 2:1)*8"), filler.repeat(fillers)].concat();
        let query = relation(0, 255, part(10, goals));
        [query, relation(0, 255, part(10, filler.clone()))].concat()
    };
    let ended = run_rounds(&both(1001), 255);
    assert_eq!((ended.end, ended.round), (End::Path(1), 8));
    let ended = run_rounds(&both(1002), 255);
    assert_eq!((ended.end, ended.round), (End::Path(2), 7));
}

/// `depth` disjunctions, each the first alternative of the one before.
fn nested_disjunctions(depth: usize) -> Vec<u32> {
    let mut goal = table::words("5:2 3:0 3:0");
    for _ in 0..depth {
        goal.extend(table::words("7:1 3:0"));
        goal = part(11, goal);
    }
    relation(0, 0, goal)
}

#[test]
fn path_3_disjunctions() {
    assert_eq!(
        told(&run_rounds(&nested_disjunctions(256), 9)),
        (End::Finished, 0, 256 + 2 + 2 * 256, "15:0".into())
    );
    let missed = nested_disjunctions(257);
    assert_eq!(
        told(&run_rounds(&missed, 9)),
        (End::Path(3), 0, 256, String::new())
    );
    assert_eq!(run_limited(&missed, 256, MANY).end, End::Steps);
    assert_eq!(run_limited(&missed, 257, MANY).end, End::Path(3));
    // Not counted: a single alternative, and the last one once it is tried.
    let mut single = table::words("5:2 3:0 3:0");
    let mut last = table::words("5:2 3:0 3:0");
    for _ in 0..300 {
        single = part(11, single);
        last = part(11, [table::words("7:1 3:0"), last].concat());
    }
    assert_eq!(
        told(&run_rounds(&relation(0, 0, single), 9)),
        (End::Finished, 0, 302, "15:0".into())
    );
    assert_eq!(
        told(&run_rounds(&relation(0, 0, last), 9)),
        (End::Finished, 0, 300 * 3 + 2, "15:0".into())
    );
    // 256 left and one more single alternative.
    let mut innermost = table::words("11:3 5:2 3:0 3:0");
    for _ in 0..256 {
        innermost.extend(table::words("7:1 3:0"));
        innermost = part(11, innermost);
    }
    assert_eq!(run_rounds(&relation(0, 0, innermost), 9).end, End::Finished);
}

/// A disjunction that exceeds the bounds of goals and of disjunctions at once: goals are named.
#[test]
fn path_2_before_3() {
    let program = |fillers: usize| {
        // The disjunctions first: each puts one goal, and the conjunction has put all of them already.
        let disjunction = table::words("11:5 5:2 3:0 3:0 7:1 3:0");
        let goals = [
            table::words("5:2 3:0 3:0").repeat(fillers),
            disjunction.repeat(257),
        ]
        .concat();
        relation(0, 0, part(10, goals))
    };
    // 1 + fillers + 257 goals, and one more for each of 256 disjunctions taken.
    assert_eq!(run_rounds(&program(509), 9).end, End::Path(3));
    assert_eq!(run_rounds(&program(510), 9).end, End::Path(2));
    assert_eq!(run_rounds(&program(510), 9).steps, 1 + 2 * 510 + 3 * 256);
}

#[test]
fn path_4_constraints() {
    let program = |goals: &str| relation(0, 0, part(10, table::words(goals)));
    assert_eq!(
        told(&run_rounds(&program("(7:1 1:0)*512"), 9)),
        (End::Finished, 0, 1 + 2 * 512 + 512, "15:0".into())
    );
    let missed = (End::Path(4), 0, 1 + 2 * 512, String::new());
    assert_eq!(told(&run_rounds(&program("(7:1 1:0)*513"), 9)), missed);
    // Even if it would fail.
    assert_eq!(
        told(&run_rounds(&program("(7:1 1:0)*512 7:1 3:0"), 9)),
        missed
    );
    let words = program("(7:1 1:0)*513");
    assert_eq!(run_limited(&words, 1025, MANY).end, End::Steps);
    assert_eq!(run_limited(&words, 1026, MANY).end, End::Path(4));
    // They are the path's: an alternative given up takes its own along.
    let left = part(10, table::words("7:1 1:0 7:1 3:0"));
    let right = table::words("7:1 1:0");
    let goals = [
        table::words("(7:1 1:0)*510"),
        part(11, [left, right.clone()].concat()),
        right,
    ]
    .concat();
    let ended = run_rounds(&relation(0, 0, part(10, goals)), 9);
    assert_eq!((ended.end, ended.answers), (End::Finished, 1));
}

/// `depth` pairs nested in first parts.
fn deep(depth: usize, innermost: Vec<u32>) -> Vec<u32> {
    let mut term = innermost;
    for _ in 0..depth {
        term = pair(term, vec![word(3, 0)]);
    }
    term
}

fn empty() -> Vec<u32> {
    vec![word(3, 0)]
}

#[test]
fn path_5_waiting_nodes() {
    let absento = |depth| {
        relation(
            0,
            0,
            part(9, [vec![word(1, 7)], deep(depth, empty())].concat()),
        )
    };
    assert_eq!(
        told(&run_rounds(&absento(512), 9)),
        (End::Finished, 0, 2 + 1025 + 1025, "15:0".into())
    );
    assert_eq!(
        told(&run_rounds(&absento(513), 9)),
        (End::Path(5), 0, 2 + 512, String::new())
    );
    assert_eq!(run_limited(&absento(513), 514, MANY).end, End::Steps);
    assert_eq!(run_limited(&absento(513), 515, MANY).end, End::Path(5));
    // The occurs check.
    let equal = |depth| {
        relation(
            1,
            1,
            part(5, [vec![word(0, 0)], deep(depth, empty())].concat()),
        )
    };
    let ended = run_rounds(&equal(512), 9);
    assert_eq!((ended.end, ended.steps), (End::Finished, 2 + 1025 + 1025));
    let ended = run_rounds(&equal(513), 9);
    assert_eq!((ended.end, ended.steps), (End::Path(5), 2 + 512));
    // The writer: each equality is half as deep as the answer.
    let halves = |depth: usize, more: usize| {
        let first = part(
            5,
            [vec![word(0, 0)], deep(depth, vec![word(0, 1)])].concat(),
        );
        let second = part(5, [vec![word(0, 1)], deep(more, empty())].concat());
        relation(1, 2, part(10, [first, second].concat()))
    };
    let ended = run_rounds(&halves(256, 256), 9);
    assert_eq!(
        (ended.end, ended.steps),
        (End::Finished, 1 + 2 * (2 + 513) + 1025)
    );
    let ended = run_rounds(&halves(256, 257), 9);
    assert_eq!(
        (ended.end, ended.steps),
        (End::Path(5), 1 + 2 + 513 + 2 + 515 + 512)
    );
    assert_eq!(ended.answers, 0);
    // Second parts wait one at a time: lists may be long.
    let mut list = empty();
    for _ in 0..8_000 {
        list = pair(vec![word(2, 1)], list);
    }
    let words = relation(0, 0, part(9, [vec![word(1, 7)], list].concat()));
    assert_eq!(
        told(&run_rounds(&words, 9)),
        (End::Finished, 0, 2 + 2 * 16_001, "15:0".into())
    );
}

#[test]
fn path_5_waiting_pairs() {
    let two = |kind, depth| {
        let sides = [deep(depth, empty()), deep(depth, empty())].concat();
        relation(0, 0, part(kind, sides))
    };
    assert_eq!(
        told(&run_rounds(&two(5, 512), 9)),
        (End::Finished, 0, 1 + 1025, "15:0".into())
    );
    assert_eq!(
        told(&run_rounds(&two(5, 513), 9)),
        (End::Path(5), 0, 1 + 512, String::new())
    );
    // A trial.
    assert_eq!(
        told(&run_rounds(&two(6, 512), 9)),
        (End::Finished, 0, 2 + 1025, String::new())
    );
    assert_eq!(
        told(&run_rounds(&two(6, 513), 9)),
        (End::Path(5), 0, 2 + 512, String::new())
    );
    // Pairs and nodes are counted apart: an occurs check of 512 while 512 pairs wait.
    let apart = |depth| {
        let left = deep(512, vec![word(0, 0)]);
        let right = deep(512, deep(depth, empty()));
        relation(0, 1, part(5, [left, right].concat()))
    };
    assert_eq!(
        told(&run_rounds(&apart(512), 9)),
        (End::Finished, 0, 1 + 512 + 1 + 1025 + 512, "15:0".into())
    );
    assert_eq!(
        told(&run_rounds(&apart(513), 9)),
        (End::Path(5), 0, 1 + 512 + 1 + 512, String::new())
    );
}

#[test]
fn equality() {
    // Atoms of the same kind and payload.
    assert_run("13:5 2:0 2:0 5:2 1:7 1:7", End::Finished, 0, 2, "15:0");
    assert_run("13:5 2:0 2:0 5:2 1:7 2:7", End::Finished, 0, 2, "");
    assert_run("13:5 2:0 2:0 5:2 1:7 1:8", End::Finished, 0, 2, "");
    assert_run("13:7 2:0 2:0 5:4 3:0 4:1 3:0 3:0", End::Finished, 0, 2, "");
    // The same variable is done, with no occurs check; the left is bound to the right.
    assert_run("13:5 2:1 2:1 5:2 0:0 0:0", End::Finished, 0, 3, "15:1 0:0");
    assert_run(
        "13:5 2:2 2:2 5:2 0:0 0:1",
        End::Finished,
        0,
        5,
        "15:2 0:0 0:0",
    );
    // A variable on the right.
    assert_run("13:5 2:1 2:1 5:2 1:7 0:0", End::Finished, 0, 4, "15:1 1:7");
    // Open variables are numbered by first appearance among the query terms.
    assert_run(
        "13:7 2:2 2:3 5:4 0:0 4:1 0:2 0:1",
        End::Finished,
        0,
        2 + 3 + 3 + 1,
        "15:4 4:1 0:0 0:1 0:1",
    );
    // First parts before second ones: they fail here after one step.
    assert_run(
        "13:9 2:0 2:1 5:6 4:1 1:1 0:0 4:1 1:2 3:0",
        End::Finished,
        0,
        3,
        "",
    );
    // The occurs check follows bindings: x = (y), y = (x).
    assert_run(
        "13:13 2:2 2:2 10:10 5:4 0:0 4:1 0:1 3:0 5:4 0:1 4:1 0:0 3:0",
        End::Finished,
        0,
        1 + (2 + 3) + (2 + 3),
        "",
    );
}

/// The rows of the table on Note 10 of document 02 for other numbers.
#[test]
fn occurs_checks_enter_a_variable_once() {
    // x0 = (nil . nil), and each further level is the one before twice: two nodes more than that one's.
    let doubled = |levels: u32| {
        let mut goals = table::words("5:4 0:0 4:1 3:0 3:0");
        for level in 1..=levels {
            let below = word(0, level - 1);
            goals.extend([word(5, 4), word(0, level), word(4, 1), below, below]);
        }
        relation(0, levels as usize + 1, part(10, goals))
    };
    for levels in [0, 1, 2, 3, 100, 254] {
        let steps = 6 + 5 * levels + levels * (levels + 1);
        assert_eq!(
            told(&run_rounds(&doubled(levels), 9)),
            (End::Finished, 0, steps, "15:0".into())
        );
    }
    // Each look at x is three nodes, but for the second of one check: three checks look at it for the first time.
    assert_run(
        "13:24 2:0 2:4 10:21 5:4 0:0 4:1 3:0 3:0 5:4 0:1 4:1 0:0 0:0 5:10 4:1 0:2 0:3 4:3 4:1 0:0 0:0 4:1 0:0 0:0",
        End::Finished,
        0,
        1 + 5 + (2 + 5) + (1 + 1 + 2 * (1 + 5)),
        "15:0",
    );
    // In a review, in the review after a later equality, and in the writer, which looks at all of the right side.
    assert_run(
        "13:16 2:0 2:3 10:13 5:4 0:0 4:1 3:0 3:0 6:4 0:1 4:1 0:0 0:0 5:2 0:2 3:0",
        End::Finished,
        0,
        1 + 5 + (2 + 6) + (3 + 1 + 6) + (6 + 7),
        "15:0",
    );
    // A variable bound to an atom, or open, is one node each time.
    assert_run(
        "13:13 2:0 2:3 10:10 5:2 0:0 3:0 5:6 0:1 4:1 0:0 4:1 0:0 0:2",
        End::Finished,
        0,
        1 + 3 + (2 + 5),
        "15:0",
    );
    // The trial's own bindings are followed, and marked: u is bound on trial before v is.
    assert_run(
        "13:13 2:0 2:2 6:10 4:1 0:0 0:1 4:3 4:1 3:0 3:0 4:1 0:0 0:0",
        End::Finished,
        0,
        2 + (1 + 4 + 6) + (1 + 4 + 6) + (3 + 3),
        "15:0",
    );
}

#[test]
fn constraints_are_reviewed_after_equalities() {
    // x symbolo and y numbero meet when x equals y; the first of them fails.
    assert_run(
        "13:10 2:2 2:2 10:7 7:1 0:0 8:1 0:1 5:2 0:0 0:1",
        End::Finished,
        0,
        1 + 2 + 2 + 3 + 1,
        "",
    );
    // Types on open variables are listed, in the path's order.
    assert_run(
        "13:7 2:2 2:2 10:4 8:1 0:1 7:1 0:0",
        End::Finished,
        0,
        1 + 2 + 2 + 2 + 2,
        "15:6 0:0 0:1 8:1 0:1 7:1 0:0",
    );
    // On an atom of the type it holds and is not listed, but gone through.
    assert_run("13:4 2:0 2:0 8:1 2:5", End::Finished, 0, 3, "15:0");
    assert_run("13:4 2:0 2:0 8:1 1:5", End::Finished, 0, 2, "");
    assert_run("13:4 2:0 2:0 7:1 3:0", End::Finished, 0, 2, "");
    assert_run("13:6 2:0 2:0 7:3 4:1 3:0 3:0", End::Finished, 0, 2, "");
    // No review after an equality that binds nothing.
    assert_run(
        "13:8 2:1 2:1 10:5 7:1 0:0 5:2 0:0 0:0",
        End::Finished,
        0,
        1 + 2 + 2 + 1 + 1,
        "15:3 0:0 7:1 0:0",
    );
    // A review for each constraint after one that binds.
    assert_run(
        "13:10 2:1 2:2 10:7 7:1 0:0 7:1 0:0 5:2 0:1 3:0",
        End::Finished,
        0,
        1 + 2 + 2 + (3 + 2) + 1 + 2,
        "15:3 0:0 7:1 0:0",
    );
}

#[test]
fn differ() {
    // Two open variables may still differ; both directions are listed, the same words but one time.
    assert_run(
        "13:12 2:2 2:2 10:9 6:2 0:0 0:1 6:2 0:1 0:0 6:2 0:0 0:1",
        End::Finished,
        0,
        1 + 3 * 4 + 2 + 3 * 3,
        "15:8 0:0 0:1 6:2 0:0 0:1 6:2 0:1 0:0",
    );
    // The same variable can't.
    assert_run("13:5 2:1 2:1 6:2 0:0 0:0", End::Finished, 0, 3, "");
    // Different atoms do: nothing is listed.
    assert_run("13:5 2:0 2:0 6:2 1:1 2:1", End::Finished, 0, 3 + 1, "15:0");
    // (q . r) and (r . 5): the trial binds q to r and then r to 5.
    assert_run(
        "13:9 2:2 2:2 6:6 4:1 0:0 0:1 4:1 0:1 2:5",
        End::Finished,
        0,
        2 + 5 + 2 + 5 + 2,
        "15:9 0:0 0:1 11:6 6:2 0:0 0:1 6:2 0:1 2:5",
    );
    // (q . r) and (5 . q): r meets q followed through the trial, which is 5.
    assert_run(
        "13:9 2:2 2:2 6:6 4:1 0:0 0:1 4:1 2:5 0:0",
        End::Finished,
        0,
        2 + 5 + 2 + 5 + 2,
        "15:9 0:0 0:1 11:6 6:2 0:0 2:5 6:2 0:1 2:5",
    );
    // (q . r) and (5 . (q)): inside a right side only the path's bindings are followed.
    assert_run(
        "13:11 2:2 2:2 6:8 4:1 0:0 0:1 4:1 2:5 4:1 0:0 3:0",
        End::Finished,
        0,
        2 + (1 + 2 + 1 + 3) + 2 + (1 + 2 + 1 + 3) + 1 + 3,
        "15:11 0:0 0:1 11:8 6:2 0:0 2:5 6:4 0:1 4:1 0:0 3:0",
    );
    // Dropped whole if one side mentions a variable that no query term holds; its right sides are gone through.
    assert_run(
        "13:9 2:1 2:2 6:6 4:1 0:0 0:1 4:1 2:1 2:2",
        End::Finished,
        0,
        2 + 5 + 1 + 5 + 2,
        "15:1 0:0",
    );
    assert_run(
        "13:7 2:1 2:2 6:4 0:0 4:1 0:1 3:0",
        End::Finished,
        0,
        2 + 4 + 1 + 4 + 3,
        "15:1 0:0",
    );
    // The occurs check makes a trial fail: it holds for good.
    assert_run(
        "13:7 2:1 2:1 6:4 0:0 4:1 0:0 3:0",
        End::Finished,
        0,
        2 + 3 + 1 + 3,
        "15:1 0:0",
    );
}

#[test]
fn absento() {
    // For each open variable of the term, by first occurrence; the one without a name is dropped alone.
    assert_run(
        "13:11 2:2 2:3 9:8 1:7 4:1 0:1 4:1 0:2 4:1 0:0 0:1",
        End::Finished,
        0,
        2 + 7 + 2 + 7,
        "15:8 0:0 0:1 9:2 1:7 0:1 9:2 1:7 0:0",
    );
    // Up to the first find.
    assert_run(
        "13:9 2:0 2:0 9:6 1:7 4:1 1:7 4:1 1:1 3:0",
        End::Finished,
        0,
        4,
        "",
    );
    // The tag may be a number, and matches only its own kind (document 02, Note 3): found, another payload, another kind.
    assert_run("13:5 2:0 2:0 9:2 2:7 2:7", End::Finished, 0, 3, "");
    assert_run("13:5 2:0 2:0 9:2 2:7 2:8", End::Finished, 0, 3 + 1, "15:0");
    assert_run("13:5 2:0 2:0 9:2 2:7 1:7", End::Finished, 0, 3 + 1, "15:0");
    assert_run("13:5 2:0 2:0 9:2 1:7 2:7", End::Finished, 0, 3 + 1, "15:0");
    // Two tags of one payload are two lines; the same tag twice is one.
    assert_run(
        "13:12 2:1 2:1 10:9 9:2 2:7 0:0 9:2 1:7 0:0 9:2 2:7 0:0",
        End::Finished,
        0,
        1 + 3 * 3 + 1 + 3,
        "15:7 0:0 9:2 2:7 0:0 9:2 1:7 0:0",
    );
}

#[test]
fn calls_and_parameters() {
    // append(x, y, (1 2)): three answers, in rounds 1, 2 and 3.
    let stop = part(10, table::words("5:2 0:0 3:0 5:2 0:1 0:2"));
    let go_on = part(
        10,
        table::words("5:4 0:0 4:1 0:3 0:4 5:4 0:2 4:1 0:3 0:5 12:4 2:1 0:4 0:1 0:5"),
    );
    let append = [
        relation(2, 2, table::words("12:8 2:1 0:0 0:1 4:1 2:1 4:1 2:2 3:0")),
        relation(3, 6, part(11, [stop, go_on].concat())),
    ]
    .concat();
    let ended = run_rounds(&append, 255);
    assert_eq!((ended.end, ended.round), (End::Finished, 3));
    assert_eq!(ended.answer_rounds, [1, 2, 3]);
    assert_eq!(
        show(&ended.words),
        "15:6 3:0 4:1 2:1 4:1 2:2 3:0 \
         15:6 4:1 2:1 3:0 4:1 2:2 3:0 \
         15:6 4:1 2:1 4:1 2:2 3:0 3:0"
    );
    // A parameter handed on through calls is still the query's variable, and an argument may be any term.
    let handed = [
        relation(1, 1, table::words("12:2 2:1 0:0")),
        relation(1, 2, table::words("12:4 2:2 4:1 0:0 0:1")),
        relation(1, 1, table::words("5:4 0:0 4:1 1:1 1:2")),
    ]
    .concat();
    let ended = run_rounds(&handed, 9);
    assert_eq!(
        told(&ended),
        (End::Finished, 2, 1 + 2 + 2 + 1 + 5 + 1, "15:1 1:1".into())
    );
}

/// As in the table's rows on Note 2, and with many answers.
#[test]
fn repeated_answers_are_not_written() {
    assert_run(
        "13:9 2:1 2:1 11:6 5:2 0:0 1:7 5:2 0:0 1:7",
        End::Finished,
        0,
        1 + 4 + 4,
        "15:1 1:7",
    );
    assert_run("13:5 2:0 2:0 5:2 3:0 3:0", End::Finished, 0, 2, "15:0");
    // Each repeat is of the one with its number.
    let twice = all_again(600);
    let ended = run_rounds(&twice, 0);
    let answers = (0..600).flat_map(|number| [word(15, 1), word(2, number)]);
    assert_eq!(
        told(&ended),
        (
            End::Finished,
            0,
            1 + 1_200 * 4,
            show(&answers.collect::<Vec<u32>>())
        )
    );
    let repeats = ended.trace.given[600..].iter().map(|given| given.repeats);
    assert!(repeats.eq((0..600).map(Some)));
    // The first repeat needs two words more, and the others no more than that.
    for (output, end, steps) in [
        (1_202, End::Finished, 1 + 1_200 * 4),
        (1_201, End::Output, 1 + 601 * 4),
        (1_200, End::Output, 1 + 601 * 4),
        (1_199, End::Output, 1 + 600 * 4),
    ] {
        let ended = run_limited(&twice, u32::MAX, output);
        assert_eq!((ended.end, ended.steps), (end, steps), "{output}");
    }
}
