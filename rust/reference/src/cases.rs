//! Programs with limits, on and around the places where a run's end changes.

use crate::fault::Fault;
use crate::gen::{self, pair, part, relation, wrapped, Rng};
use crate::read::PROGRAM_WORDS;
use crate::repeats;
use crate::run::{run_with, Outcome, ROUND_LIMIT, SCRATCH_WORDS, VARIABLES, WAITING};
use crate::shared;
use crate::table;
use crate::trace::{Given, DISTANCES};
use crate::word::*;
use std::fmt;

/// What a run is given.
#[derive(Clone, Debug)]
pub struct Case {
    /// How the program was made.
    pub made: &'static str,
    pub words: Vec<u32>,
    pub rounds: u32,
    pub steps: u32,
    pub output: usize,
    pub scratch: usize,
}

impl Case {
    /// The program with the listing program's limits.
    pub fn new(made: &'static str, words: Vec<u32>) -> Case {
        Case {
            made,
            words,
            rounds: 16,
            steps: 1_000_000,
            output: 4_096,
            scratch: SCRATCH_WORDS,
        }
    }

    pub fn run(&self) -> Result<Outcome, crate::Refusal> {
        self.run_with(None)
    }

    /// The same with an error put in.
    pub fn run_with(&self, fault: Option<Fault>) -> Result<Outcome, crate::Refusal> {
        run_with(
            fault,
            &self.words,
            self.rounds,
            self.steps,
            self.output,
            self.scratch,
        )
    }
}

/// The limits, and the program as text.
impl fmt::Display for Case {
    fn fmt(&self, f: &mut fmt::Formatter) -> fmt::Result {
        write!(
            f,
            "{}: rounds {} steps {} output {} scratch {}\n{}",
            self.made,
            self.rounds,
            self.steps,
            self.output,
            self.scratch,
            show(&self.words)
        )
    }
}

/// Small random programs are at most this long.
const SMALL: usize = 120;
/// No run of a small case takes more steps.
const STEPS: u32 = 2_000;

/// How programs are made.
pub const MADE: [&str; 25] = [
    "program",
    "repeats",
    "many answers",
    "shared parts",
    "constraints",
    "damaged",
    "random words",
    "settings",
    "walk of a list",
    "long lists",
    "many variables",
    "many goals",
    "many disjunctions",
    "many constraints",
    "terms that deepen",
    "deep first parts",
    "shared parts near a bound",
    "larger program",
    "larger damaged",
    "walk of a long list",
    "very long lists",
    "very many answers",
    "many shared parts",
    "full length",
    "many rounds",
];

/// A case that is small enough for slow checkers too.
pub fn case(rng: &mut Rng) -> Case {
    let (made, words) = match rng.below(100) {
        0..=26 => ("program", small(rng, gen::program)),
        27..=31 => ("repeats", small(rng, repeats::few)),
        32..=33 => return many_answers(rng),
        34..=39 => ("shared parts", small(rng, shared::parts)),
        40..=54 => ("constraints", small(rng, gen::constrained)),
        55..=58 => ("damaged", small(rng, gen::damaged)),
        59..=60 => ("random words", gen::random_words(rng)),
        61..=62 => return small_settings(rng),
        63..=67 => {
            let length = rng.below(8);
            ("walk of a list", walk(rng, length))
        }
        of_a_bound => return near_a_bound(rng, of_a_bound),
    };
    let rounds = rng.pick(&[0, 1, 2, 2, 3, 3, 4, 5, 7, ROUND_LIMIT]);
    let steps = rng.pick(&[50, 200, 200, 500, 500, STEPS]);
    around(rng, Case::new(made, words), rounds, steps)
}

/// As many different answers as a case of this size can give, or fewer.
fn many_answers(rng: &mut Rng) -> Case {
    let different = rng.pick(&[16, 24, 40, 80, 160, 300]);
    let different = rng.between(different / 2, different);
    let words = repeats::many(rng, different, 1_000);
    around(rng, Case::new("many answers", words), 3, STEPS)
}

/// Long lists, and programs round about the bounds on a path, with as many rounds as they need.
fn near_a_bound(rng: &mut Rng, which: usize) -> Case {
    let (made, words) = match which {
        68..=69 => {
            let length = rng.between(100, 250);
            ("long lists", lists(rng, length))
        }
        70..=75 => ("many variables", many_variables(rng)),
        76..=79 => ("many goals", many_goals(rng)),
        80..=81 => ("shared parts near a bound", shared_near_a_bound(rng)),
        82..=86 => ("many disjunctions", many_disjunctions(rng)),
        87..=92 => ("many constraints", many_constraints(rng)),
        93..=97 => ("terms that deepen", deep_terms(rng)),
        _ => ("deep first parts", deep_first_parts(rng)),
    };
    let words = match rng.chance(15) {
        true => calls_ahead(rng, words),
        false => words,
    };
    around(rng, Case::new(made, words), ROUND_LIMIT, STEPS)
}

/// The program with further alternatives ahead of the query's goal, calls of a relation that only calls itself: every round cuts
/// them before it comes to the goal.
fn calls_ahead(rng: &mut Rng, words: Vec<u32>) -> Vec<u32> {
    let (query, others) = words.split_at(1 + payload(words[0]) as usize);
    let relations = words.iter().filter(|&&word| kind(word) == RELATION).count();
    let call = [word(CALL, 1), word(NUMBER, relations as u32)];
    let alternatives = [&call.repeat(rng.between(1, 3)), &query[3..]].concat();
    let [parameters, variables] = [query[1], query[2]].map(|word| payload(word) as usize);
    [
        relation(parameters, variables, part(DISJUNCTION, alternatives)),
        others.to_vec(),
        relation(0, 0, call.to_vec()),
    ]
    .concat()
}

/// A case of any size.
pub fn larger(rng: &mut Rng) -> Case {
    let (made, words) = match rng.below(25) {
        0 => {
            let different = rng.between(400, 1_300);
            let words = repeats::many(rng, different, 8_000);
            return around(rng, Case::new("very many answers", words), 3, 20_000);
        }
        1..=6 => ("larger program", gen::accepted(rng)),
        7..=11 => ("program", gen::program(rng)),
        12..=14 => ("larger damaged", gen::damaged(rng)),
        15..=16 => {
            let length = rng.below(60);
            ("walk of a long list", walk(rng, length))
        }
        17..=18 => {
            let length = rng.between(1_000, 4_000);
            ("very long lists", lists(rng, length))
        }
        19..=21 => ("full length", full_length(rng)),
        22..=23 => {
            let levels = rng.between(50, 130);
            ("many shared parts", many_shared(rng, levels))
        }
        _ => {
            let case = Case::new("many rounds", many_rounds(rng));
            let rounds = rng.pick(&[ROUND_LIMIT - 1, ROUND_LIMIT, ROUND_LIMIT]);
            return around(rng, case, rounds, 150_000);
        }
    };
    let rounds = rng.pick(&[4, 9, 40, ROUND_LIMIT]);
    let steps = rng.pick(&[1_000, 5_000, 20_000]);
    around(rng, Case::new(made, words), rounds, steps)
}

fn small(rng: &mut Rng, make: impl Fn(&mut Rng) -> Vec<u32>) -> Vec<u32> {
    loop {
        let words = make(rng);
        if words.len() <= SMALL {
            return words;
        }
    }
}

/// Condition 9 on either side of its bounds.
fn small_settings(rng: &mut Rng) -> Case {
    let words = match rng.chance(50) {
        true => small(rng, gen::program),
        false => small(rng, gen::damaged),
    };
    Case {
        made: "settings",
        words,
        rounds: rng.pick(&[0, 1, ROUND_LIMIT, ROUND_LIMIT + 1, u32::MAX]),
        steps: rng.pick(&[0, 1, 50]),
        output: rng.below(10),
        scratch: match rng.below(8) {
            0 => rng.below(SCRATCH_WORDS),
            1 => SCRATCH_WORDS - 1,
            2..=4 => SCRATCH_WORDS,
            5 => SCRATCH_WORDS + 1,
            _ => longer_scratch(rng),
        },
    }
}

/// A scratch with words beyond those that a run uses, at most as many again.
fn longer_scratch(rng: &mut Rng) -> usize {
    rng.between(SCRATCH_WORDS + 1, 2 * SCRATCH_WORDS)
}

/// The case with limits set by what a run with the given ones needs.
fn around(rng: &mut Rng, mut case: Case, rounds: u32, steps: u32) -> Case {
    (case.rounds, case.steps) = (rounds, steps);
    case.scratch = match rng.below(4) {
        0 => longer_scratch(rng),
        1 => SCRATCH_WORDS + 1,
        _ => SCRATCH_WORDS,
    };
    let Ok(outcome) = case.run() else {
        case.output = rng.below(10);
        return case;
    };
    let needed = outcome.trace.needed();
    case.output = match outcome.answers >= MANY_ANSWERS && rng.chance(60) {
        true => beside_answers(rng, &outcome),
        false => needed + rng.below(20),
    };
    match rng.below(15) {
        0..=3 => (),
        4 => case.steps = outcome.steps,
        5 => case.steps = outcome.steps + 1,
        6 => case.steps = outcome.steps.saturating_sub(1),
        7 => case.steps = rng.below(outcome.steps as usize + 1) as u32,
        8 => case.output = needed,
        9 => case.output = needed.saturating_sub(1),
        10 => case.output = rng.below(needed + 1),
        11 => case.output = 0,
        // Enough for all that is written; a repeat may need more.
        12 => case.output = outcome.words.len(),
        13 => case.rounds = outcome.round,
        _ => case.rounds = outcome.round.saturating_sub(1),
    }
    case
}

/// So many answers are many: an engine may keep some words for each of them behind those that are written, to find repeats by.
pub const MANY_ANSWERS: usize = 8;

/// May it keep so many words? A power of two, from 32 on.
pub fn may_keep(words: usize) -> bool {
    words >= 32 && words.is_power_of_two()
}

/// Output words of which, at one of the answers, about as many are left as there are answers, or as a power of two near that, or fewer, or
/// a few times as many.
fn beside_answers(rng: &mut Rng, outcome: &Outcome) -> usize {
    let given = &outcome.trace.given;
    let places = |wanted: &dyn Fn(&Given) -> bool| -> Vec<usize> {
        let places = 0..given.len();
        places.filter(|&at| wanted(&given[at])).collect()
    };
    let most = given.iter().map(|given| given.words).max();
    let longest = places(&|given| Some(given.words) == most);
    // A word for each answer, and none for another.
    let full = places(&|given| may_keep(given.written));
    let at = match rng.below(6) {
        0..=1 => given.len() - 1,
        2..=3 => rng.pick(&longest),
        4 if !full.is_empty() => rng.pick(&full),
        _ => rng.below(given.len()),
    };
    let answers = given[at].written;
    let fewer = rng.below(answers + 1);
    let kept = rng.pick(&[answers, answers.next_power_of_two()]);
    let times = [1, 1, 2, 4, 8].map(|times| times * kept);
    let left = rng.pick(&[&[0, fewer, fewer], &times[..]].concat());
    // One less, as many, or one more.
    given[at].needs() + left + rng.below(3) - 1
}

/// On either side of a bound.
fn near(rng: &mut Rng, bound: usize) -> usize {
    bound + rng.below(3) - 1
}

/// Path 1: the query's variables and those of a number of calls are 2,048, or one more or less.
fn many_variables(rng: &mut Rng) -> Vec<u32> {
    let (variables, calls) = rng.pick(&[(255, 8), (200, 10), (128, 15)]);
    let first = near(rng, 2_048 - variables * calls);
    let call = table::words("12:1 2:1");
    let query_goal = match rng.chance(50) {
        // A chain of calls, or one call after the other with a last one of no variables.
        true => call.clone(),
        false => part(
            CONJUNCTION,
            [call.repeat(calls), table::words("12:1 2:2")].concat(),
        ),
    };
    let body = match query_goal == call {
        true => call,
        false => table::words("7:1 1:0"),
    };
    let mut words = relation(rng.below(2), first, query_goal);
    words.extend(relation(0, variables, body));
    words.extend(relation(0, 0, table::words("5:2 3:0 3:0")));
    words
}

/// Path 2: a relation calls itself ahead of goals that wait: 1 + 11 * 93 = 1 + 31 * 33 = 1,024, and 1 + 14 * 73 is one less.
fn many_goals(rng: &mut Rng) -> Vec<u32> {
    let each = rng.pick(&[93, 93, 93, 33, 73]);
    let waiting = match each {
        73 => each,
        _ => near(rng, each),
    };
    let filler = rng.pick(&[table::words("7:1 1:0"), table::words("12:1 2:1")]);
    let call = table::words("12:1 2:1");
    // Each call puts its body, the conjunction's goals, and the disjunction's alternative if there is one.
    let (first, put) = match rng.chance(40) {
        true => (part(DISJUNCTION, call.clone()), 3),
        false => (call.clone(), 2),
    };
    let goals = [first, filler.repeat(waiting - put)].concat();
    let mut words = relation(0, 0, call);
    words.extend(relation(0, 0, part(CONJUNCTION, goals)));
    words
}

/// Path 3: disjunctions in first alternatives, 256 or one more or less, or a relation that calls itself in the
/// innermost.
fn many_disjunctions(rng: &mut Rng) -> Vec<u32> {
    let (depth, innermost) = match rng.below(3) {
        0 => (near(rng, 256), table::words("5:2 3:0 3:0")),
        1 => (rng.pick(&[128, 129]), table::words("12:1 2:0")),
        _ => (rng.pick(&[85, 86]), table::words("12:1 2:0")),
    };
    let mut goal = innermost;
    for _ in 0..depth {
        goal.extend(table::words("7:1 3:0"));
        goal = part(DISJUNCTION, goal);
    }
    relation(0, 0, goal)
}

/// Path 4: constraints of the query, or of a relation called two times.
fn many_constraints(rng: &mut Rng) -> Vec<u32> {
    let constraint = rng.pick(&[table::words("7:1 1:0"), table::words("8:1 0:0")]);
    if rng.chance(50) {
        let goals = constraint.repeat(near(rng, 512));
        return relation(0, 1, part(CONJUNCTION, goals));
    }
    let count = rng.pick(&[255, 256, 257]);
    let mut words = relation(0, 0, table::words("10:4 12:1 2:1 12:1 2:1"));
    words.extend(relation(0, 1, part(CONJUNCTION, constraint.repeat(count))));
    words
}

/// Path 5: a query term as deep as the bound, or one more or less. Bound in two pieces, each is looked at alone by an occurs
/// check, and only the writer looks at both.
fn deep_first_parts(rng: &mut Rng) -> Vec<u32> {
    let depth = near(rng, 512);
    let equal = |variable: &str, term| part(EQUAL, [table::words(variable), term].concat());
    if rng.chance(50) {
        return relation(rng.below(2), 1, equal("0:0", gen::deep_term(depth as u32)));
    }
    let inner = rng.between(150, 350);
    let goals = [
        equal("0:0", wrapped(1, depth - inner)),
        equal("0:1", gen::deep_term(inner as u32)),
    ];
    relation(1, 2, part(CONJUNCTION, goals.concat()))
}

/// Path 5 or the steps are met if a check enters a variable again, and just not or just so if it does not; or the variables are
/// the outermost of a path, or as far apart as a power of two.
fn shared_near_a_bound(rng: &mut Rng) -> Vec<u32> {
    match rng.below(6) {
        0 => {
            let levels = rng.between(30, 42);
            shared::doubled(rng, levels)
        }
        1 => shared::doubled_by_calls(rng),
        2..=3 => deep_shared(rng),
        4 => {
            let (one, distance) = (rng.below(200), rng.pick(&DISTANCES));
            shared::far_apart(rng, one, distance)
        }
        _ => {
            let one = rng.pick(&[0, 0, 1, 31, 200]);
            let last = near(rng, VARIABLES - 1);
            shared::far_apart(rng, one, last - one)
        }
    }
}

/// A second arrival with as many nodes waiting as may, or one more or less, or at a value that may just be entered once.
fn deep_shared(rng: &mut Rng) -> Vec<u32> {
    if rng.chance(50) {
        let depth = near(rng, WAITING);
        return shared::again_deep_down(rng, depth);
    }
    let depth = rng.between(WAITING - 4, WAITING);
    shared::deep_again(rng, depth)
}

/// The same where there are more steps to take: enough for the writer to come to what a trial did not enter again.
fn many_shared(rng: &mut Rng, levels: usize) -> Vec<u32> {
    match rng.below(3) {
        0 => shared::doubled(rng, levels),
        1 => deep_shared(rng),
        _ => shared_near_a_bound(rng),
    }
}

/// Path 5: a term made deep by being wrapped at each of a number of calls, and looked at after the last.
fn deep_terms(rng: &mut Rng) -> Vec<u32> {
    let (calls, each) = rng.pick(&[(7, 73), (4, 128), (3, 171), (8, 64), (9, 57)]);
    // Variables: 0 the calls to go as a list, 1 and 2 the terms, 3 the rest of the list, 4 fresh.
    let goal = rng.pick(&[
        table::words("9:2 1:7 0:1"),
        table::words("9:2 2:7 0:1"),
        table::words("5:2 0:4 0:1"),
        table::words("5:2 0:1 0:2"),
        table::words("6:2 0:2 0:1"),
    ]);
    let mut list = vec![word(EMPTY, 0)];
    for _ in 0..calls {
        list = pair(vec![word(NUMBER, 1)], list);
    }
    // With one of both terms open all the way, only the other's nodes can be many.
    let second = match rng.chance(50) {
        true => wrapped(2, each),
        false => vec![word(VARIABLE, 2)],
    };
    let last = part(CONJUNCTION, [table::words("5:2 0:0 3:0"), goal].concat());
    let again = part(
        CALL,
        [table::words("2:1 0:3"), wrapped(1, each), second].concat(),
    );
    let next = part(
        CONJUNCTION,
        [table::words("5:4 0:0 4:1 2:1 0:3"), again].concat(),
    );
    let innermost = rng.pick(&[SYMBOL, NUMBER]);
    let query = part(
        CALL,
        [
            table::words("2:1"),
            list,
            vec![word(innermost, 7)],
            table::words("0:0"),
        ]
        .concat(),
    );
    let mut words = relation(1, 1, query);
    words.extend(relation(3, 5, part(DISJUNCTION, [last, next].concat())));
    words
}

/// A list of atoms with an open variable here and there.
fn list(rng: &mut Rng, length: usize, variables: usize) -> Vec<u32> {
    let mut words = Vec::new();
    for _ in 0..length {
        let element = match rng.below(10) {
            0 => word(VARIABLE, rng.below(variables) as u32),
            1 => word(NUMBER, 5),
            at => word(SYMBOL, 100 + at as u32),
        };
        words.extend([word(PAIR, 1), element]);
    }
    words.push(word(EMPTY, 0));
    words
}

/// A relation that goes through a list, by calling itself or with another in turn.
fn walk(rng: &mut Rng, length: usize) -> Vec<u32> {
    let query = [
        table::words("2:1"),
        list(rng, length, 2),
        table::words("0:0"),
    ];
    let mut words = relation(2, 2, part(CALL, query.concat()));
    let in_turn = rng.chance(50);
    for next in if in_turn { vec![2, 1] } else { vec![1] } {
        // Variables: 0 the list, 1 what is handed on, 2 the list's first, 3 its rest.
        let of_first = rng.pick(&[
            "6:2 0:1 0:2",
            "5:2 0:1 0:2",
            "9:2 1:105 0:2",
            "9:2 2:5 0:2",
            "7:1 0:2",
            "8:1 0:2",
            "5:2 3:0 3:0",
        ]);
        let at_end = rng.pick(&["5:2 0:1 1:107", "6:2 0:1 2:5", "7:1 0:1", "5:2 3:0 3:0"]);
        let again = part(
            CALL,
            [vec![word(NUMBER, next)], table::words("0:3 0:1")].concat(),
        );
        let last = ["5:2 0:0 3:0", at_end].map(table::words).concat();
        let goes_on = ["5:4 0:0 4:1 0:2 0:3", of_first].map(table::words).concat();
        let mut ways = [
            part(CONJUNCTION, last),
            part(CONJUNCTION, [goes_on, again].concat()),
        ];
        if rng.chance(50) {
            ways.reverse();
        }
        words.extend(relation(2, 4, part(DISJUNCTION, ways.concat())));
    }
    words
}

/// Constraints on long lists, which differ in one place if at all, and equalities between them.
fn lists(rng: &mut Rng, length: usize) -> Vec<u32> {
    let one = list(rng, length, 3);
    let mut other = one.clone();
    if rng.chance(70) {
        let at = 2 * rng.below(length) + 1;
        other[at] = rng.pick(&[word(VARIABLE, 1), word(VARIABLE, 3), word(SYMBOL, 7)]);
    }
    let both = [one.clone(), other].concat();
    let mut goals = match rng.below(3) {
        0 => part(DIFFER, both),
        1 => part(EQUAL, both),
        _ => {
            let tag = rng.pick(&[word(SYMBOL, 7), word(NUMBER, 7), word(NUMBER, 5)]);
            part(ABSENTO, [vec![tag], one].concat())
        }
    };
    goals.extend(table::words(rng.pick(&[
        "5:2 0:1 1:7",
        "5:2 0:0 0:1",
        "7:1 0:2",
        "5:2 3:0 3:0",
    ])));
    relation(3, 4, part(CONJUNCTION, goals))
}

/// A program as long as may be, or one word less, that mostly ends in an atom of which there is no other word.
fn full_length(rng: &mut Rng) -> Vec<u32> {
    let words = match rng.below(10) {
        0 => small(rng, gen::program),
        which => through_a_variable(rng, which < 3),
    };
    let mut words = gen::lengthened(&words, PROGRAM_WORDS - rng.below(2));
    let last = words.len() - 1;
    let called = words[last - 1] == word(CALL, 1);
    if !called && rng.chance(80) {
        words[last] = word(rng.pick(&[SYMBOL, NUMBER]), 9);
    }
    words
}

/// The query's parameter is bound to another of its variables, and the last goal is about that one. It is the query's own, or that
/// of the last relation, whose one variable is the path's last, the one before, or one too many.
fn through_a_variable(rng: &mut Rng, alone: bool) -> Vec<u32> {
    let constraint = rng.pick(&["", "", "6:2 0:0 1:9", "7:1 0:0", "9:2 1:9 0:0"]);
    let last = rng.pick(&["5:2 0:1 1:9", "5:4 0:1 4:1 3:0 1:9", "6:2 0:1 1:9"]);
    let goals = |last: &str| {
        let goals = ["5:2 0:0 0:1", constraint, last].map(table::words);
        part(CONJUNCTION, goals.concat())
    };
    if alone {
        return relation(1, 2, goals(last));
    }
    let holds = table::words("5:2 3:0 3:0");
    let relations = [
        relation(1, 255, goals("(12:1 2:1)*7 12:1 2:2 12:2 2:3 0:1")),
        relation(0, 255, holds.clone()),
        relation(0, near(rng, 7), holds),
        relation(1, 1, table::words(&last.replace("0:1", "0:0"))),
    ];
    relations.concat()
}

/// Calls one after the other, as many as the highest round limit, or one more or less.
fn many_rounds(rng: &mut Rng) -> Vec<u32> {
    let calls = near(rng, ROUND_LIMIT as usize);
    let mut words = relation(
        0,
        0,
        part(CONJUNCTION, table::words("12:1 2:1").repeat(calls)),
    );
    words.extend(relation(0, 0, table::words("5:2 3:0 3:0")));
    words
}
