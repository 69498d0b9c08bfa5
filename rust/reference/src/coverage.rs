//! What a case covers, found by looking at the case and its result, not by asking how it was made.

use crate::cases::{may_keep, Case, MADE, MANY_ANSWERS};
use crate::fault::Fault;
use crate::listing;
use crate::pages;
use crate::read::{read, Refusal, PROGRAM_WORDS};
use crate::run::{End, Outcome, OUTPUT_WORDS, ROUND_LIMIT, SCRATCH_WORDS};
use crate::syntax::{Goal, GoalId, Program, Term, TermId};
use crate::trace::{Bounded, During, Event, Given, DISTANCES, LAST_BASES, OUTER_VARIABLES};
use crate::word::*;
use std::collections::{BTreeSet, HashSet};

/// A list of so many elements is long, pairs so deep in first parts are deep.
const MANY: usize = 100;

/// All that random cases must cover.
pub fn wanted() -> Vec<String> {
    let mut all: Vec<String> = [
        "end finished",
        "end rounds",
        "end steps",
        "end output",
        "step limit: 0",
        "step limit: just enough",
        "step limit: one too low",
        "output: no words, answer",
        "output: no words, no answer",
        "output: just enough",
        "output: one word short",
        "output: longer than needed",
        "scratch: one word short",
        "scratch: just enough",
        "scratch: one word more",
        "scratch: longer than needed",
        "scratch: longer than needed, refused",
        "round limit: 0, rounds used up",
        "round limit: 255, rounds used up",
        "round limit: 255, finished in that round",
        "round limit: 255, finished before",
        "round limit: 256",
        "round limit: just enough",
        "round limit: one too low",
        "several relations",
        "recursion",
        "mutual recursion",
        "long list",
        "deep first parts",
        "occurs check failed",
        "types met",
        "answer in a later round",
        "answer: open variable in two places",
        "answer: several under one disjunction",
        "line repeated",
    ]
    .map(String::from)
    .to_vec();
    all.extend(MADE.map(|made| format!("made: {made}")));
    all.extend((1..=5).map(|bound| format!("end path {bound}")));
    for during in During::ALL {
        all.push(stopped(during, true));
        // A second arrival puts nothing to wait.
        if during != During::SecondArrival {
            all.push(stopped(during, false));
        }
    }
    all.extend(CHECKS.map(String::from));
    all.extend(OUTER_VARIABLES.map(second_arrival_at));
    all.extend(DISTANCES.map(entered_apart));
    for during in [During::Equality, During::Trial, During::Lines] {
        all.push(second_arrival(during));
    }
    for during in [During::AbsenceReview, During::QueryTerms, During::Lines] {
        all.push(entered_twice(during));
    }
    all.extend(Fault::OF_CHECKS.map(told_apart));
    all.extend([End::Steps, End::Path(5)].map(only_if_entered_again));
    all.extend(REPEATS.map(String::from));
    all.extend(DIFFERENCES.map(String::from));
    all.extend(Fault::OF_REPEATS.map(told_apart));
    for answers in ANSWERS {
        for space in SPACES {
            all.extend(WHICH.map(|which| of_many(which, answers, space)));
        }
    }
    all.extend(LEAPS.as_flattened().iter().map(|leap| leap.to_string()));
    for which in EITHER {
        all.push(as_many_left(which));
        all.extend(EDGES.map(|edge| leaves(which, edge)));
    }
    all.extend((1..=9).map(|number| format!("refused {number}")));
    for bounded in Bounded::ALL {
        all.extend(["one below", "reached", "exceeded"].map(|what| format!("{bounded:?}: {what}")));
    }
    all.extend((EQUAL..=CALL).map(|kind| format!("goal of kind {kind}")));
    for kind in DIFFER..=ABSENTO {
        all.push(format!("kind {kind} failed when taken"));
        all.push(format!("kind {kind} failed after an equality"));
        all.push(format!("line of kind {kind} listed"));
        all.push(format!("line of kind {kind} dropped"));
    }
    for kind in VARIABLE..=ANSWER {
        match kind {
            SYMBOL | NUMBER => all.extend(tag_events(kind)),
            _ => all.push(of_tag(kind, "refused")),
        }
    }
    all.extend(TAG_FAULTS.map(String::from));
    all.extend(CUTS.map(String::from));
    all.extend(
        ["steps", "output", "path"]
            .into_iter()
            .flat_map(broken_cuts),
    );
    for length in [PROGRAM_WORDS - 1, PROGRAM_WORDS] {
        all.push(last_word(length, "the query's own"));
        all.extend(LAST_BASES.map(|base| last_word(length, &bound_from(base))));
    }
    all
}

/// What has to happen to a tag of each kind that is allowed.
fn tag_events(kind: u32) -> [String; 4] {
    ["read", "found", "went past the other kind", "listed"].map(|what| of_tag(kind, what))
}

fn of_tag(kind: u32, what: &str) -> String {
    format!("tag of kind {kind} {what}")
}

/// Words in a tag's place that would be refused by another number elsewhere.
const TAG_FAULTS: [&str; 3] = [
    "tag: a variable over the count",
    "tag: an empty list with a payload",
    "tag: a pair that overruns",
];

/// What the case covers; each is said once.
pub fn covered(case: &Case, result: &Result<Outcome, Refusal>) -> BTreeSet<String> {
    let mut all = BTreeSet::from([format!("made: {}", case.made)]);
    match result {
        Err(refusal) => {
            all.insert(format!("refused {}", refusal.number));
            all.extend(tag_refused(&case.words, refusal));
            if case.scratch > SCRATCH_WORDS {
                all.insert("scratch: longer than needed, refused".to_string());
            }
            if refusal.number == 9 {
                all.extend(settings(case).map(String::from));
            }
        }
        Ok(outcome) => {
            all.insert(format!("end {}", listing::end(outcome.end)));
            all.extend(limits(case, outcome).into_iter().map(String::from));
            all.extend(bounds(outcome));
            all.extend(events(outcome));
            all.extend(answers(outcome));
            all.extend(repeats(case, outcome).into_iter().map(String::from));
            all.extend(differences(outcome).into_iter().map(String::from));
            all.extend(many_answers(case, outcome));
            all.extend(cuts(outcome));
            all.extend(readings_of_checks(case, outcome));
            all.extend(readings_of_repeats(case, outcome));
            all.extend(last_word_found(&case.words, outcome));
            let program = read(&case.words).expect("it was run");
            all.extend(syntax(&program));
        }
    }
    all
}

/// The names of those facts that hold.
fn holding<T>(facts: impl IntoIterator<Item = (bool, T)>) -> impl Iterator<Item = T> {
    let holding = facts.into_iter().filter(|(holds, _)| *holds);
    holding.map(|(_, name)| name)
}

/// Of a case refused by 9.
fn settings(case: &Case) -> impl Iterator<Item = &'static str> {
    holding([
        (case.rounds == ROUND_LIMIT + 1, "round limit: 256"),
        (case.scratch == SCRATCH_WORDS - 1, "scratch: one word short"),
    ])
}

/// Of a case refused by 2 at a tag's place. What stands before a fault has been read, so a word of kind 9 there is an absento's.
fn tag_refused(words: &[u32], refusal: &Refusal) -> Vec<String> {
    let place = refusal.place;
    if refusal.number != 2 || place == 0 || kind(words[place - 1]) != ABSENTO {
        return Vec::new();
    }
    let stands = words[place];
    let mut all = vec![of_tag(kind(stands), "refused")];
    let relation = words[..place]
        .iter()
        .rposition(|&word| kind(word) == RELATION);
    let variables = payload(words[relation.expect("a goal is in a relation") + 2]);
    // The words of the absento behind its tag.
    let behind = payload(words[place - 1]) - 1;
    let [over, filled, overruns] = TAG_FAULTS;
    let fault = match (kind(stands), payload(stands)) {
        (VARIABLE, number) if number >= variables => over,
        (EMPTY, payload) if payload != 0 => filled,
        (PAIR, first) if first > behind => overruns,
        _ => return all,
    };
    all.push(fault.to_string());
    all
}

fn last_word(length: usize, which: &str) -> String {
    format!("last word of {length} found through a variable, {which}")
}

fn bound_from(base: usize) -> String {
    format!("bound from the environment with base {base}")
}

/// Of a run with an answer whose query term is the program's last word, an atom that stands nowhere else, and was found through a
/// variable.
fn last_word_found(words: &[u32], outcome: &Outcome) -> Vec<String> {
    let (last, others) = words.split_last().expect("a program has words");
    let long = words.len() + 1 >= PROGRAM_WORDS;
    let alone = kind(*last) != VARIABLE && !others.contains(last);
    let events = &outcome.trace.events;
    let found = events.contains(&Event::Followed(*last)) && outcome.words.contains(last);
    if !(long && alone && found) {
        return Vec::new();
    }
    let mut all = Vec::new();
    if payload(words[0]) as usize == others.len() {
        all.push(last_word(words.len(), "the query's own"));
    }
    for base in LAST_BASES {
        if events.contains(&Event::BoundFrom(base, *last)) {
            all.push(last_word(words.len(), &bound_from(base)));
        }
    }
    all
}

/// Where the limits stand to what the run needs.
fn limits(case: &Case, outcome: &Outcome) -> Vec<&'static str> {
    let end = outcome.end;
    let with = |change: fn(&mut Case)| {
        let mut changed = case.clone();
        change(&mut changed);
        changed.run().expect("the limits are allowed").end
    };
    let one_too_low = |limited: End, change: fn(&mut Case)| end == limited && with(change) != end;
    let needed = outcome.trace.needed();
    let all_rounds = case.rounds == ROUND_LIMIT;
    let last_round = outcome.round == case.rounds;
    let facts = [
        (case.steps == 0, "step limit: 0"),
        (
            end != End::Steps && outcome.steps == case.steps,
            "step limit: just enough",
        ),
        (
            one_too_low(End::Steps, |case| case.steps = case.steps.saturating_add(1)),
            "step limit: one too low",
        ),
        (
            outcome.trace.latest_arrival == Some(case.steps),
            LAST_STEP_ARRIVES,
        ),
        (
            case.output == 0 && end == End::Output,
            "output: no words, answer",
        ),
        (
            case.output == 0 && end != End::Output,
            "output: no words, no answer",
        ),
        (
            end != End::Output && needed == case.output && needed > 0,
            "output: just enough",
        ),
        (
            one_too_low(End::Output, |case| case.output += 1),
            "output: one word short",
        ),
        (
            end != End::Output && needed > 0 && needed < case.output,
            "output: longer than needed",
        ),
        (case.scratch == SCRATCH_WORDS, "scratch: just enough"),
        (case.scratch == SCRATCH_WORDS + 1, "scratch: one word more"),
        (case.scratch > SCRATCH_WORDS, "scratch: longer than needed"),
        (
            case.rounds == 0 && end == End::Rounds,
            "round limit: 0, rounds used up",
        ),
        (
            all_rounds && end == End::Rounds,
            "round limit: 255, rounds used up",
        ),
        (
            all_rounds && end == End::Finished && last_round,
            "round limit: 255, finished in that round",
        ),
        (
            all_rounds && end == End::Finished && !last_round,
            "round limit: 255, finished before",
        ),
        (
            end == End::Finished && last_round && case.rounds > 0,
            "round limit: just enough",
        ),
        (
            case.rounds < ROUND_LIMIT && one_too_low(End::Rounds, |case| case.rounds += 1),
            "round limit: one too low",
        ),
    ];
    holding(facts).collect()
}

/// The cases of the number of branches cut, but for those of a run that broke off.
const CUTS: [&str; 6] = [
    "cut: 0, finished in round 0",
    "cut: 0, finished after a round that cut some",
    "cut: 1, rounds used up",
    "cut: several, rounds used up",
    "cut: fewer than in the round before it",
    "cut: not that of all completed rounds together",
];

/// Those of a run that broke off, by the first word of its end.
fn broken_cuts(end: &str) -> [String; 4] {
    [
        "0, broken off in round 0, which had cut some",
        "1, that of the round before",
        "several, those of the round before",
        "not that of the broken round, which had cut some",
    ]
    .map(|what| format!("cut: {what}, end {end}"))
}

fn cuts(outcome: &Outcome) -> Vec<String> {
    let (end, cut) = (outcome.end, outcome.cut);
    let (last, earlier) = outcome.trace.cuts.split_last().expect("a round was begun");
    let together: u32 = outcome.completed_cuts().iter().sum();
    let facts = [
        end == End::Finished && outcome.round == 0,
        end == End::Finished && outcome.round > 0,
        end == End::Rounds && cut == 1,
        end == End::Rounds && cut > 1,
        end == End::Rounds && earlier.last().is_some_and(|&earlier| cut < earlier),
        cut != together,
    ];
    let named = facts.into_iter().zip(CUTS);
    let mut all: Vec<String> = holding(named).map(String::from).collect();
    if outcome.broken() {
        let facts = [
            outcome.round == 0 && *last > 0,
            cut == 1,
            cut > 1,
            outcome.round > 0 && *last > 0 && *last != cut,
        ];
        let end = listing::end(end);
        let names = broken_cuts(end.split(' ').next().unwrap_or(&end));
        all.extend(holding(facts.into_iter().zip(names)));
    }
    all
}

/// How near the run came to each bound on a path.
fn bounds(outcome: &Outcome) -> Vec<String> {
    let most = |bounded| outcome.trace.most(bounded);
    let mut all = Vec::new();
    for bounded in Bounded::ALL {
        let bound = bounded.bound();
        let exceeded = match bounded {
            // One bound for both: the one that is filled was to be exceeded.
            Bounded::Pairs => most(Bounded::Pairs) == bound && most(Bounded::Nodes) < bound,
            Bounded::Nodes => most(Bounded::Nodes) == bound && most(Bounded::Pairs) < bound,
            _ => true,
        };
        let number = (bounded as u32 + 1).min(5);
        let near = match outcome.end == End::Path(number) {
            true if exceeded => "exceeded",
            true => continue,
            false if most(bounded) == bound => "reached",
            false if most(bounded) + 1 == bound => "one below",
            false => continue,
        };
        all.push(format!("{bounded:?}: {near}"));
    }
    all
}

/// What has to happen in occurs checks, but for where they are.
const CHECKS: [&str; 8] = [
    NEW_WAY,
    THROUGH_PARAMETER,
    WHILE_FULL,
    LAST_STEP_ARRIVES,
    FOUND_AFTER,
    THROUGH_TWO,
    ENTERED_ANEW,
    FOUND_ANEW,
];
const NEW_WAY: &str = "second arrival through two variables, the first not met before";
const THROUGH_PARAMETER: &str = "second arrival through a parameter";
const WHILE_FULL: &str = "second arrival with as many nodes waiting as may";
const LAST_STEP_ARRIVES: &str = "second arrival with the last step";
const FOUND_AFTER: &str = "second arrival, and the variable found later";
const THROUGH_TWO: &str = "occurs check entered a value through two variables";
const ENTERED_ANEW: &str = "variable entered by two occurs checks of one unification";
const FOUND_ANEW: &str = "variable entered by two occurs checks, the later finds its own";

fn second_arrival(during: During) -> String {
    format!("second arrival during {during:?}")
}

fn second_arrival_at(variable: usize) -> String {
    format!("second arrival at variable {variable}")
}

fn entered_apart(distance: usize) -> String {
    format!("occurs check entered variables {distance} apart")
}

fn entered_twice(during: During) -> String {
    format!("variable entered twice during {during:?}")
}

fn told_apart(reading: Fault) -> String {
    format!("run is another by {reading:?}")
}

fn only_if_entered_again(end: End) -> String {
    let end = listing::end(end);
    format!("end {end} only if variables are entered again")
}

/// The other readings of Note 10 of document 02 by which the run would be another: none, if nothing was come to twice.
fn readings_of_checks(case: &Case, outcome: &Outcome) -> Vec<String> {
    let twice = |event: &Event| {
        matches!(
            event,
            Event::SecondArrival(_)
                | Event::ValueEnteredThroughTwo
                | Event::EnteredAnew
                | Event::EnteredTwice(_)
        )
    };
    if !outcome.trace.events.iter().any(twice) {
        return Vec::new();
    }
    let others = other_runs(case, &Fault::OF_CHECKS);
    let mut all = told_apart_from(outcome, &others);
    let (_, again) = &others[0];
    let limited = matches!(again.end, End::Steps | End::Path(5));
    if limited && again.end != outcome.end {
        all.push(only_if_entered_again(again.end));
    }
    all
}

/// The other readings of Note 2 of document 02 by which the run would be another. Without a repeat it could be so only by those that
/// take other answers for one. Long runs are left out: there are enough short ones.
fn readings_of_repeats(case: &Case, outcome: &Outcome) -> Vec<String> {
    let given = &outcome.trace.given;
    let readings = match given.iter().any(|given| given.repeats.is_some()) {
        _ if outcome.steps > 1_000 => &[],
        true => &Fault::OF_REPEATS[..],
        false if given.len() > 1 => &Fault::STRIKING,
        false => &[],
    };
    told_apart_from(outcome, &other_runs(case, readings))
}

/// The runs of the case by these readings.
fn other_runs(case: &Case, readings: &[Fault]) -> Vec<(Fault, Outcome)> {
    let run = |reading| case.run_with(Some(reading)).expect("the same program");
    let runs = readings.iter().map(|&reading| (reading, run(reading)));
    runs.collect()
}

/// The readings by which the run is another.
fn told_apart_from(outcome: &Outcome, others: &[(Fault, Outcome)]) -> Vec<String> {
    let told = outcome.told();
    let apart = others.iter().filter(|(_, other)| other.told() != told);
    apart.map(|(reading, _)| told_apart(*reading)).collect()
}

fn stopped(during: During, steps: bool) -> String {
    let end = if steps { "steps" } else { "path 5" };
    format!("end {end} during {during:?}")
}

fn events(outcome: &Outcome) -> impl Iterator<Item = String> + '_ {
    outcome.trace.events.iter().map(|event| match event {
        Event::OccursCheckFailed => "occurs check failed".to_string(),
        Event::SecondArrival(during) => second_arrival(*during),
        Event::SecondArrivalByNewWay => NEW_WAY.to_string(),
        Event::SecondArrivalThroughParameter => THROUGH_PARAMETER.to_string(),
        Event::SecondArrivalWhileFull => WHILE_FULL.to_string(),
        Event::SecondArrivalAt(variable) => second_arrival_at(*variable),
        Event::EnteredApart(distance) => entered_apart(*distance),
        Event::FoundAfterSecondArrival => FOUND_AFTER.to_string(),
        Event::ValueEnteredThroughTwo => THROUGH_TWO.to_string(),
        Event::EnteredAnew => ENTERED_ANEW.to_string(),
        Event::FoundAfterEnteredAnew => FOUND_ANEW.to_string(),
        Event::EnteredTwice(during) => entered_twice(*during),
        Event::BoundFrom(base, _) => format!("atom {}", bound_from(*base)),
        Event::Followed(_) => "query term found through a variable".to_string(),
        Event::FailedWhenTaken(kind) => format!("kind {kind} failed when taken"),
        Event::FailedLater(kind) => format!("kind {kind} failed after an equality"),
        Event::TypesMet => "types met".to_string(),
        Event::TagFound(kind) => of_tag(*kind, "found"),
        Event::OtherKindPassed(kind) => of_tag(*kind, "went past the other kind"),
        Event::LineDropped(kind) => format!("line of kind {kind} dropped"),
        Event::LineRepeated => "line repeated".to_string(),
        Event::Stopped(during, steps) => stopped(*during, *steps),
    })
}

/// The answers without their headers, each as its query terms and its constraints.
fn split_answers(outcome: &Outcome) -> impl Iterator<Item = (&[u32], &[u32])> {
    let answers = pages::answers(&outcome.words).into_iter();
    answers.map(|place| {
        let inside = &outcome.words[place][1..];
        let lines = inside.iter().position(|&word| kind(word) >= EQUAL);
        inside.split_at(lines.unwrap_or(inside.len()))
    })
}

fn answers(outcome: &Outcome) -> Vec<String> {
    let mut all = Vec::new();
    for (terms, lines) in split_answers(outcome) {
        let variables: Vec<&u32> = terms
            .iter()
            .filter(|&&word| kind(word) == VARIABLE)
            .collect();
        if variables.iter().collect::<BTreeSet<_>>().len() < variables.len() {
            all.push("answer: open variable in two places".to_string());
        }
        for line in lines.iter().map(|&word| kind(word)) {
            match line {
                DISJUNCTION => all.push("answer: several under one disjunction".to_string()),
                DIFFER..=ABSENTO => all.push(format!("line of kind {line} listed")),
                _ => (),
            }
        }
        for line in lines.windows(2).filter(|line| kind(line[0]) == ABSENTO) {
            all.push(of_tag(kind(line[1]), "listed"));
        }
    }
    if outcome.answer_rounds.iter().any(|&round| round >= 2) {
        all.push("answer in a later round".to_string());
    }
    all
}

/// What has to happen to repeats, but for how many answers there are.
const REPEATS: [&str; 11] = [
    "repeat in one round",
    "repeat of an earlier round",
    "repeat of the answer just before",
    "repeat with others between",
    "repeat of an answer of no words",
    "repeat of an answer with constraints",
    "repeat just fits",
    "repeat one word too long",
    "repeat several words too long",
    "repeat and no word left",
    "repeat with the last step",
];

fn repeats(case: &Case, outcome: &Outcome) -> BTreeSet<&'static str> {
    let room = case.output.min(OUTPUT_WORDS);
    let mut all = BTreeSet::new();
    let lines: Vec<bool> = split_answers(outcome)
        .map(|(_, lines)| !lines.is_empty())
        .collect();
    for given in &outcome.trace.given {
        let Some(earlier) = given.repeats else {
            continue;
        };
        let facts = [
            outcome.answer_rounds[earlier] == given.round,
            outcome.answer_rounds[earlier] < given.round,
            earlier + 1 == given.written,
            earlier + 1 < given.written,
            given.words == 1,
            lines[earlier],
            given.needs() == room,
            given.needs() == room + 1,
            given.needs() > room + 1,
            given.used == room,
            given.steps == case.steps,
        ];
        all.extend(holding(facts.into_iter().zip(REPEATS)));
    }
    all
}

/// What two answers of one run have to differ in: one word, of three or more, or of four or more if it is no outer one; or
/// otherwise in little.
const DIFFERENCES: [&str; 6] = [
    "answers differ in the first word",
    "answers differ in a middle word",
    "answers differ in the last word",
    "answers differ in constraints",
    "answers differ in that one goes on",
    "answers differ in the order of their words",
];

fn differences(outcome: &Outcome) -> BTreeSet<&'static str> {
    let mut all = BTreeSet::new();
    if outcome.answers < 2 {
        return all;
    }
    // What is left of an answer without that in which it differs from another.
    let mut left: HashSet<(&str, Vec<u32>)> = HashSet::new();
    let [first, middle, last, constraints, goes_on, order] = DIFFERENCES;
    let mut inside: Vec<Vec<u32>> = Vec::new();
    for (terms, lines) in split_answers(outcome) {
        let answer = [terms, lines].concat();
        let end = answer.len().saturating_sub(1);
        let mut sorted = answer.clone();
        sorted.sort();
        let mut add = |what, words| {
            if !left.insert((what, words)) {
                all.insert(what);
            }
        };
        add(constraints, terms.to_vec());
        add(order, sorted);
        for (place, what, least) in [(0, first, 2), (end / 2, middle, 3), (end, last, 2)] {
            if answer.len() >= least {
                let mut without = answer.clone();
                without[place] = u32::MAX;
                add(what, without);
            }
        }
        inside.push(answer);
    }
    // In order, one that goes on follows what it goes on from.
    inside.sort();
    if inside.windows(2).any(|two| two[1].starts_with(&two[0])) {
        all.insert(goes_on);
    }
    all
}

/// Numbers of answers written, each up to the next.
const ANSWERS: [usize; 6] = [MANY_ANSWERS, 16, 32, 64, 128, 512];

/// The output words left, by the number of answers written.
const SPACES: [&str; 5] = [
    "fewer words left than answers",
    "as many words left as answers, or more",
    "twice as many words left, or more",
    "four times as many words left, or more",
    "eight times as many words left, or more",
];

/// An answer that fits, when there are many.
const WHICH: [&str; 3] = ["new answer", "early answer again", "late answer again"];

/// An answer so long that what it leaves is in the first of the spaces and what it found was not near it, and what comes after. A
/// repeat is struck: its words are free again.
const LEAPS: [[&str; 4]; 2] = [
    [
        "long answer leaves fewer words than answers",
        "new answer after the long one",
        "early answer again after the long one",
        "late answer again after the long one",
    ],
    [
        "long repeat leaves fewer words than answers",
        "new answer after the long repeat",
        "early answer again after the long repeat",
        "late answer again after the long repeat",
    ],
];

/// The same without regard to which it repeats.
const EITHER: [&str; 2] = ["new answer", "repeat"];

/// The words left behind it, on and around a number that an engine may keep, or want to be free.
const EDGES: [&str; 3] = [
    "one word less than a power of two",
    "as many words as a power of two",
    "one word more than a power of two",
];

fn leaves(which: &str, edge: &str) -> String {
    format!("{which} leaves {edge}")
}

/// A word kept for each answer, and none to spare: twice as many do not fit.
fn as_many_left(which: &str) -> String {
    format!("{which}, a power of two written, as many words left behind it, but not twice as many")
}

fn of_many(which: &str, answers: usize, space: &str) -> String {
    format!("{which}, {answers} or more written, {space}")
}

/// Which of the spaces the words left are.
fn space(left: usize, answers: usize) -> usize {
    match left / answers {
        times @ 0..=1 => times,
        2..=3 => 2,
        4..=7 => 3,
        _ => 4,
    }
}

/// What there was among many answers, and how much room beside them.
fn many_answers(case: &Case, outcome: &Outcome) -> BTreeSet<String> {
    let room = case.output.min(OUTPUT_WORDS);
    let mut all = BTreeSet::new();
    let mut leapt = [false; 2];
    let many = |given: &&Given| given.written >= MANY_ANSWERS && given.needs() <= room;
    for given in outcome.trace.given.iter().filter(many) {
        let written = given.written;
        // Early and late are the first and the last quarter.
        let which = match given.repeats {
            None => Some(0),
            Some(number) if number < written / 4 => Some(1),
            Some(number) if number >= written - written / 4 => Some(2),
            Some(_) => None,
        };
        let answers = ANSWERS.iter().rfind(|&&answers| answers <= written);
        let answers = *answers.expect("they are many");
        let before = space(room - given.used, written);
        if let Some(which) = which {
            all.insert(of_many(WHICH[which], answers, SPACES[before]));
            let after = leapt.into_iter().zip(LEAPS.map(|leap| leap[1 + which]));
            all.extend(holding(after).map(String::from));
        }
        let either = given.repeats.is_some() as usize;
        let left = room - given.needs();
        if before >= 3 && space(left, written) == 0 {
            all.insert(LEAPS[either][0].to_string());
            leapt[either] = true;
        }
        if may_keep(written) && space(left, written) == 1 {
            all.insert(as_many_left(EITHER[either]));
        }
        // An engine may keep up to four times as many words as answers, once twice these are free.
        for (edge, name) in EDGES.into_iter().enumerate() {
            let power = (left + 1).saturating_sub(edge);
            if may_keep(power) && (written..=8 * written).contains(&power) {
                all.insert(leaves(EITHER[either], name));
            }
        }
    }
    all
}

fn syntax(program: &Program) -> BTreeSet<String> {
    let mut all = BTreeSet::new();
    let mut calls: Vec<BTreeSet<usize>> = Vec::new();
    for relation in &program.relations {
        let mut called = BTreeSet::new();
        for goal in goals(program, relation.goal) {
            all.insert(format!("goal of kind {}", program[goal].kind()));
            match program[goal] {
                Goal::Call(number, _) => {
                    called.insert(number);
                }
                Goal::Absento(tag, _) => {
                    let is_number = matches!(program[tag], Term::Number(_));
                    all.insert(of_tag(if is_number { NUMBER } else { SYMBOL }, "read"));
                }
                _ => (),
            }
            for term in terms(&program[goal]) {
                if chain(program, term, |_, second| second) >= MANY {
                    all.insert("long list".to_string());
                }
                if chain(program, term, |first, _| first) >= MANY {
                    all.insert("deep first parts".to_string());
                }
            }
        }
        calls.push(called);
    }
    if calls.len() > 1 {
        all.insert("several relations".to_string());
    }
    for (number, called) in calls.iter().enumerate() {
        if called.contains(&number) {
            all.insert("recursion".to_string());
        }
        let back = |&other: &usize| other != number && calls[other].contains(&number);
        if called.iter().any(back) {
            all.insert("mutual recursion".to_string());
        }
    }
    all
}

/// A goal and all within it.
fn goals(program: &Program, goal: GoalId) -> Vec<GoalId> {
    let mut all = vec![goal];
    let mut at = 0;
    while at < all.len() {
        if let Goal::Conjunction(goals) | Goal::Disjunction(goals) = &program[all[at]] {
            all.extend(goals);
        }
        at += 1;
    }
    all
}

fn terms(goal: &Goal) -> Vec<TermId> {
    match goal {
        Goal::Equal(left, right) | Goal::Differ(left, right) => vec![*left, *right],
        Goal::Symbolo(term) | Goal::Numbero(term) | Goal::Absento(_, term) => vec![*term],
        Goal::Conjunction(_) | Goal::Disjunction(_) => vec![],
        Goal::Call(_, arguments) => arguments.clone(),
    }
}

/// How many pairs follow one another by the given part.
fn chain(program: &Program, mut term: TermId, next: fn(TermId, TermId) -> TermId) -> usize {
    let mut length = 0;
    while let Term::Pair(first, second) = program[term] {
        term = next(first, second);
        length += 1;
    }
    length
}
