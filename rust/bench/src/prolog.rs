//! The same rules for SWI-Prolog: a rule is a predicate with two arguments more, the calls left before and after it. Types are
//! attributes, absence waits by freeze/2, the occurs check is on. A trie strikes out repeats; it takes no answer with a constraint.

use crate::rules::{Goal, Rule, Rules, Term};
use std::fmt::Write;

/// How a rule whose goal is a disjunction is written.
#[derive(Clone, Copy, PartialEq)]
pub enum Style {
    /// As it stands: one clause with a disjunction.
    Body,
    /// As a Prolog programmer would: a clause for each alternative, equalities of parameters in its head, so that clauses are
    /// found by index.
    Clauses,
}

const PRELUDE: &str = r#":- set_prolog_flag(occurs_check, true).
:- set_prolog_flag(optimise, true).
:- style_check(-singleton).

kc_kind(X, K) :- var(X), !, ( get_attr(X, kc_kind, L) -> K == L ; put_attr(X, kc_kind, K) ).
kc_kind(X, symbol) :- !, atom(X), X \== [].
kc_kind(X, number) :- integer(X).
kc_kind:attr_unify_hook(K, Y) :- user:kc_kind(Y, K).

kc_absent(T, Tag) :- var(T), !, freeze(T, kc_absent(T, Tag)).
kc_absent([A|B], Tag) :- !, kc_absent(A, Tag), kc_absent(B, Tag).
kc_absent(T, Tag) :- T \== Tag.

kc_round(Round, Trie) :-
    nb_setval(kc_cut, false),
    ( kc_query(Answer, Round, 0), trie_insert(Trie, Answer), nb_getval(kc_answers, N), M is N + 1, nb_setval(kc_answers, M), fail ; true ).
kc_rounds(Round, Limit, Trie) :-
    kc_round(Round, Trie), nb_getval(kc_cut, true), Round < Limit, !, Next is Round + 1, kc_rounds(Next, Limit, Trie).
kc_rounds(_, _, _).

kc_main(Limit) :-
    nb_setval(kc_answers, 0),
    get_time(Start), trie_new(Trie), kc_rounds(0, Limit, Trie), get_time(End),
    nb_getval(kc_answers, Answers), Seconds is End - Start,
    format("~w ~6f~n", [Answers, Seconds]).
"#;

/// A program that runs the rules up to a round and prints the number of answers and the seconds it took.
pub fn program(rules: &Rules, rounds: u32, style: Style) -> String {
    let mut text = PRELUDE.to_string();
    let query = &rules.rules[0];
    let params: Vec<String> = (0..query.params).map(|i| format!("V{i}")).collect();
    let head = call(&query.name, &params, "Round", "Left");
    writeln!(
        text,
        "kc_query([{}], Round, End) :- {head}, Left =:= End.",
        params.join(", ")
    )
    .unwrap();
    for rule in &rules.rules {
        let alternatives = match (&rule.body, style) {
            (Goal::Any(goals), Style::Clauses) => goals.as_slice(),
            _ => std::slice::from_ref(&rule.body),
        };
        for alternative in alternatives {
            clause(&mut text, rules, rule, alternative, style);
        }
    }
    writeln!(text, ":- initialization((kc_main({rounds}), halt)).").unwrap();
    text
}

fn clause(text: &mut String, rules: &Rules, rule: &Rule, goal: &Goal, style: Style) {
    let mut goals: &[Goal] = match goal {
        Goal::All(goals) => goals,
        goal => std::slice::from_ref(goal),
    };
    let mut params: Vec<String> = (0..rule.params).map(|i| format!("V{i}")).collect();
    while let (Style::Clauses, [Goal::Same(Term::Variable(i), term), rest @ ..]) = (style, goals) {
        let once = *i < rule.params && params[*i] == format!("V{i}");
        if !once || mentions(term, *i) || rest.iter().any(|goal| goal_mentions(goal, *i)) {
            break;
        }
        params[*i] = term_text(rules, term);
        goals = rest;
    }
    let mut fresh = 0;
    let body = conjunction(rules, goals, "In", "Out", &mut fresh);
    let head = call(&rule.name, &params, "In", "Out");
    writeln!(text, "{head} :- {body}.").unwrap();
}

fn call(name: &str, arguments: &[String], before: &str, after: &str) -> String {
    let mut all = arguments.to_vec();
    all.push(before.to_string());
    all.push(after.to_string());
    format!("'r {name}'({})", all.join(", "))
}

fn mentions(term: &Term, variable: usize) -> bool {
    match term {
        Term::Variable(i) => *i == variable,
        Term::Pair(a, b) => mentions(a, variable) || mentions(b, variable),
        _ => false,
    }
}

fn goal_mentions(goal: &Goal, variable: usize) -> bool {
    match goal {
        Goal::Same(a, b) | Goal::Other(a, b) => mentions(a, variable) || mentions(b, variable),
        Goal::Symbol(a) | Goal::Number(a) | Goal::Without(_, a) => mentions(a, variable),
        Goal::All(goals) | Goal::Any(goals) => {
            goals.iter().any(|goal| goal_mentions(goal, variable))
        }
        Goal::Call(_, terms) => terms.iter().any(|term| mentions(term, variable)),
    }
}

fn calls(goal: &Goal) -> bool {
    match goal {
        Goal::All(goals) | Goal::Any(goals) => goals.iter().any(calls),
        Goal::Call(..) => true,
        _ => false,
    }
}

fn conjunction(
    rules: &Rules,
    goals: &[Goal],
    before: &str,
    after: &str,
    fresh: &mut usize,
) -> String {
    let last = goals.iter().rposition(calls);
    let mut parts = Vec::new();
    let mut at = before.to_string();
    for (i, one) in goals.iter().enumerate() {
        if !calls(one) {
            parts.push(self::goal(rules, one, "", "", fresh));
            continue;
        }
        let next = if Some(i) == last {
            after.to_string()
        } else {
            *fresh += 1;
            format!("L{fresh}")
        };
        parts.push(self::goal(rules, one, &at, &next, fresh));
        at = next;
    }
    if last.is_none() && before != after {
        parts.push(format!("{after} = {before}"));
    }
    parts.join(", ")
}

/// A goal; with no call inside, the calls left are not spoken of.
fn goal(rules: &Rules, goal: &Goal, before: &str, after: &str, fresh: &mut usize) -> String {
    let term = |term| term_text(rules, term);
    match goal {
        Goal::Same(a, b) => format!("{} = {}", term(a), term(b)),
        Goal::Other(a, b) => format!("dif({}, {})", term(a), term(b)),
        Goal::Symbol(a) => format!("kc_kind({}, symbol)", term(a)),
        Goal::Number(a) => format!("kc_kind({}, number)", term(a)),
        Goal::Without(tag, a) => format!("kc_absent({}, {})", term(a), term(tag)),
        Goal::All(goals) => format!("( {} )", conjunction(rules, goals, before, after, fresh)),
        Goal::Any(goals) => {
            let alternatives: Vec<String> = goals
                .iter()
                .map(|one| conjunction(rules, std::slice::from_ref(one), before, after, fresh))
                .collect();
            format!("( {} )", alternatives.join(" ; "))
        }
        Goal::Call(number, terms) => {
            *fresh += 1;
            let inside = format!("C{fresh}");
            let terms: Vec<String> = terms.iter().map(term).collect();
            let call = call(&rules.rules[*number].name, &terms, &inside, after);
            format!("( {before} > 0 -> {inside} is {before} - 1 ; nb_setval(kc_cut, true), fail ), {call}")
        }
    }
}

fn symbol(rules: &Rules, number: usize) -> String {
    format!("'{}'", rules.symbols[number])
}

fn term_text(rules: &Rules, term: &Term) -> String {
    match term {
        Term::Variable(number) => format!("V{number}"),
        Term::Symbol(number) => symbol(rules, *number),
        Term::Number(number) => number.to_string(),
        Term::Empty => "[]".to_string(),
        Term::Pair(..) => {
            let mut items = Vec::new();
            let mut at = term;
            while let Term::Pair(first, second) = at {
                items.push(term_text(rules, first));
                at = second;
            }
            match at {
                Term::Empty => format!("[{}]", items.join(", ")),
                rest => format!("[{}|{}]", items.join(", "), term_text(rules, rest)),
            }
        }
    }
}
