//! Rules in words, for the engines.

use crate::rules::{Goal, Rules, Term};

pub fn words(rules: &Rules) -> Vec<u32> {
    let mut words = Vec::new();
    for rule in &rules.rules {
        part(&mut words, 13, |words| {
            words.push(word(2, rule.params));
            words.push(word(2, rule.vars));
            goal(words, &rule.body);
        });
    }
    words
}

fn word(kind: u32, payload: usize) -> u32 {
    assert!(payload < 1 << 28);
    kind << 28 | payload as u32
}

/// A word that counts the words after it.
fn part(words: &mut Vec<u32>, kind: u32, inside: impl FnOnce(&mut Vec<u32>)) {
    let at = words.len();
    words.push(0);
    inside(words);
    words[at] = word(kind, words.len() - at - 1);
}

fn goal(words: &mut Vec<u32>, goal: &Goal) {
    let two = |words: &mut Vec<u32>, a, b| {
        term(words, a);
        term(words, b);
    };
    let goals = |words: &mut Vec<u32>, goals: &[Goal]| {
        goals.iter().for_each(|goal| self::goal(words, goal))
    };
    match goal {
        Goal::Same(a, b) => part(words, 5, |words| two(words, a, b)),
        Goal::Other(a, b) => part(words, 6, |words| two(words, a, b)),
        Goal::Symbol(a) => part(words, 7, |words| term(words, a)),
        Goal::Number(a) => part(words, 8, |words| term(words, a)),
        Goal::Without(tag, a) => part(words, 9, |words| two(words, tag, a)),
        Goal::All(inside) => part(words, 10, |words| goals(words, inside)),
        Goal::Any(inside) => part(words, 11, |words| goals(words, inside)),
        Goal::Call(rule, arguments) => part(words, 12, |words| {
            words.push(word(2, *rule));
            arguments.iter().for_each(|argument| term(words, argument));
        }),
    }
}

fn term(words: &mut Vec<u32>, start: &Term) {
    let mut at = start;
    while let Term::Pair(first, second) = at {
        let place = words.len();
        words.push(0);
        term(words, first);
        words[place] = word(4, words.len() - place - 1);
        at = second;
    }
    words.push(match at {
        Term::Variable(number) => word(0, *number),
        Term::Symbol(number) => word(1, *number),
        Term::Number(number) => word(2, *number as usize),
        Term::Empty => word(3, 0),
        Term::Pair(..) => unreachable!("the loop ends at no pair"),
    });
}
