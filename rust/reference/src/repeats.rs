//! Programs that come to the same answers by several ways, and to answers that differ in little: random ones, but for one.

use crate::gen::{pair, part, relation, Rng};
use crate::table;
use crate::word::*;

/// A query whose alternatives are the ways given, those at place k behind k calls of a relation that just holds: they give their
/// answers in round k.
fn query(parameters: usize, variables: usize, by_round: &[Vec<Vec<u32>>]) -> Vec<u32> {
    let mut alternatives = Vec::new();
    for (calls, ways) in by_round.iter().enumerate() {
        let ways = ways.concat();
        alternatives.extend(match calls {
            _ if ways.is_empty() => continue,
            0 => ways,
            _ => {
                let goals = [
                    table::words("12:1 2:1").repeat(calls),
                    part(DISJUNCTION, ways),
                ];
                part(CONJUNCTION, goals.concat())
            }
        });
    }
    [
        relation(parameters, variables, part(DISJUNCTION, alternatives)),
        relation(0, 0, table::words("5:2 3:0 3:0")),
    ]
    .concat()
}

fn equal(variable: usize, term: &[u32]) -> Vec<u32> {
    part(EQUAL, [&[word(VARIABLE, variable as u32)], term].concat())
}

/// A few answers, in up to three rounds.
pub fn few(rng: &mut Rng) -> Vec<u32> {
    let mut drafts = vec![Draft::new(rng)];
    let mut by_round = vec![Vec::new(); 3];
    for _ in 0..rng.between(2, 8) {
        let round = rng.pick(&[0, 0, 0, 1, 1, 2]);
        let draft = rng.pick(&drafts);
        by_round[round].push(draft.way());
        drafts.push(draft.changed(rng));
    }
    let parameters = drafts[0].terms.len();
    query(parameters, parameters + 1, &by_round)
}

/// An answer to be: the query terms, in which the variable behind the parameters may stand open, and constraints on that one.
#[derive(Clone)]
struct Draft {
    terms: Vec<Vec<u32>>,
    constraints: Vec<Vec<u32>>,
}

fn atom(rng: &mut Rng) -> u32 {
    word(rng.pick(&[SYMBOL, NUMBER]), rng.below(3) as u32)
}

fn constraint(rng: &mut Rng, open: u32) -> Vec<u32> {
    match rng.below(3) {
        0 => part(SYMBOLO, vec![open]),
        1 => part(DIFFER, vec![open, atom(rng)]),
        _ => part(ABSENTO, vec![atom(rng), open]),
    }
}

impl Draft {
    fn new(rng: &mut Rng) -> Draft {
        let parameters = rng.pick(&[0, 1, 1, 2, 3]);
        let open = word(VARIABLE, parameters as u32);
        let term = |rng: &mut Rng| match rng.below(5) {
            0 => vec![atom(rng)],
            1 => vec![open],
            2 => pair(vec![open], vec![atom(rng)]),
            _ => {
                let rest = pair(vec![atom(rng)], vec![atom(rng)]);
                pair(vec![atom(rng)], rest)
            }
        };
        let terms = (0..parameters).map(|_| term(rng)).collect();
        let constraints = (0..rng.below(3)).map(|_| constraint(rng, open)).collect();
        Draft { terms, constraints }
    }

    /// The same, or with another atom, or with more, fewer or other constraints.
    fn changed(&self, rng: &mut Rng) -> Draft {
        let mut draft = self.clone();
        let open = word(VARIABLE, self.terms.len() as u32);
        match rng.below(8) {
            0..=2 => (),
            3..=4 => {
                let words = draft.terms.iter_mut().flatten();
                let mut atoms: Vec<&mut u32> = words
                    .filter(|word| (SYMBOL..=NUMBER).contains(&kind(**word)))
                    .collect();
                let last = atoms.len().saturating_sub(1);
                let at = rng.pick(&[0, last / 2, last]);
                if let Some(place) = atoms.get_mut(at) {
                    **place = atom(rng);
                }
            }
            5 => draft.constraints.push(constraint(rng, open)),
            6 => {
                draft.constraints.pop();
            }
            _ => draft.constraints.reverse(),
        }
        draft
    }

    /// Goals that make it the answer.
    fn way(&self) -> Vec<u32> {
        let terms = self.terms.iter().enumerate();
        let mut goals: Vec<Vec<u32>> = terms.map(|(at, term)| equal(at, term)).collect();
        goals.extend(self.constraints.iter().cloned());
        match goals.len() {
            0 => table::words("5:2 3:0 3:0"),
            1 => goals.remove(0),
            _ => part(CONJUNCTION, goals.concat()),
        }
    }
}

/// About so many different answers, with repeats of early and of late ones among them, by at most so many words of ways.
pub fn many(rng: &mut Rng, different: usize, words: usize) -> Vec<u32> {
    match rng.chance(25) {
        true => product(rng, different),
        false => in_sequence(rng, different, words),
    }
}

/// The numbers below a count in order, and after some of them one that came before.
fn with_repeats(rng: &mut Rng, count: usize) -> Vec<usize> {
    let repeats = rng.pick(&[0, 5, 20, 50]);
    let mut numbers = Vec::new();
    for number in 0..count {
        numbers.push(number);
        if rng.chance(repeats) {
            numbers.push(earlier(rng, number + 1));
        }
    }
    for _ in 0..rng.below(12) {
        numbers.push(earlier(rng, count));
    }
    numbers
}

/// One of so many numbers: of the first, of the last, or any.
fn earlier(rng: &mut Rng, count: usize) -> usize {
    let near = rng.below(count.min(8));
    match rng.below(3) {
        0 => near,
        1 => count - 1 - near,
        _ => rng.below(count),
    }
}

/// An answer for each number, all of one shape but for a few long ones. Such a one may come again, and an earlier one just behind it.
fn in_sequence(rng: &mut Rng, different: usize, words: usize) -> Vec<u32> {
    let shape = rng.below(6);
    // Early, a long one takes more words than may be kept for those before it.
    let before = rng.pick(&[different, different.min(50)]);
    let long: Vec<(usize, usize)> = (0..rng.below(3))
        .map(|_| (rng.below(before), rng.between(10, 120)))
        .collect();
    let way = |number: usize| {
        let value = word(NUMBER, number as u32);
        if let Some((_, length)) = long.iter().find(|(at, _)| *at == number) {
            let list = [word(PAIR, 1), word(SYMBOL, 7)].repeat(*length);
            return equal(0, &[&list[..], &[value]].concat());
        }
        match shape {
            0..=1 => equal(0, &[value]),
            2 => {
                let digits = [number / 8, number % 8].map(|digit| word(NUMBER, digit as u32));
                let digits = [equal(0, &digits[..1]), equal(1, &digits[1..])];
                part(CONJUNCTION, digits.concat())
            }
            3 => {
                let rest = pair(vec![value], vec![word(EMPTY, 0)]);
                equal(0, &pair(vec![word(SYMBOL, 7)], rest))
            }
            4 => part(DIFFER, vec![word(VARIABLE, 0), value]),
            _ => part(ABSENTO, vec![value, word(VARIABLE, 0)]),
        }
    };
    let mut numbers = with_repeats(rng, different);
    for &(number, _) in &long {
        let first = numbers.iter().position(|&other| other == number);
        let behind = first.expect("each number is there") + 1;
        if rng.chance(50) {
            numbers.insert(rng.between(behind, numbers.len()), number);
        }
        if rng.chance(50) {
            numbers.insert(behind, earlier(rng, number + 1));
        }
    }
    let mut ways: Vec<Vec<u32>> = Vec::new();
    let mut room = words;
    for number in numbers {
        let way = way(number);
        if way.len() <= room {
            room -= way.len();
            ways.push(way);
        }
    }
    let rounds = rng.pick(&[1, 1, 1, 2, 3]);
    let each = ways.len().div_ceil(rounds);
    let by_round: Vec<Vec<Vec<u32>>> = ways.chunks(each).map(<[_]>::to_vec).collect();
    query(2, 2, &by_round)
}

/// An answer for each two or three digits, some of which come again.
fn product(rng: &mut Rng, different: usize) -> Vec<u32> {
    let parameters = rng.between(2, 3);
    let enough = |digits: &usize| digits.pow(parameters as u32) >= different;
    let most = (1..=different).find(enough).unwrap_or(1);
    let mut goals = Vec::new();
    for parameter in 0..parameters {
        let mut digits: Vec<usize> = (0..most).collect();
        for _ in 0..rng.below(3) {
            let again = rng.below(most);
            digits.insert(rng.between(again, digits.len()), again);
        }
        let ways = digits.iter().map(|&digit| word(NUMBER, digit as u32));
        let ways: Vec<Vec<u32>> = ways.map(|digit| equal(parameter, &[digit])).collect();
        goals.extend(part(DISJUNCTION, ways.concat()));
    }
    relation(parameters, parameters, part(CONJUNCTION, goals))
}

/// So many different answers, and then all of them again.
pub fn all_again(count: usize) -> Vec<u32> {
    let ways = (0..count).flat_map(|number| equal(0, &[word(NUMBER, number as u32)]));
    let ways: Vec<u32> = ways.collect();
    relation(1, 1, part(DISJUNCTION, ways.repeat(2)))
}
