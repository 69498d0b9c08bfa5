//! Random programs from fixed seeds: well-formed ones, damaged ones, and words that look like programs.

use crate::read::{PROGRAM_WORDS, RELATIONS};
use crate::word::*;

/// SplitMix64.
pub struct Rng(u64);

impl Rng {
    pub fn new(seed: u64) -> Rng {
        Rng(seed)
    }

    pub fn number(&mut self) -> u64 {
        self.0 = self.0.wrapping_add(0x9e37_79b9_7f4a_7c15);
        let mut mixed = self.0;
        mixed = (mixed ^ (mixed >> 30)).wrapping_mul(0xbf58_476d_1ce4_e5b9);
        mixed = (mixed ^ (mixed >> 27)).wrapping_mul(0x94d0_49bb_1331_11eb);
        mixed ^ (mixed >> 31)
    }

    /// A number below `bound`.
    pub fn below(&mut self, bound: usize) -> usize {
        (self.number() % bound as u64) as usize
    }

    pub fn between(&mut self, low: usize, high: usize) -> usize {
        low + self.below(high - low + 1)
    }

    pub fn chance(&mut self, percent: usize) -> bool {
        self.below(100) < percent
    }

    pub fn pick<T: Clone>(&mut self, items: &[T]) -> T {
        items[self.below(items.len())].clone()
    }
}

/// A part: a word that counts those after it, and these.
pub fn part(kind: u32, inside: Vec<u32>) -> Vec<u32> {
    let mut words = vec![word(kind, inside.len() as u32)];
    words.extend(inside);
    words
}

pub fn pair(first: Vec<u32>, second: Vec<u32>) -> Vec<u32> {
    let mut words = part(PAIR, first);
    words.extend(second);
    words
}

pub fn relation(parameters: usize, variables: usize, goal: Vec<u32>) -> Vec<u32> {
    let mut inside = vec![
        word(NUMBER, parameters as u32),
        word(NUMBER, variables as u32),
    ];
    inside.extend(goal);
    part(RELATION, inside)
}

/// An equality inside `depth` goals of two kinds in turn, each holding the next alone.
pub fn nested_goals(depth: u32, kinds: [u32; 2]) -> Vec<u32> {
    let innermost = [word(5, 2), word(3, 0), word(3, 0)];
    let around = (0..depth).map(|level| word(kinds[level as usize % 2], depth - level + 2));
    relation(0, 0, around.chain(innermost).collect())
}

/// A term of pairs nested so deep in first parts, all else empty lists.
pub fn deep_term(depth: u32) -> Vec<u32> {
    let pairs = (0..depth).map(|level| word(PAIR, 2 * (depth - level) - 1));
    pairs
        .chain(vec![word(EMPTY, 0); depth as usize + 1])
        .collect()
}

/// A variable in the first part of so many pairs.
pub fn wrapped(variable: u32, depth: usize) -> Vec<u32> {
    let mut term = vec![word(VARIABLE, variable)];
    for _ in 0..depth {
        term = pair(term, vec![word(EMPTY, 0)]);
    }
    term
}

/// Pairs nested in first parts.
pub fn first_parts(depth: u32) -> Vec<u32> {
    relation(0, 0, part(SYMBOLO, deep_term(depth)))
}

/// A list of so many symbols.
pub fn list(length: usize) -> Vec<u32> {
    relation(0, 0, part(SYMBOLO, list_term(length)))
}

fn list_term(length: usize) -> Vec<u32> {
    let mut term = [word(PAIR, 1), word(SYMBOL, 7)].repeat(length);
    term.push(word(EMPTY, 0));
    term
}

/// The well-formed program brought to so many words, the last of them its own: its last relation's goal comes behind an
/// alternative that fails at once.
pub fn lengthened(words: &[u32], length: usize) -> Vec<u32> {
    let behind = |at: usize| at + 1 + payload(words[at]) as usize;
    let mut last = 0;
    while behind(last) < words.len() {
        last = behind(last);
    }
    let (before, goal) = (&words[..last], &words[last + 3..]);
    let fails = failing_goal(length - words.len() - 1);
    let [parameters, variables] = [1, 2].map(|at| payload(words[last + at]) as usize);
    let goal = part(DISJUNCTION, [&fails, goal].concat());
    [before, &relation(parameters, variables, goal)].concat()
}

/// A goal of so many words, four or more: a list is no symbol, and not the empty list.
fn failing_goal(length: usize) -> Vec<u32> {
    // A term has an odd number of words.
    let (kind, mut terms) = match length % 2 {
        0 => (SYMBOLO, Vec::new()),
        _ => (EQUAL, vec![word(EMPTY, 0)]),
    };
    terms.extend(list_term((length - 2 - terms.len()) / 2));
    part(kind, terms)
}

/// A small well-formed program: several relations, recursion, all kinds of goals.
pub fn program(rng: &mut Rng) -> Vec<u32> {
    let count = rng.pick(&[1, 1, 2, 2, 3, 3, 4]);
    Maker::new(rng, count, 0).program()
}

/// A query alone, of constraints and a few equalities that set them off.
pub fn constrained(rng: &mut Rng) -> Vec<u32> {
    let mut maker = Maker::new(rng, 1, 0);
    let parameters = maker.rng.between(1, 3);
    let variables = parameters + maker.rng.pick(&[0, 0, 1, 2]);
    maker.variables = variables;
    let mut goals = Vec::new();
    for _ in 0..maker.rng.between(1, 4) {
        goals.push(match maker.rng.below(10) {
            0..=4 => maker.two_terms(DIFFER),
            5 => maker.one_term(SYMBOLO),
            6 => maker.one_term(NUMBERO),
            _ => maker.absento(),
        });
    }
    for _ in 0..maker.rng.between(0, 2) {
        let goal = maker.two_terms(EQUAL);
        let at = maker.rng.between(0, goals.len());
        goals.insert(at, goal);
    }
    relation(parameters, variables, part(CONJUNCTION, goals.concat()))
}

/// A well-formed program of any size.
pub fn accepted(rng: &mut Rng) -> Vec<u32> {
    match rng.below(100) {
        0 => {
            let count = rng.between(200, RELATIONS);
            Maker::new(rng, count, 0).program()
        }
        1 => long(rng),
        2..=6 => deep(rng),
        7..=20 => {
            let count = rng.between(4, 9);
            Maker::new(rng, count, 0).program()
        }
        _ => program(rng),
    }
}

/// One relation of many goals, up to the bound of words.
fn long(rng: &mut Rng) -> Vec<u32> {
    let mut maker = Maker::new(rng, 1, 0);
    let (parameters, variables) = maker.signatures[0];
    maker.variables = variables;
    let wanted = maker.rng.between(100, PROGRAM_WORDS);
    let mut goals = Vec::new();
    loop {
        let goal = maker.goal(2);
        if goals.len() + goal.len() + 4 > wanted {
            break;
        }
        goals.extend(goal);
    }
    if goals.is_empty() {
        goals = part(SYMBOLO, vec![word(SYMBOL, 0)]);
    }
    relation(parameters, variables, part(CONJUNCTION, goals))
}

/// Goals or pairs nested deep, in one of several ways.
fn deep(rng: &mut Rng) -> Vec<u32> {
    let depth = rng.between(10, 400);
    let atom = vec![word(SYMBOL, 7)];
    let goal = if rng.chance(50) {
        let mut goal = part(SYMBOLO, atom);
        for _ in 0..depth {
            let kind = rng.pick(&[CONJUNCTION, DISJUNCTION]);
            let mut inside = goal;
            if rng.chance(20) {
                inside.extend(part(NUMBERO, vec![word(NUMBER, 1)]));
            }
            goal = part(kind, inside);
        }
        goal
    } else {
        let mut term = atom.clone();
        let first_parts = rng.between(0, 100);
        for _ in 0..depth {
            term = if rng.chance(first_parts) {
                pair(term, atom.clone())
            } else {
                pair(atom.clone(), term)
            };
        }
        part(SYMBOLO, term)
    };
    relation(0, 0, goal)
}

/// Makes programs as words. With `slip` over 0, in that many of a thousand places something is wrong, with all
/// lengths still in order around it.
struct Maker<'r> {
    rng: &'r mut Rng,
    /// Parameters and variables of each relation.
    signatures: Vec<(usize, usize)>,
    /// Those of the relation being made.
    variables: usize,
    slip: usize,
}

impl Maker<'_> {
    fn new(rng: &mut Rng, relations: usize, slip: usize) -> Maker<'_> {
        let mut signatures = Vec::new();
        for _ in 0..relations {
            let parameters = rng.pick(&[0, 1, 1, 2, 2, 2, 3]);
            let fresh = rng.pick(&[0, 0, 1, 1, 2, 3]);
            signatures.push((parameters, parameters + fresh));
        }
        if rng.chance(2) {
            let at = rng.below(relations);
            signatures[at] = (rng.below(4), rng.between(3, 255));
        }
        Maker {
            rng,
            signatures,
            variables: 0,
            slip,
        }
    }

    fn slips(&mut self) -> bool {
        self.rng.below(1000) < self.slip
    }

    fn program(&mut self) -> Vec<u32> {
        let mut words = Vec::new();
        // Many relations leave each but little room.
        let depth = if self.signatures.len() > 20 { 1 } else { 3 };
        for at in 0..self.signatures.len() {
            let (mut parameters, mut variables) = self.signatures[at];
            self.variables = variables;
            if self.slips() {
                (parameters, variables) = self.rng.pick(&[
                    (parameters, 256),
                    (variables + 1, variables),
                    (256, 256),
                    (parameters, 255),
                    (parameters + 1, variables + 1),
                ]);
            }
            let mut goal = self.body(at, depth);
            if self.slips() {
                goal = self
                    .rng
                    .pick(&[Vec::new(), vec![word(EMPTY, 0)], goal.repeat(2)]);
            }
            let mut relation = relation(parameters, variables, goal);
            if self.slips() {
                relation[0] = word(self.rng.below(16) as u32, payload(relation[0]));
            }
            if self.slips() {
                let at = self.rng.between(1, 2);
                relation[at] = word(self.rng.below(16) as u32, payload(relation[at]));
            }
            words.extend(relation);
        }
        words
    }

    /// A relation's goal. The query mostly has several at once, other relations alternatives, so that runs are lively.
    fn body(&mut self, relation: usize, depth: usize) -> Vec<u32> {
        match (relation, self.rng.below(10)) {
            _ if depth < 3 => self.goal(depth),
            (0, 0..=6) => self.goals(CONJUNCTION, depth - 1),
            (0, 7) => self.goals(DISJUNCTION, depth - 1),
            (_, 0..=3) => self.goals(DISJUNCTION, depth - 1),
            (_, 4..=5) => self.goals(CONJUNCTION, depth - 1),
            _ => self.goal(depth),
        }
    }

    fn goal(&mut self, depth: usize) -> Vec<u32> {
        if self.slips() {
            return self.any_word();
        }
        let shallow = depth == 0;
        match self.rng.below(100) {
            0..=29 => self.two_terms(EQUAL),
            30..=40 => self.two_terms(DIFFER),
            41..=45 => self.one_term(SYMBOLO),
            46..=50 => self.one_term(NUMBERO),
            51..=57 => self.absento(),
            58..=77 if !shallow => self.goals(CONJUNCTION, depth),
            78..=89 if !shallow => self.goals(DISJUNCTION, depth),
            _ => self.call(),
        }
    }

    fn two_terms(&mut self, kind: u32) -> Vec<u32> {
        let pairs = if kind == DIFFER { 5 } else { 1 };
        let (left, right) = match self.rng.below(10) {
            // Two pairs: a trial of these makes several bindings.
            at if at < pairs => {
                let (a, b, c, d) = (self.term(0), self.term(0), self.term(0), self.term(1));
                (pair(a, b), pair(c, d))
            }
            // Mostly a variable and something: this mostly succeeds.
            at if at < 8 => match self.rng.below(4) {
                0 => (self.term(2), self.term(0)),
                _ => (self.term(0), self.term(2)),
            },
            _ => (self.term(2), self.term(2)),
        };
        let mut inside = [left, right].concat();
        if self.slips() {
            let alone = self.term(1);
            inside = self.rng.pick(&[Vec::new(), alone, inside.repeat(2)]);
        }
        part(kind, inside)
    }

    fn one_term(&mut self, kind: u32) -> Vec<u32> {
        let term = self.term(1);
        let inside = match self.slips() {
            true => self.rng.pick(&[Vec::new(), term.repeat(2)]),
            false => term,
        };
        part(kind, inside)
    }

    fn absento(&mut self) -> Vec<u32> {
        let mut inside = match self.rng.chance(50) {
            true => self.symbol(),
            false => self.number(),
        };
        // More often than elsewhere: a tag of each kind that is not allowed has to be met.
        if self.rng.below(1000) < 4 * self.slip {
            inside = self.any_word();
        }
        if !self.slips() {
            inside.extend(self.term(2));
        }
        part(ABSENTO, inside)
    }

    fn goals(&mut self, kind: u32, depth: usize) -> Vec<u32> {
        let mut inside = Vec::new();
        for _ in 0..self.rng.pick(&[1, 2, 2, 2, 3, 3, 4]) {
            inside.extend(self.goal(depth - 1));
        }
        if self.slips() {
            inside.clear();
        }
        part(kind, inside)
    }

    fn call(&mut self) -> Vec<u32> {
        let mut number = self.rng.below(self.signatures.len());
        let mut arguments = self.signatures[number].0;
        // More often than elsewhere: conditions 7 and 8 show only if nothing else is wrong.
        if self.rng.below(1000) < 8 * self.slip {
            arguments = self.rng.pick(&[arguments + 1, arguments.saturating_sub(1)]);
        }
        if self.rng.below(1000) < 8 * self.slip {
            number = self.signatures.len() + self.rng.below(2);
        }
        let mut inside = vec![word(NUMBER, number as u32)];
        if self.slips() {
            inside = self.rng.pick(&[Vec::new(), vec![word(SYMBOL, 0)]]);
        }
        for _ in 0..arguments {
            inside.extend(self.term(1));
        }
        part(CALL, inside)
    }

    fn term(&mut self, depth: usize) -> Vec<u32> {
        if self.slips() {
            return self.any_word();
        }
        match self.rng.below(100) {
            0..=59 if self.variables > 0 => {
                let few = self.rng.chance(90);
                let below = if few {
                    self.variables.min(6)
                } else {
                    self.variables
                };
                vec![word(VARIABLE, self.rng.below(below) as u32)]
            }
            60..=79 if depth > 0 => {
                let mut first = self.term(depth - 1);
                let second = self.term(depth - 1);
                if self.slips() {
                    first = self.rng.pick(&[Vec::new(), first.repeat(2)]);
                }
                pair(first, second)
            }
            80..=86 => self.number(),
            87..=91 => vec![word(EMPTY, 0)],
            _ => self.symbol(),
        }
    }

    /// Some payloads are those of a number too.
    fn symbol(&mut self) -> Vec<u32> {
        vec![word(SYMBOL, self.rng.pick(&[0, 1, 7]))]
    }

    fn number(&mut self) -> Vec<u32> {
        vec![word(NUMBER, self.rng.pick(&[0, 1, 5]))]
    }

    fn any_word(&mut self) -> Vec<u32> {
        vec![any_word(self.rng, self.variables)]
    }
}

/// A word with a payload that often counts something.
fn any_word(rng: &mut Rng, near: usize) -> u32 {
    let payload = match rng.below(10) {
        0..=4 => rng.below(4),
        5..=6 => near,
        7 => near + 1,
        8 => rng.below(300),
        _ => rng.below(PAYLOADS as usize),
    };
    word(rng.below(16) as u32, payload as u32 % PAYLOADS)
}

/// A program that was well-formed and had something changed.
pub fn damaged(rng: &mut Rng) -> Vec<u32> {
    if rng.chance(40) {
        let (count, slip) = (rng.between(1, 4), rng.pick(&[5, 10, 20, 60]));
        return Maker::new(rng, count, slip).program();
    }
    let mut words = accepted(rng);
    for _ in 0..rng.pick(&[1, 1, 1, 2, 3]) {
        damage(rng, &mut words);
    }
    words
}

fn damage(rng: &mut Rng, words: &mut Vec<u32>) {
    if words.is_empty() {
        return;
    }
    let at = rng.below(words.len());
    let (old_kind, old_payload) = (kind(words[at]), payload(words[at]));
    match rng.below(100) {
        0..=5 => words[at] = any_word(rng, old_payload as usize),
        6..=13 => {
            // In a tag's place, if there is one.
            let tags: Vec<usize> = (1..words.len())
                .filter(|&at| kind(words[at - 1]) == ABSENTO)
                .collect();
            let at = if tags.is_empty() { at } else { rng.pick(&tags) };
            words[at] = any_word(rng, old_payload as usize);
        }
        14..=17 => words[at] = word(rng.below(16) as u32, old_payload),
        18..=29 => words[at] = word(old_kind, (old_payload + 1) % PAYLOADS),
        30..=41 => words[at] = word(old_kind, (old_payload + PAYLOADS - 1) % PAYLOADS),
        42..=51 => {
            words.remove(at);
        }
        52..=61 => words.insert(at, any_word(rng, old_payload as usize)),
        62..=67 => words.truncate(at),
        68..=79 => {
            // The length of a part off by one.
            let parts: Vec<usize> = (0..words.len())
                .filter(|&at| (PAIR..=RELATION).contains(&kind(words[at])))
                .collect();
            if !parts.is_empty() {
                let at = rng.pick(&parts);
                let change = rng.pick(&[1, PAYLOADS - 1]);
                words[at] = word(kind(words[at]), (payload(words[at]) + change) % PAYLOADS);
            }
        }
        80..=85 => {
            let other = rng.below(words.len());
            words.swap(at, other);
        }
        86..=90 => {
            let to = rng.between(at, words.len().min(at + 12));
            let copy = words[at..to].to_vec();
            words.splice(at..at, copy);
        }
        91..=95 => {
            // Relations up to the bound and one or two past it, the last maybe broken.
            let small = relation(0, 0, part(SYMBOLO, vec![word(EMPTY, 0)]));
            let relations = RELATIONS + rng.below(3);
            *words = small.repeat(relations);
            if rng.chance(30) {
                let at = words.len() - rng.between(1, 2 * small.len());
                words[at] = any_word(rng, 2);
            }
        }
        96..=97 => words.clear(),
        _ => {
            // Round about the bound of words.
            let room = PROGRAM_WORDS + rng.below(3) - 1;
            if words.len() < room {
                words.resize(room, word(EMPTY, 0));
            }
        }
    }
}

/// Words of plausible kinds in no good order.
pub fn random_words(rng: &mut Rng) -> Vec<u32> {
    let length = rng.pick(&[0, 1, 2, 3, 4, 5, 6, 6, 7, 8, 9, 12, 20, 40]);
    let mut words = Vec::new();
    while words.len() < length {
        let left = length - words.len();
        let header = words.is_empty() || rng.chance(3);
        if header && rng.chance(95) {
            words.push(word(RELATION, left.saturating_sub(1 + rng.below(2)) as u32));
            let variables = rng.below(4);
            words.push(word(NUMBER, rng.below(variables + 1) as u32));
            words.push(word(NUMBER, variables as u32));
        } else {
            let kind = rng.pick(&[
                0, 0, 0, 1, 2, 2, 3, 3, 4, 5, 5, 6, 7, 8, 9, 10, 11, 12, 13, 14,
            ]);
            let payload = match (kind, rng.below(20)) {
                (_, 0) => rng.below(PAYLOADS as usize),
                (EMPTY, _) => 0,
                (VARIABLE | SYMBOL | NUMBER, _) => rng.below(4),
                (PAIR, _) => rng.below(left.min(4)),
                (_, 1..=9) => left - 1,
                (EQUAL | DIFFER | ABSENTO, _) => 2,
                (SYMBOLO | NUMBERO, _) => 1,
                _ => rng.below(left),
            };
            words.push(word(kind, payload as u32));
        }
    }
    words.truncate(length);
    words
}
