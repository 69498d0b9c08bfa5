//! Small random programs that make much happen with few words: up to three relations that call each other and themselves,
//! few variables and few atoms, so that goals meet in the same ones.

use reference::gen::{pair, part, relation, Rng};
use reference::word::*;

/// A program with at most so many fresh variables in the query, and one less in the other relations.
pub fn program(rng: &mut Rng, fresh: usize) -> Vec<u32> {
    let mut signatures = vec![(rng.pick(&[0, 1, 2, 2, 3]), rng.below(fresh + 1))];
    for _ in 0..rng.pick(&[0, 1, 1, 2]) {
        signatures.push((rng.pick(&[0, 1, 1, 2, 2]), rng.below(fresh.max(1))));
    }
    let mut maker = Maker {
        rng,
        signatures,
        variables: 0,
    };
    let mut words = Vec::new();
    for at in 0..maker.signatures.len() {
        let (parameters, fresh) = maker.signatures[at];
        maker.variables = parameters + fresh;
        // The query asks for several things, the other relations have alternatives.
        let goal = match at {
            0 => maker.goals(CONJUNCTION, 2, 5, 1),
            _ => maker.goals(DISJUNCTION, 1, 3, 2),
        };
        words.extend(relation(parameters, parameters + fresh, goal));
    }
    words
}

struct Maker<'r> {
    rng: &'r mut Rng,
    /// Parameters and fresh variables of each relation.
    signatures: Vec<(usize, usize)>,
    /// All variables of the relation being made.
    variables: usize,
}

impl Maker<'_> {
    fn goals(&mut self, kind: u32, least: usize, most: usize, depth: usize) -> Vec<u32> {
        let mut goals = Vec::new();
        for _ in 0..self.rng.between(least, most) {
            let goal = self.goal(depth);
            let times = if self.rng.chance(5) { 2 } else { 1 };
            goals.extend(goal.repeat(times));
        }
        part(kind, goals)
    }

    fn goal(&mut self, depth: usize) -> Vec<u32> {
        match self.rng.below(100) {
            0..=6 if depth > 0 => self.goals(DISJUNCTION, 2, 3, depth - 1),
            7..=16 if depth > 0 => self.goals(CONJUNCTION, 2, 3, depth - 1),
            0..=32 => part(EQUAL, [self.term(0), self.term(0)].concat()),
            33..=42 => part(EQUAL, [self.term(0), self.term(2)].concat()),
            43..=47 => part(EQUAL, self.two_pairs()),
            48..=53 => part(DIFFER, [self.term(0), self.term(1)].concat()),
            54..=60 => part(DIFFER, self.two_pairs()),
            61..=67 => part(SYMBOLO, self.term(0)),
            68..=74 => part(NUMBERO, self.term(0)),
            75..=80 => {
                let tag = word(self.rng.pick(&[SYMBOL, NUMBER]), self.rng.below(2) as u32);
                part(ABSENTO, [vec![tag], self.term(1)].concat())
            }
            _ => self.call(),
        }
    }

    /// Mostly not of the query, which has no alternatives and so would never end.
    fn call(&mut self) -> Vec<u32> {
        let others = self.signatures.len() - 1;
        let number = match others > 0 && self.rng.chance(90) {
            true => self.rng.between(1, others),
            false => 0,
        };
        let mut inside = vec![word(NUMBER, number as u32)];
        for _ in 0..self.signatures[number].0 {
            inside.extend(self.term(1));
        }
        part(CALL, inside)
    }

    /// Which may bind several variables at once.
    fn two_pairs(&mut self) -> Vec<u32> {
        let left = pair(self.term(0), self.term(0));
        let right = pair(self.term(0), self.term(1));
        [left, right].concat()
    }

    fn term(&mut self, depth: usize) -> Vec<u32> {
        match self.rng.below(100) {
            0..=24 if depth > 0 => pair(self.term(depth - 1), self.term(depth - 1)),
            0..=89 if self.variables > 0 => {
                vec![word(VARIABLE, self.rng.below(self.variables) as u32)]
            }
            _ => vec![self.rng.pick(&[
                word(SYMBOL, 0),
                word(SYMBOL, 1),
                word(NUMBER, 0),
                word(NUMBER, 1),
                word(EMPTY, 0),
            ])],
        }
    }
}
