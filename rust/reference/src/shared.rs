//! Random programs whose terms share parts, as donor typings do: their occurs checks come to the same variables again.

use crate::gen::{deep_term, pair, part, relation, wrapped, Rng};
use crate::table;
use crate::word::*;

fn variable(number: usize) -> Vec<u32> {
    vec![word(VARIABLE, number as u32)]
}

fn two(kind: u32, left: Vec<u32>, right: Vec<u32>) -> Vec<u32> {
    part(kind, [left, right].concat())
}

fn twice(number: usize) -> Vec<u32> {
    pair(variable(number), variable(number))
}

/// Levels, each a variable bound to a pair of lower ones or led to one of them, and goals that look at these.
pub fn parts(rng: &mut Rng) -> Vec<u32> {
    let levels = rng.between(2, 6);
    let parameters = rng.pick(&[0, 0, 1, 2, levels]);
    Maker { rng, levels }.program(parameters)
}

/// The variables of the query are the levels, two that may stand open in them, and two to be bound to terms of them.
struct Maker<'r> {
    rng: &'r mut Rng,
    levels: usize,
}

impl Maker<'_> {
    fn program(&mut self, parameters: usize) -> Vec<u32> {
        // A variable led to one that is open is the beginning of a chain; led to one that is bound, it gets the same value.
        let (mut chains, mut goals) = (Vec::new(), Vec::new());
        let mut before = Vec::new();
        for level in 0..self.levels {
            let (term, is_chain) = self.definition(level, &before);
            let goal = match self.rng.chance(80) {
                true => two(EQUAL, variable(level), term.clone()),
                false => two(EQUAL, term.clone(), variable(level)),
            };
            match is_chain {
                true => chains.push(goal),
                false => goals.push(goal),
            }
            before = term;
        }
        if self.rng.chance(50) {
            chains.reverse();
        }
        for _ in 0..self.rng.between(1, 3) {
            goals.push(self.look());
        }
        let goals = [chains, goals].concat().concat();
        let mut words = relation(parameters, self.levels + 4, part(CONJUNCTION, goals));
        for number in [1, 2] {
            words.extend(relation(3, 5, self.called(number)));
        }
        words
    }

    /// What a level is bound or led to, and whether that is done before all else.
    fn definition(&mut self, level: usize, before: &[u32]) -> (Vec<u32>, bool) {
        if level == 0 {
            return (pair(self.leaf(), self.leaf()), false);
        }
        let lower = self.rng.below(level);
        match self.rng.below(11) {
            0..=4 => (twice(level - 1), false),
            5 => (pair(variable(lower), self.leaf()), false),
            6 => (pair(self.leaf(), twice(lower)), false),
            // The same words again: an equal value, but another.
            7 => (before.to_vec(), false),
            8 => (variable(lower), false),
            _ => (variable(lower), true),
        }
    }

    /// An atom or one of the variables that may stand open.
    fn leaf(&mut self) -> Vec<u32> {
        let open = self.open();
        let atoms = ["3:0", "1:7", "2:7"].map(table::words);
        match self.rng.chance(30) {
            true => open,
            false => self.rng.pick(&atoms),
        }
    }

    fn open(&mut self) -> Vec<u32> {
        variable(self.levels + self.rng.below(2))
    }

    fn fresh(&mut self) -> Vec<u32> {
        variable(self.levels + 2 + self.rng.below(2))
    }

    /// Mostly a high one.
    fn level(&mut self) -> usize {
        match self.rng.chance(50) {
            true => self.levels - 1,
            false => self.rng.below(self.levels),
        }
    }

    /// A term that mostly has a level in two places.
    fn term(&mut self) -> Vec<u32> {
        let (one, other) = (self.level(), self.level());
        match self.rng.below(8) {
            0..=1 => twice(one),
            2 => pair(variable(one), variable(other)),
            3 => pair(variable(one), pair(variable(other), variable(one))),
            4 => pair(twice(one), self.open()),
            5 => pair(variable(one), pair(self.leaf(), variable(one))),
            6 => pair(variable(other), pair(variable(one), self.open())),
            _ => variable(one),
        }
    }

    fn look(&mut self) -> Vec<u32> {
        match self.rng.below(12) {
            0..=2 => two(EQUAL, self.fresh(), self.term()),
            3..=4 => two(DIFFER, self.fresh(), self.term()),
            // Two checks of one unification.
            at @ 5..=7 => {
                let kind = if at == 5 { DIFFER } else { EQUAL };
                let left = pair(self.fresh(), self.fresh());
                two(kind, left, pair(self.term(), self.term()))
            }
            8 => two(EQUAL, self.open(), self.term()),
            9 => {
                let tag = self.rng.pick(&["1:7", "1:8", "2:8"].map(table::words));
                two(ABSENTO, tag, self.term())
            }
            _ => self.call(),
        }
    }

    fn call(&mut self) -> Vec<u32> {
        let (one, other) = (variable(self.level()), variable(self.level()));
        let second = self.rng.pick(&[one.clone(), other]);
        let thirds = [self.fresh(), self.open(), one.clone()];
        let third = self.rng.pick(&thirds);
        part(CALL, [table::words("2:1"), one, second, third].concat())
    }

    /// The goal of a called relation: its parameters in two places. The first may hand them on to the second.
    fn called(&mut self, number: u32) -> Vec<u32> {
        let goals = [
            "5:4 0:3 4:1 0:0 0:1",
            "5:4 0:2 4:1 0:0 0:1",
            "6:4 0:3 4:1 0:0 0:1",
            "6:4 0:2 4:1 0:1 0:0",
            "5:6 0:3 4:1 0:1 4:1 0:0 0:2",
            "10:8 5:2 0:3 0:0 5:4 0:4 4:1 0:3 0:1",
            "5:8 4:1 0:3 0:4 4:1 0:0 4:1 0:1 0:0",
        ];
        let on = ["12:4 2:2 0:0 0:1 0:2", "12:4 2:2 0:1 0:1 0:0"];
        let goal = match number == 1 && self.rng.chance(40) {
            true => self.rng.pick(&on),
            false => self.rng.pick(&goals),
        };
        table::words(goal)
    }
}

/// Each level is a pair of the one below with itself: to a check that enters it again, twice as much.
pub fn doubled(rng: &mut Rng, levels: usize) -> Vec<u32> {
    let [open, free] = [levels, levels + 1];
    let lowest = rng.pick(&[
        pair(variable(open), vec![word(EMPTY, 0)]),
        table::words("4:1 3:0 3:0"),
    ]);
    let mut goals = two(EQUAL, variable(0), lowest);
    for level in 1..levels {
        goals.extend(two(EQUAL, variable(level), twice(level - 1)));
    }
    let highest = levels - 1;
    goals.extend(match rng.below(4) {
        0 => two(DIFFER, variable(free), twice(highest)),
        1 => two(
            EQUAL,
            variable(open),
            pair(vec![word(EMPTY, 0)], variable(highest)),
        ),
        2 => two(EQUAL, variable(free), variable(highest)),
        _ => table::words("5:2 3:0 3:0"),
    });
    relation(rng.below(2), levels + 2, part(CONJUNCTION, goals))
}

/// The same by a relation that calls itself with a pair of its parameter and itself.
pub fn doubled_by_calls(rng: &mut Rng) -> Vec<u32> {
    let look = rng.pick(&[
        "5:2 0:1 0:0",
        "5:4 0:1 4:1 0:0 0:0",
        "6:2 0:1 0:0",
        "9:2 1:7 0:0",
    ]);
    let ways = [table::words(look), table::words("12:4 2:1 4:1 0:0 0:0")];
    let mut words = relation(0, 0, table::words("12:4 2:1 4:1 3:0 3:0"));
    words.extend(relation(1, 2, part(DISJUNCTION, ways.concat())));
    words
}

/// A variable is looked at, and then again below so many pairs.
pub fn again_deep_down(rng: &mut Rng, depth: usize) -> Vec<u32> {
    // Bound itself, or led to the one that is bound.
    let chain = "5:2 0:0 0:1 5:4 0:1 4:1 3:0 3:0";
    let (bound, first) = rng.pick(&[("5:4 0:0 4:1 3:0 3:0", 0), (chain, 0), (chain, 1)]);
    let again = pair(variable(first), wrapped(0, depth));
    let kind = rng.pick(&[EQUAL, DIFFER]);
    let goals = [table::words(bound), two(kind, variable(2), again)].concat();
    relation(rng.below(2), 3, part(CONJUNCTION, goals))
}

/// A parameter so deep in first parts is looked at, and then again with more nodes waiting.
pub fn deep_again(rng: &mut Rng, depth: usize) -> Vec<u32> {
    let argument = [table::words("2:1"), deep_term(depth as u32)].concat();
    let mut words = relation(0, 0, part(CALL, argument));
    let again = pair(variable(0), wrapped(0, rng.between(1, 4)));
    let kind = rng.pick(&[EQUAL, DIFFER]);
    words.extend(relation(1, 2, two(kind, variable(1), again)));
    words
}

/// One of the query's variables and one at a distance of 3 or more from it, the last of its call, each in two places of a term.
pub fn far_apart(rng: &mut Rng, one: usize, distance: usize) -> Vec<u32> {
    // The query's variables end with the one, and the call's two others stand before the other.
    let between = distance - 3;
    let calls = [
        table::words("12:1 2:2").repeat(between / 255),
        table::words("12:1 2:3"),
        part(CALL, [table::words("2:1"), variable(one)].concat()),
    ];
    let query = [
        two(EQUAL, variable(one), table::words("4:1 3:0 3:0")),
        calls.concat(),
    ];
    let kind = rng.pick(&["5", "6"]);
    let looks = [
        "5:4 0:2 4:1 1:7 3:0",
        &format!("{kind}:8 0:1 4:1 0:0 4:1 0:2 4:1 0:0 0:2"),
    ];
    let holds = table::words("5:2 3:0 3:0");
    let relations = [
        relation(0, one + 1, part(CONJUNCTION, query.concat())),
        relation(1, 3, part(CONJUNCTION, looks.map(table::words).concat())),
        relation(0, 255, holds.clone()),
        relation(0, between % 255, holds),
    ];
    relations.concat()
}
