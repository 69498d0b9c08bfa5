//! What happened in a run, to count what random programs reach. No part of a run's result.

use crate::run::{CONSTRAINTS, DISJUNCTIONS, GOALS, VARIABLES, WAITING};
use crate::syntax::Relation;
use std::collections::{BTreeMap, BTreeSet};

/// The bases of the last two environments in which a variable can be bound.
pub const LAST_BASES: [usize; 2] = [VARIABLES - 2, VARIABLES - 1];

/// The first and the last variable that a path may have.
pub const OUTER_VARIABLES: [usize; 2] = [0, VARIABLES - 1];

/// Distances of variables at which a mark could be taken for another's.
pub const DISTANCES: [usize; 7] = [16, 32, 64, 128, 256, 512, 1024];

#[derive(Clone, Copy, Debug, PartialEq, Eq, PartialOrd, Ord)]
pub enum Event {
    /// In an equality or a trial.
    OccursCheckFailed,
    /// An occurs check in this came again to a variable whose value it had entered.
    SecondArrival(During),
    /// It came there through two variables or more, the first of which it had not met.
    SecondArrivalByNewWay,
    /// It came there through a parameter of a call.
    SecondArrivalThroughParameter,
    /// As many nodes were waiting as may: to enter the value again would have exceeded the bound.
    SecondArrivalWhileFull,
    /// It came there to this one of the outer variables.
    SecondArrivalAt(usize),
    /// The check found its variable later.
    FoundAfterSecondArrival,
    /// An occurs check entered two variables at this one of the distances.
    EnteredApart(usize),
    /// An occurs check entered a value that it had entered through another variable.
    ValueEnteredThroughTwo,
    /// A variable's value was entered by two occurs checks of one equality or trial.
    EnteredAnew,
    /// The later of them found its variable.
    FoundAfterEnteredAnew,
    /// In this, and by no occurs check, a variable's value was entered a second time.
    EnteredTwice(During),
    /// An equality in the environment with this base, one of the last two, bound a variable to this atom.
    BoundFrom(usize, u32),
    /// A query term that begins with this word was found through a variable that its parameter is bound to.
    Followed(u32),
    /// A constraint of this kind failed when it was taken.
    FailedWhenTaken(u32),
    /// A constraint of this kind failed after a later equality.
    FailedLater(u32),
    /// An open variable was reached by a symbolo and a numbero.
    TypesMet,
    /// An absento's review found its tag, which is of this kind.
    TagFound(u32),
    /// The tag is of this kind, and its review went past an atom of the same payload and the other kind.
    OtherKindPassed(u32),
    /// A line of this kind mentioned a variable absent from the query terms.
    LineDropped(u32),
    LineRepeated,
    /// The run stopped during this: true if the steps were used up, false if too much was waiting.
    Stopped(During, bool),
}

/// What may be under way. A trial is a review's; the writer's are in its lines. An occurs check is in an equality, a trial or the
/// lines, and a second arrival in an occurs check.
#[derive(Clone, Copy, Debug, PartialEq, Eq, PartialOrd, Ord)]
pub enum During {
    Equality,
    OccursCheck,
    SecondArrival,
    Trial,
    AbsenceReview,
    QueryTerms,
    Lines,
}

impl During {
    pub const ALL: [During; 7] = [
        During::Equality,
        During::OccursCheck,
        During::SecondArrival,
        During::Trial,
        During::AbsenceReview,
        During::QueryTerms,
        During::Lines,
    ];
}

/// What is bounded on a path.
#[derive(Clone, Copy, Debug)]
pub enum Bounded {
    Variables,
    Goals,
    Disjunctions,
    Constraints,
    Pairs,
    Nodes,
}

impl Bounded {
    pub const ALL: [Bounded; 6] = [
        Bounded::Variables,
        Bounded::Goals,
        Bounded::Disjunctions,
        Bounded::Constraints,
        Bounded::Pairs,
        Bounded::Nodes,
    ];

    pub fn bound(self) -> usize {
        match self {
            Bounded::Variables => VARIABLES,
            Bounded::Goals => GOALS,
            Bounded::Disjunctions => DISJUNCTIONS,
            Bounded::Constraints => CONSTRAINTS,
            Bounded::Pairs | Bounded::Nodes => WAITING,
        }
    }
}

/// An answer of a path, be it written or not.
#[derive(Clone, Copy, Debug, PartialEq, Eq)]
pub struct Given {
    pub round: u32,
    /// The steps that the run had taken when the writer was through.
    pub steps: u32,
    /// The words that it has.
    pub words: usize,
    /// The words and the answers written before it.
    pub used: usize,
    pub written: usize,
    /// The number, from 0, of the one among these answers with the same words.
    pub repeats: Option<usize>,
}

impl Given {
    /// The output words without which it does not fit.
    pub fn needs(&self) -> usize {
        self.used + self.words
    }
}

#[derive(Clone, Debug, Default, PartialEq, Eq)]
pub struct Trace {
    pub events: BTreeSet<Event>,
    /// All answers of the run in order, with the one that did not fit.
    pub given: Vec<Given>,
    /// The branches cut in each round, those of a broken round so far.
    pub cuts: Vec<u32>,
    /// The step of the latest second arrival.
    pub latest_arrival: Option<u32>,
    /// The most nodes of an occurs check, by how many variables were bound.
    pub checks: BTreeMap<usize, u32>,
    most: [usize; 6],
    /// Of each variable of the path whether it is a parameter of a call.
    parameters: Vec<bool>,
}

impl Trace {
    pub fn note(&mut self, event: Event) {
        self.events.insert(event);
    }

    /// The output words without which some answer would not have fitted, be it written or not.
    pub fn needed(&self) -> usize {
        self.given.iter().map(Given::needs).max().unwrap_or(0)
    }

    /// Those of the events that happened.
    pub fn note_those(&mut self, events: impl IntoIterator<Item = (bool, Event)>) {
        let happened = events.into_iter().filter(|(happened, _)| *happened);
        self.events.extend(happened.map(|(_, event)| event));
    }

    /// An equality in an environment bound a variable to an atom.
    pub fn bound(&mut self, base: usize, atom: u32) {
        if LAST_BASES.contains(&base) {
            self.note(Event::BoundFrom(base, atom));
        }
    }

    /// A call of this relation made its variables behind those there were.
    pub fn called(&mut self, made: usize, relation: &Relation) {
        // Those of a path given up are behind.
        self.parameters.resize(made, false);
        self.parameters.resize(made + relation.parameters, true);
        self.parameters.resize(made + relation.variables, false);
    }

    pub fn is_parameter(&self, variable: usize) -> bool {
        self.parameters.get(variable) == Some(&true)
    }

    /// An occurs check in this came again to a variable, with this step of the run.
    pub fn arrived_again(&mut self, during: During, variable: usize, step: u32) {
        self.note(Event::SecondArrival(during));
        if OUTER_VARIABLES.contains(&variable) {
            self.note(Event::SecondArrivalAt(variable));
        }
        self.latest_arrival = Some(step);
    }

    /// An occurs check that came to its end looked at so many nodes when so many variables were bound.
    pub fn checked(&mut self, bound: usize, nodes: u32) {
        let most = self.checks.entry(bound).or_default();
        *most = nodes.max(*most);
    }

    pub fn reach(&mut self, what: Bounded, count: usize) {
        let most = &mut self.most[what as usize];
        *most = count.max(*most);
    }

    /// The most that there were at one moment of the run.
    pub fn most(&self, what: Bounded) -> usize {
        self.most[what as usize]
    }
}
