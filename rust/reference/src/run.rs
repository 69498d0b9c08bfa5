//! The search: rounds, paths, constraints, steps and answers.
//!
//! A path is one value that holds everything, and a choice point keeps a whole copy of it, so nothing is ever undone.

use crate::fault::Fault;
use crate::read::{read, Refusal};
use crate::syntax::*;
use crate::trace::{Bounded, During, Event, Given, Trace, DISTANCES};
use crate::word::*;
use std::collections::{BTreeMap, BTreeSet, HashMap};

/// How a run ended.
#[derive(Clone, Copy, Debug, PartialEq, Eq)]
pub enum End {
    Finished,
    Rounds,
    Steps,
    Output,
    /// Which of the five bounds on a path, from 1.
    Path(u32),
}

#[derive(Clone, Debug, PartialEq, Eq)]
pub struct Outcome {
    pub end: End,
    /// The last round completed, or the one broken off.
    pub round: u32,
    pub steps: u32,
    pub answers: usize,
    /// The round of each answer.
    pub answer_rounds: Vec<u32>,
    /// All answers, one after the other.
    pub words: Vec<u32>,
    /// The branches cut in the last completed round, 0 if none was completed (document 02, Note 7).
    pub cut: u32,
    pub trace: Trace,
}

impl Outcome {
    /// All but how the run came to it.
    pub fn told(&self) -> Outcome {
        Outcome {
            trace: Trace::default(),
            ..self.clone()
        }
    }

    /// The last round begun was broken off.
    pub fn broken(&self) -> bool {
        !matches!(self.end, End::Finished | End::Rounds)
    }

    /// The branches cut in each completed round.
    pub fn completed_cuts(&self) -> &[u32] {
        &self.trace.cuts[..self.trace.cuts.len() - self.broken() as usize]
    }
}

pub const ROUND_LIMIT: u32 = 255;
/// A run takes at least so many scratch words and uses no more (document 02, Note 12).
pub const SCRATCH_WORDS: usize = 12_288;
/// More output words than these are not used.
pub const OUTPUT_WORDS: usize = 268_435_455;

// The bounds on one path.
pub const VARIABLES: usize = 2_048;
pub const GOALS: usize = 1_024;
pub const DISJUNCTIONS: usize = 256;
pub const CONSTRAINTS: usize = 512;
/// Of waiting term pairs, and of waiting nodes.
pub const WAITING: usize = 512;

/// Runs a program with the limits given, and as many output and scratch words as are lent.
pub fn run(
    words: &[u32],
    rounds: u32,
    steps: u32,
    output_len: usize,
    scratch_len: usize,
) -> Result<Outcome, Refusal> {
    run_with(None, words, rounds, steps, output_len, scratch_len)
}

/// The same with an error put in, for tests of tests.
pub fn run_with(
    fault: Option<Fault>,
    words: &[u32],
    rounds: u32,
    steps: u32,
    output_len: usize,
    scratch_len: usize,
) -> Result<Outcome, Refusal> {
    if rounds > ROUND_LIMIT || scratch_len < SCRATCH_WORDS {
        return Err(Refusal {
            number: 9,
            place: 0,
        });
    }
    let program = read(words)?;
    let mut search = Search {
        program: &program,
        fault,
        step_limit: steps,
        room: output_len.min(OUTPUT_WORDS),
        steps: 0,
        answers: Answers::default(),
        trace: Trace::default(),
    };
    let mut round = 0;
    let mut cut = 0;
    let end = loop {
        match search.round(round) {
            Err(end) => break end,
            Ok(branches) => cut = branches,
        }
        if cut == 0 || search.finished_too_soon(round) {
            break End::Finished;
        }
        if round == rounds {
            break End::Rounds;
        }
        round += 1;
    };
    let Answers { rounds, words, .. } = search.answers;
    let counted = match search.fault {
        Some(Fault::RepeatCounted) => search.trace.given.len() - (end == End::Output) as usize,
        _ => rounds.len(),
    };
    Ok(Outcome {
        end,
        round,
        steps: search.steps,
        answers: counted,
        answer_rounds: rounds,
        words,
        cut,
        trace: search.trace,
    })
}

/// Makes of lent scratch what a run leaves of it: the words that it uses are 0, and those beyond untouched.
pub fn leave_scratch(scratch: &mut [u32]) {
    scratch[..SCRATCH_WORDS].fill(0);
}

/// A term on a path, not followed further. A pair's parts are terms of the program in the variables that begin at
/// `base`.
#[derive(Clone, Copy, Debug, PartialEq, Eq, PartialOrd, Ord)]
enum Value {
    /// A variable of the path.
    Variable(usize),
    Symbol(u32),
    Number(u32),
    Empty,
    Pair {
        first: TermId,
        second: TermId,
        base: usize,
    },
}

impl Value {
    fn atom_word(self) -> Option<u32> {
        match self {
            Value::Symbol(payload) => Some(word(SYMBOL, payload)),
            Value::Number(payload) => Some(word(NUMBER, payload)),
            Value::Empty => Some(word(EMPTY, 0)),
            Value::Variable(_) | Value::Pair { .. } => None,
        }
    }
}

/// What each variable of a path is bound to.
#[derive(Clone)]
struct Substitution(Vec<Option<Value>>);

impl Substitution {
    /// The value with its bindings followed: an open variable, an atom or a pair.
    fn walk(&self, mut value: Value) -> Value {
        while let Value::Variable(variable) = value {
            match self.0[variable] {
                Some(bound) => value = bound,
                None => break,
            }
        }
        value
    }

    /// The bound variables that following the value leads through, in order.
    fn way(&self, mut value: Value) -> Vec<usize> {
        let mut way = Vec::new();
        while let Value::Variable(variable) = value {
            let Some(bound) = self.0[variable] else {
                break;
            };
            way.push(variable);
            value = bound;
        }
        way
    }

    fn bind(&mut self, variable: usize, value: Value) {
        assert_eq!(self.0[variable], None, "only open variables are bound");
        self.0[variable] = Some(value);
    }
}

/// A goal of the program in the variables that begin at `base`.
#[derive(Clone, Copy)]
struct Task {
    goal: GoalId,
    base: usize,
}

#[derive(Clone)]
struct Path {
    substitution: Substitution,
    /// The first waiting goal is the last here.
    waiting: Vec<Task>,
    /// Goals put to wait so far, the query's own and taken ones included.
    put: usize,
    /// Constraints taken so far, in order.
    constraints: Vec<Task>,
    calls: u32,
}

impl Path {
    /// Puts goals to wait ahead of all others, the first one first.
    fn put(&mut self, goals: &[GoalId], base: usize) {
        self.put += goals.len();
        for &goal in goals.iter().rev() {
            self.waiting.push(Task { goal, base });
        }
    }
}

/// A disjunction with alternatives left, and the path as it was when the disjunction had been taken.
struct Choice {
    path: Path,
    alternatives: Vec<GoalId>,
    base: usize,
}

/// How a path went on after a goal was taken.
enum Taken {
    Goes(Path),
    Failed,
    Cut,
}

/// Nodes still to be looked at: one next, and second parts waiting, the last of them first.
struct Nodes {
    next: Option<Value>,
    waiting: Vec<Value>,
    /// What they are looked at for.
    during: During,
    /// Those of an occurs check: "It should enter each bound variable at most one time" (document 02, Note 10). All else enters
    /// one as often as it comes there.
    once: bool,
    /// The last bound variables of the ways to the pairs entered, with these pairs.
    entered: BTreeMap<Value, Value>,
    /// For the trace: all variables of these ways, and whether one was come to again.
    met: BTreeSet<usize>,
    arrived_again: bool,
}

struct Search<'p> {
    program: &'p Program,
    fault: Option<Fault>,
    step_limit: u32,
    /// Output words that may be used.
    room: usize,
    steps: u32,
    answers: Answers,
    trace: Trace,
}

/// The answers written so far.
#[derive(Default)]
struct Answers {
    /// The round of each.
    rounds: Vec<u32>,
    /// Their words, one after the other.
    words: Vec<u32>,
    /// What each is compared by, with its number from 0.
    numbers: HashMap<Vec<u32>, usize>,
}

impl Search<'_> {
    fn has(&self, fault: Fault) -> bool {
        self.fault == Some(fault)
    }

    /// With an error put in, a run is finished after a round, the last one so far, that cut some branch.
    fn finished_too_soon(&self, round: u32) -> bool {
        let gave = |given: &Given| given.round == round;
        let answered = self.trace.given.last().is_some_and(gave);
        match self.fault {
            Some(Fault::FinishedWithoutAnswer) => !answered,
            Some(Fault::FinishedWithRepeats) => {
                answered && self.answers.rounds.last() != Some(&round)
            }
            _ => false,
        }
    }

    /// One step, unless the limit is used up or the step would exceed the bound given.
    fn step(&mut self, exceeds: Option<u32>) -> Result<(), End> {
        if self.steps == self.step_limit {
            return Err(End::Steps);
        }
        if let Some(bound) = exceeds {
            return Err(End::Path(bound));
        }
        self.steps += 1;
        Ok(())
    }

    /// Notes what was under way if the run stops here.
    fn during<T>(&mut self, during: During, result: Result<T, End>) -> Result<T, End> {
        if let Err(end) = result {
            self.trace.note(Event::Stopped(during, end == End::Steps));
        }
        result
    }

    fn value(&self, term: TermId, base: usize) -> Value {
        match self.program[term] {
            Term::Variable(number) => Value::Variable(base + number),
            Term::Symbol(payload) => Value::Symbol(payload),
            Term::Number(payload) => Value::Number(payload),
            Term::Empty => Value::Empty,
            Term::Pair(first, second) => Value::Pair {
                first,
                second,
                base,
            },
        }
    }

    /// All paths of a round, depth first, alternatives left to right; how many branches were cut.
    fn round(&mut self, round: u32) -> Result<u32, End> {
        let query = &self.program.relations[0];
        let mut path = Path {
            substitution: Substitution(vec![None; query.variables]),
            waiting: Vec::new(),
            put: 0,
            constraints: Vec::new(),
            calls: 0,
        };
        path.put(&[query.goal], 0);
        self.trace.reach(Bounded::Variables, query.variables);
        let mut choices: Vec<Choice> = Vec::new();
        let mut cut = 0;
        self.trace.cuts.push(cut);
        loop {
            // To the end of this path ...
            loop {
                let Some(task) = path.waiting.pop() else {
                    if path.calls == round || self.has(Fault::DepthFirst) {
                        self.answer(&path, round)?;
                    }
                    break;
                };
                match self.take(task, path, round, &mut choices)? {
                    Taken::Goes(on) => path = on,
                    Taken::Failed => break,
                    Taken::Cut => {
                        cut += 1;
                        self.trace.cuts[round as usize] = cut;
                        break;
                    }
                }
            }
            // ... and on with the next alternative of the latest disjunction that has one left.
            let Some(mut choice) = choices.pop() else {
                return Ok(cut);
            };
            let alternative = choice.alternatives.remove(0);
            path = choice.path.clone();
            path.put(&[alternative], choice.base);
            if !choice.alternatives.is_empty() {
                choices.push(choice);
            }
        }
    }

    /// Takes a goal, which was the first waiting.
    fn take(
        &mut self,
        task: Task,
        mut path: Path,
        round: u32,
        choices: &mut Vec<Choice>,
    ) -> Result<Taken, End> {
        let base = task.base;
        match &self.program[task.goal] {
            Goal::Equal(left, right) => {
                self.step(None)?;
                let (left, right) = (self.value(*left, base), self.value(*right, base));
                let joined = self.unify(During::Equality, &mut path.substitution, left, right);
                match self.during(During::Equality, joined)? {
                    None => return Ok(Taken::Failed),
                    Some(bound) if bound.is_empty() => (),
                    Some(_) if self.has(Fault::TestedOnlyWhenTaken) => (),
                    Some(bound) => {
                        let values = bound.iter().map(|&variable| path.substitution.0[variable]);
                        for atom in values.flatten().filter_map(Value::atom_word) {
                            self.trace.bound(base, atom);
                        }
                        for &constraint in &path.constraints {
                            if !self.review(constraint, &path)? {
                                let kind = self.program[constraint.goal].kind();
                                self.trace.note(Event::FailedLater(kind));
                                return Ok(Taken::Failed);
                            }
                        }
                    }
                }
            }
            Goal::Differ(..) | Goal::Symbolo(_) | Goal::Numbero(_) | Goal::Absento(..) => {
                self.step((path.constraints.len() == CONSTRAINTS).then_some(4))?;
                path.constraints.push(task);
                let count = path.constraints.len();
                self.trace.reach(Bounded::Constraints, count);
                if !self.review(task, &path)? {
                    let kind = self.program[task.goal].kind();
                    self.trace.note(Event::FailedWhenTaken(kind));
                    return Ok(Taken::Failed);
                }
            }
            Goal::Conjunction(goals) => {
                self.step((path.put + goals.len() > GOALS).then_some(2))?;
                path.put(goals, base);
                self.trace.reach(Bounded::Goals, path.put);
            }
            Goal::Disjunction(goals) => {
                let too_many_put = (path.put + 1 > GOALS).then_some(2);
                let more = goals.len() > 1;
                let too_many_left = (more && choices.len() == DISJUNCTIONS).then_some(3);
                self.step(too_many_put.or(too_many_left))?;
                if more {
                    choices.push(Choice {
                        path: path.clone(),
                        alternatives: goals[1..].to_vec(),
                        base,
                    });
                }
                self.trace.reach(Bounded::Disjunctions, choices.len());
                path.put(&goals[..1], base);
                self.trace.reach(Bounded::Goals, path.put);
            }
            Goal::Call(_, _) if path.calls == round && !self.has(Fault::DepthFirst) => {
                self.step(None)?;
                return Ok(Taken::Cut);
            }
            Goal::Call(number, arguments) => {
                let called = &self.program.relations[*number];
                let made = path.substitution.0.len();
                let too_many_made = (made + called.variables > VARIABLES).then_some(1);
                let too_many_put = (path.put + 1 > GOALS).then_some(2);
                self.step(too_many_made.or(too_many_put))?;
                path.calls += 1;
                path.substitution.0.resize(made + called.variables, None);
                for (parameter, &argument) in arguments.iter().enumerate() {
                    let argument = self.value(argument, base);
                    path.substitution.bind(made + parameter, argument);
                }
                path.put(&[called.goal], made);
                self.trace.called(made, called);
                self.trace
                    .reach(Bounded::Variables, path.substitution.0.len());
                self.trace.reach(Bounded::Goals, path.put);
            }
        }
        Ok(Taken::Goes(path))
    }

    /// Makes both sides equal and tells which variables were bound, in order; none if that fails.
    fn unify(
        &mut self,
        during: During,
        substitution: &mut Substitution,
        left: Value,
        right: Value,
    ) -> Result<Option<Vec<usize>>, End> {
        let mut bound = Vec::new();
        let mut next = Some((left, right));
        let mut waiting: Vec<(Value, Value)> = Vec::new();
        let mut earlier: BTreeMap<Value, Value> = BTreeMap::new();
        while let Some((left, right)) = next.take().or_else(|| waiting.pop()) {
            let (left, right) = (substitution.walk(left), substitution.walk(right));
            if let (
                Value::Pair {
                    first: left_first,
                    second: left_second,
                    base: left_base,
                },
                Value::Pair {
                    first: right_first,
                    second: right_second,
                    base: right_base,
                },
            ) = (left, right)
            {
                self.step((waiting.len() == WAITING).then_some(5))?;
                waiting.push((
                    self.value(left_second, left_base),
                    self.value(right_second, right_base),
                ));
                self.trace.reach(Bounded::Pairs, waiting.len());
                next = Some((
                    self.value(left_first, left_base),
                    self.value(right_first, right_base),
                ));
                continue;
            }
            self.step(None)?;
            let (variable, other) = match (left, right) {
                // The same variable, or atoms of the same kind and payload.
                _ if left == right => continue,
                (Value::Variable(variable), _) => (variable, right),
                (_, Value::Variable(variable)) => (variable, left),
                _ => return Ok(None),
            };
            if !self.has(Fault::NoOccursCheck) {
                let occurs = self.occurs(during, variable, other, substitution, &mut earlier);
                if self.during(During::OccursCheck, occurs)? {
                    self.trace.note(Event::OccursCheckFailed);
                    return Ok(None);
                }
            }
            substitution.bind(variable, other);
            bound.push(variable);
        }
        Ok(Some(bound))
    }

    /// The occurs check: whether the variable is in the value. It begins with nothing entered, whatever the earlier ones of the
    /// same unification have; that is for the trace.
    fn occurs(
        &mut self,
        during: During,
        variable: usize,
        value: Value,
        substitution: &Substitution,
        earlier: &mut BTreeMap<Value, Value>,
    ) -> Result<bool, End> {
        let in_trial = during != During::Equality;
        let again =
            self.has(Fault::EnteredAgain) || self.has(Fault::EnteredAgainInTrials) && in_trial;
        let mut nodes = Nodes {
            once: !again,
            ..Nodes::of(value, during)
        };
        if self.has(Fault::MarksKept) {
            nodes.entered = earlier.clone();
        }
        let before = self.steps;
        let itself = Value::Variable(variable);
        let found = self.finds(&mut nodes, substitution, |node| node == itself)?;
        let bound = substitution.0.iter().flatten().count();
        self.trace.checked(bound, self.steps - before);
        self.note_check(&nodes, found, earlier);
        earlier.extend(nodes.entered);
        Ok(found)
    }

    /// Notes what an occurs check that came to its end has entered.
    fn note_check(&mut self, nodes: &Nodes, found: bool, earlier: &BTreeMap<Value, Value>) {
        let entered = &nodes.entered;
        let anew = entered.keys().any(|mark| earlier.contains_key(mark));
        let values: BTreeSet<&Value> = entered.values().collect();
        self.trace.note_those([
            (anew, Event::EnteredAnew),
            (anew && found, Event::FoundAfterEnteredAnew),
            (values.len() < entered.len(), Event::ValueEnteredThroughTwo),
            (nodes.arrived_again && found, Event::FoundAfterSecondArrival),
        ]);
        let variables = entered.keys().filter_map(|mark| match mark {
            Value::Variable(variable) => Some(*variable),
            _ => None,
        });
        let variables: BTreeSet<usize> = variables.collect();
        self.trace.note_those(DISTANCES.map(|distance| {
            let other = |variable: &usize| variables.contains(&(variable + distance));
            (variables.iter().any(other), Event::EnteredApart(distance))
        }));
    }

    /// Looks at nodes up to one that is sought, and says whether there is one.
    fn finds(
        &mut self,
        nodes: &mut Nodes,
        substitution: &Substitution,
        mut sought: impl FnMut(Value) -> bool,
    ) -> Result<bool, End> {
        while let Some(node) = self.look(nodes, substitution)? {
            if sought(node) {
                return Ok(true);
            }
        }
        Ok(false)
    }

    /// Looks at the next node, if there is one more.
    fn look(
        &mut self,
        nodes: &mut Nodes,
        substitution: &Substitution,
    ) -> Result<Option<Value>, End> {
        let Some(value) = nodes.next.take().or_else(|| nodes.waiting.pop()) else {
            return Ok(None);
        };
        let node = substitution.walk(value);
        let Value::Pair {
            first,
            second,
            base,
        } = node
        else {
            self.step(None)?;
            return Ok(Some(node));
        };
        let way = substitution.way(value);
        let mark = self.mark(&way, node);
        if mark.is_some_and(|mark| nodes.entered.contains_key(&mark)) {
            // "where following leads through a last bound variable whose value this check has already entered, that is one
            // node and nothing below it is looked at" (document 02, Note 10).
            if nodes.once {
                self.arrive_again(nodes, &way)?;
                return Ok(Some(node));
            }
            self.trace.note(Event::EnteredTwice(nodes.during));
        }
        self.step((nodes.waiting.len() == WAITING).then_some(5))?;
        nodes.waiting.push(self.value(second, base));
        self.trace.reach(Bounded::Nodes, nodes.waiting.len());
        nodes.next = Some(self.value(first, base));
        if let Some(mark) = mark {
            nodes.entered.insert(mark, node);
            nodes.met.extend(way);
        }
        Ok(Some(node))
    }

    /// What is marked when a pair is entered: the last bound variable on the way to it, if there is one.
    fn mark(&self, way: &[usize], node: Value) -> Option<Value> {
        let (&first, &last) = (way.first()?, way.last()?);
        Some(match self.fault {
            Some(Fault::FirstVariableMarked) => Value::Variable(first),
            Some(Fault::ValueMarked) => node,
            _ => Value::Variable(last),
        })
    }

    /// An occurs check's second arrival at a variable: a step that puts nothing to wait.
    fn arrive_again(&mut self, nodes: &mut Nodes, way: &[usize]) -> Result<(), End> {
        let full = nodes.waiting.len() == WAITING;
        let step = match self.fault {
            Some(Fault::SecondArrivalFree) => Ok(()),
            Some(Fault::SecondArrivalBounded) => self.step(full.then_some(5)),
            _ => self.step(None),
        };
        self.during(During::SecondArrival, step)?;
        let last = way[way.len() - 1];
        self.trace.arrived_again(nodes.during, last, self.steps);
        let new_way = way.len() > 1 && !nodes.met.contains(&way[0]);
        let parameter = way
            .iter()
            .any(|&variable| self.trace.is_parameter(variable));
        self.trace.note_those([
            (new_way, Event::SecondArrivalByNewWay),
            (parameter, Event::SecondArrivalThroughParameter),
            (full, Event::SecondArrivalWhileFull),
        ]);
        nodes.arrived_again = true;
        nodes.met.extend(way);
        Ok(())
    }

    fn all_nodes(
        &mut self,
        during: During,
        value: Value,
        substitution: &Substitution,
    ) -> Result<Vec<Value>, End> {
        let mut nodes = Nodes::of(value, during);
        let mut all = Vec::new();
        while let Some(node) = self.look(&mut nodes, substitution)? {
            all.push(node);
        }
        Ok(all)
    }

    /// Whether a constraint of the path still may hold.
    fn review(&mut self, constraint: Task, path: &Path) -> Result<bool, End> {
        self.step(None)?;
        let base = constraint.base;
        match self.program[constraint.goal] {
            Goal::Symbolo(term) => Ok(match path.substitution.walk(self.value(term, base)) {
                Value::Symbol(_) => true,
                Value::Variable(variable) => !self.typed(variable, path, NUMBERO),
                _ => false,
            }),
            Goal::Numbero(term) => Ok(match path.substitution.walk(self.value(term, base)) {
                Value::Number(_) => true,
                Value::Variable(variable) => !self.typed(variable, path, SYMBOLO),
                _ => false,
            }),
            Goal::Absento(tag, term) => {
                let (tag, term) = (self.value(tag, base), self.value(term, base));
                let (kind, other) = match tag {
                    Value::Symbol(payload) => (SYMBOL, Value::Number(payload)),
                    Value::Number(payload) => (NUMBER, Value::Symbol(payload)),
                    _ => unreachable!("no tag"),
                };
                let either = self.has(Fault::TagOfEitherKind);
                let mut passed = false;
                let mut nodes = Nodes {
                    once: self.has(Fault::AbsenceEntersOnce),
                    ..Nodes::of(term, During::AbsenceReview)
                };
                let found = self.finds(&mut nodes, &path.substitution, |node| {
                    passed |= node == other;
                    node == tag || either && node == other
                });
                let found = self.during(During::AbsenceReview, found)?;
                if found {
                    self.trace.note(Event::TagFound(kind));
                }
                if passed {
                    self.trace.note(Event::OtherKindPassed(kind));
                }
                Ok(!found)
            }
            Goal::Differ(left, right) => {
                let (left, right) = (self.value(left, base), self.value(right, base));
                let mut trial = path.substitution.clone();
                let open = |side| matches!(trial.walk(side), Value::Variable(_));
                if self.has(Fault::OpenVariablesDontDiffer) && open(left) && open(right) {
                    return Ok(false);
                }
                let bound = self.unify(During::Trial, &mut trial, left, right);
                let bound = self.during(During::Trial, bound)?;
                Ok(bound.is_none_or(|bound| !bound.is_empty()))
            }
            _ => unreachable!("no constraint"),
        }
    }

    /// Whether the open variable has a type constraint of this kind on the path.
    fn typed(&mut self, variable: usize, path: &Path, kind: u32) -> bool {
        let met = path
            .constraints
            .iter()
            .any(|other| match &self.program[other.goal] {
                goal @ (Goal::Symbolo(term) | Goal::Numbero(term)) if goal.kind() == kind => {
                    let written = self.value(*term, other.base);
                    let node = match self.has(Fault::TypesDontMeet) {
                        true => written,
                        false => path.substitution.walk(written),
                    };
                    node == Value::Variable(variable)
                }
                _ => false,
            });
        if met {
            self.trace.note(Event::TypesMet);
        }
        met
    }

    /// Writes the answer of a path that has no goal waiting.
    fn answer(&mut self, path: &Path, round: u32) -> Result<(), End> {
        let mut names = Names(vec![None; path.substitution.0.len()], 0);
        let mut inside: Vec<u32> = Vec::new();
        for parameter in 0..self.program.relations[0].parameters {
            let term = Value::Variable(parameter);
            let nodes = self.all_nodes(During::QueryTerms, term, &path.substitution);
            let nodes = self.during(During::QueryTerms, nodes)?;
            for &node in &nodes {
                names.give(node);
            }
            let words = names.words(&nodes).expect("all have names");
            if let Some(Value::Variable(_)) = path.substitution.0[parameter] {
                self.trace.note(Event::Followed(words[0]));
            }
            inside.extend(words);
        }
        // With this fault a disequality may name what no query term has.
        let all_named = self.has(Fault::AbsentDisequalityKept).then(|| {
            let mut all = names.clone();
            for variable in 0..path.substitution.0.len() {
                all.give(path.substitution.walk(Value::Variable(variable)));
            }
            all
        });
        let mut lines: Vec<Vec<u32>> = Vec::new();
        for &constraint in &path.constraints {
            let known = match (&all_named, &self.program[constraint.goal]) {
                (Some(all), Goal::Differ(..)) => all,
                _ => &names,
            };
            let listed = self.lines(constraint, path, known);
            for line in self.during(During::Lines, listed)? {
                if lines.contains(&line) {
                    self.trace.note(Event::LineRepeated);
                } else {
                    lines.push(line);
                }
            }
        }
        let terms = inside.len();
        inside.extend(lines.concat());
        self.give(part(ANSWER, &[inside]), 1 + terms, round)
    }

    /// An answer, of which so many words are its header and query terms, is written unless it repeats an earlier one.
    fn give(&mut self, answer: Vec<u32>, terms: usize, round: u32) -> Result<(), End> {
        let compared = self.compared(&answer, terms, round);
        let repeats = self.answers.numbers.get(&compared).copied();
        let used = self.answers.words.len();
        self.trace.given.push(Given {
            round,
            steps: self.steps,
            words: answer.len(),
            used,
            written: self.answers.rounds.len(),
            repeats,
        });
        // "The output-full test comes before that comparison" (document 02, Note 2): a repeat ends the run too, if it does not fit.
        let needs_room = repeats.is_none() || !self.has(Fault::ComparedBeforeFull);
        if answer.len() > self.room - used && needs_room {
            return Err(End::Output);
        }
        // "an answer with the same words as an earlier one of the run is not written", and "Comparing counts no steps".
        if let Some(earlier) = repeats {
            match self.fault {
                Some(Fault::RepeatsWritten) => (),
                Some(Fault::EarlierStruck) => self.answers.strike(earlier),
                Some(Fault::RepeatTakesStep) => return self.step(None),
                Some(Fault::RepeatTakesRoom) => {
                    self.room -= answer.len();
                    return Ok(());
                }
                _ => return Ok(()),
            }
        }
        if self.has(Fault::ComparedWithLast) {
            self.answers.numbers.clear();
        }
        let number = self.answers.rounds.len();
        self.answers.numbers.insert(compared, number);
        self.answers.words.extend(answer);
        self.answers.rounds.push(round);
        Ok(())
    }

    /// What an answer is compared by: its words, but for an error put in.
    fn compared(&self, answer: &[u32], terms: usize, round: u32) -> Vec<u32> {
        let mut compared = answer.to_vec();
        match self.fault {
            Some(Fault::ComparedInRound) => compared.push(round),
            Some(Fault::ComparedByTerms) => {
                compared.truncate(terms);
                compared[0] = 0;
            }
            Some(Fault::ComparedInAnyOrder) => compared.sort(),
            Some(Fault::ComparedButLastWord) => {
                compared.pop();
            }
            _ => (),
        }
        compared
    }

    /// What an answer says of a constraint, without what holds already and what mentions a variable with no name.
    fn lines(
        &mut self,
        constraint: Task,
        path: &Path,
        names: &Names,
    ) -> Result<Vec<Vec<u32>>, End> {
        let base = constraint.base;
        match self.program[constraint.goal] {
            Goal::Symbolo(term) | Goal::Numbero(term) => {
                self.step(None)?;
                let kind = self.program[constraint.goal].kind();
                let node = path.substitution.walk(self.value(term, base));
                let Value::Variable(_) = node else {
                    return Ok(vec![]);
                };
                Ok(match names.words(&[node]) {
                    Some(variable) => vec![part(kind, &[variable])],
                    None => {
                        self.trace.note(Event::LineDropped(kind));
                        vec![]
                    }
                })
            }
            Goal::Absento(tag, term) => {
                let tag = self.value(tag, base);
                let term = self.value(term, base);
                let nodes = self.all_nodes(During::Lines, term, &path.substitution)?;
                let mut seen: Vec<Value> = Vec::new();
                let mut lines = Vec::new();
                for node in nodes {
                    if !matches!(node, Value::Variable(_)) || seen.contains(&node) {
                        continue;
                    }
                    seen.push(node);
                    match names.words(&[tag, node]) {
                        Some(words) => lines.push(part(ABSENTO, &[words])),
                        None => self.trace.note(Event::LineDropped(ABSENTO)),
                    }
                }
                Ok(lines)
            }
            Goal::Differ(left, right) => {
                let (left, right) = (self.value(left, base), self.value(right, base));
                let mut trial = path.substitution.clone();
                let Some(bound) = self.unify(During::Lines, &mut trial, left, right)? else {
                    return Ok(vec![]);
                };
                // All right sides are looked at, also if an earlier one has made the constraint irrelevant.
                let mut differs: Vec<Option<Vec<u32>>> = Vec::new();
                for variable in bound {
                    let right = trial.0[variable].expect("the trial bound it");
                    let right = self.all_nodes(During::Lines, right, &path.substitution)?;
                    let left = names.words(&[Value::Variable(variable)]);
                    let right = names.words(&right);
                    differs.push(match (left, right) {
                        (Some(left), Some(right)) => Some(part(DIFFER, &[left, right])),
                        _ => None,
                    });
                }
                let differs: Option<Vec<Vec<u32>>> = differs.into_iter().collect();
                Ok(match differs {
                    None => {
                        self.trace.note(Event::LineDropped(DIFFER));
                        vec![]
                    }
                    Some(differs) if differs.len() == 1 => differs,
                    Some(differs) => vec![part(DISJUNCTION, &differs)],
                })
            }
            _ => unreachable!("no constraint"),
        }
    }
}

impl Answers {
    /// With an error put in, the earlier one of two is struck out, and all behind it move up.
    fn strike(&mut self, number: usize) {
        let mut from = 0;
        for _ in 0..number {
            from += 1 + payload(self.words[from]) as usize;
        }
        let behind = from + 1 + payload(self.words[from]) as usize;
        self.words.drain(from..behind);
        self.rounds.remove(number);
        for later in self.numbers.values_mut() {
            *later -= (*later > number) as usize;
        }
    }
}

impl Nodes {
    fn of(value: Value, during: During) -> Nodes {
        Nodes {
            next: Some(value),
            waiting: Vec::new(),
            during,
            once: false,
            entered: BTreeMap::new(),
            met: BTreeSet::new(),
            arrived_again: false,
        }
    }
}

/// The numbers that an answer gives to open variables, and how many there are.
#[derive(Clone)]
struct Names(Vec<Option<u32>>, u32);

impl Names {
    /// A number for an open variable that has none.
    fn give(&mut self, node: Value) {
        if let Value::Variable(variable) = node {
            if self.0[variable].is_none() {
                self.0[variable] = Some(self.1);
                self.1 += 1;
            }
        }
    }

    /// The words of the terms with these nodes, unless one is a variable with no name.
    fn words(&self, nodes: &[Value]) -> Option<Vec<u32>> {
        // From the last node to the first, each pair finds the sizes of its two parts on the stack.
        let mut first_sizes = vec![0; nodes.len()];
        let mut sizes: Vec<u32> = Vec::new();
        for (at, node) in nodes.iter().enumerate().rev() {
            let mut size = 1;
            if let Value::Pair { .. } = node {
                first_sizes[at] = sizes.pop().expect("a first part");
                size += first_sizes[at] + sizes.pop().expect("a second part");
            }
            sizes.push(size);
        }
        let mut words = Vec::new();
        for (node, first_size) in nodes.iter().zip(first_sizes) {
            words.push(match *node {
                Value::Variable(variable) => word(VARIABLE, self.0[variable]?),
                Value::Pair { .. } => word(PAIR, first_size),
                atom => atom.atom_word()?,
            });
        }
        Some(words)
    }
}

fn part(kind: u32, parts: &[Vec<u32>]) -> Vec<u32> {
    let inside = parts.concat();
    let mut words = vec![word(kind, inside.len() as u32)];
    words.extend(inside);
    words
}
