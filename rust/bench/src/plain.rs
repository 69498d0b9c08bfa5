//! The engine once more in plain Rust, over the same memory and with the same steps: the limit that the proved code is
//! measured against. Nothing is checked at run time.

use kindcanvas::{Bound, Ending, Report};

const POSITIONS: u32 = 16384;
const PAYLOAD: u32 = (1 << 28) - 1;

const VARIABLE: u32 = 0;
const SYMBOL: u32 = 1;
const NUMBER: u32 = 2;
const PAIR: u32 = 4;
const EQUAL: u32 = 5;
const DIFFER: u32 = 6;
const SYMBOLO: u32 = 7;
const NUMBERO: u32 = 8;
const ABSENTO: u32 = 9;
const CONJUNCTION: u32 = 10;
const DISJUNCTION: u32 = 11;
const CALL: u32 = 12;
const ANSWER: u32 = 15;

/// Places in the scratch, as in the proved engine; the bindings begin at 0.
const TRAIL: u32 = 2048;
const NAMES: u32 = 4096;
/// Cells of two words, numbered from 1.
const CELLS: u32 = 6142;
const POINTS: u32 = 8192;
const CONSTRAINTS: u32 = 10240;
const PAIRS: u32 = 10752;
const RELATIONS: u32 = 11776;

const MOST_VARIABLES: u32 = 2048;
const MOST_GOALS: u32 = 1024;
const MOST_DISJUNCTIONS: u32 = 256;
const MOST_CONSTRAINTS: u32 = 512;
const MOST_WAITING: u32 = 512;
/// Words with a bit for each variable.
const MARKS: usize = MOST_VARIABLES as usize / 32;

/// Why a run is broken off.
#[derive(Clone, Copy)]
enum Stop {
    Steps,
    Output,
    Path(Bound),
}

/// The program and the scratch. Copied freely; only the search writes.
#[derive(Clone, Copy)]
struct Memory {
    program: *const u32,
    scratch: *mut u32,
}

struct State {
    /// The first waiting goal's cell, or 0.
    head: u32,
    trail: u32,
    variables: u32,
    goals: u32,
    constraints: u32,
    calls: u32,
    choices: u32,
    /// The steps left.
    steps: u32,
}

enum Took {
    Goes,
    Leaves,
    Cut,
}

enum Searched {
    Answer,
    Over,
}

/// A line of an answer: a type's kind and its variable, absento's tag and its variable, or a trial's mark and its equations.
#[derive(Clone, Copy)]
enum Line {
    Typed(u32, u32),
    Lacks(u32, u32),
    Differ(u32, u32),
}

/// Runs a program through its rounds.
///
/// # Safety
/// The program must be accepted by `kindcanvas_check` and the scratch have at least `kindcanvas::SCRATCH_WORDS` words;
/// all that are lent are set to 0.
pub unsafe fn run(
    program: &[u32],
    limit: u32,
    steps: u32,
    output: &mut [u32],
    scratch: &mut [u32],
) -> Report {
    scratch.fill(0);
    let memory = Memory {
        program: program.as_ptr(),
        scratch: scratch.as_mut_ptr(),
    };
    memory.fill_relations(program.len() as u32);
    let mut writer = Writer {
        memory,
        output: Output {
            words: output.as_mut_ptr(),
            end: output.len().min(PAYLOAD as usize),
        },
        used: 0,
        answers: 0,
        index: 0,
    };
    let mut left = steps;
    let mut number = 0;
    let mut cut = 0;
    let end = loop {
        match round(memory, &mut writer, number, &mut left) {
            Err(Stop::Steps) => break Ending::Steps,
            Err(Stop::Output) => break Ending::Output,
            Err(Stop::Path(bound)) => break Ending::Path(bound),
            Ok(cuts) => cut = cuts,
        }
        if cut == 0 {
            break Ending::Finished;
        }
        if limit <= number {
            break Ending::Rounds;
        }
        number += 1;
    };
    let (used, answers) = (writer.used, writer.answers);
    scratch.fill(0);
    output[used..].fill(0);
    Report {
        end,
        round: number,
        steps: steps - left,
        answers,
        words: used,
        cut,
    }
}

/// One round: how many branches it cut.
fn round(memory: Memory, writer: &mut Writer, number: u32, left: &mut u32) -> Result<u32, Stop> {
    let query = memory.get(RELATIONS);
    let params = payload(memory.word(query + 1));
    let mut state = State {
        head: 0,
        trail: 0,
        variables: payload(memory.word(query + 2)),
        goals: 1,
        constraints: 0,
        calls: 0,
        choices: 0,
        steps: *left,
    };
    let mut goal = query + 3;
    let mut cuts = 0;
    let ended = loop {
        match memory.search(&mut state, goal, number, &mut cuts) {
            Err(stop) => break Err(stop),
            Ok(Searched::Over) => break Ok(cuts),
            Ok(Searched::Answer) => {}
        }
        if let Err(stop) = writer.answer(&mut state, params) {
            break Err(stop);
        }
        match memory.backtrack(&mut state) {
            None => break Ok(cuts),
            Some(next) => goal = next,
        }
    };
    memory.undo(&mut state, 0);
    *left = state.steps;
    ended
}

#[inline(always)]
fn kind(word: u32) -> u32 {
    word >> 28
}

#[inline(always)]
fn payload(word: u32) -> u32 {
    word & PAYLOAD
}

/// The path's variable that a variable's word is, by the environment of its reference.
#[inline(always)]
fn variable(reference: u32, word: u32) -> u32 {
    reference / POSITIONS + payload(word)
}

/// The word by which a leaf is sought: an open variable has its number for a word, an atom its own.
#[inline(always)]
fn leaf_word(reference: u32, word: u32) -> u32 {
    match kind(word) {
        VARIABLE => variable(reference, word),
        _ => word,
    }
}

/// Is a pair entered? The last bound variable on the way to it, where there is one, lets in once and is marked.
#[inline(always)]
fn enters(entered: &mut [u32; MARKS], through: u32) -> bool {
    if through == 0 {
        return true;
    }
    let variable = through - 1;
    // SAFETY: there is a bit for each of the most variables that a path can have.
    let word = unsafe { entered.get_unchecked_mut((variable / 32) as usize) };
    let before = *word;
    *word |= 1 << (variable % 32);
    *word != before
}

impl Memory {
    #[inline(always)]
    fn word(self, reference: u32) -> u32 {
        // SAFETY: references are to words of the program, by its acceptance.
        unsafe { *self.program.add((reference % POSITIONS) as usize) }
    }

    #[inline(always)]
    fn get(self, at: u32) -> u32 {
        // SAFETY: every place is inside an area of the scratch, by the bounds of a path.
        unsafe { *self.scratch.add(at as usize) }
    }

    #[inline(always)]
    fn set(self, at: u32, word: u32) {
        // SAFETY: as for `get`.
        unsafe { *self.scratch.add(at as usize) = word }
    }

    fn fill_relations(self, len: u32) {
        let mut at = 0;
        let mut number = 0;
        while at < len {
            self.set(RELATIONS + number, at);
            at += 1 + payload(self.word(at));
            number += 1;
        }
    }

    /// The term followed through its bindings, its word, and 0 or the last bound variable on the way plus 1.
    #[inline(always)]
    fn walk_through(self, mut term: u32) -> (u32, u32, u32) {
        let mut through = 0;
        loop {
            let word = self.word(term);
            if kind(word) != VARIABLE {
                return (term, word, through);
            }
            let here = variable(term, word);
            let bound = self.get(here);
            if bound == 0 {
                return (term, word, through);
            }
            through = here + 1;
            term = bound - 1;
        }
    }

    #[inline(always)]
    fn walk(self, term: u32) -> (u32, u32) {
        let (at, word, _) = self.walk_through(term);
        (at, word)
    }

    /// Past the term at a reference.
    #[inline(always)]
    fn skip(self, mut term: u32) -> u32 {
        loop {
            let word = self.word(term);
            if kind(word) != PAIR {
                return term + 1;
            }
            term += 1 + payload(word);
        }
    }

    #[inline(always)]
    fn bind(self, state: &mut State, variable: u32, term: u32) {
        self.set(variable, term + 1);
        self.set(TRAIL + state.trail, variable);
        state.trail += 1;
    }

    #[inline(always)]
    fn undo(self, state: &mut State, mark: u32) {
        while mark < state.trail {
            state.trail -= 1;
            self.set(self.get(TRAIL + state.trail), 0);
        }
    }

    /// Is the node with the word `sought` in the term? An open variable has its number for a word. First parts that are pairs recurse.
    fn scan(self, sought: u32, mut term: u32, waiting: u32, left: &mut u32) -> Result<bool, Stop> {
        loop {
            if *left == 0 {
                return Err(Stop::Steps);
            }
            let (at, word) = self.walk(term);
            if kind(word) != PAIR {
                *left -= 1;
                return Ok(leaf_word(at, word) == sought);
            }
            if waiting == MOST_WAITING {
                return Err(Stop::Path(Bound::Waiting));
            }
            *left -= 1;
            if *left == 0 {
                return Err(Stop::Steps);
            }
            term = at + 1 + payload(word);
            let (first, word) = self.walk(at + 1);
            if kind(word) != PAIR {
                *left -= 1;
                if leaf_word(first, word) == sought {
                    return Ok(true);
                }
            } else if self.scan(sought, first, waiting + 1, left)? {
                return Ok(true);
            }
        }
    }

    /// Does the open variable occur in the followed term? The marks are made for a pair only: a leaf enters nothing.
    #[inline(always)]
    fn occurs(self, sought: u32, term: u32, left: &mut u32) -> Result<bool, Stop> {
        if *left == 0 {
            return Err(Stop::Steps);
        }
        let word = self.word(term);
        if kind(word) != PAIR {
            *left -= 1;
            return Ok(leaf_word(term, word) == sought);
        }
        self.scan_once(&mut [0; MARKS], sought, term, 0, left)
    }

    /// As `scan`, but what a variable is bound to is entered once: another arrival is one node, with nothing below it.
    fn scan_once(
        self,
        entered: &mut [u32; MARKS],
        sought: u32,
        mut term: u32,
        waiting: u32,
        left: &mut u32,
    ) -> Result<bool, Stop> {
        loop {
            if *left == 0 {
                return Err(Stop::Steps);
            }
            let (at, word, through) = self.walk_through(term);
            if kind(word) != PAIR {
                *left -= 1;
                return Ok(leaf_word(at, word) == sought);
            }
            if !enters(entered, through) {
                *left -= 1;
                return Ok(false);
            }
            if waiting == MOST_WAITING {
                return Err(Stop::Path(Bound::Waiting));
            }
            *left -= 1;
            if *left == 0 {
                return Err(Stop::Steps);
            }
            term = at + 1 + payload(word);
            let (first, word, through) = self.walk_through(at + 1);
            if kind(word) != PAIR {
                *left -= 1;
                if leaf_word(first, word) == sought {
                    return Ok(true);
                }
            } else if !enters(entered, through) {
                *left -= 1;
            } else if self.scan_once(entered, sought, first, waiting + 1, left)? {
                return Ok(true);
            }
        }
    }

    /// All nodes of a term, for their steps: no node has a pair's word.
    fn look(self, term: u32, left: &mut u32) -> Result<(), Stop> {
        self.scan(PAIR << 28, term, 0, left).map(|_| ())
    }

    fn unify(self, state: &mut State, left: u32, right: u32) -> Result<bool, Stop> {
        let (mut a, mut b) = (left, right);
        let mut waiting = 0;
        loop {
            if state.steps == 0 {
                return Err(Stop::Steps);
            }
            let (x, u) = self.walk(a);
            let (y, v) = self.walk(b);
            if kind(u) == PAIR && kind(v) == PAIR {
                if waiting == MOST_WAITING {
                    return Err(Stop::Path(Bound::Waiting));
                }
                state.steps -= 1;
                let at = PAIRS + 2 * waiting;
                self.set(at, x + 1 + payload(u));
                self.set(at + 1, y + 1 + payload(v));
                waiting += 1;
                a = x + 1;
                b = y + 1;
                continue;
            }
            state.steps -= 1;
            if kind(u) == VARIABLE {
                let open = variable(x, u);
                if kind(v) != VARIABLE || variable(y, v) != open {
                    if self.occurs(open, y, &mut state.steps)? {
                        return Ok(false);
                    }
                    self.bind(state, open, y);
                }
            } else if kind(v) == VARIABLE {
                let open = variable(y, v);
                if self.occurs(open, x, &mut state.steps)? {
                    return Ok(false);
                }
                self.bind(state, open, x);
            } else if u != v {
                return Ok(false);
            }
            if waiting == 0 {
                return Ok(true);
            }
            waiting -= 1;
            let at = PAIRS + 2 * waiting;
            a = self.get(at);
            b = self.get(at + 1);
        }
    }

    /// Does a type of this kind reach the open variable?
    fn clashes(self, state: &State, other: u32, open: u32) -> bool {
        (0..state.constraints).any(|i| {
            let constraint = self.get(CONSTRAINTS + i);
            if kind(self.word(constraint)) != other {
                return false;
            }
            let (at, word) = self.walk(constraint + 1);
            kind(word) == VARIABLE && variable(at, word) == open
        })
    }

    fn review_type(self, state: &State, term: u32, atom: u32, other: u32) -> bool {
        let (at, word) = self.walk(term);
        match kind(word) {
            VARIABLE => !self.clashes(state, other, variable(at, word)),
            found => found == atom,
        }
    }

    /// Does the constraint still hold?
    #[inline(always)]
    fn review(self, state: &mut State, constraint: u32) -> Result<bool, Stop> {
        if state.steps == 0 {
            return Err(Stop::Steps);
        }
        state.steps -= 1;
        match kind(self.word(constraint)) {
            DIFFER => {
                let mark = state.trail;
                let joined = self.unify(state, constraint + 1, self.skip(constraint + 1))?;
                let bound = state.trail != mark;
                self.undo(state, mark);
                Ok(!joined || bound)
            }
            ABSENTO => {
                let tag = self.word(constraint + 1);
                self.scan(tag, constraint + 2, 0, &mut state.steps)
                    .map(|found| !found)
            }
            SYMBOLO => Ok(self.review_type(state, constraint + 1, SYMBOL, NUMBERO)),
            _ => Ok(self.review_type(state, constraint + 1, NUMBER, SYMBOLO)),
        }
    }

    #[inline(always)]
    fn take_equal(self, state: &mut State, goal: u32) -> Result<Took, Stop> {
        let mark = state.trail;
        if !self.unify(state, goal + 1, self.skip(goal + 1))? {
            return Ok(Took::Leaves);
        }
        if state.trail != mark {
            for i in 0..state.constraints {
                if !self.review(state, self.get(CONSTRAINTS + i))? {
                    return Ok(Took::Leaves);
                }
            }
        }
        Ok(Took::Goes)
    }

    #[inline(always)]
    fn take_constraint(self, state: &mut State, goal: u32) -> Result<Took, Stop> {
        if state.constraints == MOST_CONSTRAINTS {
            return Err(exceeds(state, Bound::Constraints));
        }
        self.set(CONSTRAINTS + state.constraints, goal);
        state.constraints += 1;
        match self.review(state, goal)? {
            true => Ok(Took::Goes),
            false => Ok(Took::Leaves),
        }
    }

    #[inline(always)]
    fn push_goal(self, state: &mut State, goal: u32) {
        state.goals += 1;
        self.set(CELLS + 2 * state.goals, goal);
        self.set(CELLS + 2 * state.goals + 1, state.head);
        state.head = state.goals;
    }

    #[inline(always)]
    fn take_conj(self, state: &mut State, conjunction: u32) -> Result<Took, Stop> {
        let end = conjunction + 1 + payload(self.word(conjunction));
        let mut goal = conjunction + 1;
        let mut filled = state.goals;
        loop {
            if filled == MOST_GOALS {
                return Err(exceeds(state, Bound::Goals));
            }
            filled += 1;
            self.set(CELLS + 2 * filled, goal);
            goal += 1 + payload(self.word(goal));
            if goal == end {
                self.set(CELLS + 2 * filled + 1, state.head);
                state.head = state.goals + 1;
                state.goals = filled;
                return Ok(Took::Goes);
            }
            self.set(CELLS + 2 * filled + 1, filled + 1);
        }
    }

    #[inline(always)]
    fn take_disj(self, state: &mut State, disjunction: u32) -> Result<Took, Stop> {
        if state.goals == MOST_GOALS {
            return Err(exceeds(state, Bound::Goals));
        }
        let end = disjunction + 1 + payload(self.word(disjunction));
        let first = disjunction + 1;
        let rest = first + 1 + payload(self.word(first));
        if rest != end {
            if state.choices == MOST_DISJUNCTIONS {
                return Err(exceeds(state, Bound::Disjunctions));
            }
            let at = POINTS + 8 * state.choices;
            self.set(at, rest);
            self.set(at + 1, end % POSITIONS);
            self.set(at + 2, state.head);
            self.set(at + 3, state.trail);
            self.set(at + 4, state.variables);
            self.set(at + 5, state.goals);
            self.set(at + 6, state.constraints);
            self.set(at + 7, state.calls);
            state.choices += 1;
        }
        self.push_goal(state, first);
        Ok(Took::Goes)
    }

    /// What a parameter is bound to: its argument, but of a variable the last variable on its way.
    #[inline(always)]
    fn last_variable(self, term: u32) -> u32 {
        let mut at = term;
        let mut word = self.word(at);
        while kind(word) == VARIABLE {
            let bound = self.get(variable(at, word));
            if bound == 0 {
                break;
            }
            word = self.word(bound - 1);
            if kind(word) != VARIABLE {
                break;
            }
            at = bound - 1;
        }
        at
    }

    #[inline(always)]
    fn take_call(self, state: &mut State, goal: u32, round: u32) -> Result<Took, Stop> {
        if round <= state.calls {
            return Ok(Took::Cut);
        }
        let relation = self.get(RELATIONS + payload(self.word(goal + 1)));
        let params = payload(self.word(relation + 1));
        let vars = payload(self.word(relation + 2));
        if MOST_VARIABLES < state.variables + vars {
            return Err(exceeds(state, Bound::Variables));
        }
        if state.goals == MOST_GOALS {
            return Err(exceeds(state, Bound::Goals));
        }
        let mut argument = goal + 2;
        for parameter in state.variables..state.variables + params {
            self.bind(state, parameter, self.last_variable(argument));
            argument = self.skip(argument);
        }
        self.push_goal(state, relation + 3 + POSITIONS * state.variables);
        state.variables += vars;
        state.calls += 1;
        Ok(Took::Goes)
    }

    #[inline(always)]
    fn take(self, state: &mut State, goal: u32, round: u32) -> Result<Took, Stop> {
        if state.steps == 0 {
            return Err(Stop::Steps);
        }
        state.steps -= 1;
        match kind(self.word(goal)) {
            EQUAL => self.take_equal(state, goal),
            CONJUNCTION => self.take_conj(state, goal),
            DISJUNCTION => self.take_disj(state, goal),
            CALL => self.take_call(state, goal, round),
            _ => self.take_constraint(state, goal),
        }
    }

    /// Backtracks to the newest choice point and gives its next alternative.
    #[inline(always)]
    fn backtrack(self, state: &mut State) -> Option<u32> {
        if state.choices == 0 {
            return None;
        }
        let at = POINTS + 8 * (state.choices - 1);
        let goal = self.get(at);
        self.undo(state, self.get(at + 3));
        state.head = self.get(at + 2);
        state.variables = self.get(at + 4);
        state.goals = self.get(at + 5) + 1;
        state.constraints = self.get(at + 6);
        state.calls = self.get(at + 7);
        let next = goal + 1 + payload(self.word(goal));
        if next % POSITIONS == self.get(at + 1) {
            state.choices -= 1;
        } else {
            self.set(at, next);
        }
        Some(goal)
    }

    /// Turn after turn, until a path gives an answer or the round ends.
    fn search(
        self,
        state: &mut State,
        task: u32,
        round: u32,
        cuts: &mut u32,
    ) -> Result<Searched, Stop> {
        let mut goal = task;
        loop {
            match self.take(state, goal, round)? {
                Took::Goes if state.head != 0 => {
                    goal = self.get(CELLS + 2 * state.head);
                    state.head = self.get(CELLS + 2 * state.head + 1);
                    continue;
                }
                Took::Goes if state.calls == round => return Ok(Searched::Answer),
                Took::Goes | Took::Leaves => {}
                Took::Cut => *cuts += 1,
            }
            match self.backtrack(state) {
                None => return Ok(Searched::Over),
                Some(next) => goal = next,
            }
        }
    }
}

/// The bound that taking a goal would exceed: the step is not counted.
#[cold]
fn exceeds(state: &mut State, bound: Bound) -> Stop {
    state.steps += 1;
    Stop::Path(bound)
}

/// The output. The answers stand from its first word on, and their index, if there is one, in the last of the usable words.
#[derive(Clone, Copy)]
struct Output {
    words: *mut u32,
    /// The usable words.
    end: usize,
}

/// The first index is made with so many answers, and has so many slots. A slot is 0, or the place of an answer plus 1.
const FIRST_ANSWERS: u32 = 8;
const FIRST_SLOTS: usize = 32;
/// The hash's factor.
const FACTOR: u64 = 708568507;

enum Entered {
    /// An answer with the same words was there.
    Repeated,
    New,
    /// All slots are taken, by other answers.
    Lost,
}

impl Output {
    #[inline(always)]
    fn read(self, at: usize) -> u32 {
        // SAFETY: `at` is below `self.end`, which is at most the output's length.
        unsafe { *self.words.add(at) }
    }

    #[inline(always)]
    fn write(self, at: usize, word: u32) {
        // SAFETY: as for `read`.
        unsafe { *self.words.add(at) = word }
    }

    /// Past the part at a place.
    #[inline(always)]
    fn past(self, place: usize) -> usize {
        place + 1 + payload(self.read(place)) as usize
    }

    /// Of the words from `start` up to `next`.
    #[inline(always)]
    fn hash(self, start: usize, next: usize) -> u64 {
        (start..next).fold(0, |hash, at| {
            let product = (hash + u64::from(self.read(at))) * FACTOR;
            (product >> 32) + (product & 0xffff_ffff)
        })
    }

    /// Do the words from `start` up to `next` stand at `place` too?
    #[inline(always)]
    fn same(self, place: usize, start: usize, next: usize) -> bool {
        (start..next).all(|at| self.read(place + at - start) == self.read(at))
    }

    /// Is the answer from `start` up to `next` among those before it, looked at one after the other?
    fn among(self, start: usize, next: usize) -> bool {
        let mut place = 0;
        while place < start {
            if self.same(place, start, next) {
                return true;
            }
            place = self.past(place);
        }
        false
    }

    /// Seeks the answer from `start` up to `next` in an index of so many slots, and enters it if it is not there.
    #[inline(always)]
    fn enter(self, index: usize, start: usize, next: usize) -> Entered {
        let first = self.end - index;
        // The header says no more than how many words follow.
        let low = self.hash(start + 1, next) & 0xffff_ffff;
        let mut slot = (low * index as u64 >> 32) as usize;
        for _ in 0..index {
            match self.read(first + slot) {
                0 => {
                    self.write(first + slot, start as u32 + 1);
                    return Entered::New;
                }
                entry if self.same(entry as usize - 1, start, next) => return Entered::Repeated,
                _ => slot = if slot + 1 == index { 0 } else { slot + 1 },
            }
        }
        Entered::Lost
    }

    /// An index of all answers up to `used`. It has more slots than there are answers.
    fn build(self, index: usize, used: usize) {
        for at in self.end - index..self.end {
            self.write(at, 0);
        }
        let mut place = 0;
        while place < used {
            let next = self.past(place);
            self.enter(index, place, next);
            place = next;
        }
    }

    /// Are more slots made? Only if as many words stay free, or if those that there are are nearly full.
    fn worthwhile(answers: u32, index: usize, free: usize, wanted: usize) -> bool {
        wanted <= free / 2 || answers as usize >= index - index / 8 && wanted <= free
    }

    /// The slots from now on, with so many answers: at least two for each, if that many fit.
    fn fitted(self, index: usize, used: usize, answers: u32) -> usize {
        let wanted = match index {
            0 if answers == FIRST_ANSWERS => FIRST_SLOTS,
            _ if answers as usize >= index / 2 => 2 * index,
            _ => index,
        };
        if wanted == index || !Output::worthwhile(answers, index, self.end - used, wanted) {
            return index;
        }
        self.build(wanted, used);
        wanted
    }

    /// Is the answer from `start` up to `next` a repeat? And the slots afterwards: none once answers reach into them.
    fn repeated(self, index: usize, start: usize, next: usize) -> (bool, usize) {
        if index != 0 && index <= self.end - next {
            match self.enter(index, start, next) {
                Entered::Repeated => return (true, index),
                Entered::New => return (false, index),
                Entered::Lost => {}
            }
        }
        (self.among(start, next), 0)
    }
}

/// Puts words: they are stored, or compared with those that are there already.
struct Writer {
    memory: Memory,
    output: Output,
    used: usize,
    answers: u32,
    /// The slots of the index, or 0.
    index: usize,
}

impl Writer {
    /// One word: whether it is there now.
    #[inline(always)]
    fn put_word(&self, at: usize, word: u32, write: bool) -> bool {
        if write {
            self.output.write(at, word);
            return true;
        }
        self.output.read(at) == word
    }

    /// One word before `end`: the place after it.
    #[inline(always)]
    fn put(&self, at: usize, end: usize, word: u32, write: bool) -> Option<usize> {
        (at < end && self.put_word(at, word, write)).then_some(at + 1)
    }

    /// The word of a part that ends at `next`, once the part is put.
    #[inline(always)]
    fn put_head(&self, start: usize, next: usize, kind: u32, write: bool) -> Option<usize> {
        let size = (next - start - 1) as u32;
        self.put_word(start, kind << 28 | size, write)
            .then_some(next)
    }

    #[inline(always)]
    fn number(&self, open: u32) -> u32 {
        self.memory.get(NAMES + open) % 4096 - 1
    }

    fn put_term(&self, mut term: u32, start: usize, end: usize, write: bool) -> Option<usize> {
        let mut at = start;
        loop {
            let (found, word) = self.memory.walk(term);
            match kind(word) {
                VARIABLE => return self.put(at, end, self.number(variable(found, word)), write),
                PAIR => {
                    if end <= at {
                        return None;
                    }
                    let next = self.put_term(found + 1, at + 1, end, write)?;
                    at = self.put_head(at, next, PAIR, write)?;
                    term = found + 1 + payload(word);
                }
                _ => return self.put(at, end, word, write),
            }
        }
    }

    /// Equation `i` of a trial whose bindings are kept from `mark` on.
    fn put_equation(
        &self,
        mark: u32,
        i: u32,
        start: usize,
        end: usize,
        write: bool,
    ) -> Option<usize> {
        if end <= start {
            return None;
        }
        let middle = self.put(
            start + 1,
            end,
            self.number(kept_variable(self.memory, i)),
            write,
        )?;
        let next = self.put_term(self.memory.get(TRAIL + mark + i), middle, end, write)?;
        self.put_head(start, next, DIFFER, write)
    }

    fn put_line(&self, line: Line, start: usize, end: usize, write: bool) -> Option<usize> {
        match line {
            Line::Typed(kind, open) => {
                let next = self.put(start, end, kind << 28 | 1, write)?;
                self.put(next, end, self.number(open), write)
            }
            Line::Lacks(tag, open) => {
                let second = self.put(start, end, ABSENTO << 28 | 2, write)?;
                let third = self.put(second, end, tag, write)?;
                self.put(third, end, self.number(open), write)
            }
            Line::Differ(mark, 1) => self.put_equation(mark, 0, start, end, write),
            Line::Differ(mark, count) => {
                if end <= start {
                    return None;
                }
                let mut at = start + 1;
                for i in 0..count {
                    at = self.put_equation(mark, i, at, end, write)?;
                }
                self.put_head(start, at, DISJUNCTION, write)
            }
        }
    }

    fn has_name(&self, open: u32) -> bool {
        self.memory.get(NAMES + open) != 0
    }

    fn all_named(&self, mut term: u32) -> bool {
        loop {
            let (found, word) = self.memory.walk(term);
            match kind(word) {
                VARIABLE => return self.has_name(variable(found, word)),
                PAIR => {
                    if !self.all_named(found + 1) {
                        return false;
                    }
                    term = found + 1 + payload(word);
                }
                _ => return true,
            }
        }
    }

    fn line_named(&self, line: Line) -> bool {
        match line {
            Line::Typed(_, open) | Line::Lacks(_, open) => self.has_name(open),
            Line::Differ(mark, count) => (0..count).all(|i| {
                self.has_name(kept_variable(self.memory, i))
                    && self.all_named(self.memory.get(TRAIL + mark + i))
            }),
        }
    }

    fn line_repeated(&self, line: Line, first: usize, at: usize) -> bool {
        let mut place = first;
        while place < at {
            let next = self.output.past(place);
            if self.put_line(line, place, next, false) == Some(next) {
                return true;
            }
            place = next;
        }
        false
    }

    /// Adds a line unless it is dropped or repeated. `None` for a page on which something did not fit.
    fn add_line(&self, line: Line, first: usize, page: Option<usize>) -> Option<usize> {
        let at = page?;
        if !self.line_named(line) || self.line_repeated(line, first, at) {
            return Some(at);
        }
        self.put_line(line, at, self.output.end, true)
    }

    fn add_absent(
        &self,
        tag: u32,
        mut term: u32,
        first: usize,
        mut page: Option<usize>,
    ) -> Option<usize> {
        loop {
            let (found, word) = self.memory.walk(term);
            match kind(word) {
                VARIABLE => {
                    return self.add_line(Line::Lacks(tag, variable(found, word)), first, page)
                }
                PAIR => {
                    page = self.add_absent(tag, found + 1, first, page);
                    term = found + 1 + payload(word);
                }
                _ => return page,
            }
        }
    }

    fn add_constraint(
        &self,
        state: &mut State,
        constraint: u32,
        first: usize,
        page: Option<usize>,
    ) -> Result<Option<usize>, Stop> {
        let memory = self.memory;
        match kind(memory.word(constraint)) {
            DIFFER => {
                let mark = state.trail;
                if !memory.unify(state, constraint + 1, memory.skip(constraint + 1))? {
                    memory.undo(state, mark);
                    return Ok(page);
                }
                let count = state.trail - mark;
                keep_equations(memory, state, mark);
                for i in 0..count {
                    memory.look(memory.get(TRAIL + mark + i), &mut state.steps)?;
                }
                Ok(self.add_line(Line::Differ(mark, count), first, page))
            }
            ABSENTO => {
                memory.look(constraint + 2, &mut state.steps)?;
                Ok(self.add_absent(memory.word(constraint + 1), constraint + 2, first, page))
            }
            typed => {
                memory.look(constraint + 1, &mut state.steps)?;
                let (found, word) = memory.walk(constraint + 1);
                match kind(word) {
                    VARIABLE => {
                        Ok(self.add_line(Line::Typed(typed, variable(found, word)), first, page))
                    }
                    _ => Ok(page),
                }
            }
        }
    }

    fn put_parameter(&self, parameter: u32, at: usize) -> Option<usize> {
        match self.memory.get(parameter) {
            0 => self.put(at, self.output.end, self.number(parameter), true),
            bound => self.put_term(bound - 1, at, self.output.end, true),
        }
    }

    /// The query terms behind the answer's own word.
    fn begin(&self, params: u32) -> Option<usize> {
        if self.output.end <= self.used {
            return None;
        }
        (0..params).try_fold(self.used + 1, |at, parameter| {
            self.put_parameter(parameter, at)
        })
    }

    /// Writes the answer of a path behind those already there, where it stays unless it is a repeat.
    fn answer(&mut self, state: &mut State, params: u32) -> Result<(), Stop> {
        let memory = self.memory;
        for parameter in 0..params {
            match memory.get(parameter) {
                0 if state.steps == 0 => return Err(Stop::Steps),
                0 => state.steps -= 1,
                bound => memory.look(bound - 1, &mut state.steps)?,
            }
        }
        let mut top = 0;
        for parameter in 0..params {
            top = match memory.get(parameter) {
                0 => name_variable(memory, parameter, top),
                bound => name_term(memory, bound - 1, top),
            };
        }
        let mut page = self.begin(params);
        let first = page.unwrap_or(self.used);
        for i in 0..state.constraints {
            page = self.add_constraint(state, memory.get(CONSTRAINTS + i), first, page)?;
        }
        clear_names(memory, top);
        let next = page.ok_or(Stop::Output)?;
        self.put_head(self.used, next, ANSWER, true);
        let (repeated, index) = self.output.repeated(self.index, self.used, next);
        self.index = index;
        if !repeated {
            self.used = next;
            self.answers += 1;
            self.index = self.output.fitted(index, next, self.answers);
        }
        Ok(())
    }
}

/// `top` is the number of names, and 4,096 times the variable named last plus 1. A named variable's word is the `top` before it,
/// plus 1, so that names are taken back one by one.
fn name_variable(memory: Memory, open: u32, top: u32) -> u32 {
    if memory.get(NAMES + open) != 0 {
        return top;
    }
    memory.set(NAMES + open, top + 1);
    top % 4096 + 1 + 4096 * (open + 1)
}

fn name_term(memory: Memory, mut term: u32, mut top: u32) -> u32 {
    loop {
        let (found, word) = memory.walk(term);
        match kind(word) {
            VARIABLE => return name_variable(memory, variable(found, word), top),
            PAIR => {
                top = name_term(memory, found + 1, top);
                term = found + 1 + payload(word);
            }
            _ => return top,
        }
    }
}

fn clear_names(memory: Memory, top: u32) {
    let mut last = top;
    while last != 0 {
        let at = NAMES + last / 4096 - 1;
        last = memory.get(at) - 1;
        memory.set(at, 0);
    }
}

/// Takes a trial's bindings back. A right side takes its variable's place on the trail, and the variables go to the pairs' area,
/// two to a word.
fn keep_equations(memory: Memory, state: &mut State, mark: u32) {
    while mark < state.trail {
        state.trail -= 1;
        let open = memory.get(TRAIL + state.trail);
        memory.set(TRAIL + state.trail, memory.get(open) - 1);
        memory.set(open, 0);
        let i = state.trail - mark;
        let at = PAIRS + i / 2;
        let shift = 16 * (i % 2);
        memory.set(at, memory.get(at) & !(0xffff << shift) | open << shift);
    }
}

fn kept_variable(memory: Memory, i: u32) -> u32 {
    memory.get(PAIRS + i / 2) >> (16 * (i % 2)) & 0xffff
}
