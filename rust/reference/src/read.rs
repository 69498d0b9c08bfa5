//! Reading a program: conditions 1 to 8.

use crate::syntax::*;
use crate::word::*;

/// The number of the condition that turned the input away, and the place.
#[derive(Clone, Copy, Debug, PartialEq, Eq)]
pub struct Refusal {
    pub number: u32,
    pub place: usize,
}

pub const PROGRAM_WORDS: usize = 16_384;
pub const RELATIONS: usize = 256;
pub const RELATION_VARIABLES: usize = 255;

fn refused<T>(number: u32, place: usize) -> Result<T, Refusal> {
    Err(Refusal { number, place })
}

pub fn read(words: &[u32]) -> Result<Program, Refusal> {
    if words.is_empty() || words.len() > PROGRAM_WORDS {
        return refused(1, 0);
    }
    let mut reader = Reader {
        words,
        at: 0,
        variables: 0,
        program: Program::default(),
        calls: Vec::new(),
    };
    while reader.at < words.len() {
        reader.relation()?;
    }
    let program = reader.program;
    for call in &reader.calls {
        match program.relations.get(call.relation) {
            None => return refused(7, call.place),
            Some(called) if called.parameters != call.arguments => return refused(8, call.place),
            Some(_) => (),
        }
    }
    Ok(program)
}

/// What conditions 7 and 8 need of a call.
struct Called {
    place: usize,
    relation: usize,
    arguments: usize,
}

struct Reader<'w> {
    words: &'w [u32],
    /// The next word to read.
    at: usize,
    /// The count of the relation being read.
    variables: usize,
    program: Program,
    /// In the order of the call words: no call stands inside another.
    calls: Vec<Called>,
}

/// What is still to be read; `end` is the end of the enclosing part. Kept on a stack of its own, since
/// goals may be nested as deep as the program is long.
enum Want {
    Goal {
        end: usize,
    },
    /// Goals up to the end, maybe none.
    MoreGoals {
        end: usize,
    },
    Term {
        end: usize,
    },
    /// Terms up to the end, maybe none.
    MoreTerms {
        end: usize,
    },
    /// No word left over.
    Closed {
        end: usize,
    },
    /// The parts have been read: put them together.
    Make(Make),
}

/// What is put together; `from` tells where its own parts begin among those read.
enum Make {
    Equal,
    Differ,
    Symbolo,
    Numbero,
    Absento {
        tag: TermId,
    },
    Conjunction {
        from: usize,
    },
    Disjunction {
        from: usize,
    },
    Call {
        place: usize,
        relation: usize,
        from: usize,
    },
    Pair,
}

impl Reader<'_> {
    /// The word that stands next in the part that ends at `end`.
    fn next(&self, end: usize) -> Result<u32, Refusal> {
        if self.at == end {
            return refused(3, end);
        }
        Ok(self.words[self.at])
    }

    /// A word of the given kind that nothing follows: its payload.
    fn plain(&mut self, wanted: u32, end: usize) -> Result<usize, Refusal> {
        let next = self.next(end)?;
        if kind(next) != wanted {
            return refused(2, self.at);
        }
        self.at += 1;
        Ok(payload(next) as usize)
    }

    /// An absento's tag: a symbol or a number, and nothing else (document 02, Note 3).
    fn tag(&mut self, end: usize) -> Result<TermId, Refusal> {
        let next = self.next(end)?;
        let tag = match kind(next) {
            SYMBOL => Term::Symbol(payload(next)),
            NUMBER => Term::Number(payload(next)),
            _ => return refused(2, self.at),
        };
        self.at += 1;
        Ok(self.program.add_term(tag))
    }

    /// Goes past a word whose payload counts words that follow, and says where they end.
    fn open(&mut self, end: usize) -> Result<usize, Refusal> {
        let inner = self.at + 1 + payload(self.words[self.at]) as usize;
        if inner > end {
            return refused(3, self.at);
        }
        self.at += 1;
        Ok(inner)
    }

    fn closed(&self, end: usize) -> Result<(), Refusal> {
        if self.at < end {
            return refused(3, self.at);
        }
        Ok(())
    }

    fn relation(&mut self) -> Result<(), Refusal> {
        let place = self.at;
        if kind(self.words[place]) != RELATION {
            return refused(2, place);
        }
        let end = self.open(self.words.len())?;
        if self.program.relations.len() == RELATIONS {
            return refused(6, place);
        }
        let parameters = self.plain(NUMBER, end)?;
        let variables = self.plain(NUMBER, end)?;
        if variables > RELATION_VARIABLES || parameters > variables {
            return refused(4, self.at - 1);
        }
        self.variables = variables;
        let goal = self.goal_tree(end)?;
        self.closed(end)?;
        self.program.relations.push(Relation {
            parameters,
            variables,
            goal,
        });
        Ok(())
    }

    /// One goal with all that it holds.
    fn goal_tree(&mut self, end: usize) -> Result<GoalId, Refusal> {
        let mut wants = vec![Want::Goal { end }];
        let mut goals: Vec<GoalId> = Vec::new();
        let mut terms: Vec<TermId> = Vec::new();
        while let Some(want) = wants.pop() {
            match want {
                Want::Goal { end } => self.goal(end, &mut wants, goals.len(), terms.len())?,
                Want::MoreGoals { end } => {
                    if self.at < end {
                        wants.extend([Want::MoreGoals { end }, Want::Goal { end }]);
                    }
                }
                Want::Term { end } => terms.extend(self.term(end, &mut wants)?),
                Want::MoreTerms { end } => {
                    if self.at < end {
                        wants.extend([Want::MoreTerms { end }, Want::Term { end }]);
                    }
                }
                Want::Closed { end } => self.closed(end)?,
                Want::Make(make) => self.make(make, &mut goals, &mut terms),
            }
        }
        Ok(goals.pop().expect("one goal was wanted"))
    }

    /// The word of a goal. What must follow it goes to `wants`, the first part last.
    fn goal(
        &mut self,
        end: usize,
        wants: &mut Vec<Want>,
        goals: usize,
        terms: usize,
    ) -> Result<(), Refusal> {
        let place = self.at;
        let kind = kind(self.next(end)?);
        if !(EQUAL..=CALL).contains(&kind) {
            return refused(2, place);
        }
        let end = self.open(end)?;
        match kind {
            EQUAL => {
                wants.push(Want::Make(Make::Equal));
                wants.extend([Want::Closed { end }, Want::Term { end }, Want::Term { end }]);
            }
            DIFFER => {
                wants.push(Want::Make(Make::Differ));
                wants.extend([Want::Closed { end }, Want::Term { end }, Want::Term { end }]);
            }
            SYMBOLO => {
                wants.push(Want::Make(Make::Symbolo));
                wants.extend([Want::Closed { end }, Want::Term { end }]);
            }
            NUMBERO => {
                wants.push(Want::Make(Make::Numbero));
                wants.extend([Want::Closed { end }, Want::Term { end }]);
            }
            ABSENTO => {
                let tag = self.tag(end)?;
                wants.push(Want::Make(Make::Absento { tag }));
                wants.extend([Want::Closed { end }, Want::Term { end }]);
            }
            CONJUNCTION => {
                wants.push(Want::Make(Make::Conjunction { from: goals }));
                wants.extend([Want::MoreGoals { end }, Want::Goal { end }]);
            }
            DISJUNCTION => {
                wants.push(Want::Make(Make::Disjunction { from: goals }));
                wants.extend([Want::MoreGoals { end }, Want::Goal { end }]);
            }
            _ => {
                let relation = self.plain(NUMBER, end)?;
                let from = terms;
                wants.push(Want::Make(Make::Call {
                    place,
                    relation,
                    from,
                }));
                wants.push(Want::MoreTerms { end });
            }
        }
        Ok(())
    }

    /// The word of a term: the whole term, or for a pair none yet and its parts to `wants`.
    fn term(&mut self, end: usize, wants: &mut Vec<Want>) -> Result<Option<TermId>, Refusal> {
        let place = self.at;
        let next = self.next(end)?;
        let payload = payload(next);
        let term = match kind(next) {
            VARIABLE if payload as usize >= self.variables => return refused(5, place),
            VARIABLE => Term::Variable(payload as usize),
            SYMBOL => Term::Symbol(payload),
            NUMBER => Term::Number(payload),
            EMPTY if payload != 0 => return refused(3, place),
            EMPTY => Term::Empty,
            PAIR => {
                let first = self.open(end)?;
                wants.extend([Want::Make(Make::Pair), Want::Term { end }]);
                wants.extend([Want::Closed { end: first }, Want::Term { end: first }]);
                return Ok(None);
            }
            _ => return refused(2, place),
        };
        self.at += 1;
        Ok(Some(self.program.add_term(term)))
    }

    fn make(&mut self, make: Make, goals: &mut Vec<GoalId>, terms: &mut Vec<TermId>) {
        let mut term = || terms.pop().expect("the part was read");
        let goal = match make {
            Make::Pair => {
                let (second, first) = (term(), term());
                terms.push(self.program.add_term(Term::Pair(first, second)));
                return;
            }
            Make::Equal => {
                let (right, left) = (term(), term());
                Goal::Equal(left, right)
            }
            Make::Differ => {
                let (right, left) = (term(), term());
                Goal::Differ(left, right)
            }
            Make::Symbolo => Goal::Symbolo(term()),
            Make::Numbero => Goal::Numbero(term()),
            Make::Absento { tag } => Goal::Absento(tag, term()),
            Make::Conjunction { from } => Goal::Conjunction(goals.split_off(from)),
            Make::Disjunction { from } => Goal::Disjunction(goals.split_off(from)),
            Make::Call {
                place,
                relation,
                from,
            } => {
                let arguments = terms.split_off(from);
                self.calls.push(Called {
                    place,
                    relation,
                    arguments: arguments.len(),
                });
                Goal::Call(relation, arguments)
            }
        };
        goals.push(self.program.add_goal(goal));
    }
}
