//! Relations, and answers, as clauses: the ways to make a query hold, each a list of literals.

use crate::model::model;
use crate::syntax::{self, kind, payload, Goal, Literal, Relation, Term, VARIABLE};

/// Literals that hold together, over variables of their own. Each clause made here has a model.
#[derive(Clone, Debug)]
pub struct Clause {
    pub calls: u32,
    pub query_terms: Vec<Term>,
    pub variables: usize,
    pub literals: Vec<Literal>,
}

impl Clause {
    /// Whether under some assignment the query terms are the tuple and the literals hold.
    pub fn gives(&self, tuple: &[Term]) -> bool {
        let mut literals = self.literals.clone();
        for (term, tree) in self.query_terms.iter().zip(tuple) {
            literals.push(Literal::Equal(term.clone(), tree.clone()));
        }
        model(self.variables, &literals).is_some()
    }
}

/// The clauses of relation 0 with at most `most` calls. The relations give a tuple with n of these calls just if a
/// clause with n calls gives it. None if there are more than `limit`, at the end or on the way.
pub fn of_program(program: &[Relation], most: u32, limit: usize) -> Option<Vec<Clause>> {
    let query = &program[0];
    let unfolding = Unfolding {
        program,
        most,
        limit,
    };
    let clause = Clause {
        calls: 0,
        query_terms: (0..query.parameters).map(Term::Variable).collect(),
        variables: query.variables,
        literals: Vec::new(),
    };
    unfolding.ways(&query.goal, 0, clause)
}

/// The clauses of an answer with so many query terms: it shows a tuple just if one of them gives it. What is wrong, if
/// the words don't have the form of an answer or a variable is in no query term.
pub fn of_answer(words: &[u32], parameters: usize) -> Result<Vec<Clause>, &'static str> {
    let (query_terms, constraints) =
        syntax::answer(words, parameters).ok_or("it has not an answer's form")?;
    let variables = words.iter().filter(|&&word| kind(word) == VARIABLE);
    let variables = variables.map(|&word| payload(word) as usize + 1).max();
    let mut in_query_terms = vec![false; variables.unwrap_or(0)];
    for leaf in query_terms.iter().flat_map(Term::leaves) {
        if let Term::Variable(number) = leaf {
            in_query_terms[*number] = true;
        }
    }
    if in_query_terms.contains(&false) {
        return Err("a variable of it is in no query term");
    }
    let unfolding = Unfolding {
        program: &[],
        most: 0,
        limit: usize::MAX,
    };
    let clause = Clause {
        calls: 0,
        query_terms,
        variables: in_query_terms.len(),
        literals: Vec::new(),
    };
    let ways = unfolding.ways(&Goal::Conjunction(constraints), 0, clause);
    Ok(ways.expect("there is no limit"))
}

struct Unfolding<'p> {
    program: &'p [Relation],
    most: u32,
    limit: usize,
}

impl Unfolding<'_> {
    /// The ways to make a goal hold beside a clause; the goal's variables are the clause's from `base` on.
    fn ways(&self, goal: &Goal, base: usize, mut clause: Clause) -> Option<Vec<Clause>> {
        match goal {
            Goal::Literal(literal) => {
                clause.literals.push(literal.shifted(base));
                // Literals without a model have none with others added either.
                let possible = model(clause.variables, &clause.literals).is_some();
                Some(possible.then_some(clause).into_iter().collect())
            }
            Goal::Conjunction(goals) => {
                let mut clauses = vec![clause];
                for goal in goals {
                    let longer = clauses.into_iter().map(|one| self.ways(goal, base, one));
                    clauses = self.all(longer)?;
                }
                Some(clauses)
            }
            Goal::Disjunction(goals) => {
                let goals = goals.iter();
                self.all(goals.map(|goal| self.ways(goal, base, clause.clone())))
            }
            Goal::Call(_, _) if clause.calls == self.most => Some(Vec::new()),
            Goal::Call(number, arguments) => {
                let called = &self.program[*number];
                let new = clause.variables;
                clause.calls += 1;
                clause.variables += called.variables;
                for (parameter, argument) in arguments.iter().enumerate() {
                    let parameter = Term::Variable(new + parameter);
                    let argument = argument.shifted(base);
                    clause.literals.push(Literal::Equal(parameter, argument));
                }
                self.ways(&called.goal, new, clause)
            }
        }
    }

    /// All clauses of the parts, unless they are too many.
    fn all(&self, parts: impl Iterator<Item = Option<Vec<Clause>>>) -> Option<Vec<Clause>> {
        let mut all = Vec::new();
        for part in parts {
            all.extend(part?);
            if all.len() > self.limit {
                return None;
            }
        }
        Some(all)
    }
}
