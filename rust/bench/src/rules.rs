//! Rules as text, read once for all engines: `(rule name (p ..) (l ..) goal)`, the first rule being the query. Goals are
//! `(same t t)`, `(other t t)`, `(symbol t)`, `(number t)`, `(without tag t)`, `(all g ..)`, `(any g ..)` and `(name t ..)`;
//! terms are variables, `'symbol`, numbers and lists `(t .. . t)`. A semicolon starts a comment.

use std::collections::HashMap;

#[derive(Clone, Debug, PartialEq)]
pub enum Term {
    Variable(usize),
    Symbol(usize),
    Number(u32),
    Empty,
    Pair(Box<Term>, Box<Term>),
}

#[derive(Clone, Debug)]
pub enum Goal {
    Same(Term, Term),
    Other(Term, Term),
    Symbol(Term),
    Number(Term),
    /// The tag, a symbol or a number, and the term that it may not be in.
    Without(Term, Term),
    All(Vec<Goal>),
    Any(Vec<Goal>),
    Call(usize, Vec<Term>),
}

#[derive(Clone, Debug)]
pub struct Rule {
    pub name: String,
    pub params: usize,
    pub vars: usize,
    pub body: Goal,
}

#[derive(Debug)]
pub struct Rules {
    pub rules: Vec<Rule>,
    pub symbols: Vec<String>,
}

#[derive(Debug)]
enum Form {
    Word(String),
    List(Vec<Form>),
}

/// Panics where the text is no rules: the texts are this crate's own.
pub fn parse(text: &str) -> Rules {
    let mut tokens = tokens(text).into_iter().peekable();
    let mut forms = Vec::new();
    while tokens.peek().is_some() {
        forms.push(form(&mut tokens));
    }
    let numbers = forms
        .iter()
        .enumerate()
        .map(|(number, form)| (name_of(form), number))
        .collect();
    let mut reader = Reader {
        rules: numbers,
        symbols: HashMap::new(),
    };
    let rules = forms.iter().map(|form| reader.rule(form)).collect();
    let mut symbols: Vec<_> = reader.symbols.into_iter().collect();
    symbols.sort_by_key(|symbol| symbol.1);
    Rules {
        rules,
        symbols: symbols.into_iter().map(|symbol| symbol.0).collect(),
    }
}

fn tokens(text: &str) -> Vec<String> {
    let text: Vec<&str> = text
        .lines()
        .map(|line| line.split(';').next().unwrap_or(""))
        .collect();
    let text = text.join("\n").replace('(', " ( ").replace(')', " ) ");
    text.split_whitespace().map(str::to_string).collect()
}

fn form(tokens: &mut std::iter::Peekable<impl Iterator<Item = String>>) -> Form {
    let token = tokens.next().expect("a form");
    if token != "(" {
        return Form::Word(token);
    }
    let mut items = Vec::new();
    while tokens.peek().expect("a closing parenthesis") != ")" {
        items.push(form(tokens));
    }
    tokens.next();
    Form::List(items)
}

fn list(form: &Form) -> &[Form] {
    match form {
        Form::List(items) => items,
        Form::Word(word) => panic!("a list, not {word}"),
    }
}

fn word(form: &Form) -> &str {
    match form {
        Form::Word(word) => word,
        Form::List(items) => panic!("a word, not {items:?}"),
    }
}

fn name_of(rule: &Form) -> String {
    word(&list(rule)[1]).to_string()
}

struct Reader {
    rules: HashMap<String, usize>,
    symbols: HashMap<String, usize>,
}

impl Reader {
    fn rule(&mut self, form: &Form) -> Rule {
        let [keyword, name, params, locals, goal] = list(form) else {
            panic!("a rule, not {form:?}");
        };
        assert_eq!(word(keyword), "rule");
        let names: Vec<&str> = list(params).iter().chain(list(locals)).map(word).collect();
        Rule {
            name: word(name).to_string(),
            params: list(params).len(),
            vars: names.len(),
            body: self.goal(goal, &names),
        }
    }

    fn goal(&mut self, form: &Form, names: &[&str]) -> Goal {
        let items = list(form);
        match (word(&items[0]), &items[1..]) {
            ("same", [a, b]) => Goal::Same(self.term(a, names), self.term(b, names)),
            ("other", [a, b]) => Goal::Other(self.term(a, names), self.term(b, names)),
            ("symbol", [a]) => Goal::Symbol(self.term(a, names)),
            ("number", [a]) => Goal::Number(self.term(a, names)),
            ("without", [tag, a]) => match self.term(tag, names) {
                tag @ (Term::Symbol(_) | Term::Number(_)) => {
                    Goal::Without(tag, self.term(a, names))
                }
                other => panic!("a tag, not {other:?}"),
            },
            ("all", goals) => Goal::All(goals.iter().map(|goal| self.goal(goal, names)).collect()),
            ("any", goals) => Goal::Any(goals.iter().map(|goal| self.goal(goal, names)).collect()),
            (name, terms) => {
                let rule = *self
                    .rules
                    .get(name)
                    .unwrap_or_else(|| panic!("no rule {name}"));
                Goal::Call(
                    rule,
                    terms.iter().map(|term| self.term(term, names)).collect(),
                )
            }
        }
    }

    fn term(&mut self, form: &Form, names: &[&str]) -> Term {
        match form {
            Form::List(items) => self.list(items, names),
            Form::Word(word) => {
                if let Some(symbol) = word.strip_prefix('\'') {
                    let next = self.symbols.len();
                    return Term::Symbol(*self.symbols.entry(symbol.to_string()).or_insert(next));
                }
                if let Ok(number) = word.parse() {
                    return Term::Number(number);
                }
                let place = names.iter().position(|name| name == word);
                Term::Variable(place.unwrap_or_else(|| panic!("no variable {word}")))
            }
        }
    }

    fn list(&mut self, items: &[Form], names: &[&str]) -> Term {
        match items {
            [] => Term::Empty,
            [Form::Word(dot), last] if dot == "." => self.term(last, names),
            [first, rest @ ..] => {
                let first = self.term(first, names);
                Term::Pair(Box::new(first), Box::new(self.list(rest, names)))
            }
        }
    }
}
