//! Whether literals hold together under some assignment of finite trees.
//!
//! The nodes are the variables and all terms in the equalities, with their parts. The least equivalence of nodes that has the
//! sides of each equality in one class, and with two pairs also their first parts and their second parts, makes classes. A class
//! with an atom in it stands for the atom, one with a pair for the pair of its parts' classes. Any other is open and stands for
//! an atom of its own that is in no literal: a number if a numbero has one of the class's variables, else a symbol. Under
//! this assignment, the generic one, the literals are looked up.
//!
//! So a model that is found is one, as every literal was seen to hold. And if there is one, it is found: let the literals
//! hold under an assignment A. That two nodes have the same tree under A is an equivalence as described, so it holds wherever
//! the least one does, and all nodes of a class have the same tree under A. Hence no class has two different atoms, or an
//! atom and a pair, and none is a part of itself, because no finite tree is. So there is the generic assignment G, and
//! the tree of a term under A is its tree under G with the atom of each open class replaced by that class's tree under A. Now
//! - equal holds under G by the making of G;
//! - differ: sides that are the same under G would be the same under A;
//! - symbolo: the term is a symbol under A, so under G it is the same symbol, or an open class's atom, which is a symbol:
//!   a numbero with a variable of the class would not hold under A. The same for numbero;
//! - absento: an atom of the tree under G is one under A too, and not the tag, or it is an open class's, which is no tag.

use crate::syntax::{pair, payload, word, Literal, Term, NUMBER, SYMBOL};

/// An assignment, a tree for each variable, under which all literals hold, if there is one.
pub fn model(variables: usize, literals: &[Literal]) -> Option<Vec<Term>> {
    let mut classes = Classes::new(variables);
    for literal in literals {
        if let Literal::Equal(left, right) = literal {
            let (left, right) = (classes.node(left), classes.node(right));
            classes.merge(left, right);
        }
    }
    classes.close();
    let unused = 1 + largest_payload(literals);
    let own_atom = |class: usize| {
        let is_number = literals.iter().any(|literal| match literal {
            Literal::Numbero(Term::Variable(variable)) => classes.class[*variable] == class,
            _ => false,
        });
        let kind = if is_number { NUMBER } else { SYMBOL };
        Term::Atom(word(kind, unused + class as u32))
    };
    let mut assignment = Vec::new();
    for variable in 0..variables {
        assignment.push(classes.tree(variable, &own_atom, &mut Vec::new())?);
    }
    let mut literals = literals.iter();
    literals
        .all(|literal| literal.holds(&assignment))
        .then_some(assignment)
}

fn largest_payload(literals: &[Literal]) -> u32 {
    let terms = literals.iter().flat_map(Literal::terms);
    let payloads = terms.flat_map(Term::leaves).map(|leaf| match leaf {
        Term::Atom(word) => payload(*word),
        _ => 0,
    });
    payloads.max().unwrap_or(0)
}

enum Node {
    Variable,
    Atom(u32),
    /// The nodes of the parts.
    Pair(usize, usize),
}

struct Classes {
    /// The variables first, by number.
    nodes: Vec<Node>,
    /// The class of each node.
    class: Vec<usize>,
}

impl Classes {
    /// Each variable is a class of its own.
    fn new(variables: usize) -> Classes {
        Classes {
            nodes: (0..variables).map(|_| Node::Variable).collect(),
            class: (0..variables).collect(),
        }
    }

    /// The term's node. Other than for a variable it is a new one, and a class of its own.
    fn node(&mut self, term: &Term) -> usize {
        let node = match term {
            Term::Variable(number) => return *number,
            Term::Atom(word) => Node::Atom(*word),
            Term::Pair(first, second) => Node::Pair(self.node(first), self.node(second)),
        };
        let at = self.nodes.len();
        self.nodes.push(node);
        self.class.push(at);
        at
    }

    /// Makes the classes of two nodes one; tells whether they were two.
    fn merge(&mut self, left: usize, right: usize) -> bool {
        let (old, new) = (self.class[left], self.class[right]);
        for class in &mut self.class {
            if *class == old {
                *class = new;
            }
        }
        old != new
    }

    /// Merges the parts of pairs that are in one class, until nothing changes.
    fn close(&mut self) {
        let mut pairs = Vec::new();
        for (at, node) in self.nodes.iter().enumerate() {
            if let Node::Pair(first, second) = *node {
                pairs.push((at, first, second));
            }
        }
        let mut changed = true;
        while changed {
            changed = false;
            for &(left, left_first, left_second) in &pairs {
                for &(right, right_first, right_second) in &pairs {
                    if self.class[left] == self.class[right] {
                        changed |= self.merge(left_first, right_first);
                        changed |= self.merge(left_second, right_second);
                    }
                }
            }
        }
    }

    /// The tree that a node's class stands for, in one of the classes `around`. None if it is one of these itself.
    fn tree(
        &self,
        node: usize,
        own_atom: &impl Fn(usize) -> Term,
        around: &mut Vec<usize>,
    ) -> Option<Term> {
        let class = self.class[node];
        if around.contains(&class) {
            return None;
        }
        // Any one will do: where two of a class don't fit each other there is no model, so this one won't be one.
        let members = (0..self.nodes.len()).filter(|&other| self.class[other] == class);
        let mut members = members.map(|member| &self.nodes[member]);
        match members.find(|node| !matches!(node, Node::Variable)) {
            None | Some(Node::Variable) => Some(own_atom(class)),
            Some(Node::Atom(word)) => Some(Term::Atom(*word)),
            Some(Node::Pair(first, second)) => {
                around.push(class);
                let first = self.tree(*first, own_atom, around)?;
                let second = self.tree(*second, own_atom, around)?;
                around.pop();
                Some(pair(first, second))
            }
        }
    }
}
