//! A diagram as a text writes it: nested conditions over numbered terms, neither ordered nor reduced.

use crate::diagram::{Diagram, Row, Space};
use crate::refusal::Refusal;
use crate::regress::row_step;
use crate::state::{State, Valuation};
use crate::terms::{is_variable, Term, Test};
use std::collections::BTreeSet;

#[derive(Clone, Debug, PartialEq, Eq)]
pub enum Tree {
    Number(u64),
    If { predicate: u64, terms: Vec<Term>, yes: Box<Tree>, no: Box<Tree> },
}

impl Tree {
    /// The diagram of a text, read as one call: a number forms its leaf when it is read, an if is a row step when it closes.
    pub fn read(&self) -> Result<Diagram, Refusal> {
        self.read_in(&mut Space::new())?.as_result()
    }

    fn read_in(&self, space: &mut Space) -> Result<Diagram, Refusal> {
        match self {
            Tree::Number(value) => {
                space.form(Row::Leaf(*value))?;
                Ok(Diagram::leaf(*value))
            }
            Tree::If { predicate, terms, yes, no } => {
                let yes = yes.read_in(space)?;
                let no = no.read_in(space)?;
                row_step(space, &Diagram::test(Test::atom(*predicate, terms)), &yes, &no)
            }
        }
    }

    /// The number that a valuation leads to, by the conditions as they are written.
    pub fn number_in(&self, state: &State, valuation: &Valuation) -> u64 {
        match self {
            Tree::Number(value) => *value,
            Tree::If { predicate, terms, yes, no } => {
                let branch = if state.holds(*predicate, terms, valuation) { yes } else { no };
                branch.number_in(state, valuation)
            }
        }
    }

    /// Those of both kinds.
    pub fn variables(&self) -> BTreeSet<Term> {
        match self {
            Tree::Number(_) => BTreeSet::new(),
            Tree::If { terms, yes, no, .. } => {
                let own = terms.iter().copied().filter(|t| is_variable(*t));
                own.chain(yes.variables()).chain(no.variables()).collect()
            }
        }
    }
}
