//! Labels and paths in words, for people: names as the model declares them, variables ?v0, ?v1, .. and %v0, %v1, .. in their order.

use crate::declarations::Declarations;
use crate::diagram::{Diagram, Row};
use crate::terms::{is_constant, written_variable, Label, Term, EQUALITY, FIRST_PARAMETER};

/// The names that labels are told by; an action's own where its parameters may occur.
#[derive(Clone, Copy)]
pub struct Names<'a> {
    pub declarations: &'a Declarations,
    pub parameters: &'a [String],
}

impl Names<'_> {
    pub fn term(&self, term: Term) -> String {
        if is_constant(term) {
            self.declarations.constants.get(term as usize).cloned().unwrap_or(format!("constant {term}"))
        } else if let Some(variable) = written_variable(term) {
            variable
        } else {
            let place = term - FIRST_PARAMETER;
            self.parameters.get(place as usize).map_or(format!("!p{place}"), |name| format!("!{name}"))
        }
    }

    /// The atom that a label tests: `aboard(?v0, ?v1)`, `hub = ?v0`.
    pub fn label(&self, label: Label) -> String {
        let names: Vec<String> = label.places().iter().map(|term| self.term(*term)).collect();
        if label.predicate() == EQUALITY {
            return format!("{} = {}", names[0], names[1]);
        }
        match self.declarations.predicates.get(label.predicate() as usize - 1) {
            Some((name, 0)) => name.clone(),
            Some((name, arity)) => format!("{name}({})", names[..*arity as usize].join(", ")),
            None => format!("label {}", label.0),
        }
    }

    /// The tests of a path with their sides: `heavy(!p), not here(!v)`.
    pub fn path(&self, path: &[(Label, bool)]) -> String {
        let literal = |(label, side): &(Label, bool)| match (side, label.predicate()) {
            (true, _) => self.label(*label),
            (false, EQUALITY) => self.label(*label).replace(" = ", " is not "),
            (false, _) => format!("not {}", self.label(*label)),
        };
        path.iter().map(literal).collect::<Vec<String>>().join(", ")
    }
}

/// A path to every row that a walk from the root, true side first, reaches: the first one to each row.
pub fn first_paths(diagram: &Diagram) -> Vec<(usize, Vec<(Label, bool)>)> {
    let mut seen = vec![false; diagram.rows().len()];
    let mut found = Vec::new();
    let mut open = vec![(diagram.root(), Vec::new())];
    while let Some((at, path)) = open.pop() {
        if std::mem::replace(&mut seen[at], true) {
            continue;
        }
        if let Row::Branch { label, yes, no } = diagram.rows()[at] {
            for (side, child) in [(false, no), (true, yes)] {
                open.push((child, [&path[..], &[(label, side)]].concat()));
            }
        }
        found.push((at, path));
    }
    found
}
