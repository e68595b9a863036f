//! Document 02, L2 and L12: a value diagram as one nested form, which (text) prints, and the numbers of a reward's variables, so that such a form is read back as it was.

use crate::declarations::{Declarations, Variables};
use crate::diagram::{Diagram, Row};
use crate::refusal::{require, Refusal};
use crate::slips::Slips;
use crate::terms::{is_constant, written_variable, Label, Term, VariableKind, EQUALITY};
use crate::text::{read_number, WrittenAtom, WrittenDiagram, WrittenTerm, LINE_BYTES, OPEN_BRACKETS};

/// What a form takes in a line.
#[derive(Clone, Copy, Debug, PartialEq, Eq)]
pub struct Extent {
    pub bytes: u128,
    /// The most brackets that are open together.
    pub brackets: usize,
}

impl Extent {
    /// The line (reward FORM), without its line feed.
    fn as_reward(self) -> Extent {
        Extent { bytes: self.bytes.saturating_add("(reward )".len() as u128), brackets: self.brackets + 1 }
    }
}

/// The line that a diagram's form makes as a reward. Shared rows are written out each time, so that there may be very many bytes.
pub fn reward_line(diagram: &Diagram, declared: &Declarations) -> Extent {
    let mut extents: Vec<Extent> = Vec::new();
    for row in diagram.rows() {
        extents.push(match *row {
            Row::Leaf(value) => Extent { bytes: value.to_string().len() as u128, brackets: 0 },
            Row::Branch { label, yes, no } => {
                let (yes, no) = (extents[yes], extents[no]);
                let own = "(if   )".len() + atom(label, declared).len();
                let bytes = yes.bytes.saturating_add(no.bytes).saturating_add(own as u128);
                Extent { bytes, brackets: 1 + yes.brackets.max(no.brackets).max(1) }
            }
        });
    }
    extents[diagram.root()].as_reward()
}

/// The form of a diagram without parameters: 19 where the reward line made of it would be none.
pub fn form(diagram: &Diagram, declared: &Declarations) -> Result<String, Refusal> {
    let line = reward_line(diagram, declared);
    require(line.bytes <= LINE_BYTES as u128 && line.brackets <= OPEN_BRACKETS, Refusal::Length)?;
    Ok(written(diagram, diagram.root(), declared))
}

fn written(diagram: &Diagram, at: usize, declared: &Declarations) -> String {
    match diagram.rows()[at] {
        Row::Leaf(value) => value.to_string(),
        Row::Branch { label, yes, no } => {
            format!("(if {} {} {})", atom(label, declared), written(diagram, yes, declared), written(diagram, no, declared))
        }
    }
}

fn atom(label: Label, declared: &Declarations) -> String {
    let (name, arity) = match label.predicate() {
        EQUALITY => ("=", 2),
        predicate => {
            let (name, arity) = &declared.predicates[predicate as usize - 1];
            (name.as_str(), *arity as usize)
        }
    };
    let terms: String = label.places()[..arity].iter().map(|t| format!(" {}", term(*t, declared))).collect();
    format!("({name}{terms})")
}

fn term(term: Term, declared: &Declarations) -> String {
    if is_constant(term) {
        declared.constants[term as usize].clone()
    } else {
        written_variable(term).expect("a value diagram has no parameter")
    }
}

/// The variables of a reward, in the order of their numbers, kind by kind: by ascending N where every one of a kind is written vN behind its sign, else by first occurrence. Every variable
/// of the line counts, also in parts that reduce away.
pub fn variables_in_order(reward: &WrittenDiagram, slips: Slips) -> Variables {
    let in_order = |kind: VariableKind| {
        let mut names = Vec::new();
        first_occurrences(reward, kind, &mut names);
        if names.iter().all(|name| number_of(name).is_some()) && !slips.first_occurrence {
            names.sort_by_key(|name| number_of(name));
        }
        names
    };
    Variables { maximum: in_order(VariableKind::Maximum), minimum: in_order(VariableKind::Minimum) }
}

/// N, where a name is vN, N decimal without leading zeros.
fn number_of(name: &str) -> Option<u64> {
    let digits = name.strip_prefix('v').filter(|digits| !digits.is_empty())?;
    read_number(digits.as_bytes())
}

fn first_occurrences(written: &WrittenDiagram, kind: VariableKind, names: &mut Vec<String>) {
    let WrittenDiagram::If(atom, yes, no) = written else {
        return;
    };
    let terms = match atom {
        WrittenAtom::Equality(a, b) => vec![a, b],
        WrittenAtom::Predicate(_, terms) => terms.iter().collect(),
    };
    for term in terms {
        match term {
            WrittenTerm::Variable(own, name) if *own == kind && !names.contains(name) => names.push(name.clone()),
            _ => {}
        }
    }
    first_occurrences(yes, kind, names);
    first_occurrences(no, kind, names);
}
