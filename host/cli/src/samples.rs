//! Sample states for a report: those that a text asks the value of, and some that are made from the value diagram.

use crate::model::Loaded;
use crate::planning::diagram;
use reference::diagram::Row;
use reference::names::first_paths;
use reference::terms::{is_constant, Label, Term, EQUALITY};
use std::collections::{BTreeMap, BTreeSet};
use yindolve::Answer;

/// A state as lines, and where it comes from.
pub struct Sample {
    pub name: String,
    pub lines: Vec<String>,
}

/// As many states are made from the diagram.
const MADE: usize = 4;
/// As many states of the text are taken.
const ASKED: usize = 12;

/// The states at each (value) of the text behind (start), each once.
pub fn asked(model: &Loaded) -> Vec<Sample> {
    let mut engine = model.twin.engine.clone();
    let mut samples: Vec<Sample> = Vec::new();
    for (number, line) in (model.lines + 1..).zip(model.behind.split(|byte| *byte == b'\n')) {
        let is_state = [&b"(objects "[..], b"(is ", b"(true "].iter().any(|form| line.starts_with(form));
        if is_state && engine.line(line) != Answer::Nothing {
            continue;
        }
        let lines = engine.state_lines();
        let known = lines.is_empty() || samples.iter().any(|sample| sample.lines == lines);
        if line == b"(value)" && !known && samples.len() < ASKED {
            samples.push(Sample { name: format!("line {number} of the text"), lines });
        }
    }
    samples
}

/// States that reach the highest leaves of the value diagram: an object for each variable, and the facts of a path true. With a minimum variable the value may be lower, where another
/// object for it leads to a lower leaf.
pub fn made(model: &Loaded) -> Vec<Sample> {
    let value = diagram(&model.twin.engine);
    let mut leaves: Vec<(u64, Vec<(Label, bool)>)> = Vec::new();
    for (row, path) in first_paths(&value) {
        if let Row::Leaf(leaf) = value.rows()[row] {
            leaves.push((leaf, path));
        }
    }
    leaves.sort_by_key(|(leaf, _)| std::cmp::Reverse(*leaf));
    let sample = |(leaf, path): (u64, Vec<(Label, bool)>)| Sample { name: format!("made for leaf {leaf}"), lines: state_for(model, &path) };
    leaves.into_iter().take(MADE).map(sample).collect()
}

/// A state in which every literal of the path holds, as far as it can.
fn state_for(model: &Loaded, path: &[(Label, bool)]) -> Vec<String> {
    let declared = model.twin.known.declarations();
    let arities = declared.arities();
    let constants: BTreeSet<Term> = (0..declared.constants.len() as Term).collect();
    let used = path.iter().flat_map(|(label, _)| label.places().into_iter().take(arities[label.predicate() as usize] as usize));
    let terms: BTreeSet<Term> = constants.iter().copied().chain(used).collect();
    let objects = objects_of(&terms, path);
    let count = objects.values().max().map_or(1, |highest| highest + 1);
    let mut lines = vec![format!("(objects {count})")];
    for constant in terms.iter().filter(|term| is_constant(**term)) {
        lines.push(format!("(is {} {})", declared.constants[*constant as usize], objects[constant]));
    }
    for (label, _) in path.iter().filter(|(label, side)| *side && label.predicate() != EQUALITY) {
        let (name, arity) = &declared.predicates[label.predicate() as usize - 1];
        let places: String = label.places()[..*arity as usize].iter().map(|term| format!(" {}", objects[term])).collect();
        lines.push(format!("(true {name}{places})"));
    }
    lines
}

/// An object for each term, the same for two that the path says are equal.
fn objects_of(terms: &BTreeSet<Term>, path: &[(Label, bool)]) -> BTreeMap<Term, u64> {
    let mut firsts: BTreeMap<Term, Term> = terms.iter().map(|term| (*term, *term)).collect();
    for (label, _) in path.iter().filter(|(label, side)| *side && label.predicate() == EQUALITY) {
        let [a, b] = [label.places()[0], label.places()[1]].map(|term| firsts[&term]);
        for first in firsts.values_mut().filter(|first| **first == b) {
            *first = a;
        }
    }
    let numbers: BTreeMap<Term, u64> = firsts.values().copied().collect::<BTreeSet<Term>>().into_iter().zip(0..).collect();
    firsts.iter().map(|(term, first)| (*term, numbers[first])).collect()
}
