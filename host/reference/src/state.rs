//! Document 01, "States and value", with document 02, L6 and L12.

use crate::diagram::{Diagram, Row};
use crate::refusal::{require, Refusal};
use crate::slips::Slips;
use crate::tables::{worked_with, ENTRIES};
use crate::terms::{is_constant, Arities, Label, Term, VariableKind, EQUALITY};
use std::collections::{BTreeMap, BTreeSet};

/// Up to so many valuations are gone through one after another.
pub const VALUATIONS: u64 = 1_000_000;

#[derive(Clone, Debug, PartialEq, Eq, PartialOrd, Ord)]
pub struct State {
    /// At least 1.
    pub objects: u64,
    /// The object of each constant; one that is not there has object 0.
    pub constants: Vec<u64>,
    /// Predicate and objects, as many as its arity.
    pub facts: BTreeSet<(u64, Vec<u64>)>,
}

/// Objects for variables and parameters.
pub type Valuation = BTreeMap<Term, u64>;

impl State {
    pub fn object(&self, term: Term, valuation: &Valuation) -> u64 {
        if is_constant(term) {
            self.constants.get(term as usize).copied().unwrap_or(0)
        } else {
            valuation[&term]
        }
    }

    pub fn holds(&self, predicate: u64, terms: &[Term], valuation: &Valuation) -> bool {
        let objects: Vec<u64> = terms.iter().map(|t| self.object(*t, valuation)).collect();
        if predicate == EQUALITY {
            objects[0] == objects[1]
        } else {
            self.facts.contains(&(predicate, objects))
        }
    }
}

/// Of the results over all choices of an object for each of the variables the one that is taken before the others.
fn taken<T>(
    objects: u64,
    variables: &[Term],
    valuation: &mut Valuation,
    take: &impl Fn(T, T) -> T,
    result: &mut impl FnMut(&mut Valuation) -> T,
) -> T {
    let Some((first, rest)) = variables.split_first() else {
        return result(valuation);
    };
    let mut best = None;
    for object in 0..objects {
        valuation.insert(*first, object);
        let other = taken(objects, rest, valuation, take, result);
        best = Some(match best {
            Some(best) => take(best, other),
            None => other,
        });
    }
    valuation.remove(first);
    best.expect("a state has an object")
}

/// The highest result over all choices of an object for each of the variables.
pub fn highest<T: Ord>(objects: u64, variables: &[Term], valuation: &mut Valuation, result: &mut impl FnMut(&mut Valuation) -> T) -> T {
    taken(objects, variables, valuation, &T::max, result)
}

/// The lowest one.
pub fn lowest<T: Ord>(objects: u64, variables: &[Term], valuation: &mut Valuation, result: &mut impl FnMut(&mut Valuation) -> T) -> T {
    taken(objects, variables, valuation, &T::min, result)
}

/// The highest result, over the maximum variables, of the lowest over the minimum ones (document 02, L12).
pub fn number_of<T: Ord>(
    objects: u64,
    variables: &BTreeSet<Term>,
    valuation: &mut Valuation,
    slips: Slips,
    result: &mut impl FnMut(&mut Valuation) -> T,
) -> T {
    let of = |kind| -> Vec<Term> { variables.iter().copied().filter(|term| VariableKind::of(*term) == Some(kind)).collect() };
    let (maximum, minimum) = (of(VariableKind::Maximum), of(VariableKind::Minimum));
    if slips.lowest_outside {
        return lowest(objects, &minimum, valuation, &mut |outside| highest(objects, &maximum, outside, result));
    }
    highest(objects, &maximum, valuation, &mut |outside| lowest(objects, &minimum, outside, result))
}

/// The leaf that one valuation leads to.
pub fn leaf_in(diagram: &Diagram, arities: &Arities, state: &State, valuation: &Valuation) -> u64 {
    diagram.leaf_under(&|label: Label| {
        let arity = arities[label.predicate() as usize] as usize;
        state.holds(label.predicate(), &label.places()[..arity], valuation)
    })
}

/// How many valuations there are, of variables of both kinds, or the highest number there is where they are more.
pub fn valuations(diagram: &Diagram, state: &State) -> u64 {
    diagram.variables().iter().fold(1, |count: u64, _| count.saturating_mul(state.objects))
}

/// The number of a diagram, by all valuations one after another.
pub fn by_valuations(diagram: &Diagram, arities: &Arities, state: &State) -> u64 {
    by_valuations_with(diagram, arities, state, &Valuation::new(), Slips::NONE)
}

/// The same with objects for parameters.
pub fn by_valuations_with(diagram: &Diagram, arities: &Arities, state: &State, bound: &Valuation, slips: Slips) -> u64 {
    let leaf = &mut |valuation: &mut Valuation| leaf_in(diagram, arities, state, valuation);
    number_of(state.objects, &diagram.variables(), &mut bound.clone(), slips, leaf)
}

/// The number of a diagram, sooner: an object is chosen for a variable when a test first asks for it, and a part of the diagram that has no leaf above the best so far is left.
struct Search<'a> {
    diagram: &'a Diagram,
    arities: &'a Arities,
    state: &'a State,
    /// The highest leaf below each row.
    highest: Vec<u64>,
    best: Option<u64>,
}

impl Search<'_> {
    /// A variable of this kind that a label asks for and that has no object yet.
    fn asked(&self, label: Label, kind: VariableKind, valuation: &Valuation) -> Option<Term> {
        label.places().into_iter().find(|term| VariableKind::of(*term) == Some(kind) && !valuation.contains_key(term))
    }

    fn child(&self, label: Label, yes: usize, no: usize, valuation: &Valuation) -> usize {
        let terms = &label.places()[..self.arities[label.predicate() as usize] as usize];
        if self.state.holds(label.predicate(), terms, valuation) {
            yes
        } else {
            no
        }
    }

    /// No minimum variable was asked for so far.
    fn outside(&mut self, at: usize, valuation: &mut Valuation) {
        if self.best.is_some_and(|best| self.highest[at] <= best) {
            return;
        }
        let lowest = match self.diagram.rows()[at] {
            Row::Leaf(value) => Ok(value),
            Row::Branch { label, yes, no } => match self.asked(label, VariableKind::Maximum, valuation) {
                Some(variable) => Err(variable),
                None if self.asked(label, VariableKind::Minimum, valuation).is_some() => self.inside(at, valuation),
                None => return self.outside(self.child(label, yes, no, valuation), valuation),
            },
        };
        match lowest {
            Ok(leaf) => self.best = self.best.max(Some(leaf)),
            Err(variable) => {
                for object in 0..self.state.objects {
                    valuation.insert(variable, object);
                    self.outside(at, valuation);
                }
                valuation.remove(&variable);
            }
        }
    }

    /// The lowest leaf over the minimum variables, or one that is not above the best so far; a maximum variable without an object where one is asked for.
    fn inside(&self, at: usize, valuation: &mut Valuation) -> Result<u64, Term> {
        let (label, yes, no) = match self.diagram.rows()[at] {
            Row::Leaf(value) => return Ok(value),
            Row::Branch { label, yes, no } => (label, yes, no),
        };
        if let Some(variable) = self.asked(label, VariableKind::Maximum, valuation) {
            return Err(variable);
        }
        let Some(variable) = self.asked(label, VariableKind::Minimum, valuation) else {
            return self.inside(self.child(label, yes, no, valuation), valuation);
        };
        let mut lowest = u64::MAX;
        for object in 0..self.state.objects {
            valuation.insert(variable, object);
            let leaf = self.inside(at, valuation);
            valuation.remove(&variable);
            lowest = lowest.min(leaf?);
            if Some(lowest) <= self.best {
                break;
            }
        }
        Ok(lowest)
    }
}

/// The highest leaf below each row.
fn highest_below(diagram: &Diagram) -> Vec<u64> {
    let mut highest: Vec<u64> = Vec::new();
    for row in diagram.rows() {
        highest.push(match *row {
            Row::Leaf(value) => value,
            Row::Branch { yes, no, .. } => highest[yes].max(highest[no]),
        });
    }
    highest
}

/// The number of a diagram, parameters having these objects.
pub fn searched(diagram: &Diagram, arities: &Arities, state: &State, bound: &Valuation) -> u64 {
    let mut search = Search { diagram, arities, state, highest: highest_below(diagram), best: None };
    search.outside(diagram.root(), &mut bound.clone());
    search.best.expect("a diagram has a leaf")
}

/// The number of a diagram: the highest, over the maximum variables, of the lowest leaf over the minimum ones. Where there are more than 1,000,000 valuations by tables, but not with a
/// minimum variable (document 02, L6 and L12), or 15.
pub fn value(diagram: &Diagram, arities: &Arities, state: &State) -> Result<u64, Refusal> {
    value_with(diagram, arities, state, &Valuation::new(), Slips::NONE)
}

/// The same with objects for parameters, which do not count as variables.
pub fn value_with(diagram: &Diagram, arities: &Arities, state: &State, bound: &Valuation, slips: Slips) -> Result<u64, Refusal> {
    if valuations(diagram, state) <= VALUATIONS {
        return Ok(match slips.lowest_outside {
            true => by_valuations_with(diagram, arities, state, bound, slips),
            false => searched(diagram, arities, state, bound),
        });
    }
    require(!diagram.has_minimum(), Refusal::Valuations)?;
    worked_with(diagram, arities, state, bound, ENTRIES).map(|worked| worked.value)
}
