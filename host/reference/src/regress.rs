//! Regression, replacement and freeing (document 01, "Regression").

use crate::combine::{combine_in, Operator};
use crate::diagram::{Diagram, Row, Space};
use crate::refusal::{require, Refusal};
use crate::slips::Slips;
use crate::terms::{is_parameter, is_variable, Label, Term, VariableKind, EQUALITY, FIRST_PARAMETER, FIRST_VARIABLE};
use std::collections::BTreeMap;

/// The truth diagram of each predicate that has one under a variant.
pub type Truths = BTreeMap<u64, Diagram>;

/// (T times true result) + ((1 - T) times false result), names shared; the earliest refusal counts.
pub fn row_step(space: &mut Space, test: &Diagram, yes: &Diagram, no: &Diagram) -> Result<Diagram, Refusal> {
    let opposite = test.exchanged();
    space.form_diagram(test)?;
    space.form_diagram(&opposite)?;
    let left = combine_in(space, Operator::Product, test, yes)?.diagram;
    let right = combine_in(space, Operator::Product, &opposite, no)?.diagram;
    Ok(combine_in(space, Operator::Sum, &left, &right)?.diagram)
}

/// Row by row in number order: a leaf is formed as it is, a branch by the row step with the test given for its label.
fn rebuild(
    space: &mut Space,
    diagram: &Diagram,
    test: &mut impl FnMut(&mut Space, Label) -> Result<Diagram, Refusal>,
) -> Result<Diagram, Refusal> {
    let mut results: Vec<Diagram> = Vec::new();
    for row in diagram.rows() {
        results.push(match *row {
            Row::Leaf(value) => {
                space.form(*row)?;
                Diagram::leaf(value)
            }
            Row::Branch { label, yes, no } => {
                let test = test(space, label)?;
                row_step(space, &test, &results[yes], &results[no])?
            }
        });
    }
    Ok(results.pop().expect("a diagram has a row"))
}

/// Replaces terms, all together, bottom up.
fn replace(space: &mut Space, diagram: &Diagram, replacement: &impl Fn(Term) -> Term) -> Result<Diagram, Refusal> {
    rebuild(space, diagram, &mut |_, label| Ok(Diagram::test(label.replaced(replacement))))
}

/// The truth diagram used at p(t1 ..): its variable number i, from 0, is replaced by the term at place i. It has no minimum variable.
fn with_arguments(space: &mut Space, truth: &Diagram, label: Label, slips: Slips) -> Result<Diagram, Refusal> {
    let places = label.places();
    let argument = |term: Term| if is_variable(term) { places[(term - FIRST_VARIABLE) as usize] } else { term };
    if !slips.arguments_in_turn {
        return replace(space, truth, &argument);
    }
    let mut diagram = truth.clone();
    for variable in truth.variables() {
        diagram = replace(space, &diagram, &|term| if term == variable { argument(term) } else { term })?;
    }
    Ok(diagram)
}

/// The diagram read in the next state, said in the old one. One call.
pub fn regress(diagram: &Diagram, truths: &Truths, slips: Slips) -> Result<Diagram, Refusal> {
    regress_in(&mut Space::new(), diagram, truths, slips)?.as_result()
}

/// A regression inside a call's space, its result of any size.
pub fn regress_in(space: &mut Space, diagram: &Diagram, truths: &Truths, slips: Slips) -> Result<Diagram, Refusal> {
    let mut test = |space: &mut Space, label: Label| match truths.get(&label.predicate()) {
        Some(truth) if label.predicate() != EQUALITY => with_arguments(space, truth, label, slips),
        _ => Ok(Diagram::test(crate::terms::Test::Is(label))),
    };
    rebuild(space, diagram, &mut test)
}

/// Parameter number i becomes maximum variable number i, both from 0; the other maximum variables move up by the parameter count, and 8 is judged by them. "Freeing leaves" the minimum
/// variables' "numbers" (document 02, L12).
pub fn free(diagram: &Diagram, parameters: u64, slips: Slips) -> Result<Diagram, Refusal> {
    let moves = |kind: VariableKind| kind == VariableKind::Maximum || slips.freeing_moves_all;
    let fits = |v: &Term| VariableKind::of(*v).is_none_or(|kind| !moves(kind) || v + parameters <= kind.last());
    require(diagram.variables().iter().all(fits), Refusal::Variables)?;
    Ok(diagram.renamed(&|term| match VariableKind::of(term) {
        Some(kind) if moves(kind) => term + parameters,
        None if is_parameter(term) => term - FIRST_PARAMETER + FIRST_VARIABLE,
        _ => term,
    }))
}
