//! Document 02, L9, "Which move to make".

use crate::combine::Names;
use crate::diagram::Diagram;
use crate::mdp::{expected, Model};
use crate::refusal::Refusal;
use crate::slips::Slips;
use crate::state::{value_with, State, Valuation};
use crate::terms::{Arities, FIRST_PARAMETER};

/// An action by its number and an object for each of its parameters, with the weighted sum over variants: the one inside the Bellman step from k to k + 1.
#[derive(Clone, Debug, PartialEq, Eq)]
pub struct Move {
    pub action: usize,
    pub objects: Vec<u64>,
    pub sum: u64,
}

/// The bindings of so many parameters, lowest objects first: the first parameter changes slowest.
pub fn bindings(objects: u64, parameters: u64) -> impl Iterator<Item = Vec<u64>> {
    let powers: Vec<u64> = (0..parameters).rev().map(|place| objects.pow(place as u32)).collect();
    (0..objects.pow(parameters as u32)).map(move |number| powers.iter().map(|power| number / power % objects).collect())
}

/// The parameters with these objects.
pub fn bound(objects: &[u64]) -> Valuation {
    (FIRST_PARAMETER..).zip(objects.iter().copied()).collect()
}

/// "The first action, then the lowest objects in order, whose weighted sum over variants is highest." Action by action: first the calls of its regressed sum, before parameters are
/// freed, then its bindings, lowest objects first, with 15 judged for each. The first refusal met is the answer.
pub fn best(model: &Model, arities: &Arities, value: &Diagram, state: &State, slips: Slips) -> Result<Move, Refusal> {
    let mut best: Option<Move> = None;
    let sums = if slips.sums_shared { Names::Shared } else { Names::Apart };
    for (number, action) in model.actions.iter().enumerate() {
        let regressed = expected(model, action, value, sums, slips)?;
        for objects in bindings(state.objects, action.parameters) {
            let sum = value_with(&regressed, arities, state, &bound(&objects), slips)?;
            let higher = |best: &Move| sum > best.sum || (slips.later_move && sum == best.sum);
            if best.as_ref().is_none_or(higher) {
                best = Some(Move { action: number, objects, sum });
            }
        }
    }
    Ok(best.expect("a model has an action, and a state an object"))
}
