//! A refused (best) or (count n): the call, the binding or the state that is refused, and what it met.

use super::{backup, counted, grouped, unless_fault, Checked, Fault};
use crate::best::{bindings, bound};
use crate::declarations::Declarations;
use crate::diagram::Diagram;
use crate::refusal::Refusal;
use crate::session::{Placed, Run};
use crate::slips::Slips;
use crate::spread::{count_ground_facts, spread, GROUND_FACTS};
use crate::state::{value_with, State, Valuation, VALUATIONS};
use crate::tables::ENTRIES;
use crate::text::Span;

/// How many valuations there are, and that neither they nor the tables in their place pass; with a minimum variable there are no tables.
fn too_many(objects: u64, diagram: &Diagram) -> String {
    let variables = diagram.variables().len();
    let tables = match diagram.has_minimum() {
        true => "no tables take their place where there is a minimum variable".to_string(),
        false => format!("the tables in their place have more than {} entries", grouped(ENTRIES.into())),
    };
    let power = u128::from(objects).checked_pow(variables as u32).map(|power| format!(" = {}", grouped(power))).unwrap_or_default();
    format!(
        "{objects}^{variables}{power} valuations, {} and {}, are more than {}, and {tables}",
        counted(objects as usize, "object"),
        counted(variables, "variable"),
        grouped(VALUATIONS.into())
    )
}

/// What to do about too many valuations, besides this. A diagram with a minimum variable is not cut.
pub fn fewer_variables(first: &str, diagram: &Diagram) -> String {
    match diagram.has_minimum() {
        true => format!("{first}, or take a step less or a reward of fewer variables, so that the diagram has fewer"),
        false => format!("{first}, or cut the diagram until 16 so that it has fewer variables"),
    }
}

/// The value of a diagram, where there are not too many valuations.
pub fn valued(diagram: &Diagram, run: &Run, state: &State, bound: &Valuation) -> Result<u64, (Refusal, String)> {
    let met = |refusal| (refusal, too_many(state.objects, diagram));
    value_with(diagram, &run.arities, state, bound, Slips::NONE).map_err(met)
}

/// The first action that does not pass: by its calls, or by a binding.
pub fn moves(run: &Run, declared: &Declarations, span: Span) -> Checked {
    let Some(state) = run.placed.as_ref().and_then(Placed::state) else { return Ok(()) };
    for (action, named) in run.model.actions.iter().zip(&declared.actions) {
        let step = grouped(u128::from(run.k) + 1);
        let sum = backup::expected(run, action, named)
            .map_err(|(refusal, met)| Fault::new(refusal, span, format!("the move of step {step}: {met}"), backup::advice(refusal, run)))?;
        for objects in bindings(state.objects, action.parameters) {
            valued(&sum, run, &state, &bound(&objects)).map_err(|(refusal, met)| {
                let objects: String = objects.iter().map(|object| format!(" {object}")).collect();
                Fault::new(
                    refusal,
                    span,
                    format!("the move of step {step}: ({}{objects}): {met}", named.name),
                    fewer_variables("put fewer objects into the state (those that matter)", &run.value),
                )
            })?;
        }
    }
    Ok(())
}

/// The ground facts of all declared predicates, then a state.
pub fn states(run: &Run, declared: &Declarations, objects: u64, span: Span) -> Checked {
    let predicates = declared.predicates.len() as u64;
    let facts = count_ground_facts(&run.arities, predicates, objects);
    unless_fault(facts <= GROUND_FACTS, || {
        let of = |(name, arity): &(String, u64)| format!("{name} {}", grouped(objects.pow(*arity as u32).into()));
        let each = declared.predicates.iter().map(of).collect::<Vec<String>>().join(", ");
        Fault::new(
            Refusal::Ground,
            span,
            format!(
                "states of {} have {} ({each}); at most {GROUND_FACTS}",
                counted(objects as usize, "object"),
                counted(facts as usize, "ground fact")
            ),
            "count states of fewer objects, or declare fewer predicates: one that nothing tests counts too",
        )
    })?;
    let constants = run.placed.as_ref().map_or(Vec::new(), |placed| placed.constants.iter().map(|object| object.unwrap_or(0)).collect());
    spread(&run.value, &run.arities, predicates, objects, &constants, Slips::NONE).map(|_| ()).map_err(|refusal| {
        Fault::new(
            refusal,
            span,
            format!("in some of the states {}", too_many(objects, &run.value)),
            fewer_variables("count states of fewer objects", &run.value),
        )
    })
}
