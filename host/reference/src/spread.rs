//! Document 02, L11, "How many branches get which number".

use crate::diagram::Diagram;
use crate::refusal::{require, Refusal};
use crate::slips::Slips;
use crate::state::{value_with, State, Valuation};
use crate::terms::Arities;
use std::collections::BTreeMap;

/// The most ground facts that states are formed of.
pub const GROUND_FACTS: u64 = 16;

/// How many ground facts the declared predicates have over so many objects: as many as objects to the power of the arity, for each.
pub fn count_ground_facts(arities: &Arities, predicates: u64, objects: u64) -> u64 {
    (1..=predicates).map(|predicate| objects.pow(arities[predicate as usize] as u32)).sum()
}

fn ground_facts(arities: &Arities, predicates: u64, objects: u64) -> Vec<(u64, Vec<u64>)> {
    let mut facts = Vec::new();
    for predicate in 1..=predicates {
        let mut tuples: Vec<Vec<u64>> = vec![Vec::new()];
        for _ in 0..arities[predicate as usize] {
            tuples = tuples.iter().flat_map(|tuple| (0..objects).map(|object| [&tuple[..], &[object]].concat())).collect();
        }
        facts.extend(tuples.into_iter().map(|tuple| (predicate, tuple)));
    }
    facts
}

/// For each value that occurs over all states of so many objects how many states have it. A state is one choice of true or false for each ground fact of every declared predicate; 24
/// above 16 of these, before any state is formed, and 15 where a state meets it.
pub fn spread(
    value_diagram: &Diagram,
    arities: &Arities,
    predicates: u64,
    objects: u64,
    constants: &[u64],
    slips: Slips,
) -> Result<BTreeMap<u64, u64>, Refusal> {
    require(count_ground_facts(arities, predicates, objects) <= GROUND_FACTS, Refusal::Ground)?;
    let mut facts = ground_facts(arities, predicates, objects);
    if slips.tested_facts_only {
        facts.retain(|(predicate, _)| value_diagram.labels().any(|label| label.predicate() == *predicate));
    }
    let mut states = BTreeMap::new();
    for choice in 0..1_u64 << facts.len() {
        let chosen = facts.iter().enumerate().filter(|(place, _)| choice >> place & 1 == 1).map(|(_, fact)| fact.clone());
        let state = State { objects, constants: constants.to_vec(), facts: chosen.collect() };
        *states.entry(value_with(value_diagram, arities, &state, &Valuation::new(), slips)?).or_insert(0) += 1;
    }
    Ok(states)
}
