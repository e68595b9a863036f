//! The second way to a value (document 02, L6), forced where the first is possible: its number is the highest leaf, and its entries are those of a count
//! that forms no table. Both ways, and the search that looks at fewer valuations, with objects for parameters too. With minimum variables the search alone, and 15 where the valuations are too many.

use crate::meaning::diagram;
use crate::models::{minimum_terms, sparse_state, state, terms, Signature, Size};
use crate::random::Random;
use reference::diagram::{Diagram, Row};
use reference::refusal::Refusal;
use reference::slips::Slips;
use reference::state::{by_valuations_with, highest, searched, valuations, value_with, State, Valuation, VALUATIONS};
use reference::tables::{worked_with, Worked, ENTRIES};
use reference::terms::{is_variable, Arities, Label, Term, FIRST_PARAMETER};
use std::collections::BTreeSet;

fn names_of(label: Label) -> BTreeSet<Term> {
    label.places().into_iter().filter(|term| is_variable(*term)).collect()
}

/// Whether a way leads down from one row to another, by one edge or more.
fn leads(diagram: &Diagram, from: usize, to: usize) -> bool {
    match diagram.rows()[from] {
        Row::Leaf(_) => false,
        Row::Branch { yes, no, .. } => [yes, no].into_iter().any(|child| child == to || leads(diagram, child, to)),
    }
}

/// The choices of objects for a label's variables under which it is true.
fn true_cases(label: Label, arities: &Arities, state: &State, bound: &Valuation) -> u128 {
    let variables: Vec<Term> = names_of(label).into_iter().collect();
    let terms = &label.places()[..arities[label.predicate() as usize] as usize];
    let mut cases = 0;
    highest(state.objects, &variables, &mut bound.clone(), &mut |choice| {
        cases += u128::from(state.holds(label.predicate(), terms, choice));
    });
    cases
}

/// The entries by names alone, parameters having these objects: a case of the label is joined with each choice for the child's other names, and a union has every choice for its names.
pub fn entries(diagram: &Diagram, arities: &Arities, state: &State, bound: &Valuation) -> u128 {
    let power = |count: usize| u128::from(state.objects).pow(count as u32);
    let rows = diagram.rows();
    let mut names: Vec<BTreeSet<Term>> = Vec::new();
    let mut entries = 0;
    for (number, row) in rows.iter().enumerate() {
        let Row::Branch { label, yes, no } = *row else {
            entries += 1;
            names.push(BTreeSet::new());
            continue;
        };
        let own = names_of(label);
        let holds = true_cases(label, arities, state, bound);
        entries += holds * power((&names[yes] - &own).len()) + (power(own.len()) - holds) * power((&names[no] - &own).len());
        let mut left: BTreeSet<Term> = &(&own | &names[yes]) | &names[no];
        entries += power(left.len());
        let is_tested_above = |name: &Term| {
            (number..rows.len()).any(
                |above| matches!(rows[above], Row::Branch { label, .. } if names_of(label).contains(name) && leads(diagram, above, number)),
            )
        };
        let stay: BTreeSet<Term> = left.iter().copied().filter(is_tested_above).collect();
        while left.len() > stay.len() {
            left.pop_last();
            entries += power(left.len());
        }
        names.push(stay);
    }
    entries
}

/// A small diagram in a small state by both ways; the count of entries decides alone whether the second is refused.
pub fn check(seed: u64) -> Result<(), String> {
    let random = &mut Random::new(seed);
    let size = *random.pick(&[Size::SMALL, Size::SMALL, Size::PLACES]);
    let signature = Signature::random(random, size);
    let variables = random.between(1, 4);
    let depth = random.between(1, 5);
    let parameters = random.below(3);
    let minimum = if random.once_in(3) { random.between(1, 3) } else { 0 };
    let terms: Vec<Term> = terms(&signature, parameters, variables).into_iter().chain(minimum_terms(minimum)).collect();
    let valued = diagram(random, &signature, &terms, depth);
    let objects = random.between(1, if size.arity > 2 { 2 } else { 6 - minimum });
    let state = if random.once_in(2) { state(random, &signature, objects) } else { sparse_state(random, &signature, objects) };
    let bound = (0..parameters).map(|place| (FIRST_PARAMETER + place, random.below(objects))).collect();
    let arities = &signature.arities;
    let of_minimum = valued.has_minimum();
    if valuations(&valued, &state) > VALUATIONS {
        let answer = value_with(&valued, arities, &state, &bound, Slips::NONE);
        return match of_minimum && answer != Err(Refusal::Valuations) {
            true => Err(format!("{answer:?} for {valued:?} in {state:?}")),
            false => Ok(()),
        };
    }
    let right = by_valuations_with(&valued, arities, &state, &bound, Slips::NONE);
    let searched = searched(&valued, arities, &state, &bound);
    if searched != right {
        return Err(format!("{searched}, not {right}, is the number of {valued:?} in {state:?}"));
    }
    if of_minimum {
        return Ok(());
    }
    let counted = entries(&valued, arities, &state, &bound);
    for most in [ENTRIES.into(), counted, counted - 1] {
        let answer = worked_with(&valued, arities, &state, &bound, most as u64);
        let expected = if counted <= most { Ok(Worked { value: right, entries: counted as u64 }) } else { Err(Refusal::Valuations) };
        if answer != expected {
            return Err(format!("by tables of at most {most} entries {answer:?}, not {expected:?}, for {valued:?} in {state:?}"));
        }
    }
    Ok(())
}
