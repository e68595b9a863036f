//! The order of labels by places beside that of the numbers (document 02, L3).

use crate::random::Random;
use reference::terms::{
    is_constant, is_minimum, is_parameter, Arities, Label, Term, Test, CONSTANTS, EQUALITY, FIRST_MINIMUM, FIRST_PARAMETER, FIRST_VARIABLE,
    LARGEST_ARITY, LAST_MINIMUM, LAST_VARIABLE, PARAMETERS, PREDICATES,
};
use std::cmp::Ordering;

/// By predicate, then by the first used place that differs: constants before parameters before variables before minimum variables, and then by number.
fn by_places(a: Label, b: Label, arities: &Arities) -> Ordering {
    let kind = |term: Term| match term {
        _ if is_constant(term) => 0,
        _ if is_parameter(term) => 1,
        _ if is_minimum(term) => 3,
        _ => 2,
    };
    let used =
        |label: Label| label.places().into_iter().take(arities[label.predicate() as usize] as usize).map(move |term| (kind(term), term));
    a.predicate().cmp(&b.predicate()).then_with(|| used(a).cmp(used(b)))
}

fn term(random: &mut Random) -> Term {
    let few = random.below(3);
    let last_parameter = FIRST_PARAMETER + PARAMETERS - 1;
    let first = [few, FIRST_PARAMETER + few, FIRST_VARIABLE + few, FIRST_MINIMUM + few];
    *random.pick(&[&first[..], &[CONSTANTS - 1, last_parameter, LAST_VARIABLE, LAST_MINIMUM]].concat())
}

fn label(random: &mut Random, predicate: u64, arities: &Arities) -> Option<Label> {
    let terms: Vec<Term> = (0..arities[predicate as usize]).map(|_| term(random)).collect();
    match Test::atom(predicate, &terms) {
        Test::Is(label) => Some(label),
        Test::Always => None,
    }
}

/// Labels of few predicates and terms, so that many pairs begin alike.
pub fn check(seed: u64) -> Result<(), String> {
    let random = &mut Random::new(seed);
    let mut arities = [0; PREDICATES];
    arities.fill_with(|| random.below(LARGEST_ARITY + 1));
    arities[EQUALITY as usize] = 2;
    let labels: Vec<Label> = (0..20).filter_map(|i| label(random, [EQUALITY, 1, 2, PREDICATES as u64 - 1][i % 4], &arities)).collect();
    for (a, b) in labels.iter().flat_map(|a| labels.iter().map(move |b| (*a, *b))) {
        if by_places(a, b, &arities) != a.cmp(&b) {
            return Err(format!("{a:?} and {b:?} under {arities:?}"));
        }
    }
    Ok(())
}
