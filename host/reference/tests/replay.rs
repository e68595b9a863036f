//! Replay of a log (document 02, L10): next states, weights and sums by hand.

mod trees;

use reference::diagram::{Diagram, LARGEST};
use reference::mdp::Variant;
use reference::refusal::Refusal;
use reference::replay::{did, next_state, weight, Done, Log};
use reference::slips::Slips;
use reference::state::State;
use reference::terms::{Arities, Term, EQUALITY, FIRST_PARAMETER, FIRST_VARIABLE, PREDICATES};
use std::collections::{BTreeMap, BTreeSet};
use trees::{number, read, when};

const A: Term = FIRST_PARAMETER;
const X: Term = FIRST_VARIABLE;
const Y: Term = FIRST_VARIABLE + 1;

/// Predicate 1 has arity 1, predicate 2 arity 2, all others 0.
fn arities() -> Arities {
    let mut arities = [0; PREDICATES];
    arities[..3].copy_from_slice(&[2, 1, 2]);
    arities
}

fn state(objects: u64, facts: &[(u64, &[u64])]) -> State {
    let facts: BTreeSet<(u64, Vec<u64>)> = facts.iter().map(|(predicate, objects)| (*predicate, objects.to_vec())).collect();
    State { objects, constants: Vec::new(), facts }
}

/// p of what r relates to the parameter, or of the parameter itself; r turned round. Only where p holds of the parameter.
fn variant() -> Variant {
    let p = when(2, &[A, X], number(1), when(EQUALITY, &[A, X], number(1), number(0)));
    let r = when(2, &[Y, X], number(1), number(0));
    let truths = BTreeMap::from([(1, read(p)), (2, read(r))]);
    Variant { weight: read(when(1, &[A], number(3), number(0))), truths }
}

#[test]
fn next_states_by_hand() {
    let variant = variant();
    let next = |objects: &[u64], state: &State| next_state(&Done { variant: &variant, objects }, &arities(), state, Slips::NONE);
    let before = state(3, &[(1, &[1]), (2, &[1, 2]), (2, &[2, 2]), (3, &[])]);
    // p of 2, which r relates to 1, and of 1; that p(1) held before does not matter; what has no truth diagram stays
    assert_eq!(next(&[1], &before), Ok(state(3, &[(1, &[1]), (1, &[2]), (2, &[2, 1]), (2, &[2, 2]), (3, &[])])));
    assert_eq!(next(&[0], &before), Ok(state(3, &[(1, &[0]), (2, &[2, 1]), (2, &[2, 2]), (3, &[])])));
}

#[test]
fn sums_by_hand() {
    let (variant, reward) = (variant(), read(when(1, &[X], when(2, &[X, X], number(7), number(5)), number(0))));
    let step =
        |objects: &[u64], state: &State, log| did(&Done { variant: &variant, objects }, &reward, &arities(), state, log, Slips::NONE);
    let before = state(3, &[(1, &[1]), (2, &[1, 2]), (2, &[2, 2])]);
    assert_eq!(weight(&Done { variant: &variant, objects: &[1] }, &arities(), &before), 3);
    assert_eq!(step(&[0], &before, Log::default()), Err(Refusal::Weightless));
    // 5 before; p of 1 and 2, and r of 2 and 2: 7 after
    let (next, log) = step(&[1], &before, Log::default()).expect("accepted");
    assert_eq!(log, Log { count: 1, total: 12 });
    // p of 1, 2 by r(2, 1) and r(2, 2) from 2: 7 again, and nothing for the state before
    assert_eq!(step(&[2], &next, log).map(|(_, log)| log), Ok(Log { count: 2, total: 19 }));
    assert_eq!(step(&[2], &next, Log { count: 1, total: LARGEST - 7 }).map(|(_, log)| log), Ok(Log { count: 2, total: LARGEST }));
    assert_eq!(step(&[2], &next, Log { count: 1, total: LARGEST - 6 }), Err(Refusal::Tally));
    assert_eq!(step(&[2], &next, Log { count: LARGEST - 1, total: 0 }).map(|(_, log)| log), Ok(Log { count: LARGEST, total: 7 }));
    assert_eq!(step(&[2], &next, Log { count: LARGEST, total: 0 }), Err(Refusal::Tally));
}

/// 1,024 facts pass, those that stay counted too.
#[test]
fn facts_at_their_limit() {
    let all = Variant { weight: Diagram::leaf(1), truths: BTreeMap::from([(2, Diagram::leaf(1))]) };
    let next =
        |state: &State| next_state(&Done { variant: &all, objects: &[] }, &arities(), state, Slips::NONE).map(|next| next.facts.len());
    assert_eq!(next(&state(32, &[])), Ok(1_024));
    assert_eq!(next(&state(32, &[(2, &[3, 4])])), Ok(1_024));
    assert_eq!(next(&state(32, &[(1, &[3])])), Err(Refusal::Crowded));
    assert_eq!(next(&state(33, &[])), Err(Refusal::Crowded));
    assert_eq!(next(&state(31, &[(1, &[3]), (4, &[])])), Ok(963));
}
