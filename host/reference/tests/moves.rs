//! Which move to make, and how many states have which value (document 02, L9 and L11): the order of bindings, and facts counted by hand.

use reference::best::{best, bindings, Move};
use reference::diagram::Diagram;
use reference::mdp::{Action, Model, Variant};
use reference::refusal::Refusal;
use reference::slips::Slips;
use reference::spread::{count_ground_facts, spread};
use reference::state::State;
use reference::terms::{Arities, FIRST_PARAMETER, FIRST_VARIABLE, PREDICATES};
use reference::tree::Tree;
use std::collections::{BTreeMap, BTreeSet};

/// Predicate 1 has arity 1, predicate 2 arity 2, all others 0.
fn arities() -> Arities {
    let mut arities = [0; PREDICATES];
    arities[..3].copy_from_slice(&[2, 1, 2]);
    arities
}

fn when(predicate: u64, terms: &[u64], yes: u64, no: u64) -> Diagram {
    let (yes, no) = (Box::new(Tree::Number(yes)), Box::new(Tree::Number(no)));
    Tree::If { predicate, terms: terms.to_vec(), yes, no }.read().expect("a small diagram")
}

#[test]
fn first_parameter_slowest() {
    let all = |objects, parameters| bindings(objects, parameters).collect::<Vec<Vec<u64>>>();
    assert_eq!(all(3, 0), [[]]);
    assert_eq!(all(1, 4), [[0, 0, 0, 0]]);
    assert_eq!(all(3, 1), [[0], [1], [2]]);
    assert_eq!(all(2, 3), [[0, 0, 0], [0, 0, 1], [0, 1, 0], [0, 1, 1], [1, 0, 0], [1, 0, 1], [1, 1, 0], [1, 1, 1]]);
    // one at a time, however many there are
    assert_eq!(bindings(64, 4).nth(64 * 64 + 1), Some(vec![0, 1, 0, 1]));
}

/// An action that makes p of its first object true where r relates both, with weight 1 of 2; and one that does nothing, with weight 2.
fn model(reward: Diagram, discount: (u64, u64)) -> Model {
    let truth = when(2, &[FIRST_PARAMETER, FIRST_PARAMETER + 1], 1, 0);
    let made = Variant { weight: Diagram::leaf(1), truths: BTreeMap::from([(1, truth)]) };
    let none = |weight| Variant { weight: Diagram::leaf(weight), truths: BTreeMap::new() };
    let actions = vec![Action { parameters: 2, variants: vec![made, none(1)] }, Action { parameters: 0, variants: vec![none(2)] }];
    Model { total: 2, discount, reward, actions }
}

fn moved(facts: &[(u64, &[u64])], discount: (u64, u64)) -> Move {
    let facts: BTreeSet<(u64, Vec<u64>)> = facts.iter().map(|(predicate, objects)| (*predicate, objects.to_vec())).collect();
    let (state, reward) = (State { objects: 3, constants: Vec::new(), facts }, when(1, &[FIRST_VARIABLE], 10, 0));
    best(&model(reward.clone(), discount), &arities(), &reward, &state, Slips::NONE).expect("a small model")
}

#[test]
fn sums_by_hand() {
    let of = |action, objects: &[u64], sum| Move { action, objects: objects.to_vec(), sum };
    // nothing is true, and nothing becomes so
    assert_eq!(moved(&[], (1, 1)), of(0, &[0, 0], 0));
    // 3 * 1 * 10: p becomes true by one outcome of two
    assert_eq!(moved(&[(2, &[1, 2])], (3, 4)), of(0, &[1, 2], 30));
    assert_eq!(moved(&[(2, &[1, 2]), (2, &[1, 0])], (3, 4)), of(0, &[1, 0], 30));
    // p is true: to do nothing keeps it by both outcomes, as joining does where r relates; where it does not, the first loses it by one outcome
    assert_eq!(moved(&[(1, &[2])], (3, 4)), of(1, &[], 60));
    assert_eq!(moved(&[(1, &[2]), (2, &[2, 2])], (3, 4)), of(0, &[2, 2], 60));
    // nothing later counts
    assert_eq!(moved(&[(1, &[2]), (2, &[1, 2])], (0, 1)), of(0, &[0, 0], 0));
}

#[test]
fn facts_by_hand() {
    let count = |predicates, objects| count_ground_facts(&arities(), predicates, objects);
    assert_eq!((count(0, 64), count(1, 16), count(2, 3), count(3, 3), count(2, 4)), (0, 16, 12, 13, 20));
    let all = |predicates, objects, diagram: &Diagram| spread(diagram, &arities(), predicates, objects, &[], Slips::NONE);
    let some = when(1, &[FIRST_VARIABLE], 10, 0);
    assert_eq!(all(1, 16, &some), Ok(BTreeMap::from([(0, 1), (10, 65_535)])));
    assert_eq!(all(1, 17, &some), Err(Refusal::Ground));
    // r(x, x) of three objects: 12 facts, of which three matter
    assert_eq!(all(2, 3, &when(2, &[FIRST_VARIABLE, FIRST_VARIABLE], 0, 7)), Ok(BTreeMap::from([(0, 512), (7, 3_584)])));
    assert_eq!(all(0, 5, &Diagram::leaf(4)), Ok(BTreeMap::from([(4, 1)])));
}
