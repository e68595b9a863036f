//! Whether a state follows a path, by brute force: every way in which the terms share objects, and every choice of facts that matters.

use reference::terms::{Term, EQUALITY};
use reference::tree::Tree;
use std::collections::{BTreeMap, BTreeSet};

/// An atom that a path takes as true or as false.
#[derive(Clone, Debug, PartialEq, Eq)]
pub struct Literal {
    pub predicate: u64,
    pub terms: Vec<Term>,
    pub truth: bool,
}

/// The object of each term, constants and parameters alike.
pub type Objects = BTreeMap<Term, u64>;
/// Facts that are settled; all others may be true or false.
pub type Facts = BTreeMap<(u64, Vec<u64>), bool>;

/// Whether one of the ways to give the terms objects passes. Each term gets an object that one before it has, or the next new one: but for the names of
/// the objects this is every state of up to as many objects as there are terms, with every tuple.
pub fn some_objects(terms: &[Term], passes: &mut impl FnMut(&Objects) -> bool) -> bool {
    fn rest(terms: &[Term], used: u64, objects: &mut Objects, passes: &mut impl FnMut(&Objects) -> bool) -> bool {
        let Some((first, later)) = terms.split_first() else {
            return passes(objects);
        };
        (0..=used).any(|object| {
            objects.insert(*first, object);
            rest(later, used.max(object + 1), objects, passes)
        })
    }
    rest(terms, 0, &mut Objects::new(), passes)
}

/// What an atom is; or the fact that decides it and is not settled.
pub fn holds(predicate: u64, terms: &[Term], objects: &Objects, facts: &Facts) -> Result<bool, (u64, Vec<u64>)> {
    let places: Vec<u64> = terms.iter().map(|term| objects[term]).collect();
    if predicate == EQUALITY {
        return Ok(places[0] == places[1]);
    }
    let fact = (predicate, places);
    facts.get(&fact).copied().ok_or(fact)
}

/// Whether some state, with some tuple, makes all of these literals true.
pub fn possible(path: &[Literal]) -> bool {
    let terms: BTreeSet<Term> = path.iter().flat_map(|literal| literal.terms.iter().copied()).collect();
    let terms: Vec<Term> = terms.into_iter().collect();
    some_objects(&terms, &mut |objects| {
        let mut facts = Facts::new();
        path.iter().all(|literal| match holds(literal.predicate, &literal.terms, objects, &facts) {
            Ok(truth) => truth == literal.truth,
            Err(fact) => {
                facts.insert(fact, literal.truth);
                true
            }
        })
    })
}

/// The sum of these weights as they are written; or a fact that it waits for.
fn sum(weights: &[Tree], objects: &Objects, facts: &Facts) -> Result<u128, (u64, Vec<u64>)> {
    let number = |weight: &Tree| {
        let mut at = weight;
        loop {
            match at {
                Tree::Number(number) => return Ok(u128::from(*number)),
                Tree::If { predicate, terms, yes, no } => at = if holds(*predicate, terms, objects, facts)? { yes } else { no },
            }
        }
    };
    weights.iter().map(number).sum()
}

/// Whether these weights add up to another number than the total in some state, with some tuple.
pub fn some_other_sum(weights: &[Tree], terms: &[Term], total: u64) -> bool {
    fn some_facts(weights: &[Tree], objects: &Objects, facts: &mut Facts, total: u128) -> bool {
        match sum(weights, objects, facts) {
            Ok(sum) => sum != total,
            Err(fact) => {
                let found = [true, false].into_iter().any(|truth| {
                    facts.insert(fact.clone(), truth);
                    some_facts(weights, objects, facts, total)
                });
                facts.remove(&fact);
                found
            }
        }
    }
    some_objects(terms, &mut |objects| some_facts(weights, objects, &mut Facts::new(), total.into()))
}
