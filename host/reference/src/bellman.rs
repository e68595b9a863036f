//! Document 01, "Backup", the equation: Mk from state to state by brute force. No diagram is used.

use crate::slips::Slips;
use crate::state::{number_of, State, Valuation};
use crate::terms::{Arities, Term, FIRST_PARAMETER, FIRST_VARIABLE};
use crate::tree::Tree;
use std::collections::{BTreeMap, BTreeSet};

#[derive(Clone, Debug)]
pub struct PlainVariant {
    pub weight: Tree,
    pub truths: BTreeMap<u64, Tree>,
}

#[derive(Clone, Debug)]
pub struct PlainAction {
    pub parameters: u64,
    pub variants: Vec<PlainVariant>,
}

#[derive(Clone, Debug)]
pub struct PlainModel {
    pub arities: Arities,
    pub total: u64,
    pub discount: (u64, u64),
    pub reward: Tree,
    pub actions: Vec<PlainAction>,
}

impl PlainModel {
    /// The reward's number in a state: the highest, over its maximum variables, of the lowest over its minimum ones.
    pub fn reward(&self, state: &State) -> u64 {
        let number = &mut |valuation: &mut Valuation| self.reward.number_in(state, valuation);
        number_of(state.objects, &self.reward.variables(), &mut Valuation::new(), Slips::NONE, number)
    }
}

/// All tuples of that many objects.
fn tuples(objects: u64, length: u64) -> Vec<Vec<u64>> {
    if length == 0 {
        return vec![Vec::new()];
    }
    let shorter = tuples(objects, length - 1);
    shorter.iter().flat_map(|tuple| (0..objects).map(|o| [&tuple[..], &[o]].concat())).collect()
}

fn valued_from(first: Term, objects: &[u64]) -> impl Iterator<Item = (Term, u64)> + '_ {
    (first..).zip(objects.iter().copied())
}

/// The next state: p(o..) is true exactly if its truth diagram gives 1 for o.. in the old one; all else stays.
pub fn next_state(arities: &Arities, variant: &PlainVariant, state: &State, tuple: &[u64]) -> State {
    let mut facts: BTreeSet<(u64, Vec<u64>)> =
        state.facts.iter().filter(|(predicate, _)| !variant.truths.contains_key(predicate)).cloned().collect();
    for (predicate, truth) in &variant.truths {
        for objects in tuples(state.objects, arities[*predicate as usize]) {
            let valuation: Valuation = valued_from(FIRST_PARAMETER, tuple).chain(valued_from(FIRST_VARIABLE, &objects)).collect();
            if truth.number_in(state, &valuation) == 1 {
                facts.insert((*predicate, objects));
            }
        }
    }
    State { facts, ..state.clone() }
}

pub struct Bellman<'a> {
    model: &'a PlainModel,
    known: BTreeMap<(u64, State), u128>,
}

impl<'a> Bellman<'a> {
    pub fn new(model: &'a PlainModel) -> Bellman<'a> {
        Bellman { model, known: BTreeMap::new() }
    }

    /// Mk(s).
    pub fn value(&mut self, k: u64, state: &State) -> u128 {
        if let Some(value) = self.known.get(&(k, state.clone())) {
            return *value;
        }
        let mut value = u128::from(self.model.reward(state));
        if k > 0 {
            let scale = u128::from(self.model.total) * u128::from(self.model.discount.1);
            value = scale.pow(k as u32) * value + self.best(k, state);
        }
        self.known.insert((k, state.clone()), value);
        value
    }

    /// Every move, action by action and lowest objects first, with its sum inside the step from k to k + 1.
    pub fn moves(&mut self, k: u64, state: &State) -> Vec<((usize, Vec<u64>), u128)> {
        let model = self.model;
        let tuples = |action: &PlainAction| tuples(state.objects, action.parameters);
        let moves = model
            .actions
            .iter()
            .enumerate()
            .flat_map(|(number, action)| tuples(action).into_iter().map(move |tuple| (number, action, tuple)));
        moves.map(|(number, action, tuple)| ((number, tuple.clone()), self.expected(k + 1, state, action, &tuple))).collect()
    }

    /// The highest, over actions and object tuples, of the sum over variants of G · weight · M(k-1)(next state).
    fn best(&mut self, k: u64, state: &State) -> u128 {
        let mut best = 0;
        for action in &self.model.actions {
            for tuple in tuples(state.objects, action.parameters) {
                best = best.max(self.expected(k, state, action, &tuple));
            }
        }
        best
    }

    fn expected(&mut self, k: u64, state: &State, action: &PlainAction, tuple: &[u64]) -> u128 {
        let valuation: Valuation = valued_from(FIRST_PARAMETER, tuple).collect();
        let mut sum = 0;
        for variant in &action.variants {
            let weight = u128::from(variant.weight.number_in(state, &valuation));
            let next = next_state(&self.model.arities, variant, state, tuple);
            sum += u128::from(self.model.discount.0) * weight * self.value(k - 1, &next);
        }
        sum
    }
}
