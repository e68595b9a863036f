//! Document 01, "Backup": one step of value iteration on diagrams.

use crate::combine::{combine_with, Names, Operator};
use crate::diagram::{Diagram, LARGEST};
use crate::refusal::{require, Refusal};
use crate::regress::{free, regress, Truths};
use crate::slips::Slips;

/// The highest k that a backup may start from is one below.
pub const STEPS: u64 = 1_000_000_000_000_000_000;

#[derive(Clone, Debug, PartialEq, Eq)]
pub struct Variant {
    pub weight: Diagram,
    pub truths: Truths,
}

#[derive(Clone, Debug, PartialEq, Eq)]
pub struct Action {
    pub parameters: u64,
    pub variants: Vec<Variant>,
}

#[derive(Clone, Debug, PartialEq, Eq)]
pub struct Model {
    /// W, the sum of every action's weights.
    pub total: u64,
    /// The discount G / D.
    pub discount: (u64, u64),
    pub reward: Diagram,
    pub actions: Vec<Action>,
}

impl Model {
    /// S = W · D.
    pub fn scale(&self) -> u64 {
        self.total * self.discount.1
    }
}

/// base^exponent, where it is at most 10^18.
pub fn power(base: u64, exponent: u64) -> Option<u64> {
    if base == 1 {
        return Some(1);
    }
    let mut result: u64 = 1;
    for _ in 0..exponent {
        result = result.checked_mul(base).filter(|r| *r <= LARGEST)?;
    }
    Some(result)
}

fn call(operator: Operator, names: Names, a: &Diagram, b: &Diagram, slips: Slips) -> Result<Diagram, Refusal> {
    Ok(combine_with(operator, names, a, b, slips)?.diagram)
}

/// S^(k+1), or 12.
pub fn next_scale(model: &Model, k: u64) -> Result<u64, Refusal> {
    require(k < STEPS, Refusal::Scale)?;
    power(model.scale(), k + 1).ok_or(Refusal::Scale)
}

/// The sum over an action's variants of G · weight · the value regressed, its parameters not freed.
pub fn expected(model: &Model, action: &Action, value: &Diagram, sums: Names, slips: Slips) -> Result<Diagram, Refusal> {
    let mut sum = Diagram::leaf(0);
    for variant in &action.variants {
        let regressed = regress(value, &variant.truths, slips)?;
        let weight = call(Operator::Product, Names::Shared, &variant.weight, &Diagram::leaf(model.discount.0), slips)?;
        let product = call(Operator::Product, Names::Shared, &regressed, &weight, slips)?;
        sum = call(Operator::Sum, sums, &sum, &product, slips)?;
    }
    Ok(sum)
}

/// The diagram of M(k+1) from that of Mk. The first refusal met is the answer.
pub fn backup(model: &Model, value: &Diagram, k: u64, slips: Slips) -> Result<Diagram, Refusal> {
    let scale = next_scale(model, k)?;
    let sums = if slips.sums_shared { Names::Shared } else { Names::Apart };
    let mut best = Diagram::leaf(0);
    for action in &model.actions {
        let sum = expected(model, action, value, sums, slips)?;
        let freed = free(&sum, action.parameters, slips)?.closed_up();
        best = call(Operator::Max, Names::Shared, &best, &freed, slips)?;
    }
    let reward = call(Operator::Product, Names::Shared, &model.reward, &Diagram::leaf(scale), slips)?;
    call(Operator::Sum, sums, &best, &reward, slips)
}
