//! Library calls on lent words, every check in document 01's order: 14 by operand, 18, then 4, 7, 6, then the operation's own.

use crate::combine::{self, Names, Operator};
use crate::cut::{self, Edge};
use crate::diagram::{Diagram, ROWS, SPACE_ROWS};
use crate::listing::{read_arities, read_listing, write_listing, ROW_WORDS};
use crate::reduce;
use crate::refusal::{require, Refusal};
use crate::regress::{self, Truths};
use crate::slips::Slips;
use crate::state::{self, State};
use crate::terms::{Arities, CONSTANTS, EQUALITY, FIRST_PARAMETER, FIRST_VARIABLE, PARAMETERS, PLACES, PREDICATES};
use std::collections::BTreeSet;

pub const RESULT_WORDS: usize = ROWS * ROW_WORDS;
pub const SPACE_WORDS: usize = SPACE_ROWS * ROW_WORDS;
/// Predicate and objects, one for each place of a label.
pub const FACT_WORDS: usize = 1 + PLACES;

/// The lengths of the lent result buffer and working space, in words.
#[derive(Clone, Copy, Debug)]
pub struct Lent {
    pub result: usize,
    pub space: usize,
}

impl Lent {
    pub const ENOUGH: Lent = Lent { result: RESULT_WORDS, space: SPACE_WORDS };

    fn check(self) -> Result<(), Refusal> {
        require(self.result >= RESULT_WORDS && self.space >= SPACE_WORDS, Refusal::Buffer)
    }
}

/// The words of the result, and how many pairs the walk reached.
pub fn combine(operator: Operator, names: Names, a: &[u64], b: &[u64], arities: &[u64], lent: Lent) -> Result<(Vec<u64>, usize), Refusal> {
    let arities = read_arities(arities)?;
    let a = read_listing(a, &arities)?;
    let b = read_listing(b, &arities)?;
    lent.check()?;
    let combined = combine::combine(operator, names, &a, &b)?;
    Ok((write_listing(&combined.diagram), combined.pairs))
}

/// One lent truth diagram, or none, for each predicate in order; equality's is not read.
pub fn regress(value: &[u64], truths: &[Option<&[u64]>; PREDICATES], arities: &[u64], lent: Lent) -> Result<Vec<u64>, Refusal> {
    let arities = read_arities(arities)?;
    let value = read_listing(value, &arities)?;
    let mut read = Truths::new();
    for (predicate, words) in (0..).zip(truths) {
        if let (true, Some(words)) = (predicate != EQUALITY, words) {
            read.insert(predicate, read_listing(words, &arities)?);
        }
    }
    lent.check()?;
    for (predicate, truth) in &read {
        check_truth(truth, arities[*predicate as usize])?;
    }
    Ok(write_listing(&regress::regress(&value, &read, Slips::NONE)?))
}

/// 7 for a leaf above 1, then 6 for a variable that is no argument, as every minimum variable.
fn check_truth(truth: &Diagram, arity: u64) -> Result<(), Refusal> {
    require(truth.leaves().all(|leaf| leaf <= 1), Refusal::Truth)?;
    require(truth.variables().iter().all(|v| *v < FIRST_VARIABLE + arity), Refusal::Unbound)
}

pub fn free(value: &[u64], parameters: u64, arities: &[u64], lent: Lent) -> Result<Vec<u64>, Refusal> {
    let arities = read_arities(arities)?;
    let value = read_listing(value, &arities)?;
    lent.check()?;
    require(parameters <= PARAMETERS, Refusal::Range)?;
    require(value.parameters().iter().all(|p| *p < FIRST_PARAMETER + parameters), Refusal::Unbound)?;
    Ok(write_listing(&regress::free(&value, parameters, Slips::NONE)?))
}

/// 14, 18, then the cut's own: 25, 17, 16.
pub fn cut(value: &[u64], arities: &[u64], lent: Lent) -> Result<(Vec<u64>, Edge), Refusal> {
    let arities = read_arities(arities)?;
    let value = read_listing(value, &arities)?;
    lent.check()?;
    let cut = cut::cut(&value, &arities, Slips::NONE)?;
    Ok((write_listing(&cut.diagram), cut.edge))
}

/// 14, 18, then 6 for any parameter, then the reduction's own: 17, 26, 27, 28.
pub fn reduce(value: &[u64], arities: &[u64], lent: Lent) -> Result<Vec<u64>, Refusal> {
    let arities = read_arities(arities)?;
    let value = read_listing(value, &arities)?;
    lent.check()?;
    require(value.parameters().is_empty(), Refusal::Unbound)?;
    Ok(write_listing(&reduce::reduce(&value, &arities, Slips::NONE)?))
}

/// A lent state: n, the object of each constant, and the facts, `FACT_WORDS` words each.
pub fn value(value: &[u64], arities: &[u64], objects: u64, constants: &[u64], facts: &[u64]) -> Result<u64, Refusal> {
    let arities = read_arities(arities)?;
    let value = read_listing(value, &arities)?;
    let state = read_state(&arities, objects, constants, facts)?;
    require(value.parameters().is_empty(), Refusal::Unbound)?;
    state::value(&value, &arities, &state)
}

/// 4 for no object, or for one at n or above.
fn read_state(arities: &Arities, objects: u64, constants: &[u64], facts: &[u64]) -> Result<State, Refusal> {
    let constants: Vec<u64> = constants.iter().copied().take(CONSTANTS as usize).collect();
    let mut read = BTreeSet::new();
    for fact in facts.chunks_exact(FACT_WORDS) {
        let arity = arities.get(fact[0] as usize).copied().unwrap_or(0) as usize;
        read.insert((fact[0], fact[1..1 + arity].to_vec()));
    }
    require(objects > 0, Refusal::Range)?;
    let named = constants.iter().chain(read.iter().flat_map(|(_, objects)| objects));
    require(named.into_iter().all(|object| *object < objects), Refusal::Range)?;
    Ok(State { objects, constants, facts: read })
}
