//! Document 02, L10, "Replay of a logged week".

use crate::best::{bindings, bound};
use crate::diagram::{Diagram, LARGEST};
use crate::mdp::Variant;
use crate::refusal::{require, Refusal};
use crate::session::FACTS;
use crate::slips::Slips;
use crate::state::{leaf_in, value_with, State, Valuation};
use crate::terms::{Arities, FIRST_VARIABLE};

/// How many lines were accepted since the state was last told, and the sum of the rewards along them, unscaled.
#[derive(Clone, Copy, Debug, Default, PartialEq, Eq)]
pub struct Log {
    pub count: u64,
    pub total: u64,
}

/// A line with its words looked up: what was done, to which objects, and how it came out.
pub struct Done<'a> {
    pub variant: &'a Variant,
    pub objects: &'a [u64],
}

/// "In the next state, p(o..) is true exactly if its truth diagram gives 1 for o.. in the old one; all else stays": tuple by tuple. 22 above 1,024 facts.
pub fn next_state(done: &Done, arities: &Arities, state: &State, slips: Slips) -> Result<State, Refusal> {
    let mut next = state.clone();
    next.facts.retain(|(predicate, _)| !done.variant.truths.contains_key(predicate));
    let mut read = state.clone();
    for (predicate, truth) in &done.variant.truths {
        for objects in bindings(state.objects, arities[*predicate as usize]) {
            let arguments = (FIRST_VARIABLE..).zip(objects.iter().copied());
            let valuation: Valuation = bound(done.objects).into_iter().chain(arguments).collect();
            if leaf_in(truth, arities, &read, &valuation) == 1 {
                require(next.facts.len() < FACTS, Refusal::Crowded)?;
                next.facts.insert((*predicate, objects));
            }
        }
        if slips.truths_in_turn {
            read.facts.retain(|(other, _)| other != predicate);
            read.facts.extend(next.facts.iter().filter(|(other, _)| other == predicate).cloned());
        }
    }
    Ok(next)
}

/// The weight of what came out, in the state before.
pub fn weight(done: &Done, arities: &Arities, state: &State) -> u64 {
    leaf_in(&done.variant.weight, arities, state, &bound(done.objects))
}

/// The state and the log behind a line: 21, 22, 15 of the reward before, which the first line adds too, and after, then 23.
pub fn did(done: &Done, reward: &Diagram, arities: &Arities, state: &State, log: Log, slips: Slips) -> Result<(State, Log), Refusal> {
    require(weight(done, arities, state) > 0, Refusal::Weightless)?;
    let next = next_state(done, arities, state, slips)?;
    let first = log.count == 0 || slips.both_rewards;
    let value = |state: &State| value_with(reward, arities, state, &Valuation::new(), slips);
    let before = if first { value(state)? } else { 0 };
    let after = value(&next)?;
    let log = Log { count: log.count + 1, total: log.total + before + after };
    require(log.count <= LARGEST && log.total <= LARGEST, Refusal::Tally)?;
    Ok((next, log))
}
