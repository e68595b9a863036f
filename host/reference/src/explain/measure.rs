//! How large a refused call would have been: the call again, in a space of another size.

use super::{counted, grouped};
use crate::combine::{combine_in, highest_leaf, names_done, operands, Combined, Names, Operator};
use crate::diagram::{Diagram, Limits, Row, Space, LARGEST, PAIRS, ROWS, SPACE_ROWS};
use crate::refusal::Refusal;
use crate::regress::{regress_in, Truths};
use crate::slips::Slips;
use crate::terms::{VariableKind, LAST_VARIABLE, VARIABLES};

/// Far enough to tell how far off a call is, and soon over.
const MEASURED: Limits = Limits { rows: 20_000, pairs: 100_000 };

/// What a refused call met, against its limit.
pub fn combination(refusal: Refusal, operator: Operator, names: Names, a: &Diagram, b: &Diagram) -> String {
    if refusal == Refusal::Variables {
        return many_variables(a, b);
    }
    let mut space = Space::within(MEASURED);
    let Ok((first, second)) = operands(&mut space, names_done(operator, names, a, b), a, b, Slips::NONE) else {
        return beyond(refusal);
    };
    if refusal == Refusal::Value {
        let leaf = highest_leaf(operator, &first, &second, MEASURED.pairs).unwrap_or(0);
        return format!("a leaf of {}; at most {}", grouped(leaf), grouped(LARGEST.into()));
    }
    let combined = combine_in(&mut space, operator, &first, &second).map(|Combined { diagram, .. }| diagram);
    met(refusal, &space, combined)
}

/// The kind of which two operands have too many together.
fn many_variables(a: &Diagram, b: &Diagram) -> String {
    let counts = |kind| (a.variables_of(kind).len(), b.variables_of(kind).len());
    let (maximum, minimum) = (counts(VariableKind::Maximum), counts(VariableKind::Minimum));
    let ((left, right), noun) =
        if (maximum.0 + maximum.1) as u64 > VARIABLES { (maximum, "variable") } else { (minimum, "minimum variable") };
    format!("{} together, {left} and {right}; at most {VARIABLES}", counted(left + right, noun))
}

/// What a refused regression met, against its limit.
pub fn regression(refusal: Refusal, value: &Diagram, truths: &Truths) -> String {
    let mut space = Space::within(MEASURED);
    let regressed = regress_in(&mut space, value, truths, Slips::NONE);
    met(refusal, &space, regressed)
}

/// What a refused freeing met, against its limit.
pub fn freeing(value: &Diagram, parameters: u64) -> String {
    let highest = value.variables_of(VariableKind::Maximum).last().copied().unwrap_or(0) + parameters;
    format!("a variable numbered {highest} where {parameters} more are freed; the last is {LAST_VARIABLE}")
}

/// A step inside a call: the rows formed by then, or the pairs of its walk.
pub fn met(refusal: Refusal, space: &Space, result: Result<Diagram, Refusal>) -> String {
    match (refusal, result) {
        (Refusal::Pairs, Ok(_)) => format!("{} walked; at most {}", counted(space.most_pairs, "pair"), grouped(PAIRS as u128)),
        (Refusal::Space, Ok(_)) if space.formed() > SPACE_ROWS => rows_formed(space.formed()),
        (Refusal::Space, Ok(diagram)) => result_rows(diagram.rows().len()),
        _ => beyond(refusal),
    }
}

fn rows_formed(rows: usize) -> String {
    format!("{} formed in one call; at most {}", counted(rows, "row"), grouped(SPACE_ROWS as u128))
}

pub fn result_rows(rows: usize) -> String {
    format!("a result of {}; at most {}", counted(rows, "row"), grouped(ROWS as u128))
}

/// Where even the measuring ends early.
fn beyond(refusal: Refusal) -> String {
    match refusal {
        Refusal::Pairs => format!("more than {} pairs walked; at most {}", grouped(MEASURED.pairs as u128), grouped(PAIRS as u128)),
        _ => format!(
            "more than {} rows formed in one call, or as many pairs walked; at most {}",
            grouped(MEASURED.rows as u128),
            grouped(SPACE_ROWS as u128)
        ),
    }
}

/// How many paths a diagram has, those to leaf 0 included.
pub fn count_paths(diagram: &Diagram) -> u128 {
    let mut counts: Vec<u128> = Vec::new();
    for row in diagram.rows() {
        counts.push(match *row {
            Row::Leaf(_) => 1,
            Row::Branch { yes, no, .. } => counts[yes].saturating_add(counts[no]),
        });
    }
    counts.pop().unwrap_or(0)
}

/// A space to measure a text's diagram in.
pub fn space() -> Space {
    Space::within(MEASURED)
}
