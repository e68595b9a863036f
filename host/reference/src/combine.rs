//! Sum, product and max, names apart or shared (document 01, "Combination"; document 02, L4 and L12).

use crate::diagram::{Diagram, Row, Space, LARGEST};
use crate::refusal::{require, Refusal};
use crate::slips::Slips;
use crate::terms::{Label, VariableKind, VARIABLES};
use std::collections::{BTreeMap, BTreeSet};

#[derive(Clone, Copy, Debug, PartialEq, Eq)]
pub enum Operator {
    Sum,
    Product,
    Max,
}

impl Operator {
    pub fn apply(self, a: u64, b: u64) -> u128 {
        let (a, b) = (u128::from(a), u128::from(b));
        match self {
            Operator::Sum => a + b,
            Operator::Product => a * b,
            Operator::Max => a.max(b),
        }
    }

    /// Whether a pair with this row on one side has no successors, whatever the other side: leaf 0 in a product (L4).
    fn stops_at(self, row: Row) -> bool {
        self == Operator::Product && row == Row::Leaf(0)
    }
}

#[derive(Clone, Copy, Debug, PartialEq, Eq)]
pub enum Names {
    Apart,
    Shared,
}

#[derive(Clone, Debug, PartialEq, Eq)]
pub struct Combined {
    pub diagram: Diagram,
    /// How many pairs the walk reached.
    pub pairs: usize,
}

type Pair = (usize, usize);

enum Step {
    Leaves(u64, u64),
    Zero,
    Descend { label: Label, yes: Pair, no: Pair },
}

/// A pair of leaves, a leaf 0 beside a branch in a product, or the lower label and the pairs below: descend in every operand that has this label.
fn step(operator: Operator, a: &Diagram, b: &Diagram, (i, j): Pair) -> Step {
    let label_of = |row: Row| match row {
        Row::Leaf(_) => None,
        Row::Branch { label, .. } => Some(label),
    };
    let label = match (a.rows()[i], b.rows()[j]) {
        (Row::Leaf(v), Row::Leaf(w)) => return Step::Leaves(v, w),
        (row, other) if operator.stops_at(row) || operator.stops_at(other) => return Step::Zero,
        (row, other) => label_of(row).into_iter().chain(label_of(other)).min().expect("one is a branch"),
    };
    let below = |diagram: &Diagram, at: usize| match diagram.rows()[at] {
        Row::Branch { label: own, yes, no } if own == label => (yes, no),
        _ => (at, at),
    };
    let ((yes_a, no_a), (yes_b, no_b)) = (below(a, i), below(b, j));
    Step::Descend { label, yes: (yes_a, yes_b), no: (no_a, no_b) }
}

/// The least set that holds the pair of roots and, with each pair that has some, its two successors; or 10.
fn reached(operator: Operator, a: &Diagram, b: &Diagram, most: usize) -> Result<BTreeSet<Pair>, Refusal> {
    let mut pairs = BTreeSet::new();
    let mut open = vec![(a.root(), b.root())];
    while let Some(pair) = open.pop() {
        if !pairs.insert(pair) {
            continue;
        }
        require(pairs.len() <= most, Refusal::Pairs)?;
        if let Step::Descend { yes, no, .. } = step(operator, a, b, pair) {
            open.push(no);
            open.push(yes);
        }
    }
    Ok(pairs)
}

struct Walk<'a> {
    operator: Operator,
    a: &'a Diagram,
    b: &'a Diagram,
    formed: BTreeMap<Pair, usize>,
}

impl Walk<'_> {
    /// Forms the reduced diagram of a pair, those below it first.
    fn form(&mut self, space: &mut Space, pair: Pair) -> Result<usize, Refusal> {
        if let Some(at) = self.formed.get(&pair) {
            return Ok(*at);
        }
        let row = match step(self.operator, self.a, self.b, pair) {
            Step::Leaves(v, w) => Row::Leaf(self.operator.apply(v, w) as u64),
            Step::Zero => Row::Leaf(0),
            Step::Descend { label, yes, no } => {
                let yes = self.form(space, yes)?;
                let no = self.form(space, no)?;
                Row::Branch { label, yes, no }
            }
        };
        let at = space.form(row)?;
        self.formed.insert(pair, at);
        Ok(at)
    }
}

/// A combination with shared names inside a call: 10, then 11, then 9.
pub fn combine_in(space: &mut Space, operator: Operator, a: &Diagram, b: &Diagram) -> Result<Combined, Refusal> {
    let pairs = reached(operator, a, b, space.limits().pairs)?;
    space.most_pairs = space.most_pairs.max(pairs.len());
    for pair in &pairs {
        if let Step::Leaves(v, w) = step(operator, a, b, *pair) {
            require(operator.apply(v, w) <= u128::from(LARGEST), Refusal::Value)?;
        }
    }
    let mut walk = Walk { operator, a, b, formed: BTreeMap::new() };
    let root = walk.form(space, (a.root(), b.root()))?;
    Ok(Combined { diagram: space.diagram(root), pairs: pairs.len() })
}

/// "A max asked for with shared names is done apart if either side has" a minimum variable (document 02, L12).
pub fn names_done(operator: Operator, names: Names, a: &Diagram, b: &Diagram) -> Names {
    if operator == Operator::Max && (a.has_minimum() || b.has_minimum()) {
        Names::Apart
    } else {
        names
    }
}

/// The operands as a call combines them; apart, their renamed rows are formed: 8, which judges each kind of variables by itself.
pub fn operands(space: &mut Space, names: Names, a: &Diagram, b: &Diagram, slips: Slips) -> Result<(Diagram, Diagram), Refusal> {
    if names == Names::Shared {
        return Ok((a.clone(), b.clone()));
    }
    let count = |diagram: &Diagram, kind| diagram.variables_of(kind).len() as u64;
    for kind in VariableKind::ALL {
        require(count(a, kind) + count(b, kind) <= VARIABLES, Refusal::Variables)?;
    }
    let aside = |kind| if slips.minimum_in_place && kind == VariableKind::Minimum { 0 } else { count(a, kind) };
    let b = b.numbered_from(|kind| kind.first() + aside(kind));
    let a = a.closed_up();
    // Two listings of 1,024 rows fit, so this never refuses ahead of 10 and 11.
    space.form_diagram(&a)?;
    space.form_diagram(&b)?;
    Ok((a, b))
}

/// A combination as one call: 8, then 10, 11, 9.
pub fn combine(operator: Operator, names: Names, a: &Diagram, b: &Diagram) -> Result<Combined, Refusal> {
    combine_with(operator, names, a, b, Slips::NONE)
}

pub fn combine_with(operator: Operator, names: Names, a: &Diagram, b: &Diagram, slips: Slips) -> Result<Combined, Refusal> {
    let names = if slips.max_shared { names } else { names_done(operator, names, a, b) };
    let mut space = Space::new();
    let (a, b) = operands(&mut space, names, a, b, slips)?;
    let combined = combine_in(&mut space, operator, &a, &b)?;
    let diagram = combined.diagram.as_result()?;
    Ok(match names {
        Names::Shared => Combined { diagram, ..combined },
        Names::Apart => Combined { diagram: diagram.closed_up(), ..combined },
    })
}

/// The highest leaf that a combination with shared names has, however high; or 10.
pub fn highest_leaf(operator: Operator, a: &Diagram, b: &Diagram, most_pairs: usize) -> Result<u128, Refusal> {
    let leaf = |pair: &Pair| match step(operator, a, b, *pair) {
        Step::Leaves(v, w) => Some(operator.apply(v, w)),
        Step::Zero => Some(0),
        Step::Descend { .. } => None,
    };
    Ok(reached(operator, a, b, most_pairs)?.iter().filter_map(leaf).max().unwrap_or(0))
}
