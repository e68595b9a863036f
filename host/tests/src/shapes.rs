//! Random listings for library calls, from single leaves to about 1,024 rows: layers of rows, a label each.

use crate::random::Random;
use reference::diagram::{Diagram, Row, Space, LARGEST};
use reference::terms::{
    Arities, Label, Term, Test, VariableKind, CONSTANTS, EQUALITY, FIRST_PARAMETER, LARGEST_ARITY, PREDICATES, VARIABLES,
};
use std::collections::BTreeSet;

/// What labels are drawn from: some predicates and some terms.
pub struct Atoms {
    pub arities: Arities,
    pub predicates: Vec<u64>,
    pub terms: Vec<Term>,
}

impl Atoms {
    /// Up to eight predicates besides equality, a few constants, and up to `variables` variables from a random one on; once in three as many minimum variables, or these alone.
    pub fn random(random: &mut Random, parameters: u64, variables: u64) -> Atoms {
        let mut arities = [0; PREDICATES];
        arities[EQUALITY as usize] = 2;
        for arity in &mut arities[1..] {
            *arity = random.below(LARGEST_ARITY + 1);
        }
        let mut predicates = vec![EQUALITY];
        for _ in 0..random.between(1, 8) {
            predicates.push(random.between(1, PREDICATES as u64 - 1));
        }
        let mut terms: Vec<Term> = (0..random.below(4)).map(|_| random.below(CONSTANTS)).collect();
        terms.extend(FIRST_PARAMETER..FIRST_PARAMETER + parameters);
        let kinds: &[VariableKind] = match random.below(9) {
            0 => &[VariableKind::Minimum],
            1 | 2 => &VariableKind::ALL,
            _ => &[VariableKind::Maximum],
        };
        for kind in kinds {
            let count = random.between(1, variables);
            let first = kind.first() + random.below(VARIABLES - count + 1);
            terms.extend(first..first + count);
        }
        Atoms { arities, predicates, terms }
    }

    /// The same, with other terms.
    pub fn about(&self, terms: Vec<Term>) -> Atoms {
        Atoms { terms, predicates: self.predicates.clone(), ..*self }
    }

    /// Different labels in their order, at most so many.
    pub fn labels(&self, random: &mut Random, count: u64) -> Vec<Label> {
        let mut labels = BTreeSet::new();
        for _ in 0..2 * count {
            let predicate = *random.pick(&self.predicates);
            let arity = self.arities[predicate as usize] as usize;
            if arity > 0 && self.terms.is_empty() {
                continue;
            }
            let terms: Vec<Term> = (0..arity).map(|_| *random.pick(&self.terms)).collect();
            if let (true, Test::Is(label)) = ((labels.len() as u64) < count, Test::atom(predicate, &terms)) {
                labels.insert(label);
            }
        }
        labels.into_iter().collect()
    }
}

/// How many labels a listing tests, and how many rows test the same one.
#[derive(Clone, Copy)]
pub struct Shape {
    pub levels: u64,
    pub width: u64,
}

impl Shape {
    pub fn small(random: &mut Random) -> Shape {
        Shape { levels: random.below(5), width: random.between(1, 4) }
    }

    pub fn middle(random: &mut Random) -> Shape {
        Shape { levels: random.between(4, 12), width: random.between(2, 16) }
    }

    pub fn large(random: &mut Random) -> Shape {
        let width = random.between(16, 64);
        Shape { levels: random.between(8, 1_060 / width), width }
    }

    pub fn long(random: &mut Random) -> Shape {
        let width = random.between(1, 3);
        Shape { levels: random.between(100, 1_026 / width), width }
    }

    /// Any of these; one in so many is large or long.
    pub fn any(random: &mut Random, rarely: u64) -> Shape {
        match (random.once_in(rarely), random.below(2)) {
            (true, 0) => Shape::large(random),
            (true, _) => Shape::long(random),
            (false, 0) => Shape::middle(random),
            (false, _) => Shape::small(random),
        }
    }
}

/// Leaves of one kind: truths, small numbers, many different ones, or some about half of the highest value.
pub fn leaves(random: &mut Random) -> Vec<u64> {
    match random.below(4) {
        0 => vec![0, 1],
        1 => vec![0, 1, random.below(10), random.below(1_000_000)],
        2 => (0..random.between(1, 64)).map(|_| random.below(1_000)).collect(),
        _ => vec![0, 1, 2, LARGEST / 2, LARGEST / 2 + random.below(2), LARGEST - random.below(2)],
    }
}

/// A diagram of this shape. The rows of a layer lead to the next layer, now and then to another of its rows or to a leaf.
pub fn diagram(random: &mut Random, labels: &[Label], width: u64, leaves: &[u64]) -> Diagram {
    let mut space = Space::new();
    let leaves: Vec<usize> = leaves.iter().map(|leaf| space.form(Row::Leaf(*leaf)).expect("few leaves")).collect();
    let mut below = leaves.clone();
    for (level, label) in labels.iter().enumerate().rev() {
        let rows = width.min(1 << level.min(20)) as usize;
        let mut layer = Vec::new();
        for i in 0..rows {
            let yes = if random.once_in(8) { *random.pick(&below) } else { below[2 * i % below.len()] };
            let no = if width == 1 || random.once_in(8) { *random.pick(&leaves) } else { below[(2 * i + 1) % below.len()] };
            layer.push(space.form(Row::Branch { label: *label, yes, no }).expect("at most 2,048 rows"));
        }
        below = layer;
    }
    space.diagram(below[0])
}
