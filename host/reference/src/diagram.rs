//! Diagrams as listings, the working space, and renaming (document 01, "Terms, labels, listings" and "Combination").

use crate::refusal::{require, Refusal};
use crate::terms::{is_minimum, is_parameter, is_variable, Label, Term, Test, VariableKind};
use std::collections::{BTreeMap, BTreeSet};

/// Rows of a listing.
pub const ROWS: usize = 1_024;
/// Rows of the working space of one call.
pub const SPACE_ROWS: usize = 2_048;
/// Pairs that one walk over two diagrams may reach.
pub const PAIRS: usize = 4_096;
/// The highest leaf.
pub const LARGEST: u64 = 1_000_000_000_000_000_000;

#[derive(Clone, Copy, Debug, PartialEq, Eq, PartialOrd, Ord, Hash)]
pub enum Row {
    Leaf(u64),
    Branch { label: Label, yes: usize, no: usize },
}

/// A reduced diagram. Its rows are numbered as a walk from the root, true branch first, finishes them, so the root is last.
/// Equal diagrams have equal rows.
#[derive(Clone, Debug, PartialEq, Eq, PartialOrd, Ord)]
pub struct Diagram {
    rows: Vec<Row>,
}

impl Diagram {
    pub fn leaf(value: u64) -> Diagram {
        Diagram { rows: vec![Row::Leaf(value)] }
    }

    /// The one-row test of an atom: leaf 1 where it holds, leaf 0 where it does not.
    pub fn test(test: Test) -> Diagram {
        match test {
            Test::Always => Diagram::leaf(1),
            Test::Is(label) => Diagram { rows: vec![Row::Leaf(1), Row::Leaf(0), Row::Branch { label, yes: 0, no: 1 }] },
        }
    }

    pub fn rows(&self) -> &[Row] {
        &self.rows
    }

    pub fn root(&self) -> usize {
        self.rows.len() - 1
    }

    pub fn labels(&self) -> impl Iterator<Item = Label> + '_ {
        self.rows.iter().filter_map(|row| match row {
            Row::Branch { label, .. } => Some(*label),
            Row::Leaf(_) => None,
        })
    }

    pub fn leaves(&self) -> impl Iterator<Item = u64> + '_ {
        self.rows.iter().filter_map(|row| match row {
            Row::Leaf(value) => Some(*value),
            Row::Branch { .. } => None,
        })
    }

    /// Those of both kinds, the maximum variables first.
    pub fn variables(&self) -> BTreeSet<Term> {
        self.labels().flat_map(|label| label.places()).filter(|t| is_variable(*t)).collect()
    }

    pub fn variables_of(&self, kind: VariableKind) -> BTreeSet<Term> {
        self.variables().into_iter().filter(|t| VariableKind::of(*t) == Some(kind)).collect()
    }

    pub fn has_minimum(&self) -> bool {
        self.variables().into_iter().any(is_minimum)
    }

    pub fn parameters(&self) -> BTreeSet<Term> {
        self.labels().flat_map(|label| label.places()).filter(|t| is_parameter(*t)).collect()
    }

    /// The leaf that a choice of true or false for all labels leads to.
    pub fn leaf_under(&self, choice: &impl Fn(Label) -> bool) -> u64 {
        let mut at = self.root();
        loop {
            match self.rows[at] {
                Row::Leaf(value) => return value,
                Row::Branch { label, yes, no } => at = if choice(label) { yes } else { no },
            }
        }
    }

    /// 1 - T for a diagram T with leaves 0 and 1: its leaves exchanged.
    pub fn exchanged(&self) -> Diagram {
        let exchange = |row: &Row| match *row {
            Row::Leaf(value) => Row::Leaf(1 - value),
            branch => branch,
        };
        Diagram { rows: self.rows.iter().map(exchange).collect() }
    }

    /// Renames terms by a renaming that keeps their order, and so the order of labels and rows.
    pub fn renamed(&self, renaming: &impl Fn(Term) -> Term) -> Diagram {
        let rename = |row: &Row| match *row {
            Row::Branch { label, yes, no } => match label.replaced(renaming) {
                Test::Is(label) => Row::Branch { label, yes, no },
                Test::Always => panic!("the renaming joins two terms"),
            },
            leaf => leaf,
        };
        Diagram { rows: self.rows.iter().map(rename).collect() }
    }

    /// The used variables of each kind become first, first + 1, .. of that kind in their order.
    pub fn numbered_from(&self, first: impl Fn(VariableKind) -> Term) -> Diagram {
        let numbered = |kind| self.variables_of(kind).into_iter().zip(first(kind)..);
        let numbers: BTreeMap<Term, Term> = VariableKind::ALL.into_iter().flat_map(numbered).collect();
        self.renamed(&|term| *numbers.get(&term).unwrap_or(&term))
    }

    pub fn closed_up(&self) -> Diagram {
        self.numbered_from(VariableKind::first)
    }

    /// A result is held to 1,024 rows.
    pub fn as_result(self) -> Result<Diagram, Refusal> {
        require(self.rows.len() <= ROWS, Refusal::Space)?;
        Ok(self)
    }
}

/// The rows formed in one call: equal ones once, none given up.
pub struct Space {
    rows: Vec<Row>,
    index: BTreeMap<Row, usize>,
    limits: Limits,
    /// The most pairs that a walk of this call reached.
    pub most_pairs: usize,
}

/// How many rows a call may form, and how many pairs each of its walks may reach.
#[derive(Clone, Copy, Debug, PartialEq, Eq)]
pub struct Limits {
    pub rows: usize,
    pub pairs: usize,
}

impl Limits {
    pub const CALL: Limits = Limits { rows: SPACE_ROWS, pairs: PAIRS };
}

impl Space {
    pub fn new() -> Space {
        Space::within(Limits::CALL)
    }

    /// A space of another size, to measure what a refused call would need.
    pub fn within(limits: Limits) -> Space {
        Space { rows: Vec::new(), index: BTreeMap::new(), limits, most_pairs: 0 }
    }

    pub fn limits(&self) -> Limits {
        self.limits
    }

    pub fn formed(&self) -> usize {
        self.rows.len()
    }

    /// Forms one row of a reduced diagram: a branch with two equal children is its child.
    pub fn form(&mut self, row: Row) -> Result<usize, Refusal> {
        if let Row::Branch { yes, no, .. } = row {
            if yes == no {
                return Ok(yes);
            }
        }
        if let Some(at) = self.index.get(&row) {
            return Ok(*at);
        }
        require(self.rows.len() < self.limits.rows, Refusal::Space)?;
        self.rows.push(row);
        self.index.insert(row, self.rows.len() - 1);
        Ok(self.rows.len() - 1)
    }

    /// Forms every row of a diagram, in number order, and gives its root.
    pub fn form_diagram(&mut self, diagram: &Diagram) -> Result<usize, Refusal> {
        let mut places = Vec::new();
        for row in diagram.rows() {
            places.push(self.form(match *row {
                Row::Branch { label, yes, no } => Row::Branch { label, yes: places[yes], no: places[no] },
                leaf => leaf,
            })?);
        }
        Ok(places[diagram.root()])
    }

    /// The diagram below a formed row.
    pub fn diagram(&self, root: usize) -> Diagram {
        let mut numbers = BTreeMap::new();
        let mut rows = Vec::new();
        self.walk(root, &mut numbers, &mut rows);
        Diagram { rows }
    }

    fn walk(&self, at: usize, numbers: &mut BTreeMap<usize, usize>, rows: &mut Vec<Row>) {
        if numbers.contains_key(&at) {
            return;
        }
        let row = match self.rows[at] {
            Row::Branch { label, yes, no } => {
                self.walk(yes, numbers, rows);
                self.walk(no, numbers, rows);
                Row::Branch { label, yes: numbers[&yes], no: numbers[&no] }
            }
            leaf => leaf,
        };
        numbers.insert(at, rows.len());
        rows.push(row);
    }
}

impl Default for Space {
    fn default() -> Space {
        Space::new()
    }
}
