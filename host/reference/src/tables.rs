//! Document 02, L6: the second way to a value. Variables are aggregated early, by a table for each row of the diagram.

use crate::diagram::{Diagram, Row};
use crate::refusal::{require, Refusal};
use crate::state::{State, Valuation};
use crate::terms::{is_variable, Arities, Label, Term};
use std::collections::{BTreeMap, BTreeSet};

/// The most entries of all tables of one evaluation.
pub const ENTRIES: u64 = 8_192;

/// Some variables, and values for choices of their objects.
#[derive(Clone, Debug, PartialEq, Eq)]
struct Table {
    names: BTreeSet<Term>,
    /// The objects are in the order of the names.
    entries: BTreeMap<Vec<u64>, u64>,
}

impl Table {
    fn leaf(value: u64) -> Table {
        Table { names: BTreeSet::new(), entries: BTreeMap::from([(Vec::new(), value)]) }
    }

    /// The value of the entry that agrees with a choice for all names, if there is one.
    fn entry(&self, choice: &Valuation) -> Option<u64> {
        let objects: Vec<u64> = self.names.iter().map(|name| choice[name]).collect();
        self.entries.get(&objects).copied()
    }

    /// The table of these names that has the entries that `entry` gives.
    fn of(names: BTreeSet<Term>, objects: u64, entry: impl Fn(&Valuation) -> Option<u64>) -> Table {
        let mut entries = BTreeMap::new();
        for choice in choices(&names, objects) {
            if let Some(value) = entry(&choice) {
                entries.insert(choice.into_values().collect(), value);
            }
        }
        Table { names, entries }
    }

    /// Drops one name: the highest value of the entries that differ in it alone.
    fn without(&self, name: Term) -> Table {
        let place = self.names.iter().position(|other| *other == name).expect("a name of the table");
        let mut entries = BTreeMap::new();
        for (objects, value) in &self.entries {
            let mut objects = objects.clone();
            objects.remove(place);
            let highest = entries.entry(objects).or_insert(*value);
            *highest = (*highest).max(*value);
        }
        Table { names: self.names.iter().copied().filter(|other| *other != name).collect(), entries }
    }
}

/// Every choice of an object for each name, lowest objects first.
fn choices(names: &BTreeSet<Term>, objects: u64) -> Vec<Valuation> {
    names.iter().fold(vec![Valuation::new()], |choices, name| {
        let longer = |choice: Valuation| (0..objects).map(move |object| choice.clone().into_iter().chain([(*name, object)]).collect());
        choices.into_iter().flat_map(longer).collect()
    })
}

fn tested(label: Label) -> BTreeSet<Term> {
    label.places().into_iter().filter(|term| is_variable(*term)).collect()
}

/// For each row the variables that a row leading to it tests, by any number of edges. Rows are above their children, so a row's own are known when it is met from the root down.
fn tested_above(diagram: &Diagram) -> Vec<BTreeSet<Term>> {
    let mut above = vec![BTreeSet::new(); diagram.rows().len()];
    for (number, row) in diagram.rows().iter().enumerate().rev() {
        if let Row::Branch { label, yes, no } = *row {
            let names: BTreeSet<Term> = &above[number] | &tested(label);
            for child in [yes, no] {
                above[child].extend(&names);
            }
        }
    }
    above
}

/// What an evaluation comes to.
#[derive(Clone, Copy, Debug, PartialEq, Eq)]
pub struct Worked {
    pub value: u64,
    /// The entries of all its tables: of leaves, of both joins and the union of each branch, and of each aggregation.
    pub entries: u64,
}

struct Work<'a> {
    arities: &'a Arities,
    state: &'a State,
    /// The objects of parameters; a test without variables has one case.
    bound: &'a Valuation,
    most: u64,
    entries: u64,
}

impl Work<'_> {
    fn count(&mut self, entries: u64) -> Result<(), Refusal> {
        self.entries = self.entries.saturating_add(entries);
        require(self.entries <= self.most, Refusal::Valuations)
    }

    fn counted(&mut self, table: Table) -> Result<Table, Refusal> {
        self.count(table.entries.len() as u64)?;
        Ok(table)
    }

    /// The label's true or its false cases, joined with the table of the row there.
    fn join(&mut self, label: Label, truth: bool, child: &Table) -> Result<Table, Refusal> {
        let terms = &label.places()[..self.arities[label.predicate() as usize] as usize];
        let holds = |choice: &Valuation| {
            let objects = choice.iter().chain(self.bound).map(|(term, object)| (*term, *object)).collect();
            self.state.holds(label.predicate(), terms, &objects) == truth
        };
        let names = &tested(label) | &child.names;
        self.counted(Table::of(names, self.state.objects, |choice| if holds(choice) { child.entry(choice) } else { None }))
    }

    /// Both sides' entries, for every object of the names that a side lacks.
    fn union(&mut self, a: &Table, b: &Table) -> Result<Table, Refusal> {
        self.counted(Table::of(&a.names | &b.names, self.state.objects, |choice| a.entry(choice).max(b.entry(choice))))
    }

    /// A branch has an entry in its union for every choice of the names there: one side of the test holds, and its child's table has an entry for every choice likewise.
    /// So a row whose union alone would pass the limit need not be worked out.
    fn branch(&mut self, label: Label, yes: &Table, no: &Table, above: &BTreeSet<Term>) -> Result<Table, Refusal> {
        let names = &(&tested(label) | &yes.names) | &no.names;
        let full = names.iter().fold(1_u64, |full, _| full.saturating_mul(self.state.objects));
        require(full <= self.most, Refusal::Valuations)?;
        let (yes, no) = (self.join(label, true, yes)?, self.join(label, false, no)?);
        let mut table = self.union(&yes, &no)?;
        for name in &names - above {
            table = self.counted(table.without(name))?;
        }
        Ok(table)
    }
}

/// The value by tables, each row worked once in listing order, or 15 above so many entries.
pub fn worked(diagram: &Diagram, arities: &Arities, state: &State, most: u64) -> Result<Worked, Refusal> {
    worked_with(diagram, arities, state, &Valuation::new(), most)
}

/// The same with objects for parameters.
pub fn worked_with(diagram: &Diagram, arities: &Arities, state: &State, bound: &Valuation, most: u64) -> Result<Worked, Refusal> {
    let above = tested_above(diagram);
    let mut work = Work { arities, state, bound, most, entries: 0 };
    let mut tables: Vec<Table> = Vec::new();
    for (row, above) in diagram.rows().iter().zip(&above) {
        let table = match *row {
            Row::Leaf(value) => work.counted(Table::leaf(value))?,
            Row::Branch { label, yes, no } => work.branch(label, &tables[yes], &tables[no], above)?,
        };
        tables.push(table);
    }
    let value = tables[diagram.root()].entry(&Valuation::new()).expect("no row leads to the root, so that no name is left");
    Ok(Worked { value, entries: work.entries })
}
