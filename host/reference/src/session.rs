//! A text from its first line to its last: the checks of each line in document 01's order, and the answers as bytes.

use crate::best::best;
use crate::cut::cut;
use crate::declarations::{Declarations, DeclaredAction, DeclaredVariant, Lookup, Variables, DEFAULT_DISCOUNT, DEFAULT_TOTAL};
use crate::diagram::{Diagram, Row};
use crate::form::{form, variables_in_order};
use crate::mdp::{backup, power, Action, Model, Variant};
use crate::reduce::reduce;
use crate::refusal::{require, Refusal};
use crate::replay::{did, Done, Log};
use crate::slips::Slips;
use crate::spread::spread;
use crate::state::{value_with, State, Valuation};
use crate::terms::{Arities, VariableKind, CONSTANTS, LARGEST_ARITY, PARAMETERS, PREDICATES, VARIABLES};
use crate::text::{lines, read_line, Line, WrittenDiagram};
use crate::weights;
use std::collections::BTreeSet;

pub const TOTAL: u64 = 1_000_000;
pub const DIVISOR: u64 = 1_000_000;
pub const ACTIONS: usize = 8;
pub const VARIANTS: usize = 8;
pub const MODEL_ROWS: usize = 2_048;
pub const OBJECTS: u64 = 64;
pub const FACTS: usize = 1_024;

#[derive(Clone, Debug, PartialEq, Eq)]
pub enum Answer {
    Value { value: u64, k: u64, scale: u64 },
    Backup { k: u64, rows: usize },
    Row { number: usize, row: Row },
    Cut { row: usize, edge: bool, rows: usize },
    Reduce { rows: usize },
    Text { form: String },
    Best { action: String, objects: Vec<u64> },
    Count { value: u64, states: u64 },
    Did { count: u64, total: u64 },
    Refused { refusal: Refusal, line: usize },
}

impl Answer {
    /// The answer's line, its line feed included.
    pub fn print(&self) -> String {
        match self {
            Answer::Value { value, k, scale } => format!("(value {value} {k} {scale})\n"),
            Answer::Backup { k, rows } => format!("(backup {k} {rows})\n"),
            Answer::Row { number, row: Row::Leaf(value) } => format!("(row {number} leaf {value})\n"),
            Answer::Row { number, row: Row::Branch { label, yes, no } } => format!("(row {number} {} {yes} {no})\n", label.0),
            Answer::Cut { row, edge, rows } => format!("(cut {row} {edge} {rows})\n"),
            Answer::Reduce { rows } => format!("(reduce {rows})\n"),
            Answer::Text { form } => format!("{form}\n"),
            Answer::Best { action, objects } => {
                let objects: String = objects.iter().map(|object| format!(" {object}")).collect();
                format!("(best {action}{objects})\n")
            }
            Answer::Count { value, states } => format!("(count {value} {states})\n"),
            Answer::Did { count, total } => format!("(did {count} {total})\n"),
            Answer::Refused { refusal, line } => format!("(refused {} {line})\n", refusal.number()),
        }
    }
}

/// The state in hand.
#[derive(Clone, Debug)]
pub struct Placed {
    pub objects: u64,
    pub constants: Vec<Option<u64>>,
    pub facts: BTreeSet<(u64, Vec<u64>)>,
    pub log: Log,
}

impl Placed {
    /// The state, once every declared constant is placed.
    pub fn state(&self) -> Option<State> {
        let constants = self.constants.iter().copied().collect::<Option<Vec<u64>>>()?;
        Some(State { objects: self.objects, constants, facts: self.facts.clone() })
    }
}

/// What stands after an accepted (start).
#[derive(Clone, Debug)]
pub struct Run {
    pub model: Model,
    pub arities: Arities,
    pub value: Diagram,
    pub k: u64,
    pub placed: Option<Placed>,
}

#[derive(Clone, Debug, Default)]
pub struct Session {
    declarations: Declarations,
    run: Option<Run>,
    slips: Slips,
}

/// A line taken; what it prints.
type Taken = Result<Vec<Answer>, Refusal>;
const NOTHING_PRINTED: Vec<Answer> = Vec::new();

impl Session {
    pub fn new(slips: Slips) -> Session {
        Session { slips, ..Session::default() }
    }

    pub fn declarations(&self) -> &Declarations {
        &self.declarations
    }

    pub fn started(&self) -> Option<&Run> {
        self.run.as_ref()
    }

    /// The session after k steps that led to this value diagram.
    pub fn with_value(mut self, value: Diagram, k: u64) -> Session {
        if let Some(run) = &mut self.run {
            (run.value, run.k) = (value, k);
        }
        self
    }

    /// The session behind so many lines of a log, with this total.
    pub fn with_log(mut self, count: u64, total: u64) -> Session {
        if let Some(placed) = self.run.as_mut().and_then(|run| run.placed.as_mut()) {
            placed.log = Log { count, total };
        }
        self
    }

    /// Takes one line without its line feed. A refused line changes nothing, nor does a blank one (document 02, L1).
    pub fn take(&mut self, line: &[u8]) -> Taken {
        if line.is_empty() {
            return Ok(NOTHING_PRINTED);
        }
        let line = read_line(line)?;
        if !line.is_of_the_run() {
            require(self.run.is_none(), Refusal::Place)?;
            return self.declare(&line);
        }
        let run = self.run.as_mut().ok_or(Refusal::Place)?;
        run.take(&line, &self.declarations, self.slips)
    }

    fn declare(&mut self, line: &Line) -> Taken {
        match line {
            Line::Constant(name) => self.constant(name),
            Line::Predicate(name, arity) => self.predicate(name, *arity),
            Line::Total(total) => self.total(*total),
            Line::Discount(gain, divisor) => self.discount(*gain, *divisor),
            Line::Reward(diagram) => self.reward(diagram),
            Line::Action(name, parameters) => self.action(name, parameters),
            Line::Variant(name, weight) => self.variant(name, weight),
            Line::Becomes(name, arguments, diagram) => self.becomes(name, arguments, diagram),
            _ => self.start(),
        }
    }

    fn constant(&mut self, name: &str) -> Taken {
        require(self.declarations.is_new(name), Refusal::Name)?;
        require((self.declarations.constants.len() as u64) < CONSTANTS, Refusal::Space)?;
        self.declarations.constants.push(name.to_string());
        Ok(NOTHING_PRINTED)
    }

    fn predicate(&mut self, name: &str, arity: u64) -> Taken {
        require(self.declarations.is_new(name), Refusal::Name)?;
        require(arity <= LARGEST_ARITY, Refusal::Range)?;
        require(self.declarations.predicates.len() < PREDICATES - 1, Refusal::Space)?;
        self.declarations.predicates.push((name.to_string(), arity));
        Ok(NOTHING_PRINTED)
    }

    fn total(&mut self, total: u64) -> Taken {
        require(self.declarations.total.is_none(), Refusal::Place)?;
        require((1..=TOTAL).contains(&total), Refusal::Range)?;
        self.declarations.total = Some(total);
        Ok(NOTHING_PRINTED)
    }

    fn discount(&mut self, gain: u64, divisor: u64) -> Taken {
        require(self.declarations.discount.is_none(), Refusal::Place)?;
        require((1..=DIVISOR).contains(&divisor) && gain <= divisor, Refusal::Range)?;
        self.declarations.discount = Some((gain, divisor));
        Ok(NOTHING_PRINTED)
    }

    fn reward(&mut self, written: &WrittenDiagram) -> Taken {
        require(self.declarations.reward.is_none(), Refusal::Place)?;
        let variables = variables_in_order(written, self.slips);
        let few = VariableKind::ALL.into_iter().all(|kind| variables.of(kind).len() as u64 <= VARIABLES);
        let tree = Lookup::new(&self.declarations, &[], variables).diagram(written)?;
        require(few, Refusal::Variables)?;
        let reward = tree.read()?.closed_up();
        self.has_room_for(&reward)?;
        self.declarations.reward = Some(reward);
        Ok(NOTHING_PRINTED)
    }

    fn action(&mut self, name: &str, parameters: &[String]) -> Taken {
        require(self.declarations.actions.iter().all(|action| action.name != name), Refusal::Name)?;
        require(distinct(parameters), Refusal::Name)?;
        require(parameters.len() as u64 <= PARAMETERS, Refusal::Space)?;
        require(self.declarations.actions.len() < ACTIONS, Refusal::Space)?;
        let (name, parameters) = (name.to_string(), parameters.to_vec());
        self.declarations.actions.push(DeclaredAction { name, parameters, variants: Vec::new() });
        Ok(NOTHING_PRINTED)
    }

    fn variant(&mut self, name: &str, written: &WrittenDiagram) -> Taken {
        let action = self.declarations.actions.last().ok_or(Refusal::Place)?;
        require(action.variants.iter().all(|variant| variant.name != name), Refusal::Name)?;
        let weight = Lookup::new(&self.declarations, &action.parameters, Variables::NONE).diagram(written)?.read()?;
        require(action.variants.len() < VARIANTS, Refusal::Space)?;
        self.has_room_for(&weight)?;
        let variant = DeclaredVariant { name: name.to_string(), weight, truths: Default::default() };
        self.declarations.actions.last_mut().expect("seen above").variants.push(variant);
        Ok(NOTHING_PRINTED)
    }

    fn becomes(&mut self, name: &str, arguments: &[String], written: &WrittenDiagram) -> Taken {
        let action = self.declarations.actions.last().ok_or(Refusal::Place)?;
        let variant = action.variants.last().ok_or(Refusal::Place)?;
        let (predicate, arity) = self.declarations.predicate(name).ok_or(Refusal::Name)?;
        require(!variant.truths.contains_key(&predicate), Refusal::Name)?;
        require(arguments.len() as u64 == arity, Refusal::Arity)?;
        require(distinct(arguments), Refusal::Name)?;
        let arguments = Variables::arguments(arguments);
        let truth = Lookup::new(&self.declarations, &action.parameters, arguments).diagram(written)?.read()?;
        require(truth.leaves().all(|leaf| leaf <= 1), Refusal::Truth)?;
        self.has_room_for(&truth)?;
        let variant = self.declarations.actions.last_mut().and_then(|action| action.variants.last_mut());
        variant.expect("seen above").truths.insert(predicate, truth);
        Ok(NOTHING_PRINTED)
    }

    fn has_room_for(&self, diagram: &Diagram) -> Result<(), Refusal> {
        require(self.declarations.rows() + diagram.rows().len() <= MODEL_ROWS, Refusal::Space)
    }

    fn start(&mut self) -> Taken {
        let declared = &self.declarations;
        let reward = declared.reward.clone().ok_or(Refusal::Place)?;
        require(!declared.actions.is_empty(), Refusal::Place)?;
        require(declared.actions.iter().all(|action| !action.variants.is_empty()), Refusal::Place)?;
        let total = declared.total.unwrap_or(DEFAULT_TOTAL);
        for action in &declared.actions {
            let sum = weights::sum(action.variants.iter().map(|variant| &variant.weight))?;
            weights::check(&sum, total, &declared.arities())?;
        }
        let model = Model {
            total,
            discount: declared.discount.unwrap_or(DEFAULT_DISCOUNT),
            reward: reward.clone(),
            actions: declared.actions.iter().map(action_of).collect(),
        };
        self.run = Some(Run { model, arities: declared.arities(), value: reward, k: 0, placed: None });
        Ok(NOTHING_PRINTED)
    }
}

fn action_of(action: &DeclaredAction) -> Action {
    let variant = |v: &DeclaredVariant| Variant { weight: v.weight.clone(), truths: v.truths.clone() };
    Action { parameters: action.parameters.len() as u64, variants: action.variants.iter().map(variant).collect() }
}

fn distinct(names: &[String]) -> bool {
    names.iter().collect::<BTreeSet<_>>().len() == names.len()
}

impl Run {
    fn take(&mut self, line: &Line, declarations: &Declarations, slips: Slips) -> Taken {
        match line {
            Line::Objects(objects) => self.objects(*objects, declarations),
            Line::Is(name, object) => self.is(name, *object, declarations),
            Line::True(name, objects) => self.fact(name, objects, declarations),
            Line::Value => self.value(slips),
            Line::Backup => self.backup(slips),
            Line::Cut => self.cut(slips),
            Line::Reduce => self.reduce(slips),
            Line::Text => self.text(declarations),
            Line::Best => self.best(declarations, slips),
            Line::Count(objects) => self.count(*objects, declarations, slips),
            Line::Did(action, variant, objects) => self.did(action, variant, objects, declarations, slips),
            _ => Ok(self.show()),
        }
    }

    fn objects(&mut self, objects: u64, declarations: &Declarations) -> Taken {
        require((1..=OBJECTS).contains(&objects), Refusal::Range)?;
        let constants = vec![None; declarations.constants.len()];
        self.placed = Some(Placed { objects, constants, facts: BTreeSet::new(), log: Log::default() });
        Ok(NOTHING_PRINTED)
    }

    fn is(&mut self, name: &str, object: u64, declarations: &Declarations) -> Taken {
        let placed = self.placed.as_mut().ok_or(Refusal::Place)?;
        let constant = declarations.constant(name).ok_or(Refusal::Name)? as usize;
        require(placed.constants[constant].is_none(), Refusal::Name)?;
        require(object < placed.objects, Refusal::Range)?;
        placed.constants[constant] = Some(object);
        Ok(NOTHING_PRINTED)
    }

    fn fact(&mut self, name: &str, objects: &[u64], declarations: &Declarations) -> Taken {
        let placed = self.placed.as_mut().ok_or(Refusal::Place)?;
        let (predicate, arity) = declarations.predicate(name).ok_or(Refusal::Name)?;
        require(objects.len() as u64 == arity, Refusal::Arity)?;
        require(objects.iter().all(|object| *object < placed.objects), Refusal::Range)?;
        let fact = (predicate, objects.to_vec());
        require(placed.facts.len() < FACTS || placed.facts.contains(&fact), Refusal::Space)?;
        placed.facts.insert(fact);
        // one that repeats a fact begins again too
        placed.log = Log::default();
        Ok(NOTHING_PRINTED)
    }

    fn value(&self, slips: Slips) -> Taken {
        let placed = self.placed.as_ref().ok_or(Refusal::Place)?;
        let state = placed.state().ok_or(Refusal::Place)?;
        let value = value_with(&self.value, &self.arities, &state, &Valuation::new(), slips)?;
        let scale = power(self.model.scale(), self.k).expect("a backup has checked it");
        Ok(vec![Answer::Value { value, k: self.k, scale }])
    }

    fn backup(&mut self, slips: Slips) -> Taken {
        self.value = backup(&self.model, &self.value, self.k, slips)?;
        self.k += 1;
        Ok(vec![Answer::Backup { k: self.k, rows: self.value.rows().len() }])
    }

    fn cut(&mut self, slips: Slips) -> Taken {
        let cut = cut(&self.value, &self.arities, slips)?;
        self.value = cut.diagram;
        let (row, edge) = cut.edge;
        Ok(vec![Answer::Cut { row, edge, rows: self.value.rows().len() }])
    }

    fn reduce(&mut self, slips: Slips) -> Taken {
        self.value = reduce(&self.value, &self.arities, slips)?;
        Ok(vec![Answer::Reduce { rows: self.value.rows().len() }])
    }

    fn text(&self, declarations: &Declarations) -> Taken {
        Ok(vec![Answer::Text { form: form(&self.value, declarations)? }])
    }

    /// 20 in place of 5 where a constant or the state is missing.
    fn best(&self, declarations: &Declarations, slips: Slips) -> Taken {
        let state = self.placed.as_ref().and_then(Placed::state).ok_or(Refusal::Missing)?;
        let best = best(&self.model, &self.arities, &self.value, &state, slips)?;
        Ok(vec![Answer::Best { action: declarations.actions[best.action].name.clone(), objects: best.objects }])
    }

    /// "With the constants placed as they are now": no state is needed where there is none.
    fn constants_placed(&self, declarations: &Declarations) -> Option<Vec<u64>> {
        match &self.placed {
            Some(placed) => placed.constants.iter().copied().collect(),
            None => declarations.constants.is_empty().then(Vec::new),
        }
    }

    fn count(&self, objects: u64, declarations: &Declarations, slips: Slips) -> Taken {
        let constants = self.constants_placed(declarations).ok_or(Refusal::Place)?;
        require((1..=OBJECTS).contains(&objects), Refusal::Range)?;
        require(constants.iter().all(|object| *object < objects), Refusal::Range)?;
        let predicates = declarations.predicates.len() as u64;
        let states = spread(&self.value, &self.arities, predicates, objects, &constants, slips)?;
        Ok(states.into_iter().map(|(value, states)| Answer::Count { value, states }).collect())
    }

    /// Words in their order: the action, with the count of its objects, the variant, the objects; then what the move itself refuses.
    fn did(&mut self, action: &str, variant: &str, objects: &[u64], declarations: &Declarations, slips: Slips) -> Taken {
        let placed = self.placed.as_mut().ok_or(Refusal::Place)?;
        let state = placed.state().ok_or(Refusal::Place)?;
        let action = declarations.action(action).ok_or(Refusal::Name)?;
        require(objects.len() as u64 == self.model.actions[action].parameters, Refusal::Arity)?;
        let variant = declarations.actions[action].variant(variant).ok_or(Refusal::Name)?;
        require(objects.iter().all(|object| *object < placed.objects), Refusal::Range)?;
        let done = Done { variant: &self.model.actions[action].variants[variant], objects };
        let reward = if slips.values_totalled { &self.value } else { &self.model.reward };
        let (next, log) = did(&done, reward, &self.arities, &state, placed.log, slips)?;
        (placed.facts, placed.log) = (next.facts, log);
        Ok(vec![Answer::Did { count: log.count, total: log.total }])
    }

    fn show(&self) -> Vec<Answer> {
        self.value.rows().iter().enumerate().map(|(number, row)| Answer::Row { number, row: *row }).collect()
    }
}

/// All answers of a text. A last line without its line feed is not the grammar. A text of blank lines only is answered nothing at all.
pub fn answers(text: &[u8], slips: Slips) -> Vec<Answer> {
    let mut session = Session::new(slips);
    let mut answers = Vec::new();
    let lines = lines(text);
    let met = lines.iter().any(|(line, _)| !line.is_empty());
    for (number, (line, ended)) in lines.into_iter().enumerate() {
        let taken = if ended { session.take(line) } else { Err(Refusal::Form) };
        match taken {
            Ok(printed) => answers.extend(printed),
            Err(refusal) => answers.push(Answer::Refused { refusal, line: number + 1 }),
        }
    }
    if met && session.started().is_none() {
        answers.push(Answer::Refused { refusal: Refusal::Place, line: 0 });
    }
    answers
}

/// The program: a text in, its answers out.
pub fn run(text: &[u8]) -> Vec<u8> {
    answers(text, Slips::NONE).iter().flat_map(|answer| answer.print().into_bytes()).collect()
}
