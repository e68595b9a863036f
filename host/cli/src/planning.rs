//! Backups, with cuts after each until nothing is left to cut, and reductions behind these where they are asked for.

use crate::model::Loaded;
use crate::trouble::Trouble;
use crate::twin::Twin;
use reference::diagram::Diagram;
use reference::explain::{count_paths, explain, Fault};
use reference::listing::read_listing;
use reference::refusal::Refusal as KnownRefusal;
use std::time::{Duration, Instant};
use yindolve::{CutDone, Refusal, Session, Space};

/// A backup with the cuts and reductions after it; for the reward alone none of these.
pub struct Step {
    pub k: u64,
    /// The rows before the cuts.
    pub backed_up: usize,
    pub cuts: Vec<CutDone>,
    /// Why not all was cut; none where nothing is left to cut.
    pub uncut: Option<Fault>,
    /// The rows that each reduction left.
    pub reductions: Vec<usize>,
    /// Why it was not reduced, or not further.
    pub unreduced: Option<Fault>,
    pub rows: usize,
    /// Of both kinds.
    pub variables: usize,
    pub paths: u128,
    pub time: Duration,
}

/// The steps that were done, from k = 0 on, and the refusal that stopped them.
pub struct Plan {
    pub steps: Vec<Step>,
    pub stop: Option<Fault>,
}

/// What a watcher is told while steps are done.
pub enum Progress<'a> {
    Backup { k: u64, rows: usize, variables: usize },
    Cut { k: u64, cuts: usize, rows: usize },
    Step(&'a Step, &'a Session),
}

pub struct Planner<'a> {
    pub steps: u64,
    /// Whether cuts are left out.
    pub uncut: bool,
    /// Whether each step is reduced behind its cuts.
    pub reduce: bool,
    pub watch: &'a mut dyn FnMut(Progress) -> Result<(), Trouble>,
}

/// The value diagram, as the independent implementation has it.
pub fn diagram(engine: &Session) -> Diagram {
    let listing = engine.listing().and_then(|listing| read_listing(listing.words(), engine.arities().words()).ok());
    listing.unwrap_or_else(|| Diagram::leaf(0))
}

/// The steps that were not cut, or not to the end, as they are told: that minimum variables stand in the way once, for all steps.
pub fn uncut(steps: &[Step]) -> Vec<(&'static str, &Fault)> {
    let faults = || steps.iter().filter_map(|step| step.uncut.as_ref());
    let of_minimum = |fault: &&Fault| fault.refusal == KnownRefusal::Minimum;
    let others = faults().filter(|fault| !of_minimum(fault)).map(|fault| ("not all was cut", fault));
    faults().find(of_minimum).map(|fault| ("nothing is cut", fault)).into_iter().chain(others).collect()
}

impl Planner<'_> {
    /// Works the steps out in the engine of the model.
    pub fn plan(&mut self, model: &mut Loaded) -> Result<Plan, Trouble> {
        let engine = &mut model.twin.engine;
        let mut plan = Plan { steps: vec![start(engine)], stop: None };
        for _ in 0..self.steps {
            match self.step(engine)? {
                Ok(step) => plan.steps.push(step),
                Err(fault) => {
                    plan.stop = Some(fault);
                    break;
                }
            }
        }
        model.twin = Twin::of(engine)?;
        Ok(plan)
    }

    fn step(&mut self, engine: &mut Session) -> Result<Result<Step, Fault>, Trouble> {
        let begun = Instant::now();
        let done = match engine.backup() {
            Ok(done) => done,
            Err(refusal) => return reason_of(engine, "(backup)", refusal).map(Err),
        };
        let (k, variables) = (done.steps, diagram(engine).variables().len());
        (self.watch)(Progress::Backup { k, rows: done.rows, variables })?;
        let (cuts, uncut) = self.cuts(engine, k)?;
        let (reductions, unreduced) = self.reductions(engine)?;
        let step = Step { backed_up: done.rows, cuts, uncut, reductions, unreduced, time: begun.elapsed(), ..start(engine) };
        (self.watch)(Progress::Step(&step, engine))?;
        Ok(Ok(step))
    }

    /// A diagram with a minimum variable is not cut, which is told without trying.
    fn cuts(&mut self, engine: &mut Session, k: u64) -> Result<(Vec<CutDone>, Option<Fault>), Trouble> {
        let mut cuts = Vec::new();
        if !self.uncut && diagram(engine).has_minimum() {
            return Ok((cuts, Some(reason_of(engine, "(cut)", Refusal::Minimum)?)));
        }
        while !self.uncut {
            match engine.cut() {
                Ok(cut) => {
                    cuts.push(cut);
                    (self.watch)(Progress::Cut { k, cuts: cuts.len(), rows: cut.rows })?;
                }
                Err(Refusal::Nothing) => break,
                Err(refusal) => return Ok((cuts, Some(reason_of(engine, "(cut)", refusal)?))),
            }
        }
        Ok((cuts, None))
    }

    /// Reduces as long as rows go.
    fn reductions(&mut self, engine: &mut Session) -> Result<(Vec<usize>, Option<Fault>), Trouble> {
        let mut reductions = Vec::new();
        while let (true, Some(listing)) = (self.reduce, engine.listing()) {
            // tried apart from the engine, whose diagram stays where it would not get shorter
            match Space::new(engine.arities()).reduce(&listing) {
                Ok(reduced) if reduced.len() < listing.len() => match engine.reduce() {
                    Ok(done) => reductions.push(done.rows),
                    Err(refusal) => return Ok((reductions, Some(reason_of(engine, "(reduce)", refusal)?))),
                },
                Ok(_) => break,
                Err(refusal) => return Ok((reductions, Some(reason_of(engine, "(reduce)", refusal)?))),
            }
        }
        Ok((reductions, None))
    }
}

/// The step that an engine stands at, nothing cut or reduced.
fn start(engine: &Session) -> Step {
    let value = diagram(engine);
    Step {
        k: engine.steps(),
        backed_up: value.rows().len(),
        cuts: Vec::new(),
        uncut: None,
        reductions: Vec::new(),
        unreduced: None,
        rows: value.rows().len(),
        variables: value.variables().len(),
        paths: count_paths(&value),
        time: Duration::ZERO,
    }
}

/// Why the engine refused a line.
pub fn reason_of(engine: &Session, line: &str, refusal: Refusal) -> Result<Fault, Trouble> {
    let fault = explain(&Twin::of(engine)?.known, line.as_bytes(), true);
    match fault {
        Some(fault) if fault.refusal.number() == refusal.number() => Ok(fault),
        _ => Err(Trouble(format!(
            "the proved library refuses {line} after step {} with {}, and the independent implementation does not",
            engine.steps(),
            refusal.number()
        ))),
    }
}
