//! How often each refusal was met, and what else was seen.

use reference::refusal::Refusal;
use std::collections::BTreeMap;

#[derive(Default)]
pub struct Tally {
    met: BTreeMap<u64, u64>,
    seen: BTreeMap<&'static str, u64>,
}

impl Tally {
    pub fn meet(&mut self, refusal: Refusal) {
        *self.met.entry(refusal.number()).or_default() += 1;
    }

    /// Counts the refusal of an answer, if it is one, and hands the answer on.
    pub fn watch<T>(&mut self, answer: Result<T, Refusal>) -> Result<T, Refusal> {
        if let Err(refusal) = &answer {
            self.meet(*refusal);
        }
        answer
    }

    /// Counts what a run should see now and then.
    pub fn see(&mut self, what: &'static str) {
        *self.seen.entry(what).or_default() += 1;
    }

    pub fn missing(&self) -> Vec<u64> {
        Refusal::ALL.map(Refusal::number).into_iter().filter(|number| !self.met.contains_key(number)).collect()
    }

    pub fn print(&self) {
        for (number, times) in &self.met {
            println!("refusal {number}: met {times} times");
        }
        for (what, times) in &self.seen {
            println!("{what}: {times} times");
        }
    }
}
