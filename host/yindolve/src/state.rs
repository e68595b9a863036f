use crate::calls::FACT_WORDS;
use crate::refusal::Refusal;
use crate::vocabulary::Vocabulary;

/// A state to value a listing in: objects 0 to `objects` - 1, where the constants are, and what is true.
///
/// [`Session::state`](crate::Session::state) makes one by the names of a model.
///
/// ```
/// use yindolve::{fact, State};
/// // two objects; constant 0 is object 1; predicate 1 holds of object 1
/// let state = State { objects: 2, constants: vec![1], facts: vec![fact(1, &[1])] };
/// ```
#[derive(Clone, Debug, Default, PartialEq, Eq)]
pub struct State {
    /// How many objects there are, at least 1.
    pub objects: u64,
    /// The object of each constant; words behind the sixteenth are not read. In [`Space::value`](crate::Space::value) constants
    /// behind the last are object 0; [`Session::value`](crate::Session::value) asks for every declared one.
    pub constants: Vec<u64>,
    /// The true facts: predicate and six objects each, unused places ignored; [`fact`] makes one. A fact that is given twice counts once.
    pub facts: Vec<[u64; FACT_WORDS]>,
}

/// The fact that a predicate holds of these objects.
///
/// # Panics
/// If there are more than 6 objects.
pub fn fact(predicate: u64, objects: &[u64]) -> [u64; FACT_WORDS] {
    assert!(objects.len() < FACT_WORDS, "a predicate has at most 6 objects");
    let mut fact = [0; FACT_WORDS];
    fact[0] = predicate;
    fact[1..=objects.len()].copy_from_slice(objects);
    fact
}

/// A state in the making, by the names that a model declares; [`Session::state`](crate::Session::state) begins one.
///
/// ```
/// use yindolve::{Refusal, Session};
/// let session = Session::load(
///     "(constant hub)\n(predicate stock 1)\n(reward (if (stock hub) 10 0))\n(action wait)\n(variant only 100)\n(start)\n",
/// )?;
/// let state = session.state(2).is("hub", 0)?.fact("stock", &[0])?.finish()?;
/// assert_eq!(session.value(&state)?.value, 10);
/// assert_eq!(session.state(2).fact("stok", &[0]).unwrap_err(), Refusal::Name);
/// assert_eq!(session.state(2).finish(), Err(Refusal::Place), "the hub is not placed");
/// # Ok::<(), Box<dyn std::error::Error>>(())
/// ```
#[derive(Clone, Debug)]
pub struct StateBuilder<'a> {
    vocabulary: &'a Vocabulary,
    objects: u64,
    constants: Vec<Option<u64>>,
    facts: Vec<[u64; FACT_WORDS]>,
}

impl<'a> StateBuilder<'a> {
    pub(crate) fn new(vocabulary: &'a Vocabulary, objects: u64) -> StateBuilder<'a> {
        StateBuilder { vocabulary, objects, constants: vec![None; vocabulary.constants().len()], facts: Vec::new() }
    }

    fn has(&self, objects: &[u64]) -> Result<(), Refusal> {
        if objects.iter().all(|object| *object < self.objects) {
            Ok(())
        } else {
            Err(Refusal::Range)
        }
    }

    /// Places a constant.
    ///
    /// # Refusals
    /// `Name` (no such constant, or it is placed already), then `Range` (no such object).
    pub fn is(mut self, constant: &str, object: u64) -> Result<Self, Refusal> {
        let number = self.vocabulary.constants().iter().position(|name| name == constant).ok_or(Refusal::Name)?;
        if self.constants[number].is_some() {
            return Err(Refusal::Name);
        }
        self.has(&[object])?;
        self.constants[number] = Some(object);
        Ok(self)
    }

    /// States that a predicate holds of these objects. To say it twice is to say it once.
    ///
    /// # Refusals
    /// `Name` (no such predicate), then `Arity` (not as many objects as it has places), then `Range` (no such object).
    pub fn fact(mut self, predicate: &str, objects: &[u64]) -> Result<Self, Refusal> {
        let (number, arity) = self.vocabulary.predicate(predicate).ok_or(Refusal::Name)?;
        if objects.len() as u64 != arity {
            return Err(Refusal::Arity);
        }
        self.has(objects)?;
        self.facts.push(fact(number, objects));
        Ok(self)
    }

    /// The state.
    ///
    /// # Refusals
    /// `Range` (no objects), then `Place` (a constant is not placed).
    pub fn finish(self) -> Result<State, Refusal> {
        if self.objects == 0 {
            return Err(Refusal::Range);
        }
        let constants = self.constants.into_iter().collect::<Option<Vec<u64>>>().ok_or(Refusal::Place)?;
        Ok(State { objects: self.objects, constants, facts: self.facts })
    }
}
