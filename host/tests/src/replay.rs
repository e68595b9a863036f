//! Replay of a log (document 02, L10): after every list of lines count, state and total are those that brute force gives, which folds the whole list anew from its first state, over all tuples of
//! objects and by the model's trees alone; with refused lines among them, and what begins again in between. And the limits: 1,024 facts, 10^18, and 15 in the reward before and after.

use crate::limits::LARGE_NUMBERS;
use crate::meaning::expect;
use crate::models::{ground_facts, model, state, write_fact, write_model, write_state, Signature, Size};
use crate::random::Random;
use crate::spread::{growing, GROWING_OBJECTS};
use crate::tables;
use crate::tally::Tally;
use reference::bellman::{next_state, PlainAction, PlainModel, PlainVariant};
use reference::declarations::DEFAULT_DISCOUNT;
use reference::diagram::{Diagram, LARGEST};
use reference::refusal::Refusal;
use reference::session::{Answer, Session, FACTS};
use reference::slips::Slips;
use reference::state::{valuations, value, State, Valuation, VALUATIONS};
use reference::tables::ENTRIES;
use reference::terms::{Term, EQUALITY, FIRST_PARAMETER, FIRST_VARIABLE, PREDICATES};
use reference::tree::Tree;
use std::collections::BTreeMap;

/// A line of a log as it is written.
pub struct Logged {
    action: String,
    variant: String,
    objects: Vec<u64>,
}

impl Logged {
    /// One of a model's moves with one of its outcomes; once in a while with a word that is wrong.
    pub fn random(random: &mut Random, plain: &PlainModel, objects: u64) -> Logged {
        let action = random.below(plain.actions.len() as u64);
        let PlainAction { parameters, variants } = &plain.actions[action as usize];
        let mut logged = Logged {
            action: format!("act{action}"),
            variant: format!("way{}", random.below(variants.len() as u64)),
            objects: (0..*parameters).map(|_| random.below(objects)).collect(),
        };
        while random.once_in(6) {
            logged.spoil(random, objects);
        }
        logged
    }

    fn spoil(&mut self, random: &mut Random, objects: u64) {
        match random.below(5) {
            0 => self.action = random.pick(&["act8", "act1", "way0", "p1", "act0"]).to_string(),
            1 => self.variant = random.pick(&["way8", "way1", "act0", "p1"]).to_string(),
            2 => self.objects.push(random.below(objects)),
            3 => drop(self.objects.pop()),
            _ => {
                if let Some(object) = self.objects.last_mut() {
                    *object = objects + random.below(2);
                }
            }
        }
    }

    pub fn line(&self) -> String {
        let objects: String = self.objects.iter().map(|object| format!(" {object}")).collect();
        format!("(did {} {}{objects})", self.action, self.variant)
    }
}

/// The number behind a name's letters, where there are so many of that kind.
fn numbered(name: &str, letters: &str, count: usize) -> Option<usize> {
    name.strip_prefix(letters).and_then(|number| number.parse().ok()).filter(|number| *number < count)
}

/// Action, variant and objects.
type Done = (usize, usize, Vec<u64>);

/// A log by brute force: the state at count 0, and what was accepted since.
pub struct Week<'a> {
    plain: &'a PlainModel,
    /// For 15, which trees do not tell.
    reward: Option<Diagram>,
    begun: State,
    done: Vec<Done>,
}

impl<'a> Week<'a> {
    pub fn begin(plain: &'a PlainModel, reward: Option<&Diagram>, state: State) -> Week<'a> {
        Week { plain, reward: reward.cloned(), begun: state, done: Vec::new() }
    }

    /// The states along the log, that at count 0 first.
    fn states(&self) -> Vec<State> {
        let mut states = vec![self.begun.clone()];
        for (action, variant, objects) in &self.done {
            let variant = &self.plain.actions[*action].variants[*variant];
            states.push(next_state(&self.plain.arities, variant, states.last().expect("the first"), objects));
        }
        states
    }

    pub fn state(&self) -> State {
        self.states().pop().expect("the first")
    }

    /// An accepted (true) begins again, where the log has led.
    pub fn tell(&mut self, fact: (u64, Vec<u64>)) {
        let mut state = self.state();
        state.facts.insert(fact);
        (self.begun, self.done) = (state, Vec::new());
    }

    /// The reward, or 15.
    fn reward(&self, state: &State) -> Result<u64, Refusal> {
        let arities = &self.plain.arities;
        match &self.reward {
            Some(reward) if valuations(reward, state) > VALUATIONS => {
                let entries = tables::entries(reward, arities, state, &Valuation::new());
                if reward.has_minimum() || entries > ENTRIES.into() {
                    Err(Refusal::Valuations)
                } else {
                    value(reward, arities, state)
                }
            }
            _ => Ok(self.plain.reward(state)),
        }
    }

    /// The words of a line, one after another.
    fn words(&self, logged: &Logged) -> Result<Done, Refusal> {
        let action = numbered(&logged.action, "act", self.plain.actions.len()).ok_or(Refusal::Name)?;
        let PlainAction { parameters, variants } = &self.plain.actions[action];
        if logged.objects.len() as u64 != *parameters {
            return Err(Refusal::Arity);
        }
        let variant = numbered(&logged.variant, "way", variants.len()).ok_or(Refusal::Name)?;
        match logged.objects.iter().all(|object| *object < self.begun.objects) {
            true => Ok((action, variant, logged.objects.clone())),
            false => Err(Refusal::Range),
        }
    }

    /// What a line is answered, in a state that is whole. The list that it makes is summed up from its first state on.
    pub fn take(&mut self, logged: &Logged) -> Result<Answer, Refusal> {
        let done = self.words(logged)?;
        let (state, bound) = (self.state(), (FIRST_PARAMETER..).zip(done.2.iter().copied()).collect());
        if self.plain.actions[done.0].variants[done.1].weight.number_in(&state, &bound) == 0 {
            return Err(Refusal::Weightless);
        }
        let mut longer = Week { plain: self.plain, reward: self.reward.clone(), begun: self.begun.clone(), done: self.done.clone() };
        longer.done.push(done);
        let states = longer.states();
        if states.last().expect("the last").facts.len() > FACTS {
            return Err(Refusal::Crowded);
        }
        let rewards = states.iter().map(|state| longer.reward(state)).collect::<Result<Vec<u64>, Refusal>>()?;
        let total: u128 = rewards.into_iter().map(u128::from).sum();
        if total > LARGEST.into() {
            return Err(Refusal::Tally);
        }
        *self = longer;
        Ok(Answer::Did { count: self.done.len() as u64, total: total as u64 })
    }
}

fn session_of(signature: &Signature, plain: &PlainModel, slips: Slips) -> Result<Session, String> {
    let mut session = Session::new(slips);
    for line in write_model(signature, plain) {
        let line = if line.starts_with("(reward ") { line.replace("?x", "?v").replace("%x", "%v") } else { line };
        session.take(line.as_bytes()).map_err(|refusal| format!("{line} is refused with {}", refusal.number()))?;
    }
    Ok(session)
}

/// The session and the week behind a new state.
fn begin<'a>(session: &mut Session, plain: &'a PlainModel, state: State) -> Result<Week<'a>, String> {
    for line in write_state(&state) {
        session.take(line.as_bytes()).map_err(|refusal| format!("{line} is refused with {}", refusal.number()))?;
    }
    let reward = &session.started().expect("started").model.reward;
    Ok(Week::begin(plain, Some(reward), state))
}

/// One line of a log to both; its answer.
fn both(session: &mut Session, week: &mut Week, logged: &Logged) -> Result<Result<Answer, Refusal>, String> {
    let (line, before) = (logged.line(), week.state());
    let right = week.take(logged);
    let answer = session.take(line.as_bytes());
    let expected = right.clone().map(|answer| vec![answer]);
    expect(answer == expected, || format!("{answer:?}, not {expected:?}, for {line} behind {:?}, in {before:?}", week.done))?;
    let facts = &session.started().and_then(|run| run.placed.as_ref()).expect("a state").facts;
    expect(*facts == week.state().facts, || format!("{line} leads from {before:?} to {facts:?}"))?;
    Ok(right)
}

/// What stands between two lines of a log.
fn between(random: &mut Random, signature: &Signature, session: &mut Session, week: &mut Week, tally: &mut Tally) -> Result<(), String> {
    let leaves = ["(value)", "(backup)", "(cut)", "(best)", "(show)", "(text)", "(count 1)"];
    let refused = ["(is c0 0)", "(true p9 0)", "(objects 0)", "(objects 65)", "(true p1 0 0 0 0 0 0 0)", "(did act0)", "x"];
    match random.below(8) {
        0..3 => drop(session.take(random.pick(&leaves).as_bytes())),
        3..6 => {
            let line = *random.pick(&refused);
            let answer = session.take(line.as_bytes());
            expect(answer.is_err(), || format!("{line} is accepted"))?;
        }
        _ => {
            let facts = ground_facts(signature, week.begun.objects);
            let (state, fact) = (week.state(), random.pick(&facts).clone());
            let known = state.facts.iter().next().filter(|_| random.once_in(2)).cloned();
            let repeats = known.is_some();
            let fact = known.unwrap_or(fact);
            session.take(write_fact(&fact).as_bytes()).map_err(|refusal| format!("{fact:?} is refused with {}", refusal.number()))?;
            if repeats && !week.done.is_empty() {
                tally.see("a log begun again by a fact that is repeated");
            }
            week.tell(fact);
        }
    }
    Ok(())
}

/// One random model and some logs.
pub fn check(seed: u64, slips: Slips, tally: &mut Tally) -> Result<(), String> {
    let random = &mut Random::new(seed);
    let size = *random.pick(&[Size { actions: 3, ..Size::SMALL }, Size::SMALL, Size::PLAIN, Size::PLACES, Size::MINIMUM]);
    let (signature, plain) = model(random, size);
    let mut session = session_of(&signature, &plain, slips)?;
    let early = session.take(Logged::random(random, &plain, 1).line().as_bytes());
    expect(early == Err(Refusal::Place), || format!("{early:?} for a line before any state"))?;
    for _ in 0..2 {
        let objects = random.between(1, size.objects);
        let mut week = begin(&mut session, &plain, state(random, &signature, objects))?;
        for _ in 0..random.between(2, 7) {
            if random.once_in(4) {
                between(random, &signature, &mut session, &mut week, tally)?;
            }
            let logged = Logged::random(random, &plain, objects);
            match both(&mut session, &mut week, &logged)? {
                Ok(Answer::Did { count, .. }) if count > 2 => tally.see("a log of three lines and more"),
                Ok(_) => tally.see("a log of one line or two"),
                Err(refusal) => tally.meet(refusal),
            }
        }
        if signature.constants > 0 {
            session.take(b"(objects 1)").expect("a new state");
            let unplaced = session.take(Logged::random(random, &plain, 1).line().as_bytes());
            expect(unplaced == Err(Refusal::Place), || format!("{unplaced:?} for a line before a constant is placed"))?;
        }
    }
    Ok(())
}

fn test(predicate: u64, terms: &[Term], yes: Tree, no: Tree) -> Tree {
    Tree::If { predicate, terms: terms.to_vec(), yes: Box::new(yes), no: Box::new(no) }
}

/// A model of certain moves: each makes one predicate what its tree says.
fn certain(arities: &[u64], reward: Tree, moves: Vec<(u64, u64, Tree)>) -> (Signature, PlainModel) {
    let mut all = [0; PREDICATES];
    all[EQUALITY as usize] = 2;
    all[1..=arities.len()].copy_from_slice(arities);
    let action = |(parameters, predicate, truth)| {
        let variant = PlainVariant { weight: Tree::Number(1), truths: BTreeMap::from([(predicate, truth)]) };
        PlainAction { parameters, variants: vec![variant] }
    };
    let signature = Signature { constants: 0, equality: true, predicates: arities.len() as u64, arities: all };
    let actions = moves.into_iter().map(action).collect();
    (signature, PlainModel { arities: all, total: 1, discount: DEFAULT_DISCOUNT, reward, actions })
}

fn logged(action: usize, objects: &[u64]) -> Logged {
    Logged { action: format!("act{action}"), variant: "way0".to_string(), objects: objects.to_vec() }
}

/// About 1,024 facts behind a line: p of all pairs of 31 objects that r marks, these, and some of q, which stay. Told by the answers: refused and taken.
fn crowded(random: &mut Random, met: &mut BTreeMap<&'static str, u64>) -> Result<(), String> {
    let (x, y) = (FIRST_VARIABLE, FIRST_VARIABLE + 1);
    let pairs = test(2, &[x], test(2, &[y], Tree::Number(1), Tree::Number(0)), Tree::Number(0));
    let (signature, plain) = certain(&[2, 1, 2], test(1, &[x, x], Tree::Number(3), Tree::Number(1)), vec![(0, 1, pairs)]);
    let mut session = session_of(&signature, &plain, Slips::NONE)?;
    let (first, others) = (random.below(8), random.between(30, 34));
    let marked = (0..31).map(|object| (2, vec![first + object]));
    let staying = (0..others).map(|number| (3, vec![number % 40, number / 40]));
    let state = State { objects: 40, constants: Vec::new(), facts: marked.chain(staying).collect() };
    let mut week = begin(&mut session, &plain, state)?;
    match both(&mut session, &mut week, &logged(0, &[]))? {
        Ok(_) => *met.entry("up to 1,024 facts").or_default() += 1,
        Err(_) => *met.entry("more than 1,024 facts").or_default() += 1,
    }
    Ok(())
}

/// Totals about 10^18, by rewards of which two or a few pass it.
fn high_totals(random: &mut Random, met: &mut BTreeMap<&'static str, u64>) -> Result<(), String> {
    let mut leaf = || Tree::Number(*random.pick(&LARGE_NUMBERS));
    let reward = test(1, &[], test(2, &[], leaf(), leaf()), test(2, &[], leaf(), leaf()));
    let moves = [(1, 0), (1, 1), (2, 0), (2, 1)].map(|(predicate, leaf)| (0, predicate, Tree::Number(leaf))).to_vec();
    let (signature, plain) = certain(&[0, 0], reward, moves);
    let mut session = session_of(&signature, &plain, Slips::NONE)?;
    let state = state(random, &signature, 1);
    let mut week = begin(&mut session, &plain, state)?;
    for _ in 0..8 {
        let answer = both(&mut session, &mut week, &logged(random.below(4) as usize, &[]))?;
        *met.entry(if answer.is_ok() { "a total of at most 10^18" } else { "a total past 10^18" }).or_default() += 1;
    }
    Ok(())
}

/// 15 in the reward: each fact of p brings entries to its tables, and the moves make p true of an object, or false.
fn large_rewards(random: &mut Random, met: &mut BTreeMap<&'static str, u64>) -> Result<(), String> {
    let reward = growing(*random.pick(&[3, 4, 5, 30]));
    let (a, x) = (FIRST_PARAMETER, FIRST_VARIABLE);
    let kept = || test(1, &[x], Tree::Number(1), Tree::Number(0));
    let moves = [1, 0].map(|leaf| (1, 1, test(EQUALITY, &[a, x], Tree::Number(leaf), kept()))).to_vec();
    let (signature, plain) = certain(&[1], reward, moves);
    let mut session = session_of(&signature, &plain, Slips::NONE)?;
    let facts = (0..random.below(GROWING_OBJECTS + 1)).map(|object| (1, vec![object])).collect();
    let mut week = begin(&mut session, &plain, State { objects: GROWING_OBJECTS, constants: Vec::new(), facts })?;
    for _ in 0..12 {
        let before = week.reward(&week.state()).is_err();
        // two of three make p true of an object
        let logged = logged(usize::from(random.once_in(3)), &[random.below(GROWING_OBJECTS)]);
        let what = match (both(&mut session, &mut week, &logged)?, before) {
            (Ok(_), _) => "rewards by tables",
            (Err(_), true) => "15 before the first line",
            (Err(_), false) => "15 behind a line",
        };
        *met.entry(what).or_default() += 1;
    }
    Ok(())
}

/// The cases at the limits, each met; what was met, for the printed line.
pub fn check_limits(seed: u64) -> Result<String, String> {
    let random = &mut Random::new(seed);
    let mut met = BTreeMap::new();
    for _ in 0..20 {
        crowded(random, &mut met)?;
        high_totals(random, &mut met)?;
        large_rewards(random, &mut met)?;
    }
    expect(met.len() == 7, || format!("not all was met: {met:?}"))?;
    Ok(met.iter().map(|(what, times)| format!("{what} {times} times")).collect::<Vec<String>>().join(", "))
}
