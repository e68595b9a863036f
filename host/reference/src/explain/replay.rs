//! A refused (did action variant object ..): the word at fault, or what the move meets.

use super::words::{known_object, name_fault, name_of, nearest, number_of, placed};
use super::{counted, grouped, questions, unless_fault, Checked, Fault};
use crate::best::bound;
use crate::declarations::{Declarations, DeclaredAction};
use crate::diagram::{Row, LARGEST};
use crate::names::Names;
use crate::refusal::Refusal;
use crate::replay::{next_state, weight, Done};
use crate::session::{Placed, Run, Session, FACTS};
use crate::slips::Slips;
use crate::state::{State, Valuation};
use crate::terms::Label;
use crate::text::{Span, Word};

/// The words: 2 and 3 at the action's, 2 at the variant's, 4 at each object's.
pub fn words(session: &Session, action: &Word, variant: &Word, objects: &[Word]) -> Checked {
    let action = known_action(session.declarations(), action, objects)?;
    known_variant(session.declarations(), action, variant)?;
    let Some(placed) = placed(session) else { return Ok(()) };
    objects.iter().try_for_each(|object| known_object(placed, object))
}

fn meant(near: Option<&str>) -> String {
    near.map(|near| format!("did you mean \"{near}\"? Otherwise ")).unwrap_or_default()
}

fn known_action<'a>(declared: &'a Declarations, word: &Word, objects: &[Word]) -> Result<&'a DeclaredAction, Fault> {
    let name = name_of(word);
    let names = || declared.actions.iter().map(|action| action.name.as_str());
    let number = declared.action(name).ok_or_else(|| {
        let known = names().collect::<Vec<&str>>().join(", ");
        name_fault(word, format!("the model has no action \"{name}\""), format!("{}its actions are {known}", meant(nearest(name, names()))))
    })?;
    let action = &declared.actions[number];
    unless_fault(objects.len() == action.parameters.len(), || {
        let parameters = action.parameters.iter().map(|parameter| format!(" !{parameter}")).collect::<String>();
        Fault::new(
            Refusal::Arity,
            word.span,
            format!(
                "\"{name}\" has {}, and here it has {}",
                counted(action.parameters.len(), "parameter"),
                counted(objects.len(), "object")
            ),
            format!("(action {name}{parameters}) says how many; write an object for each"),
        )
    })?;
    Ok(action)
}

fn known_variant(declared: &Declarations, action: &DeclaredAction, word: &Word) -> Checked {
    let name = name_of(word);
    unless_fault(action.variant(name).is_some(), || {
        let names = || action.variants.iter().map(|variant| variant.name.as_str());
        let known = names().collect::<Vec<&str>>().join(", ");
        let others = declared.actions.iter().filter(|other| other.variant(name).is_some());
        let others = others.map(|other| format!("\"{}\"", other.name)).collect::<Vec<String>>().join(", ");
        let elsewhere = if others.is_empty() { String::new() } else { format!("; there is one in {others}") };
        let advice = format!("{}its variants are {known}", meant(nearest(name, names())));
        name_fault(word, format!("the action \"{}\" has no variant \"{name}\"{elsewhere}", action.name), advice)
    })
}

/// What the move refuses, its words being right.
pub fn moved(run: &Run, declared: &Declarations, words: &[Word], span: Span) -> Checked {
    let (Some(placed), [_, action, variant, objects @ ..]) = (&run.placed, words) else { return Ok(()) };
    let (Some(state), Some(action)) = (placed.state(), declared.action(name_of(action))) else { return Ok(()) };
    let Some(variant) = declared.actions[action].variant(name_of(variant)) else { return Ok(()) };
    let objects: Vec<u64> = objects.iter().map(number_of).collect();
    let done = Done { variant: &run.model.actions[action].variants[variant], objects: &objects };
    let named = &declared.actions[action];
    unless_fault(weight(&done, &run.arities, &state) > 0, || weightless(declared, named, variant, &followed(run, &done, &state), span))?;
    let next = next_state(&done, &run.arities, &state, Slips::NONE).map_err(|refusal| {
        Fault::new(
            refusal,
            span,
            format!("the state after it has more than {} facts", grouped(FACTS as u128)),
            "a (becomes ..) of this variant makes more true than a state holds: look for a condition that is missing, or begin with fewer objects",
        )
    })?;
    rewards(run, placed, &state, &next, span)
}

fn weightless(declared: &Declarations, action: &DeclaredAction, variant: usize, path: &[(Label, bool)], span: Span) -> Fault {
    let names = Names { declarations: declared, parameters: &action.parameters };
    let place = if path.is_empty() { String::new() } else { format!(", where {}", names.path(path)) };
    let named = format!("variant \"{}\" of action \"{}\"", action.variants[variant].name, action.name);
    Fault::new(
        Refusal::Weightless,
        span,
        format!("{named} has weight 0 in this state{place}"),
        "by the model it does not come out so here: mend the line, the state that it begins from, or the weight",
    )
}

/// The tests of the weight on the state's way through it, with their sides.
fn followed(run: &Run, done: &Done, state: &State) -> Vec<(Label, bool)> {
    let (weight, bound) = (&done.variant.weight, bound(done.objects));
    let (mut at, mut path) = (weight.root(), Vec::new());
    while let Row::Branch { label, yes, no } = weight.rows()[at] {
        let arity = run.arities[label.predicate() as usize] as usize;
        let side = state.holds(label.predicate(), &label.places()[..arity], &bound);
        path.push((label, side));
        at = if side { yes } else { no };
    }
    path
}

/// 15 of the reward before the first line and after each, then the sums.
fn rewards(run: &Run, placed: &Placed, state: &State, next: &State, span: Span) -> Checked {
    let reward_in = |state: &State, when: &str| {
        questions::valued(&run.model.reward, run, state, &Valuation::new()).map_err(|(refusal, met)| {
            Fault::new(
                refusal,
                span,
                format!("the reward {when}: {met}"),
                "put fewer objects into the state (those that matter), or write a reward with fewer variables",
            )
        })
    };
    let before = if placed.log.count == 0 { reward_in(state, "before the first line")? } else { 0 };
    let after = reward_in(next, "after the line")?;
    let total = u128::from(placed.log.total) + u128::from(before) + u128::from(after);
    let most = grouped(LARGEST.into());
    let tally = |what: String| {
        Fault::new(Refusal::Tally, span, what, "begin again: a (true ..) line, one that repeats a fact too, sets count and total to 0")
    };
    unless_fault(placed.log.count < LARGEST, || tally(format!("{most} lines were counted; there are no more")))?;
    unless_fault(total <= LARGEST.into(), || tally(format!("the total would be {}; at most {most}", grouped(total))))
}
