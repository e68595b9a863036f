//! A refused backup, and the calls that a refused (best) shares with it: which of them, and what it met.

use super::{counted, grouped, measure, Fault};
use crate::combine::{combine, Names, Operator};
use crate::declarations::{Declarations, DeclaredAction, DeclaredVariant};
use crate::diagram::{Diagram, LARGEST};
use crate::mdp::{next_scale, Action, Variant};
use crate::refusal::Refusal;
use crate::regress::{free, regress};
use crate::session::Run;
use crate::slips::Slips;
use crate::text::Span;

/// A call that was refused: its refusal, and the call and what it met in words.
pub type Called<T> = Result<T, (Refusal, String)>;

/// The reason why the next backup would be refused; none where it would be taken.
pub fn refused_backup(run: &Run, declared: &Declarations, span: Span) -> Option<Fault> {
    let (refusal, met) = backup(run, declared).err()?;
    let what = format!("step {}: {met}", grouped(u128::from(run.k) + 1));
    Some(Fault::new(refusal, span, what, advice(refusal, run)))
}

/// What the guide says about a refused backup. A diagram with a minimum variable is not cut.
pub fn advice(refusal: Refusal, run: &Run) -> String {
    let cut = if run.value.has_minimum() { "" } else { "cut until 16 where that is left to do; " };
    match refusal {
        Refusal::Variables => {
            format!("{cut}take fewer variants and fewer parameters, since each variant brings a copy of the diagram's variables")
        }
        Refusal::Space => format!(
            "{cut}take fewer variants, fewer parameters (an action for each of a few known places) and predicates of fewer places; try another \
             order of the predicates"
        ),
        Refusal::Pairs => format!("{cut}take fewer variants and fewer parameters"),
        Refusal::Value => "take a smaller reward, total or discount divisor: leaves reach about k * S^k * reward".into(),
        _ => "take a smaller total or discount divisor: each backup multiplies the scale by S = total * divisor".into(),
    }
}

fn backup(run: &Run, declared: &Declarations) -> Called<()> {
    let scale = next_scale(&run.model, run.k).map_err(|refusal| (refusal, scale_met(run)))?;
    let mut best = Diagram::leaf(0);
    for (action, named) in run.model.actions.iter().zip(&declared.actions) {
        let sum = expected(run, action, named)?;
        let freed = free(&sum, action.parameters, Slips::NONE).map_err(|refusal| {
            (refusal, format!("action {}, its parameters freed: {}", named.name, measure::freeing(&sum, action.parameters)))
        })?;
        best = call(&format!("the best so far and action {}", named.name), Operator::Max, Names::Shared, &best, &freed.closed_up())?;
    }
    let reward = call("the reward times the scale", Operator::Product, Names::Shared, &run.model.reward, &Diagram::leaf(scale))?;
    call("the best action plus the reward", Operator::Sum, Names::Apart, &best, &reward).map(|_| ())
}

fn scale_met(run: &Run) -> String {
    let scale = u128::from(run.model.scale());
    let power =
        u32::try_from(run.k + 1).ok().and_then(|k| scale.checked_pow(k)).map(|power| format!(" = {}", grouped(power))).unwrap_or_default();
    format!("the scale {}^{}{power}; at most {}", grouped(scale), run.k + 1, grouped(LARGEST.into()))
}

/// The sum over an action's variants, call by call.
pub fn expected(run: &Run, action: &Action, named: &DeclaredAction) -> Called<Diagram> {
    let mut sum = Diagram::leaf(0);
    for (variant, outcome) in action.variants.iter().zip(&named.variants) {
        sum = with_variant(run, variant, &sum, &step_of(named, outcome))?;
    }
    Ok(sum)
}

fn step_of(action: &DeclaredAction, variant: &DeclaredVariant) -> String {
    format!("action {}, variant {}", action.name, variant.name)
}

/// The four calls of a variant.
fn with_variant(run: &Run, variant: &Variant, sum: &Diagram, step: &str) -> Called<Diagram> {
    let regressed = regress(&run.value, &variant.truths, Slips::NONE).map_err(|refusal| {
        let rows = counted(run.value.rows().len(), "row");
        (refusal, format!("{step}, the value diagram of {rows} regressed: {}", measure::regression(refusal, &run.value, &variant.truths)))
    })?;
    let gain = Diagram::leaf(run.model.discount.0);
    let weight = call(&format!("{step}, its weight times the discount"), Operator::Product, Names::Shared, &variant.weight, &gain)?;
    let product = call(&format!("{step}, the regressed value times the weight"), Operator::Product, Names::Shared, &regressed, &weight)?;
    call(&format!("{step}, added to the variants before it"), Operator::Sum, Names::Apart, sum, &product)
}

fn call(step: &str, operator: Operator, names: Names, a: &Diagram, b: &Diagram) -> Called<Diagram> {
    match combine(operator, names, a, b) {
        Ok(combined) => Ok(combined.diagram),
        Err(refusal) => {
            let operands = format!("{} and {}", counted(a.rows().len(), "row"), counted(b.rows().len(), "row"));
            Err((refusal, format!("{step} ({operands}): {}", measure::combination(refusal, operator, names, a, b))))
        }
    }
}
