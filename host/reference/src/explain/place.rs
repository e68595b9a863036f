//! Refusal 5: a line in the wrong part, a part that is missing, a second single form, a constant that is not placed; and 20, which (best) has where its state is not whole.

use super::{Checked, Fault};
use crate::declarations::Declarations;
use crate::refusal::Refusal;
use crate::session::{Run, Session};
use crate::text::{Line, Span};

pub fn check(session: &Session, line: &Line, span: Span) -> Checked {
    let place = |what: String, advice: &str| Fault::new(Refusal::Place, span, what, advice);
    match (session.started(), line.is_of_the_run()) {
        (None, true) => Err(place(
            "this form belongs behind (start), and none was accepted so far".into(),
            "close the model with (start) before it; where there is one, mend what was refused",
        )),
        (Some(_), false) => Err(place("this form belongs to the model, which (start) has closed".into(), "move it before (start)")),
        (None, false) => in_model(session.declarations(), line).map_err(|(what, advice)| place(what, advice)),
        (Some(run), true) => in_run(run, session.declarations(), line).map_err(|(what, advice)| match line {
            Line::Best => Fault::new(Refusal::Missing, span, what, advice),
            _ => place(what, advice),
        }),
    }
}

type Found = Result<(), (String, &'static str)>;

fn found(condition: bool, what: impl FnOnce() -> String, advice: &'static str) -> Found {
    if condition {
        Ok(())
    } else {
        Err((what(), advice))
    }
}

fn in_model(declared: &Declarations, line: &Line) -> Found {
    let single = |condition: bool, form: &str| {
        found(condition, || format!("this is a second ({form} ..)"), "a model has one; take one of the two out")
    };
    match line {
        Line::Total(_) => single(declared.total.is_none(), "total"),
        Line::Discount(..) => single(declared.discount.is_none(), "discount"),
        Line::Reward(_) => single(declared.reward.is_none(), "reward"),
        Line::Variant(..) => found(
            !declared.actions.is_empty(),
            || "no (action ..) comes before it".into(),
            "a variant belongs to the last action; declare the action first",
        ),
        Line::Becomes(..) => {
            let variants = declared.actions.last().map(|action| action.variants.len()).unwrap_or(0);
            found(
                variants > 0,
                || "no (variant ..) of the last action comes before it".into(),
                "a (becomes) belongs to the last variant; give the variant first",
            )
        }
        Line::Start => at_start(declared),
        _ => Ok(()),
    }
}

fn at_start(declared: &Declarations) -> Found {
    found(declared.reward.is_some(), || "the model has no (reward ..)".into(), "add one; where there is one, mend why it was refused")?;
    found(!declared.actions.is_empty(), || "the model has no (action ..)".into(), "add one; where there is one, mend why it was refused")?;
    match declared.actions.iter().find(|action| action.variants.is_empty()) {
        Some(action) => Err((
            format!("the action \"{}\" has no (variant ..)", action.name),
            "each action has 1 to 8 outcomes; one outcome that is certain has the total as its weight",
        )),
        None => Ok(()),
    }
}

fn in_run(run: &Run, declared: &Declarations, line: &Line) -> Found {
    let whole_state = matches!(line, Line::Value | Line::Best | Line::Did(..));
    let needs_state = whole_state || matches!(line, Line::Is(..) | Line::True(..));
    found(run.placed.is_some() || !needs_state, || "no (objects n) was accepted before it".into(), "begin the state with (objects n)")?;
    if !whole_state && !matches!(line, Line::Count(_)) {
        return Ok(());
    }
    let object = |constant: usize| run.placed.as_ref().and_then(|placed| placed.constants[constant]);
    let unplaced = declared.constants.iter().enumerate().filter(|(constant, _)| object(*constant).is_none());
    let unplaced: Vec<&str> = unplaced.map(|(_, name)| name.as_str()).collect();
    found(
        unplaced.is_empty(),
        || format!("not placed in this state: {}", unplaced.join(", ")),
        match run.placed {
            Some(_) => "say for each constant which object it is: (is CONSTANT OBJECT)",
            None => "begin a state with (objects n), and say for each constant which object it is: (is CONSTANT OBJECT)",
        },
    )
}
