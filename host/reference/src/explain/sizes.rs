//! What a line's own operation refuses: a diagram's 8, 10, 9, 7, full declarations (9), the sums of weights at (start), and what a run
//! form does.

use super::{backup, counted, grouped, measure, questions, replay, unless_fault, Checked, Fault};
use crate::combine::{combine, Names, Operator};
use crate::cut::{cut, Path, PATHS};
use crate::declarations::{Declarations, DeclaredAction, Lookup, Variables, DEFAULT_TOTAL};
use crate::diagram::{Diagram, Row, Space};
use crate::form::{form, reward_line, variables_in_order};
use crate::names::Names as TermNames;
use crate::reduce::{is_plain, reduce, runs, COMBINATIONS, RUNS};
use crate::refusal::Refusal;
use crate::regress::row_step;
use crate::session::{Run, Session, ACTIONS, FACTS, MODEL_ROWS, VARIANTS};
use crate::slips::Slips;
use crate::state::Valuation;
use crate::terms::{is_minimum, Label, Test, CONSTANTS, PARAMETERS, PREDICATES, VARIABLES};
use crate::text::{Kind, Line, Span, Word, WrittenDiagram, LINE_BYTES, OPEN_BRACKETS};
use crate::tree::Tree;
use crate::weights::wrong_paths;
use std::collections::BTreeSet;

/// What a line's operation refuses, its words being right.
pub fn check(session: &Session, words: &[Word], line: &Line) -> Checked {
    let declared = session.declarations();
    let span = (0, words.last().map_or(0, |word| word.span.1) + 1);
    match line {
        Line::Constant(_) => has_room(declared.constants.len(), CONSTANTS as usize, "constants", words[1].span),
        Line::Predicate(..) => has_room(declared.predicates.len(), PREDICATES - 1, "predicates", words[1].span),
        Line::Reward(written) => reward(declared, written, &words[1]),
        Line::Action(..) => action(declared, words),
        Line::Variant(_, written) => variant(declared, written, words),
        Line::Becomes(_, arguments, written) => becomes(declared, arguments, written, &words[2]),
        Line::Start => start(declared, span),
        _ => match session.started() {
            Some(run) => check_run(run, declared, words, line, span),
            None => Ok(()),
        },
    }
}

fn space_fault(span: Span, what: String, advice: &str) -> Fault {
    Fault::new(Refusal::Space, span, what, advice)
}

fn has_room(there: usize, most: usize, what: &str, span: Span) -> Checked {
    unless_fault(there < most, || space_fault(span, format!("there are {there} {what} already; at most {most}"), "write a smaller model"))
}

fn reward(declared: &Declarations, written: &WrittenDiagram, word: &Word) -> Checked {
    let variables = variables_in_order(written, Slips::NONE);
    let named = [(variables.maximum.len(), "variable"), (variables.minimum.len(), "minimum variable")];
    let Ok(tree) = Lookup::new(declared, &[], variables).diagram(written) else { return Ok(()) };
    for (named, noun) in named {
        unless_fault(named as u64 <= VARIABLES, || {
            let what = format!("the line names {}; at most {VARIABLES}", counted(named, noun));
            Fault::new(Refusal::Variables, word.span, what, "name fewer variables")
        })?;
    }
    let diagram = read(&tree, word)?;
    room_for(declared, &diagram, word.span)
}

fn action(declared: &Declarations, words: &[Word]) -> Checked {
    let parameters = words.len() - 2;
    unless_fault(parameters as u64 <= PARAMETERS, || {
        let span = words[2 + PARAMETERS as usize].span;
        space_fault(
            span,
            format!("the action has {parameters} parameters; at most {PARAMETERS}"),
            "split the action, or name places by constants",
        )
    })?;
    has_room(declared.actions.len(), ACTIONS, "actions", words[1].span)
}

fn variant(declared: &Declarations, written: &WrittenDiagram, words: &[Word]) -> Checked {
    let Some(action) = declared.actions.last() else { return Ok(()) };
    let Ok(tree) = Lookup::new(declared, &action.parameters, Variables::NONE).diagram(written) else { return Ok(()) };
    let weight = read(&tree, &words[2])?;
    has_room(action.variants.len(), VARIANTS, "variants of this action", words[1].span)?;
    room_for(declared, &weight, words[2].span)
}

fn becomes(declared: &Declarations, arguments: &[String], written: &WrittenDiagram, word: &Word) -> Checked {
    let parameters = declared.actions.last().map_or(&[][..], |action| &action.parameters);
    let Ok(tree) = Lookup::new(declared, parameters, Variables::arguments(arguments)).diagram(written) else { return Ok(()) };
    let truth = read(&tree, word)?;
    let above = truth.leaves().find(|leaf| *leaf > 1);
    unless_fault(above.is_none(), || {
        let leaf = above.unwrap_or(0);
        let span = number_span(word, leaf).unwrap_or(word.span);
        Fault::new(
            Refusal::Truth,
            span,
            format!("a truth diagram has the number {leaf}"),
            "say 1 where the fact is true afterwards and 0 where it is not",
        )
    })?;
    room_for(declared, &truth, word.span)
}

/// Where a number stands first in a diagram.
fn number_span(word: &Word, number: u64) -> Option<Span> {
    match &word.kind {
        Kind::Number(here) if *here == number => Some(word.span),
        Kind::Form(words) => words.iter().find_map(|word| number_span(word, number)),
        _ => None,
    }
}

fn room_for(declared: &Declarations, diagram: &Diagram, span: Span) -> Checked {
    let (there, more) = (declared.rows(), diagram.rows().len());
    unless_fault(there + more <= MODEL_ROWS, || {
        let what = format!(
            "the model's diagrams have {} with these {more}; at most {}",
            counted(there + more, "row"),
            grouped(MODEL_ROWS as u128)
        );
        space_fault(span, what, "write smaller diagrams, or fewer variants")
    })
}

/// The diagram of a text, with the (if ..) that is refused.
fn read(tree: &Tree, word: &Word) -> Result<Diagram, Fault> {
    let diagram = read_in(tree, word, &mut Space::new(), &mut measure::space())?;
    let rows = diagram.rows().len();
    diagram.as_result().map_err(|refusal| Fault::new(refusal, word.span, measure::result_rows(rows), "write a smaller diagram"))
}

/// Reads in the space of one call, and beside it in one that measures.
fn read_in(tree: &Tree, word: &Word, space: &mut Space, measuring: &mut Space) -> Result<Diagram, Fault> {
    let (Tree::If { predicate, terms, yes, no }, Kind::Form(words)) = (tree, &word.kind) else {
        let Tree::Number(number) = tree else { return Ok(Diagram::leaf(0)) };
        let leaf = Row::Leaf(*number);
        let formed = space.form(leaf).and(measuring.form(leaf));
        return formed
            .map(|_| Diagram::leaf(*number))
            .map_err(|refusal| step_fault(refusal, word.span, measuring, Ok(Diagram::leaf(*number))));
    };
    let yes = read_in(yes, &words[2], space, measuring)?;
    let no = read_in(no, &words[3], space, measuring)?;
    let test = Diagram::test(Test::atom(*predicate, terms));
    let measured = row_step(measuring, &test, &yes, &no);
    row_step(space, &test, &yes, &no).map_err(|refusal| step_fault(refusal, words[0].span, measuring, measured))
}

fn step_fault(refusal: Refusal, span: Span, measuring: &Space, measured: Result<Diagram, Refusal>) -> Fault {
    let met = measure::met(refusal, measuring, measured);
    Fault::new(
        refusal,
        span,
        format!("when this part of the diagram closes: {met}"),
        "write a smaller diagram; conditions in the order of the predicates' declarations take the fewest rows",
    )
}

fn start(declared: &Declarations, span: Span) -> Checked {
    declared.actions.iter().try_for_each(|action| weights(declared, action, span))
}

/// The sum of an action's weights, each added in order.
fn weights(declared: &Declarations, action: &DeclaredAction, span: Span) -> Checked {
    let mut sum = Diagram::leaf(0);
    for variant in &action.variants {
        let added = combine(Operator::Sum, Names::Shared, &sum, &variant.weight);
        sum = added.map(|combined| combined.diagram).map_err(|refusal| {
            let met = measure::combination(refusal, Operator::Sum, Names::Shared, &sum, &variant.weight);
            Fault::new(
                refusal,
                span,
                format!("action {}, the weight of variant {} added: {met}", action.name, variant.name),
                "use simpler and smaller weights",
            )
        })?;
    }
    let total = declared.total.unwrap_or(DEFAULT_TOTAL);
    let wrong = wrong_paths(&sum, total, &declared.arities()).map_err(|refusal| {
        let paths = grouped(measure::count_paths(&sum));
        Fault::new(
            refusal,
            span,
            format!("the weights of action \"{}\", added up, have {paths} paths; at most {PATHS}", action.name),
            "mend its weights so that they add up to the total, which leaves one path, or test fewer atoms in them",
        )
    })?;
    unless_fault(wrong.is_empty(), || {
        let what = format!(
            "the weights of action \"{}\" do not add up to {total} in every case: {}",
            action.name,
            wrong_cases(declared, action, wrong)
        );
        let default = if declared.total.is_none() { " (100, since there is no (total W))" } else { "" };
        Fault::new(
            Refusal::Weights,
            span,
            what,
            format!("mend its weights so that each case adds up to the total{default}; a case may have been forgotten"),
        )
    })
}

/// The first few cases with a wrong sum, one for each sum.
fn wrong_cases(declared: &Declarations, action: &DeclaredAction, mut wrong: Vec<Path>) -> String {
    const TOLD: usize = 3;
    let names = TermNames { declarations: declared, parameters: &action.parameters };
    let mut sums = BTreeSet::new();
    wrong.retain(|path| sums.insert(path.leaf));
    let told = |path: &Path| match path.literals.is_empty() {
        true => format!("the sum is {}", grouped(path.leaf.into())),
        false => format!("where {} the sum is {}", names.path(&path.literals), grouped(path.leaf.into())),
    };
    let more = if wrong.len() > TOLD { format!("; and {} more", wrong.len() - TOLD) } else { String::new() };
    wrong.iter().take(TOLD).map(told).collect::<Vec<String>>().join("; ") + &more
}

/// What a run form's operation refuses.
fn check_run(run: &Run, declared: &Declarations, words: &[Word], line: &Line, span: Span) -> Checked {
    match line {
        Line::True(name, objects) => facts(run, declared, name, objects, span),
        Line::Value => valuations(run, span),
        Line::Backup => backup::refused_backup(run, declared, span).map_or(Ok(()), Err),
        Line::Cut => cuts(run, declared, span),
        Line::Reduce => reductions(run, declared, span),
        Line::Text => length(run, declared, span),
        Line::Best => questions::moves(run, declared, span),
        Line::Count(objects) => questions::states(run, declared, *objects, span),
        Line::Did(..) => replay::moved(run, declared, words, span),
        _ => Ok(()),
    }
}

fn facts(run: &Run, declared: &Declarations, name: &str, objects: &[u64], span: Span) -> Checked {
    let (Some(placed), Some((predicate, _))) = (&run.placed, declared.predicate(name)) else { return Ok(()) };
    let known = placed.facts.contains(&(predicate, objects.to_vec()));
    unless_fault(known || placed.facts.len() < FACTS, || {
        space_fault(
            span,
            format!("the state has {} facts already; at most {}", grouped(placed.facts.len() as u128), grouped(FACTS as u128)),
            "state fewer facts: what no diagram asks for may be left out",
        )
    })
}

fn valuations(run: &Run, span: Span) -> Checked {
    let Some(state) = run.placed.as_ref().and_then(|placed| placed.state()) else { return Ok(()) };
    questions::valued(&run.value, run, &state, &Valuation::new()).map(|_| ()).map_err(|(refusal, met)| {
        Fault::new(refusal, span, met, questions::fewer_variables("put fewer objects into the state (those that matter)", &run.value))
    })
}

fn many_paths(run: &Run, span: Span, advice: &str) -> Fault {
    let (rows, paths) = (counted(run.value.rows().len(), "row"), grouped(measure::count_paths(&run.value)));
    Fault::new(
        Refusal::Paths,
        span,
        format!("after step {}: the value diagram of {rows} has {paths} paths; at most {PATHS}", run.k),
        advice,
    )
}

fn cuts(run: &Run, declared: &Declarations, span: Span) -> Checked {
    cut(&run.value, &run.arities, Slips::NONE).map(|_| ()).map_err(|refusal| {
        let rows = counted(run.value.rows().len(), "row");
        let (met, advice) = match refusal {
            Refusal::Paths => return many_paths(run, span, "values are right uncut, so go on; a smaller model has fewer paths"),
            Refusal::Minimum => {
                let tested = named(run, declared, |label| label.places().iter().any(|term| is_minimum(*term)));
                (format!("tests {tested}; a cut is for diagrams without minimum variables"), "values are right uncut, so go on")
            }
            _ => ("has no edge that may go".into(), "all is cut, so go on"),
        };
        Fault::new(refusal, span, format!("after step {}: the value diagram of {rows} {met}", run.k), advice)
    })
}

/// The first label of the value diagram of which this is true, by its names.
fn named(run: &Run, declared: &Declarations, is: impl Fn(Label) -> bool) -> String {
    let names = TermNames { declarations: declared, parameters: &[] };
    run.value.labels().find(|label| is(*label)).map(|label| names.label(label)).unwrap_or_default()
}

fn reductions(run: &Run, declared: &Declarations, span: Span) -> Checked {
    reduce(&run.value, &run.arities, Slips::NONE).map(|_| ()).map_err(|refusal| {
        let rows = counted(run.value.rows().len(), "row");
        let (variables, paths) = (run.value.variables().len(), measure::count_paths(&run.value) as usize);
        let (met, advice) = match refusal {
            Refusal::Paths => {
                return many_paths(run, span, "values are right unreduced, so go on; cuts take paths away once there are 256")
            }
            Refusal::Kinds => (
                format!(
                    "tests {}; a reduction is for diagrams without equality, constants and minimum variables",
                    named(run, declared, |label| !is_plain(label, &run.arities))
                ),
                match run.value.has_minimum() {
                    true => "values are right unreduced, so go on",
                    false => "values are right unreduced, so go on; (cut) takes such diagrams",
                },
            ),
            Refusal::Runs => (
                format!(
                    "has {} and {}: {variables}^{variables} valuations over as many objects, times the paths, are {}; at most {RUNS}",
                    counted(variables, "variable"),
                    counted(paths, "path"),
                    grouped(runs(variables, paths))
                ),
                "cut until 16, which leaves fewer variables and paths; values are right unreduced, so go on",
            ),
            _ => (
                format!(
                    "has {} and {}, which combine in more than {} ways",
                    counted(variables, "variable"),
                    counted(paths, "path"),
                    grouped(COMBINATIONS as u128)
                ),
                "cut until 16, which leaves fewer paths; values are right unreduced, so go on",
            ),
        };
        Fault::new(refusal, span, format!("after step {}: the value diagram of {rows} {met}", run.k), advice)
    })
}

fn length(run: &Run, declared: &Declarations, span: Span) -> Checked {
    form(&run.value, declared).map(|_| ()).map_err(|refusal| {
        let line = reward_line(&run.value, declared);
        let bytes = match line.bytes {
            u128::MAX => "more bytes than can be counted".to_string(),
            bytes => format!("{} bytes", grouped(bytes)),
        };
        let what = format!(
            "after step {}: the value diagram of {}, written out as a form, makes a reward line of {bytes} with {} brackets open together; at most {} \
             and {OPEN_BRACKETS}",
            run.k,
            counted(run.value.rows().len(), "row"),
            line.brackets,
            grouped(LINE_BYTES as u128)
        );
        Fault::new(
            refusal,
            span,
            what,
            "cut until 16, which leaves fewer rows and paths, or take the form a step earlier; shorter names take fewer bytes; (show) prints every diagram",
        )
    })
}
