//! report: a model on one HTML page.

use crate::arguments::Arguments;
use crate::commands::value::{value_of, PLACES};
use crate::drawing::plot::{plot, Growth};
use crate::drawing::{escaped, svg::svg, Figure};
use crate::input::{Lines, Text};
use crate::model::{load, Loaded};
use crate::output::{apart_from, Out};
use crate::planning::{diagram, uncut, Plan, Planner, Step};
use crate::samples::{asked, made, Sample};
use crate::trouble::{message, Outcome, Trouble, Verdict};
use crate::twin::reason;
use reference::declarations::{Declarations, DEFAULT_DISCOUNT, DEFAULT_TOTAL};
use reference::explain::{counted, grouped};
use reference::names::Names;
use std::ffi::OsString;
use std::path::Path;
use yindolve::Value;

/// How many steps are looked ahead where --steps is not given.
const STEPS: u64 = 3;

/// Diagrams of so many rows are shown as wide as the page.
const FIT_ROWS: usize = 100;

const STYLE: &str = "\
body{font-family:Helvetica,Arial,sans-serif;color:#1c1c1c;background:#fff;max-width:1100px;margin:2em auto;padding:0 1.5em}\
body{line-height:1.45}\
h1{font-size:1.6em;margin-bottom:.1em}h2{font-size:1.2em;margin-top:2em;border-bottom:1px solid #ccd5df;padding-bottom:.2em}\
pre{background:#f5f7fa;padding:.8em 1em;overflow-x:auto;font-size:13px;line-height:1.5;border-radius:4px}\
table{border-collapse:collapse;margin:.8em 0}th,td{padding:.25em .8em;border-bottom:1px solid #e3e9f0;text-align:right;vertical-align:top}\
th{background:#f5f7fa}th:first-child,td:first-child{text-align:left}td.words,th.words{text-align:left}td code{white-space:nowrap}\
.picture{overflow:auto;border:1px solid #e3e9f0;border-radius:4px;max-height:1200px}.fit svg{max-width:100%;height:auto}\
.note{background:#fff6e0;padding:.6em 1em;border-radius:4px}\
.about{color:#5a6570}li{margin:.15em 0}";

pub fn report(arguments: &Arguments, out: &mut Out) -> Outcome {
    let (file, states) = arguments.first_file("model")?;
    let steps = arguments.number("--steps")?.unwrap_or(STEPS);
    apart_from(arguments.word("--output"), &arguments.all_files())?;
    let Some(mut model) = load(&Text::read(file)?)? else {
        return Ok(Verdict::Refused);
    };
    let plan = Planner { steps, uncut: arguments.has("--uncut"), reduce: false, watch: &mut |_| Ok(()) }.plan(&mut model)?;
    let given = given(states)?;
    let refused = refused_among(&model, &given)?;
    let mut samples: Vec<(Sample, Option<Value>)> = given.into_iter().chain(asked(&model)).map(|sample| valued(&model, sample)).collect();
    // a made state that has more objects than can be valued is none to show
    samples.extend(made(&model).into_iter().map(|sample| valued(&model, sample)).filter(|(_, value)| value.is_some()));
    let page = page(&model, &plan, steps, &samples);
    out.write_to(arguments.word("--output"), page.as_bytes())?;
    if let (Some(fault), true) = (&plan.stop, arguments.has("--steps")) {
        message(&format!("the report ends after {} of {steps} steps: {}", model.twin.engine.steps(), reason(fault)));
    }
    Ok(Verdict::refused_if(refused || (plan.stop.is_some() && arguments.has("--steps"))))
}

/// The states of the files.
fn given(states: &[OsString]) -> Result<Vec<Sample>, Trouble> {
    let sample = |file: &OsString| {
        let text = Text::read(file)?;
        let lines = String::from_utf8_lossy(&text.bytes).lines().map(str::to_string).collect();
        Ok(Sample { name: text.name, lines })
    };
    states.iter().map(sample).collect()
}

/// Whether one of these states is refused.
fn refused_among(model: &Loaded, samples: &[Sample]) -> Result<bool, Trouble> {
    let mut refused = false;
    for sample in samples {
        refused |= value_of(model, Lines::new(sample.name.clone(), bytes_of(sample).as_slice()))?.is_none();
    }
    Ok(refused)
}

fn bytes_of(sample: &Sample) -> Vec<u8> {
    sample.lines.iter().flat_map(|line| [line.as_bytes(), b"\n"].concat()).collect()
}

/// A sample with its value; one that is refused has none.
fn valued(model: &Loaded, sample: Sample) -> (Sample, Option<Value>) {
    let mut engine = model.twin.engine.clone();
    let told = engine.tell(bytes_of(&sample));
    let value = told.ok().and_then(|()| engine.value_in_hand().ok());
    (sample, value)
}

fn page(model: &Loaded, plan: &Plan, steps: u64, samples: &[(Sample, Option<Value>)]) -> String {
    let file = Path::new(&model.name).file_name().map_or(model.name.clone(), |name| name.to_string_lossy().into_owned());
    let name = escaped(&file);
    let k = model.twin.engine.steps();
    let mut page = format!(
        "<!DOCTYPE html>\n<html lang=\"en\">\n<head>\n<meta charset=\"utf-8\">\n\
         <meta name=\"viewport\" content=\"width=device-width, initial-scale=1\">\n\
         <title>{name}: a model and its values</title>\n<style>{STYLE}</style>\n</head>\n<body>\n<h1>{name}</h1>\n\
         <p class=\"about\">A model and its value diagram, {} ahead, by yindolve-desk {}. The numbers come from the proved library.</p>\n",
        counted(k as usize, "step"),
        env!("CARGO_PKG_VERSION")
    );
    page += &section("model", "The model", &model_part(model));
    page += &section("growth", "Growth by step", &growth_part(plan, steps));
    page += &section("cuts", "Cuts", &cuts_part(plan));
    page += &section("diagram", "The value diagram", &diagram_part(model));
    page += &section("states", "Sample states", &states_part(model, samples));
    page + "</body>\n</html>\n"
}

fn section(id: &str, title: &str, content: &str) -> String {
    format!("<section id=\"{id}\">\n<h2>{title}</h2>\n{content}</section>\n")
}

fn model_part(model: &Loaded) -> String {
    let declared = model.twin.known.declarations();
    let lines = model.twin.engine.model_lines();
    let numbered: String = lines.iter().enumerate().map(|(i, line)| format!("{:>3}  {}\n", i + 1, escaped(line))).collect();
    format!("<ul>\n{}</ul>\n<pre>{numbered}</pre>\n", declarations_list(declared))
}

fn declarations_list(declared: &Declarations) -> String {
    let item = |name: &str, words: String| if words.is_empty() { String::new() } else { format!("<li>{name}: {}</li>\n", escaped(&words)) };
    let predicates = declared.predicates.iter().map(|(name, arity)| format!("{name}/{arity}")).collect::<Vec<String>>().join(", ");
    let action = |action: &reference::declarations::DeclaredAction| {
        let parameters: String = action.parameters.iter().map(|parameter| format!(" !{parameter}")).collect();
        let variants = action.variants.iter().map(|variant| variant.name.as_str()).collect::<Vec<&str>>().join(", ");
        format!("{}{parameters} ({variants})", action.name)
    };
    let (gain, divisor) = declared.discount.unwrap_or(DEFAULT_DISCOUNT);
    let total = declared.total.unwrap_or(DEFAULT_TOTAL);
    item("Constants", declared.constants.join(", "))
        + &item("Predicates, with how many objects each is about", predicates)
        + &item("Actions, with their outcomes", declared.actions.iter().map(action).collect::<Vec<String>>().join("; "))
        + &item("Weights add up to", total.to_string())
        + &item("A step later counts", format!("{gain}/{divisor}"))
        + &item("Each step multiplies the scale by", grouped(u128::from(total) * u128::from(divisor)))
}

fn growth_part(plan: &Plan, steps: u64) -> String {
    let growth: Vec<Growth> = plan.steps.iter().map(|step| Growth { step: step.k, rows: step.backed_up, left: step.rows }).collect();
    let rows: String = plan.steps.iter().map(step_row).collect();
    let stop = plan.stop.as_ref().map(|fault| {
        let done = plan.steps.len() - 1;
        format!("<p class=\"note\">{done} of {steps} steps were done; the next one is refused. {}</p>\n", escaped(&reason(fault)))
    });
    format!(
        "{}<table>\n<tr><th>step</th><th>rows after the backup</th><th>cuts</th><th>rows left</th><th>variables</th><th>paths</th></tr>\n\
         {rows}</table>\n{}",
        plot(&growth),
        stop.unwrap_or_default()
    )
}

fn step_row(step: &Step) -> String {
    format!(
        "<tr><td>{}</td><td>{}</td><td>{}</td><td>{}</td><td>{}</td><td>{}</td></tr>\n",
        step.k,
        step.backed_up,
        step.cuts.len(),
        step.rows,
        step.variables,
        grouped(step.paths)
    )
}

fn cuts_part(plan: &Plan) -> String {
    let mut text = String::from("<p>A cut takes one edge of the diagram away and changes no value.</p>\n");
    let rows: String = plan.steps.iter().filter(|step| !step.cuts.is_empty()).map(cuts_row).collect();
    if rows.is_empty() {
        text += "<p>Nothing was cut.</p>\n";
    } else {
        let heads = "<th>after step</th><th>cuts</th><th class=\"words\">row, edge, and the rows left, in turn</th>";
        text += &format!("<table>\n<tr>{heads}</tr>\n{rows}</table>\n");
    }
    for (how, fault) in uncut(&plan.steps) {
        text += &format!("<p class=\"note\">{}. {}</p>\n", capital(how), escaped(&reason(fault)));
    }
    text
}

fn capital(words: &str) -> String {
    words[..1].to_uppercase() + &words[1..]
}

fn cuts_row(step: &Step) -> String {
    let cuts = step.cuts.iter().map(|cut| format!("<code>{} {} {}</code>", cut.row, cut.edge, cut.rows));
    format!(
        "<tr><td>{}</td><td>{}</td><td class=\"words\">{}</td></tr>\n",
        step.k,
        step.cuts.len(),
        cuts.collect::<Vec<String>>().join(", ")
    )
}

fn diagram_part(model: &Loaded) -> String {
    let engine = &model.twin.engine;
    let names = Names { declarations: model.twin.known.declarations(), parameters: &[] };
    let value = diagram(engine);
    let figure = Figure { diagram: &value, names, steps: engine.steps(), scale: engine.scale() };
    // a large picture keeps its size and is scrolled
    let fit = if value.rows().len() <= FIT_ROWS { " fit" } else { "" };
    let inside = if value.has_minimum() { ", and then those for %v0, %v1, .. so that it is lowest" } else { "" };
    format!(
        "<p>From the root down: a solid line where the test is true, a dashed one where it is not. Objects for ?v0, ?v1, .. are chosen so \
         that the leaf is highest{inside}; that leaf divided by {} is the state's value.</p>\n<div class=\"picture{fit}\">\n{}</div>\n",
        engine.scale(),
        svg(&figure)
    )
}

fn states_part(model: &Loaded, samples: &[(Sample, Option<Value>)]) -> String {
    let row = |(sample, value): &(Sample, Option<Value>)| {
        let lines = sample.lines.iter().filter(|line| !line.is_empty());
        let lines = lines.map(|line| format!("<code>{}</code>", escaped(line))).collect::<Vec<String>>().join("<br>");
        let cells = match value {
            Some(value) => format!("<td>{}</td><td>{}</td><td>{}</td>", value.value, value.fraction(), value.fraction().decimal(PLACES)),
            None => "<td class=\"words\" colspan=\"3\">refused; yindolve-desk value tells why</td>".into(),
        };
        format!("<tr><td>{}</td><td class=\"words\">{lines}</td>{cells}</tr>\n", escaped(&sample.name))
    };
    format!(
        "<table>\n<tr><th>state</th><th class=\"words\">its lines</th><th>V</th><th>V / {}</th><th>value</th></tr>\n{}</table>\n",
        model.twin.engine.scale(),
        samples.iter().map(row).collect::<String>()
    )
}
