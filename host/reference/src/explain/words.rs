//! Refusals 2, 3, 6 and 4, word by word.

use super::{counted, grouped, replay, unless_fault, Checked, Fault};
use crate::declarations::{Declarations, DeclaredAction};
use crate::diagram::LARGEST;
use crate::refusal::Refusal;
use crate::session::{Placed, Session, DIVISOR, OBJECTS, TOTAL};
use crate::terms::{VariableKind, LARGEST_ARITY};
use crate::text::{Kind, Span, Word};

/// The words of a line that is of the grammar and in its place.
pub fn check(session: &Session, words: &[Word]) -> Checked {
    let declared = session.declarations();
    match (name_at(words, 0), words) {
        ("constant", [_, name]) => new_name(declared, name),
        ("predicate", [_, name, arity]) => predicate(declared, name, arity),
        ("total", [_, total]) => in_range(total, 1, TOTAL, "a total"),
        ("discount", [_, gain, divisor]) => discount(gain, divisor),
        ("reward", [_, diagram]) => Reader { declared, action: None, variables: Variables::Any }.diagram(diagram),
        ("action", [_, name, parameters @ ..]) => new_action(declared, name, parameters),
        ("variant", [_, name, weight]) => variant(declared, name, weight),
        ("becomes", [_, head, diagram]) => becomes(declared, head, diagram),
        ("objects", [_, objects]) => in_range(objects, 1, OBJECTS, "the count of objects"),
        ("is", [_, name, object]) => is(session, name, object),
        ("true", [_, name, objects @ ..]) => fact(session, name, objects),
        ("count", [_, objects]) => count(session, objects),
        ("did", [_, action, variant, objects @ ..]) => replay::words(session, action, variant, objects),
        _ => Ok(()),
    }
}

fn name_at(words: &[Word], at: usize) -> &str {
    words.get(at).map_or("", name_of)
}

/// A word's name, without its sign.
pub fn name_of(word: &Word) -> &str {
    match &word.kind {
        Kind::Name(name) | Kind::Variable(_, name) | Kind::Parameter(name) => name,
        _ => "",
    }
}

pub fn number_of(word: &Word) -> u64 {
    match word.kind {
        Kind::Number(number) => number,
        _ => 0,
    }
}

pub fn name_fault(word: &Word, what: String, advice: impl Into<String>) -> Fault {
    Fault::new(Refusal::Name, word.span, what, advice)
}

fn range_fault(span: Span, what: String, advice: impl Into<String>) -> Fault {
    Fault::new(Refusal::Range, span, what, advice)
}

fn in_range(word: &Word, least: u64, most: u64, what: &str) -> Checked {
    let number = number_of(word);
    unless_fault((least..=most).contains(&number), || {
        range_fault(
            word.span,
            format!("{what} is {}; it is from {least} to {}", told(number), grouped(most.into())),
            "give a number in that range",
        )
    })
}

/// A number as it is told; one that is held as the largest may be larger still.
fn told(number: u64) -> String {
    if number == u64::MAX {
        format!("{} or more", grouped(number.into()))
    } else {
        grouped(number.into())
    }
}

fn discount(gain: &Word, divisor: &Word) -> Checked {
    in_range(divisor, 1, DIVISOR, "a discount's divisor")?;
    in_range(gain, 0, number_of(divisor), "the discount's first number")
}

fn new_name(declared: &Declarations, word: &Word) -> Checked {
    let name = name_of(word);
    let what = if declared.constant(name).is_some() { "constant" } else { "predicate" };
    unless_fault(declared.is_new(name), || {
        name_fault(
            word,
            format!("\"{name}\" is declared already, as a {what}"),
            "constants and predicates share one set of names; take another name",
        )
    })
}

fn predicate(declared: &Declarations, name: &Word, arity: &Word) -> Checked {
    new_name(declared, name)?;
    in_range(arity, 0, LARGEST_ARITY, "a predicate's arity")
}

fn new_action(declared: &Declarations, name: &Word, parameters: &[Word]) -> Checked {
    let taken = declared.actions.iter().any(|action| action.name == name_of(name));
    unless_fault(!taken, || {
        name_fault(name, format!("there is an action \"{}\" already", name_of(name)), "give each action its own name")
    })?;
    distinct(parameters, '!')
}

fn distinct(words: &[Word], sign: char) -> Checked {
    let twice = words.iter().enumerate().find(|(i, word)| words[..*i].iter().any(|before| name_of(before) == name_of(word)));
    match twice {
        Some((_, word)) => Err(name_fault(word, format!("\"{sign}{}\" is given twice", name_of(word)), "give each its own name")),
        None => Ok(()),
    }
}

fn variant(declared: &Declarations, name: &Word, weight: &Word) -> Checked {
    let action = declared.actions.last();
    let taken = action.is_some_and(|action| action.variants.iter().any(|variant| variant.name == name_of(name)));
    unless_fault(!taken, || {
        name_fault(name, format!("the action has a variant \"{}\" already", name_of(name)), "give each variant of an action its own name")
    })?;
    Reader { declared, action, variables: Variables::None }.diagram(weight)
}

fn becomes(declared: &Declarations, head: &Word, diagram: &Word) -> Checked {
    let Kind::Form(words) = &head.kind else { return Ok(()) };
    let (name, arguments) = (&words[0], &words[1..]);
    let (predicate, arity) = known_predicate(declared, name)?;
    let action = declared.actions.last();
    let variant = action.and_then(|action| action.variants.last());
    let taken = variant.is_some_and(|variant| variant.truths.contains_key(&predicate));
    unless_fault(!taken, || {
        name_fault(
            name,
            format!("this variant has a (becomes) for \"{}\" already", name_of(name)),
            "write one (becomes) for a predicate; join the two",
        )
    })?;
    right_count(name, arguments, arity)?;
    distinct(arguments, '?')?;
    let arguments = arguments.iter().map(name_of).collect();
    Reader { declared, action, variables: Variables::Only(arguments) }.diagram(diagram)
}

fn is(session: &Session, name: &Word, object: &Word) -> Checked {
    let declared = session.declarations();
    let constant = known_constant(declared, name)?;
    let Some(placed) = placed(session) else { return Ok(()) };
    let already = placed.constants.get(constant).copied().flatten();
    unless_fault(already.is_none(), || {
        let object = already.unwrap_or(0);
        name_fault(
            name,
            format!("\"{}\" is placed already, on object {object}", name_of(name)),
            "a constant is one object; a new state begins with (objects n)",
        )
    })?;
    known_object(placed, object)
}

fn fact(session: &Session, name: &Word, objects: &[Word]) -> Checked {
    let (_, arity) = known_predicate(session.declarations(), name)?;
    right_count(name, objects, arity)?;
    let Some(placed) = placed(session) else { return Ok(()) };
    objects.iter().try_for_each(|object| known_object(placed, object))
}

/// As many objects as a state may have, and every constant among them.
fn count(session: &Session, objects: &Word) -> Checked {
    in_range(objects, 1, OBJECTS, "the count of objects")?;
    let constants = placed(session).map_or(&[][..], |placed| &placed.constants);
    let beyond =
        constants.iter().zip(&session.declarations().constants).find(|(object, _)| object.is_some_and(|o| o >= number_of(objects)));
    match beyond {
        Some((object, name)) => Err(range_fault(
            objects.span,
            format!("\"{name}\" is placed on object {}, and states of {} objects have none", object.unwrap_or(0), number_of(objects)),
            "count states of more objects, or place the constants among the first ones",
        )),
        None => Ok(()),
    }
}

pub fn placed(session: &Session) -> Option<&Placed> {
    session.started().and_then(|run| run.placed.as_ref())
}

pub fn known_object(placed: &Placed, word: &Word) -> Checked {
    unless_fault(number_of(word) < placed.objects, || {
        let what = format!("there is no object {}; this state has objects 0 to {}", told(number_of(word)), placed.objects - 1);
        range_fault(word.span, what, "take one of these, or begin the state with more: (objects n)")
    })
}

fn right_count(name: &Word, given: &[Word], arity: u64) -> Checked {
    unless_fault(given.len() as u64 == arity, || {
        let what = format!("\"{}\" is of arity {arity}, and here it has {}", name_of(name), counted(given.len(), "term"));
        Fault::new(
            Refusal::Arity,
            name.span,
            what,
            format!("(predicate {} {arity}) says how many; write as many or change the declaration", name_of(name)),
        )
    })
}

fn known_predicate(declared: &Declarations, word: &Word) -> Result<(u64, u64), Fault> {
    let name = name_of(word);
    declared.predicate(name).ok_or_else(|| {
        if declared.constant(name).is_some() {
            return name_fault(word, format!("\"{name}\" is a constant, and here a predicate should stand"), "take a predicate's name");
        }
        undeclared(word, "predicate", &format!("(predicate {name} ARITY)"), declared.predicates.iter().map(|(name, _)| name.as_str()))
    })
}

fn known_constant(declared: &Declarations, word: &Word) -> Result<usize, Fault> {
    let name = name_of(word);
    declared.constant(name).map(|constant| constant as usize).ok_or_else(|| {
        if declared.predicate(name).is_some() {
            return name_fault(
                word,
                format!("\"{name}\" is a predicate, and here a constant should stand"),
                "take a constant's name, or ?name or %name for a variable",
            );
        }
        undeclared(word, "constant", &format!("(constant {name})"), declared.constants.iter().map(String::as_str))
    })
}

fn undeclared<'a>(word: &Word, kind: &str, declaration: &str, known: impl Iterator<Item = &'a str>) -> Fault {
    let name = name_of(word);
    let meant = nearest(name, known).map(|near| format!("did you mean \"{near}\"? Otherwise ")).unwrap_or_default();
    name_fault(word, format!("no {kind} \"{name}\" is declared"), format!("{meant}declare it on an earlier line: {declaration}"))
}

/// The known name that is one or two letters away, the nearest first.
pub fn nearest<'a>(name: &str, known: impl Iterator<Item = &'a str>) -> Option<&'a str> {
    let near = known.map(|other| (distance(name.as_bytes(), other.as_bytes()), other));
    let most = match name.len() {
        0..=2 => 0,
        3 => 1,
        _ => 2,
    };
    near.filter(|(distance, _)| *distance <= most).min_by_key(|(distance, _)| *distance).map(|(_, other)| other)
}

/// How many letters are put in, taken out or changed from one name to the other.
fn distance(from: &[u8], to: &[u8]) -> usize {
    let mut row: Vec<usize> = (0..=to.len()).collect();
    for (i, a) in from.iter().enumerate() {
        let mut next = vec![i + 1];
        for (j, b) in to.iter().enumerate() {
            next.push((row[j] + usize::from(a != b)).min(row[j + 1] + 1).min(next[j] + 1));
        }
        row = next;
    }
    row[to.len()]
}

enum Variables<'a> {
    Any,
    None,
    Only(Vec<&'a str>),
}

/// Reads a diagram's words in their order.
struct Reader<'a> {
    declared: &'a Declarations,
    /// The action whose parameters the diagram may name.
    action: Option<&'a DeclaredAction>,
    variables: Variables<'a>,
}

impl Reader<'_> {
    fn diagram(&self, word: &Word) -> Checked {
        match &word.kind {
            Kind::Number(number) => unless_fault(*number <= LARGEST, || {
                range_fault(word.span, format!("the number is {}; at most 10^18", told(*number)), "keep rewards and weights small")
            }),
            Kind::Form(words) => {
                self.atom(&words[1])?;
                self.diagram(&words[2])?;
                self.diagram(&words[3])
            }
            _ => Ok(()),
        }
    }

    fn atom(&self, word: &Word) -> Checked {
        let Kind::Form(words) = &word.kind else { return Ok(()) };
        if words[0].kind != Kind::Equals {
            let (_, arity) = known_predicate(self.declared, &words[0])?;
            right_count(&words[0], &words[1..], arity)?;
        }
        words[1..].iter().try_for_each(|term| self.term(term))
    }

    fn term(&self, word: &Word) -> Checked {
        match &word.kind {
            Kind::Parameter(name) => self.parameter(word, name),
            Kind::Variable(kind, name) => self.variable(word, *kind, name),
            _ => known_constant(self.declared, word).map(|_| ()),
        }
    }

    fn parameter(&self, word: &Word, name: &str) -> Checked {
        let unbound = |what: String, advice: String| Err(Fault::new(Refusal::Unbound, word.span, what, advice));
        let Some(action) = self.action else {
            return unbound(
                format!("the reward names a parameter, \"!{name}\""),
                "a reward names constants and variables only: write ?name or %name".into(),
            );
        };
        if action.parameters.iter().any(|parameter| parameter == name) {
            return Ok(());
        }
        let has = action.parameters.iter().map(|parameter| format!("!{parameter}")).collect::<Vec<String>>().join(" ");
        let advice = match action.parameters.len() {
            0 => format!("it has none; declare it: (action {} !{name})", action.name),
            _ => format!("its parameters are {has}"),
        };
        unbound(format!("\"!{name}\" is no parameter of the action \"{}\"", action.name), advice)
    }

    fn variable(&self, word: &Word, kind: VariableKind, name: &str) -> Checked {
        let unbound = |what: String, advice: &str| Err(Fault::new(Refusal::Unbound, word.span, what, advice));
        let variable = match kind {
            VariableKind::Maximum => "variable",
            VariableKind::Minimum => "minimum variable",
        };
        match &self.variables {
            Variables::Any => Ok(()),
            Variables::Only(names) if kind == VariableKind::Maximum && names.contains(&name) => Ok(()),
            Variables::None => unbound(
                format!("a weight names a {variable}, \"{}{name}\"", kind.sign()),
                "a weight names constants and the action's parameters only: write !name",
            ),
            Variables::Only(_) if kind == VariableKind::Minimum => unbound(
                format!("a (becomes) names a minimum variable, \"%{name}\""),
                "minimum variables are for rewards; a truth diagram names the arguments of its predicate, the action's parameters and constants only",
            ),
            Variables::Only(_) => unbound(
                format!("\"?{name}\" is no argument of this (becomes)"),
                "a truth diagram names the arguments of its predicate, the action's parameters and constants only",
            ),
        }
    }
}
