//! Refusal 1: bytes that are no words in brackets, and words that are no form.

use super::{words::nearest, Fault};
use crate::refusal::Refusal;
use crate::terms::VariableKind;
use crate::text::{Flaw, Flawed, Kind, Span, Word, LINE_BYTES, NAME_LETTERS, OPEN_BRACKETS};

const ONE_FORM: &str = "a line is one form in brackets, such as (start), or blank, without even a space; there are no comments";
const CRLF: &str = "end lines with a line feed alone: sed -i 's/\\r$//' FILE";

fn fault(span: Span, what: impl Into<String>, advice: impl Into<String>) -> Fault {
    Fault::new(Refusal::Form, span, what, advice)
}

/// Bytes as they can be shown.
fn shown(bytes: &[u8]) -> String {
    format!("\"{}\"", bytes.escape_ascii())
}

pub fn not_ended(line: &[u8]) -> Fault {
    fault((line.len(), line.len()), "the last line has no line feed at its end", "end the text with a line feed: echo >> FILE")
}

pub fn flawed(line: &[u8], flawed: Flawed) -> Fault {
    let (from, to) = flawed.span;
    let bytes = &line[from..to];
    let (what, advice) = match flawed.flaw {
        Flaw::LineBytes => (format!("the line has more than {LINE_BYTES} bytes"), "use shorter names or a smaller diagram".into()),
        Flaw::OpenBrackets => (
            format!("this bracket is number {} of those open together; at most {OPEN_BRACKETS}", OPEN_BRACKETS + 1),
            "nest fewer conditions".into(),
        ),
        Flaw::NoBracket => (no_bracket(line), no_bracket_advice(line).into()),
        Flaw::NoWord => no_word(line, from),
        Flaw::NotAWord => not_a_word(bytes),
        Flaw::NoSpace => {
            ("behind a closing bracket comes no space and no further closing bracket".into(), "write one space between words".into())
        }
        Flaw::NotClosed => (
            format!("{} not closed at the end of the line", brackets(still_open(line))),
            "a form stands on one line; close it there".into(),
        ),
        Flaw::Behind => behind(bytes),
    };
    fault(flawed.span, what, advice)
}

fn still_open(line: &[u8]) -> usize {
    let count = |bracket: u8| line.iter().filter(|byte| **byte == bracket).count();
    count(b'(').saturating_sub(count(b')'))
}

fn brackets(count: usize) -> String {
    if count == 1 {
        "1 bracket is".into()
    } else {
        format!("{count} brackets are")
    }
}

fn no_bracket(line: &[u8]) -> String {
    match line {
        b"\r" => "the line is empty but for a carriage return (CR LF)".into(),
        [0xef, 0xbb, 0xbf, ..] => "the line begins with a byte order mark".into(),
        [b' ' | b'\t', ..] => "the line begins with a space or a tab".into(),
        _ => format!("the line begins with {} and not with a bracket", shown(&line[..1])),
    }
}

fn no_bracket_advice(line: &[u8]) -> &'static str {
    match line {
        b"\r" => CRLF,
        [0xef, 0xbb, 0xbf, ..] => "save the text as plain ASCII, without a byte order mark",
        _ => ONE_FORM,
    }
}

fn no_word(line: &[u8], at: usize) -> (String, String) {
    let what = match line.get(at) {
        Some(b' ') => "a space stands where a word should",
        Some(b')') if line[at - 1] == b'(' => "the brackets hold no word",
        Some(_) => "a space stands before a closing bracket",
        None => "the line ends where a word should stand",
    };
    (what.into(), "write one space between words and none inside the brackets' ends".into())
}

fn not_a_word(bytes: &[u8]) -> (String, String) {
    let what = |why: &str| format!("{} {why}", shown(bytes));
    let names =
        "a name has 1 to 15 lower-case letters or digits, a letter first; ?name is a variable, %name a minimum variable, !name a parameter";
    let numbers = "numbers are whole, decimal, without sign, point or leading zeros";
    let named = match bytes {
        [b'?' | b'%' | b'!', name @ ..] => name,
        name => name,
    };
    if bytes.ends_with(b"\r") {
        (what("ends with a carriage return (CR LF)"), CRLF.into())
    } else if bytes.iter().all(u8::is_ascii_digit) {
        (what("has a leading zero"), numbers.into())
    } else if bytes.contains(&b'\t') {
        (what("holds a tab"), "write one space between words".into())
    } else if bytes.iter().all(|byte| byte.is_ascii_digit() || b".-+,".contains(byte)) {
        (what("is no whole number"), numbers.into())
    } else if named.iter().any(u8::is_ascii_uppercase) {
        (what("holds upper-case letters"), names.into())
    } else if named.first().is_some_and(u8::is_ascii_digit) {
        (what("begins with a digit"), names.into())
    } else if named.len() > NAME_LETTERS && named.iter().all(u8::is_ascii_alphanumeric) {
        (what(&format!("has {} letters; at most {NAME_LETTERS}", named.len())), names.into())
    } else {
        (what("is no word"), names.into())
    }
}

fn behind(bytes: &[u8]) -> (String, String) {
    match bytes {
        b"\r" => ("the line ends with CR LF, a carriage return before the line feed".into(), CRLF.into()),
        [b')', ..] => ("there is a closing bracket too many".into(), "take it out".into()),
        _ if bytes.iter().all(|byte| b" \t\r".contains(byte)) => ("spaces stand behind the form".into(), "take them out".into()),
        _ => (format!("{} stands behind the form", shown(bytes)), ONE_FORM.into()),
    }
}

/// What a form's words are, place by place.
#[derive(Clone, Copy, PartialEq)]
enum Shape {
    Name,
    Number,
    Diagram,
    Head,
    Parameters,
    Numbers,
}

struct Form {
    name: &'static str,
    written: &'static str,
    shapes: &'static [Shape],
}

const fn form(name: &'static str, written: &'static str, shapes: &'static [Shape]) -> Form {
    Form { name, written, shapes }
}

const FORMS: [Form; 21] = [
    form("constant", "(constant NAME)", &[Shape::Name]),
    form("predicate", "(predicate NAME ARITY)", &[Shape::Name, Shape::Number]),
    form("total", "(total W)", &[Shape::Number]),
    form("discount", "(discount G D)", &[Shape::Number, Shape::Number]),
    form("reward", "(reward DIAGRAM)", &[Shape::Diagram]),
    form("action", "(action NAME !p ..)", &[Shape::Name, Shape::Parameters]),
    form("variant", "(variant NAME DIAGRAM)", &[Shape::Name, Shape::Diagram]),
    form("becomes", "(becomes (PREDICATE ?a ..) DIAGRAM)", &[Shape::Head, Shape::Diagram]),
    form("start", "(start)", &[]),
    form("objects", "(objects N)", &[Shape::Number]),
    form("is", "(is CONSTANT OBJECT)", &[Shape::Name, Shape::Number]),
    form("true", "(true PREDICATE OBJECT ..)", &[Shape::Name, Shape::Numbers]),
    form("value", "(value)", &[]),
    form("backup", "(backup)", &[]),
    form("cut", "(cut)", &[]),
    form("reduce", "(reduce)", &[]),
    form("show", "(show)", &[]),
    form("text", "(text)", &[]),
    form("best", "(best)", &[]),
    form("count", "(count N)", &[Shape::Number]),
    form("did", "(did ACTION VARIANT OBJECT ..)", &[Shape::Name, Shape::Name, Shape::Numbers]),
];

/// The fault of words that are no line.
pub fn misfit(words: &[Word], length: usize) -> Fault {
    let Kind::Name(name) = &words[0].kind else {
        return fault(words[0].span, "the form begins with no name", ONE_FORM);
    };
    let Some(form) = FORMS.iter().find(|form| form.name == name) else {
        return unknown_form(name, words[0].span);
    };
    let diagram = if form.shapes.contains(&Shape::Diagram) { "; a diagram is a number or (if ATOM DIAGRAM DIAGRAM)" } else { "" };
    let advice = format!("the form is {}{diagram}", form.written);
    let (span, what) = misfit_of(form, &words[1..]).unwrap_or(((length - 1, length), "the form ends too early".into()));
    fault(span, what, advice)
}

fn unknown_form(name: &str, span: Span) -> Fault {
    let known = FORMS.iter().map(|form| form.name);
    let advice = match nearest(name, known.clone()) {
        Some(near) => format!("did you mean ({near} ..)?"),
        None => format!("the forms are: {}", known.collect::<Vec<&str>>().join(", ")),
    };
    fault(span, format!("there is no form named \"{name}\""), advice)
}

/// The first word that does not fit; none where a word is missing at the end.
fn misfit_of(form: &Form, words: &[Word]) -> Option<(Span, String)> {
    let mut words = words.iter();
    for shape in form.shapes {
        if matches!(shape, Shape::Parameters | Shape::Numbers) {
            return words.find_map(|word| misfit_at(*shape, word));
        }
        let misfit = misfit_at(*shape, words.next()?);
        if misfit.is_some() {
            return misfit;
        }
    }
    words.next().map(|word| (word.span, "there is a word too many here".into()))
}

fn misfit_at(shape: Shape, word: &Word) -> Option<(Span, String)> {
    let wanted = |what: &str| Some((word.span, format!("here should stand {what}, and there is {}", kind_of(word))));
    match (shape, &word.kind) {
        (Shape::Name, Kind::Name(_)) | (Shape::Number | Shape::Numbers, Kind::Number(_)) | (Shape::Parameters, Kind::Parameter(_)) => None,
        (Shape::Diagram, _) => diagram_misfit(word),
        (Shape::Head, Kind::Form(words)) => head_misfit(words),
        (Shape::Name, _) => wanted("a name"),
        (Shape::Number, _) => wanted("a number"),
        (Shape::Numbers, _) => wanted("an object's number"),
        (Shape::Parameters, _) => wanted("a parameter, !name"),
        (Shape::Head, _) => wanted("(PREDICATE ?a ..)"),
    }
}

fn kind_of(word: &Word) -> String {
    match &word.kind {
        Kind::Name(name) => format!("the name \"{name}\""),
        Kind::Variable(VariableKind::Maximum, name) => format!("the variable \"?{name}\""),
        Kind::Variable(VariableKind::Minimum, name) => format!("the minimum variable \"%{name}\""),
        Kind::Parameter(name) => format!("the parameter \"!{name}\""),
        Kind::Number(number) => format!("the number {number}"),
        Kind::Equals => "=".into(),
        Kind::Form(_) => "a form in brackets".into(),
    }
}

fn head_misfit(words: &[Word]) -> Option<(Span, String)> {
    let argument = |word: &Word| match word.kind {
        Kind::Variable(VariableKind::Maximum, _) => None,
        _ => Some((word.span, format!("the arguments of a (becomes) are variables, ?name, and there is {}", kind_of(word)))),
    };
    match words[0].kind {
        Kind::Name(_) => words[1..].iter().find_map(argument),
        _ => Some((words[0].span, format!("here should stand a predicate's name, and there is {}", kind_of(&words[0])))),
    }
}

fn diagram_misfit(word: &Word) -> Option<(Span, String)> {
    let wanted = |span| Some((span, format!("here should stand a diagram, and there is {}", kind_of(word))));
    let words = match &word.kind {
        Kind::Number(_) => return None,
        Kind::Form(words) => words,
        _ => return wanted(word.span),
    };
    match &words[0].kind {
        Kind::Name(name) if name == "if" => {}
        Kind::Name(name) => {
            return Some((words[0].span, format!("\"{name}\" stands where (if ATOM DIAGRAM DIAGRAM) should begin with \"if\"")))
        }
        _ => return wanted(word.span),
    }
    match &words[1..] {
        [] => Some((word.span, "this (if ..) has no condition".into())),
        [_, .., _] if words.len() > 4 => Some((words[4].span, "this (if ..) has more than a condition and two sides".into())),
        [condition, sides @ ..] => atom_misfit(condition).or_else(|| sides.iter().find_map(diagram_misfit)).or_else(|| {
            let missing = if sides.is_empty() { "no true and no false side" } else { "no false side" };
            (sides.len() < 2).then(|| (word.span, format!("this (if ..) has {missing}")))
        }),
    }
}

fn atom_misfit(word: &Word) -> Option<(Span, String)> {
    let Kind::Form(words) = &word.kind else {
        return Some((
            word.span,
            format!("a condition is an atom in brackets, (name TERM ..) or (= TERM TERM), and there is {}", kind_of(word)),
        ));
    };
    let term = |word: &Word| match word.kind {
        Kind::Name(_) | Kind::Variable(..) | Kind::Parameter(_) => None,
        _ => Some((word.span, format!("a term is a constant, ?variable, %variable or !parameter, and there is {}", kind_of(word)))),
    };
    match &words[0].kind {
        Kind::Equals if words.len() != 3 => Some((word.span, format!("= takes two terms, and there are {}", words.len() - 1))),
        Kind::Equals | Kind::Name(_) => words[1..].iter().find_map(term),
        _ => Some((words[0].span, format!("a condition begins with a predicate's name or =, and there is {}", kind_of(&words[0])))),
    }
}
