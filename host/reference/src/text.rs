//! Document 01, "Text": from the bytes of a line to the form it is, or 1. Names are not looked up here.

use crate::refusal::Refusal;
use crate::terms::VariableKind;

pub const LINE_BYTES: usize = 4_095;
pub const OPEN_BRACKETS: usize = 64;
pub const NAME_LETTERS: usize = 15;

/// The bytes of a line that a word is, from the first to the one behind the last.
pub type Span = (usize, usize);

/// A word, or an inner form in the place of one.
#[derive(Clone, Debug, PartialEq, Eq)]
pub struct Word {
    pub span: Span,
    pub kind: Kind,
}

/// What a word is. A number too large for 64 bits is held as the largest one, which is outside every range.
#[derive(Clone, Debug, PartialEq, Eq)]
pub enum Kind {
    Name(String),
    Variable(VariableKind, String),
    Parameter(String),
    Number(u64),
    Equals,
    Form(Vec<Word>),
}

/// Why bytes are no words in brackets.
#[derive(Clone, Copy, Debug, PartialEq, Eq)]
pub enum Flaw {
    LineBytes,
    OpenBrackets,
    NoBracket,
    NoWord,
    NotAWord,
    NoSpace,
    NotClosed,
    Behind,
}

/// Bytes that are no words, and where.
#[derive(Clone, Copy, Debug, PartialEq, Eq)]
pub struct Flawed {
    pub flaw: Flaw,
    pub span: Span,
}

#[derive(Clone, Debug, PartialEq, Eq)]
pub enum WrittenTerm {
    Constant(String),
    Variable(VariableKind, String),
    Parameter(String),
}

#[derive(Clone, Debug, PartialEq, Eq)]
pub enum WrittenAtom {
    Equality(WrittenTerm, WrittenTerm),
    Predicate(String, Vec<WrittenTerm>),
}

#[derive(Clone, Debug, PartialEq, Eq)]
pub enum WrittenDiagram {
    Number(u64),
    If(WrittenAtom, Box<WrittenDiagram>, Box<WrittenDiagram>),
}

#[derive(Clone, Debug, PartialEq, Eq)]
pub enum Line {
    Constant(String),
    Predicate(String, u64),
    Total(u64),
    Discount(u64, u64),
    Reward(WrittenDiagram),
    Action(String, Vec<String>),
    Variant(String, WrittenDiagram),
    Becomes(String, Vec<String>, WrittenDiagram),
    Start,
    Objects(u64),
    Is(String, u64),
    True(String, Vec<u64>),
    Value,
    Backup,
    Cut,
    Reduce,
    Show,
    Text,
    Best,
    Count(u64),
    /// Action, variant and objects.
    Did(String, String, Vec<u64>),
}

impl Line {
    /// Whether it belongs behind (start).
    pub fn is_of_the_run(&self) -> bool {
        use Line::*;
        matches!(self, Objects(_) | Is(..) | True(..) | Value | Backup | Cut | Reduce | Show | Text | Best | Count(_) | Did(..))
    }
}

/// The lines of a text with their line feed taken off; `false` beside a last line that has none.
pub fn lines(text: &[u8]) -> Vec<(&[u8], bool)> {
    let ended = |piece: &'_ [u8]| piece.ends_with(b"\n");
    text.split_inclusive(|byte| *byte == b'\n')
        .map(|piece| if ended(piece) { (&piece[..piece.len() - 1], true) } else { (piece, false) })
        .collect()
}

/// The form that a line is.
pub fn read_line(line: &[u8]) -> Result<Line, Refusal> {
    let words = read_words(line).map_err(|_| Refusal::Form)?;
    line_of(&words).ok_or(Refusal::Form)
}

/// The words of the form that the whole line is.
pub fn read_words(line: &[u8]) -> Result<Vec<Word>, Flawed> {
    unflawed(line.len() <= LINE_BYTES, Flaw::LineBytes, (LINE_BYTES, line.len()))?;
    unflawed(line.first() == Some(&b'('), Flaw::NoBracket, (0, line.len().min(1)))?;
    let (words, behind) = read_form(line, 1, 1)?;
    unflawed(behind == line.len(), Flaw::Behind, (behind, line.len()))?;
    Ok(words)
}

fn unflawed(condition: bool, flaw: Flaw, span: Span) -> Result<(), Flawed> {
    if condition {
        Ok(())
    } else {
        Err(Flawed { flaw, span })
    }
}

/// Reads one word or inner form from a place of the line, and gives the place behind it.
fn read_word(line: &[u8], at: usize, open: usize) -> Result<(Word, usize), Flawed> {
    if line.get(at) == Some(&b'(') {
        unflawed(open < OPEN_BRACKETS, Flaw::OpenBrackets, (at, at + 1))?;
        let (words, behind) = read_form(line, at + 1, open + 1)?;
        return Ok((Word { span: (at, behind), kind: Kind::Form(words) }, behind));
    }
    let length = line[at..].iter().position(|byte| b" ()".contains(byte)).unwrap_or(line.len() - at);
    let span = (at, at + length);
    unflawed(length > 0, Flaw::NoWord, (at, line.len().min(at + 1)))?;
    let kind = plain_word(&line[at..at + length]).ok_or(Flawed { flaw: Flaw::NotAWord, span })?;
    Ok((Word { span, kind }, at + length))
}

/// Reads the words of a form behind its opening bracket: one space between neighbours, then the closing bracket.
fn read_form(line: &[u8], from: usize, open: usize) -> Result<(Vec<Word>, usize), Flawed> {
    let mut words = Vec::new();
    let mut at = from;
    loop {
        let (word, behind) = read_word(line, at, open)?;
        words.push(word);
        match line.get(behind) {
            Some(b' ') => at = behind + 1,
            Some(b')') => return Ok((words, behind + 1)),
            Some(_) => return Err(Flawed { flaw: Flaw::NoSpace, span: (behind, behind + 1) }),
            None => return Err(Flawed { flaw: Flaw::NotClosed, span: (behind, behind) }),
        }
    }
}

fn plain_word(bytes: &[u8]) -> Option<Kind> {
    match bytes.split_first()? {
        (b'=', []) => Some(Kind::Equals),
        (b'?', name) => read_name(name).map(|name| Kind::Variable(VariableKind::Maximum, name)),
        (b'%', name) => read_name(name).map(|name| Kind::Variable(VariableKind::Minimum, name)),
        (b'!', name) => read_name(name).map(Kind::Parameter),
        (b'0'..=b'9', _) => read_number(bytes).map(Kind::Number),
        _ => read_name(bytes).map(Kind::Name),
    }
}

/// 1 to 15 lower-case letters or digits, a letter first.
fn read_name(bytes: &[u8]) -> Option<String> {
    let starts = bytes.first().is_some_and(u8::is_ascii_lowercase);
    let letters = bytes.iter().all(|byte| byte.is_ascii_lowercase() || byte.is_ascii_digit());
    (starts && letters && bytes.len() <= NAME_LETTERS).then(|| bytes.iter().map(|byte| char::from(*byte)).collect())
}

/// Decimal without leading zeros.
pub fn read_number(bytes: &[u8]) -> Option<u64> {
    let plain = bytes.iter().all(u8::is_ascii_digit) && (bytes == b"0" || bytes[0] != b'0');
    let add = |number: u64, byte: &u8| number.saturating_mul(10).saturating_add(u64::from(byte - b'0'));
    plain.then(|| bytes.iter().fold(0, add))
}

/// The kinds of words, to be told apart by their shape.
fn kinds(words: &[Word]) -> Vec<&Kind> {
    words.iter().map(|word| &word.kind).collect()
}

/// The line of these words, if they are one.
pub fn line_of(words: &[Word]) -> Option<Line> {
    let (Kind::Name(kind), words) = words.split_first().map(|(first, rest)| (&first.kind, kinds(rest)))? else {
        return None;
    };
    Some(match (kind.as_str(), words.as_slice()) {
        ("constant", [Kind::Name(name)]) => Line::Constant(name.clone()),
        ("predicate", [Kind::Name(name), Kind::Number(arity)]) => Line::Predicate(name.clone(), *arity),
        ("total", [Kind::Number(total)]) => Line::Total(*total),
        ("discount", [Kind::Number(gain), Kind::Number(divisor)]) => Line::Discount(*gain, *divisor),
        ("reward", [diagram]) => Line::Reward(diagram_of(diagram)?),
        ("action", [Kind::Name(name), parameters @ ..]) => Line::Action(name.clone(), all(parameters, parameter_of)?),
        ("variant", [Kind::Name(name), weight]) => Line::Variant(name.clone(), diagram_of(weight)?),
        ("becomes", [Kind::Form(head), diagram]) => match kinds(head).split_first()? {
            (Kind::Name(name), arguments) => Line::Becomes(name.clone(), all(arguments, argument_of)?, diagram_of(diagram)?),
            _ => return None,
        },
        ("start", []) => Line::Start,
        ("objects", [Kind::Number(objects)]) => Line::Objects(*objects),
        ("is", [Kind::Name(name), Kind::Number(object)]) => Line::Is(name.clone(), *object),
        ("true", [Kind::Name(name), objects @ ..]) => Line::True(name.clone(), all(objects, number_of)?),
        ("value", []) => Line::Value,
        ("backup", []) => Line::Backup,
        ("cut", []) => Line::Cut,
        ("reduce", []) => Line::Reduce,
        ("show", []) => Line::Show,
        ("text", []) => Line::Text,
        ("best", []) => Line::Best,
        ("count", [Kind::Number(objects)]) => Line::Count(*objects),
        ("did", [Kind::Name(action), Kind::Name(variant), objects @ ..]) => {
            Line::Did(action.clone(), variant.clone(), all(objects, number_of)?)
        }
        _ => return None,
    })
}

fn all<T>(words: &[&Kind], read: impl Fn(&Kind) -> Option<T>) -> Option<Vec<T>> {
    words.iter().map(|word| read(word)).collect()
}

fn argument_of(word: &Kind) -> Option<String> {
    match word {
        Kind::Variable(VariableKind::Maximum, name) => Some(name.clone()),
        _ => None,
    }
}

fn parameter_of(word: &Kind) -> Option<String> {
    match word {
        Kind::Parameter(name) => Some(name.clone()),
        _ => None,
    }
}

fn number_of(word: &Kind) -> Option<u64> {
    match word {
        Kind::Number(number) => Some(*number),
        _ => None,
    }
}

fn term_of(word: &Kind) -> Option<WrittenTerm> {
    match word {
        Kind::Name(name) => Some(WrittenTerm::Constant(name.clone())),
        Kind::Variable(kind, name) => Some(WrittenTerm::Variable(*kind, name.clone())),
        Kind::Parameter(name) => Some(WrittenTerm::Parameter(name.clone())),
        _ => None,
    }
}

fn atom_of(word: &Kind) -> Option<WrittenAtom> {
    let Kind::Form(words) = word else {
        return None;
    };
    match kinds(words).as_slice() {
        [Kind::Equals, a, b] => Some(WrittenAtom::Equality(term_of(a)?, term_of(b)?)),
        [Kind::Name(name), terms @ ..] => Some(WrittenAtom::Predicate(name.clone(), all(terms, term_of)?)),
        _ => None,
    }
}

/// A number, or (if ATOM DIAGRAM DIAGRAM).
fn diagram_of(word: &Kind) -> Option<WrittenDiagram> {
    match word {
        Kind::Number(number) => Some(WrittenDiagram::Number(*number)),
        Kind::Form(words) => match kinds(words).as_slice() {
            [Kind::Name(name), atom, yes, no] if *name == "if" => {
                Some(WrittenDiagram::If(atom_of(atom)?, Box::new(diagram_of(yes)?), Box::new(diagram_of(no)?)))
            }
            _ => None,
        },
        _ => None,
    }
}
