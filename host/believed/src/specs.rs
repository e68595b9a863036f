//! The declarations of a file of specs.

use crate::tokens::{code, tokens, tree, Node, Token};
use std::collections::BTreeSet;

#[derive(Clone, Copy, Debug, PartialEq, Eq)]
pub enum Kind {
    Data,
    Record,
    /// Marked `abbrev` or `unfoldable`: others may look into it.
    Open,
    /// With no mark: a theorem, or a definition that nobody looks into.
    Plain,
}

/// A constructor or a field.
#[derive(Clone, Debug)]
pub struct Member {
    pub name: String,
    pub kind: Vec<Node>,
}

#[derive(Clone, Debug)]
pub struct Declaration {
    pub name: String,
    pub kind: Kind,
    /// The parameters of the sections around it, then its own (of a data type or record).
    pub parameters: Vec<Node>,
    pub signature: Vec<Node>,
    pub members: Vec<Member>,
    pub clauses: Vec<Vec<Node>>,
    /// Lines of the signature with the sections' headers, and all its lines; comments, blank lines and `unfolding` lines are in neither.
    pub stated: BTreeSet<usize>,
    pub lines: BTreeSet<usize>,
    pub first: usize,
}

#[derive(Clone, Debug, PartialEq, Eq)]
pub struct Use {
    pub path: Vec<String>,
    /// `{name as other, ..}`; a module's own line has none.
    pub items: Option<Vec<(String, String)>>,
    pub alias: Option<String>,
    /// `pub use`: what it brings is handed on.
    pub public: bool,
}

#[derive(Clone, Debug, Default)]
pub struct File {
    pub uses: Vec<Use>,
    pub declarations: Vec<Declaration>,
}

struct Line {
    number: usize,
    indent: usize,
    tokens: Vec<Token>,
}

fn lines(text: &str) -> Vec<Line> {
    let mut found = Vec::new();
    for (i, line) in text.lines().enumerate() {
        let line = code(line);
        let indent = line.len() - line.trim_start().len();
        let tokens = tokens(line, i + 1);
        if !tokens.is_empty() {
            found.push(Line { number: i + 1, indent, tokens });
        }
    }
    found
}

/// Cuts lines into items: each begins at the indentation of the first, and closing brackets go on with the item before.
fn items(lines: &[Line]) -> Vec<&[Line]> {
    let Some(indent) = lines.first().map(|line| line.indent) else { return Vec::new() };
    let begins = |line: &Line| line.indent <= indent && !matches!(line.tokens[0].text.as_str(), ")" | "}" | "]");
    let mut found = Vec::new();
    let mut from = 0;
    for i in 1..=lines.len() {
        if i == lines.len() || begins(&lines[i]) {
            found.push(&lines[from..i]);
            from = i;
        }
    }
    found
}

fn flat(lines: &[Line]) -> Vec<Token> {
    lines.iter().flat_map(|line| line.tokens.iter().cloned()).collect()
}

fn numbers(lines: &[Line]) -> impl Iterator<Item = usize> + '_ {
    lines.iter().map(|line| line.number)
}

/// `use M.{a, b as c}`, `use M as N`, `use M`.
pub fn read_use(tokens: &[Token]) -> Result<Use, String> {
    let words: Vec<&str> = tokens.iter().map(|token| token.text.as_str()).filter(|word| *word != ".").collect();
    let Some(open) = words.iter().position(|word| *word == "{") else {
        let at = words.iter().position(|word| *word == "as");
        let path = words[1..at.unwrap_or(words.len())].iter().map(|word| word.to_string()).collect();
        return Ok(Use { path, items: None, alias: at.map(|at| words[at + 1].to_string()), public: false });
    };
    let path = words[1..open].iter().map(|word| word.to_string()).collect();
    let mut names = Vec::new();
    for item in words[open + 1..words.len() - 1].split(|word| *word == ",") {
        match item {
            [name] => names.push((name.to_string(), name.to_string())),
            [name, "as", other] => names.push((name.to_string(), other.to_string())),
            [] => {}
            _ => return Err(format!("line {}: this use is not read", tokens[0].line)),
        }
    }
    Ok(Use { path, items: Some(names), alias: None, public: false })
}

/// The names before a colon, and what is behind it.
fn names_and_type(nodes: &[Node]) -> Option<(Vec<String>, Vec<Node>)> {
    let colon = nodes.iter().position(|node| matches!(node, Node::Name(name, _) if name == ":"))?;
    let names = nodes[..colon].iter().filter_map(|node| if let Node::Name(name, _) = node { Some(name.clone()) } else { None });
    Some((names.collect(), nodes[colon + 1..].to_vec()))
}

fn members(lines: &[Line]) -> Result<Vec<Member>, String> {
    let mut found = Vec::new();
    for item in items(lines) {
        let all = flat(item);
        let marks = all.iter().take_while(|token| token.text == "pub").count();
        let nodes = tree(&all[marks..])?;
        let Some((names, kind)) = names_and_type(&nodes) else { return Err(format!("line {}: a member without a type", item[0].number)) };
        found.extend(names.into_iter().map(|name| Member { name, kind: kind.clone() }));
    }
    Ok(found)
}

#[derive(Clone, Default)]
struct Section {
    parameters: Vec<Node>,
    lines: BTreeSet<usize>,
    /// The marks of a `mutual` block are its members'.
    open: bool,
}

fn read_block(block: &[Line], around: &Section, file: &mut File) -> Result<(), String> {
    // Whether clauses may follow for the last declaration.
    let mut open = false;
    for item in items(block) {
        let all = flat(item);
        let first = item[0].number;
        let marks = all.iter().take_while(|token| matches!(token.text.as_str(), "pub" | "abbrev" | "unfoldable")).count();
        let rest = &all[marks..];
        let word = rest[0].text.as_str();
        // A header may take several lines, up to the one that ends in `where`.
        let header =
            item.iter().position(|line| line.tokens.last().is_some_and(|token| token.text == "where")).map_or(item.len(), |at| at + 1);
        match word {
            "use" => file.uses.push(Use { public: marks > 0, ..read_use(rest)? }),
            // What these bring is not found where it is used.
            "mod" | "infix" | "infixl" | "infixr" | "open" | "ruleset" => {}
            "axiom" => return Err(format!("line {first}: an axiom")),
            "mutual" => {
                let inner = Section { open: all[..marks].iter().any(|token| token.text != "pub"), ..around.clone() };
                read_block(&item[1..], &inner, file)?;
                open = false;
            }
            "module" => {
                let mut inner = around.clone();
                let head = flat(&item[..header]);
                inner.parameters.extend(tree(&head[2..head.len() - 1])?);
                inner.lines.extend(numbers(&item[..header]));
                read_block(&item[header..], &inner, file)?;
                open = false;
            }
            "data" | "record" => {
                let head = flat(&item[..header]);
                let nodes = tree(&head[marks + 2..head.len() - 1])?;
                let colon = nodes.iter().position(|node| matches!(node, Node::Name(name, _) if name == ":")).unwrap_or(nodes.len());
                let mut parameters = around.parameters.clone();
                parameters.extend_from_slice(&nodes[..colon]);
                let mut lines = around.lines.clone();
                lines.extend(numbers(item));
                file.declarations.push(Declaration {
                    name: rest[1].text.clone(),
                    kind: if word == "data" { Kind::Data } else { Kind::Record },
                    parameters,
                    signature: nodes[colon..].to_vec(),
                    members: members(&item[header..])?,
                    clauses: Vec::new(),
                    stated: lines.clone(),
                    lines,
                    first,
                });
                open = false;
            }
            "unfolding" if marks == 0 => {}
            _ => {
                // A signature: `name :`, or `name {levels} :`.
                let after = match rest.get(1).map(|token| token.text.as_str()) {
                    Some("{") => rest.iter().position(|token| token.text == "}").map_or(1, |at| at + 1),
                    _ => 1,
                };
                if rest.get(after).is_some_and(|token| token.text == ":") {
                    let mut lines = around.lines.clone();
                    lines.extend(numbers(item));
                    let marked = around.open || all[..marks].iter().any(|token| token.text != "pub");
                    let mut parameters = around.parameters.clone();
                    parameters.extend(tree(&rest[1..after])?);
                    file.declarations.push(Declaration {
                        name: word.to_string(),
                        kind: if marked { Kind::Open } else { Kind::Plain },
                        parameters,
                        signature: tree(&rest[after + 1..])?,
                        members: Vec::new(),
                        clauses: Vec::new(),
                        stated: lines.clone(),
                        lines,
                        first,
                    });
                    open = true;
                } else {
                    let Some(last) = file.declarations.last_mut().filter(|_| open && marks == 0) else {
                        return Err(format!("line {first}: a clause of nothing"));
                    };
                    last.lines.extend(numbers(item));
                    last.clauses.push(tree(&all)?);
                }
            }
        }
    }
    Ok(())
}

/// A file of specs.
pub fn read_specs(text: &str) -> Result<File, String> {
    if text.contains("{-") {
        return Err("comments in {- -} are not read".to_string());
    }
    let mut file = File::default();
    read_block(&lines(text), &Section::default(), &mut file)?;
    Ok(file)
}
