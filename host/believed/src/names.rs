//! The names that a term, a type or a clause uses from outside: bound variables are left out.

use crate::repository::is_part;
use crate::tokens::Node;

#[derive(Clone, Debug, PartialEq, Eq)]
pub enum Used {
    /// A name, or names joined by dots; with its line.
    Name(Vec<String>, usize),
    /// A field that is taken.
    Field(String, usize),
    /// The fields that a record is given or taken apart with.
    Record(Vec<String>, usize),
}

pub trait Scope {
    /// In a pattern every other name is a variable.
    fn is_constructor(&self, name: &str) -> bool;
}

pub struct Walk<'a> {
    pub scope: &'a dyn Scope,
    pub bound: Vec<String>,
    pub used: Vec<Used>,
    pub faults: Vec<String>,
}

const RESERVED: [&str; 13] = ["→", "×", ":", "=", "_", "Type", "↦", "in", "as", "elim", "|", ";", ","];

fn is_name(node: &Node, name: &str) -> bool {
    matches!(node, Node::Name(found, _) if found == name)
}

fn is_numeral(name: &str) -> bool {
    name.starts_with(|c: char| c.is_ascii_digit())
}

impl<'a> Walk<'a> {
    pub fn new(scope: &'a dyn Scope) -> Walk<'a> {
        Walk { scope, bound: Vec::new(), used: Vec::new(), faults: Vec::new() }
    }

    fn is_bound(&self, name: &str) -> bool {
        self.bound.iter().any(|found| found == name)
    }

    /// `(x y : A)`: the names, once A is walked; otherwise none.
    fn binder(&mut self, inner: &[Node]) -> Option<Vec<String>> {
        let colon = inner.iter().position(|node| is_name(node, ":"))?;
        let mut names = Vec::new();
        for node in &inner[..colon] {
            match node {
                Node::Name(name, _) => names.push(name.clone()),
                _ => return None,
            }
        }
        self.inside(&inner[colon + 1..]);
        Some(names)
    }

    /// Walks what is in brackets: what it binds ends there.
    fn inside(&mut self, nodes: &[Node]) {
        let outer = self.bound.len();
        self.walk(nodes);
        self.bound.truncate(outer);
    }

    /// The parameters of a section, a data type or a record: binders only.
    pub fn telescope(&mut self, nodes: &[Node]) {
        for node in nodes {
            match node {
                Node::Group('(' | '{', inner, line) => match self.binder(inner) {
                    Some(names) => self.bound.extend(names),
                    // Levels.
                    None if inner.iter().all(|node| matches!(node, Node::Name(_, _))) => self.pattern(inner),
                    None => self.faults.push(format!("line {line}: a parameter that is not read")),
                },
                _ => self.faults.push(format!("a parameter that is not read: {node:?}")),
            }
        }
    }

    /// `record { a = x; b = y }`: the fields, and what is given for them.
    fn record(&mut self, inner: &[Node], pattern: bool, line: usize) {
        let outer = self.bound.len();
        let mut fields = Vec::new();
        for part in inner.split(|node| is_name(node, ";")) {
            match part {
                [] => {}
                [Node::Name(field, _), equals, rest @ ..] if is_name(equals, "=") => {
                    fields.push(field.clone());
                    if pattern {
                        self.pattern(rest);
                    } else {
                        self.inside(rest);
                    }
                }
                _ => self.faults.push(format!("a record that is not read: {part:?}")),
            }
        }
        self.used.push(Used::Record(fields, line));
        if !pattern {
            self.bound.truncate(outer);
        }
    }

    /// Binds the variables of a pattern, and uses its constructors.
    pub fn pattern(&mut self, nodes: &[Node]) {
        let mut i = 0;
        while i < nodes.len() {
            match &nodes[i] {
                Node::Name(name, line) if name == "record" => {
                    if let Some(Node::Group('{', inner, _)) = nodes.get(i + 1) {
                        self.record(inner, true, *line);
                        i += 1;
                    }
                }
                Node::Name(name, _) if RESERVED.contains(&name.as_str()) || is_numeral(name) => {}
                Node::Name(name, line) if self.scope.is_constructor(name) => self.used.push(Used::Name(vec![name.clone()], *line)),
                Node::Name(name, _) => self.bound.push(name.clone()),
                Node::Path(path, line) => self.used.push(Used::Name(path.clone(), *line)),
                Node::Group('{', inner, _) if inner.len() > 1 && is_name(&inner[1], "=") => self.pattern(&inner[2..]),
                Node::Group(_, inner, _) => self.pattern(inner),
                other => self.faults.push(format!("a pattern that is not read: {other:?}")),
            }
            i += 1;
        }
    }

    /// Walks a term or a type; what it binds stays bound.
    pub fn walk(&mut self, nodes: &[Node]) {
        let base = self.bound.len();
        let mut lets: Vec<String> = Vec::new();
        let mut i = 0;
        while i < nodes.len() {
            match &nodes[i] {
                Node::Name(name, line) => match name.as_str() {
                    "λ" => {
                        i += 1;
                        while i < nodes.len() && nodes[i] != Node::Dot {
                            match &nodes[i] {
                                Node::Group('(' | '{', inner, _) if inner.iter().any(|node| is_name(node, ":")) => match self.binder(inner)
                                {
                                    Some(names) => self.bound.extend(names),
                                    None => self.faults.push(format!("line {line}: a binder that is not read")),
                                },
                                Node::Name(name, _) => self.bound.push(name.clone()),
                                other => self.pattern(std::slice::from_ref(other)),
                            }
                            i += 1;
                        }
                    }
                    "let" => {
                        match nodes.get(i + 1) {
                            Some(Node::Name(name, _)) => lets.push(name.clone()),
                            _ => self.faults.push(format!("line {line}: a let that is not read")),
                        }
                        i += 1;
                    }
                    "in" => match lets.pop() {
                        Some(name) => self.bound.push(name),
                        None => self.faults.push(format!("line {line}: an in of no let")),
                    },
                    "record" => match nodes.get(i + 1) {
                        Some(Node::Group('{', inner, _)) => {
                            self.record(inner, false, *line);
                            i += 1;
                        }
                        _ => self.faults.push(format!("line {line}: a record that is not read")),
                    },
                    "," | ";" => self.bound.truncate(base),
                    "where" | "unfold" | "do" | "open" | "hcom" | "coe" | "com" | "∀" | "?" => {
                        self.faults.push(format!("line {line}: {name} is not read"))
                    }
                    _ if RESERVED.contains(&name.as_str()) || is_numeral(name) || self.is_bound(name) => {}
                    _ => self.used.push(Used::Name(vec![name.clone()], *line)),
                },
                Node::Path(path, line) => {
                    if self.is_bound(&path[0]) {
                        self.used.extend(path[1..].iter().map(|field| Used::Field(field.clone(), *line)));
                    } else {
                        self.used.push(Used::Name(path.clone(), *line));
                    }
                }
                Node::Field(name, line) => self.used.push(Used::Field(name.clone(), *line)),
                Node::Dot => self.faults.push("a dot that is not read".to_string()),
                Node::Group('[', inner, _) if inner.iter().any(|node| is_name(node, "↦")) => {
                    for case in inner.split(|node| is_name(node, "|")).filter(|case| !case.is_empty()) {
                        let outer = self.bound.len();
                        let arrow = case.iter().position(|node| is_name(node, "↦")).unwrap_or(case.len() - 1);
                        self.pattern(&case[..arrow]);
                        self.inside(&case[arrow + 1..]);
                        self.bound.truncate(outer);
                    }
                }
                // An implicit argument by its name.
                Node::Group('{', inner, _) if inner.len() > 2 && is_name(&inner[1], "=") => self.inside(&inner[2..]),
                Node::Group(_, inner, _) => {
                    let binds = matches!(nodes.get(i + 1), Some(next) if is_name(next, "→") || is_name(next, "×") || matches!(next, Node::Group(_, _, _)));
                    let typed =
                        inner.iter().any(|node| is_name(node, ":")) && !inner.iter().any(|node| is_name(node, "let") || is_name(node, "λ"));
                    if typed {
                        match self.binder(inner).filter(|_| binds) {
                            Some(names) => self.bound.extend(names),
                            None => self.faults.push(format!("a binder that is not read: {inner:?}")),
                        }
                    } else {
                        self.inside(inner);
                    }
                }
            }
            i += 1;
        }
    }

    /// A clause of the declaration `name`: patterns, `=`, a term.
    pub fn clause(&mut self, name: &str, nodes: &[Node]) {
        let outer = self.bound.len();
        let equals = nodes.iter().position(|node| is_name(node, "="));
        match equals {
            None => self.faults.push(format!("a clause of {name} without =")),
            Some(at) => {
                for node in nodes[..at].iter().filter(|node| !matches!(node, Node::Name(word, _) if is_part(name, word))) {
                    self.pattern(std::slice::from_ref(node));
                }
                self.walk(&nodes[at + 1..]);
            }
        }
        self.bound.truncate(outer);
    }
}
