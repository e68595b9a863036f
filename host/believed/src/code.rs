//! The types and the contracts of a file of code.

use crate::specs::{read_use, Use};
use crate::tokens::{tokens, tree, Node, Token};
use std::collections::BTreeSet;

/// A struct or enum of code: its fields or variants, and the types that they hold.
#[derive(Clone, Debug)]
pub struct CodeType {
    pub name: String,
    pub file: String,
    pub fields: Vec<String>,
    pub variants: Vec<String>,
    pub types: Vec<String>,
    pub lines: BTreeSet<usize>,
    pub first: usize,
}

#[derive(Clone, Debug)]
pub struct Contract {
    pub name: String,
    pub exported: bool,
    pub parameters: Vec<String>,
    pub types: Vec<String>,
    pub requires: bool,
    /// Each clause, between its braces.
    pub clauses: Vec<Vec<Node>>,
    pub lines: BTreeSet<usize>,
}

#[derive(Clone, Debug, Default)]
pub struct CodeFile {
    /// `use krate::Type;`, and each name of `use krate::{Type, ..};`
    pub uses: Vec<(String, String)>,
    pub ghosts: Vec<Use>,
    pub types: Vec<CodeType>,
    pub contracts: Vec<Contract>,
}

impl CodeFile {
    /// Leaves out the types that a reader knows, where the file can have no other by such a name. Else the name is looked for as any other, and followed or not found.
    fn drop_known(&mut self, text: &str) {
        let all = words(&text.lines().map(code_of).collect::<Vec<_>>().join("\n"));
        // Comments and strings over several lines are not told from code.
        let plain = !text.contains("/*") && text.lines().all(|line| line.matches('"').count() % 2 == 0);
        for known in KNOWN {
            if plain && is_of_library(&all, known) {
                self.types.iter_mut().for_each(|found| found.types.retain(|name| name != known));
                self.contracts.iter_mut().for_each(|contract| contract.types.retain(|name| name != known));
            }
        }
    }
}

/// A line without the comment at its end; a line with a string is left whole.
fn code_of(line: &str) -> &str {
    line.split("//").next().filter(|code| !code.contains('"')).unwrap_or(line)
}

/// Whether a type of the library, with its parameters, is all that the name can be in a file of these words: what makes or imports a type has its name alone, behind a path,
/// or behind a word that says so, or is a glob.
fn is_of_library(all: &[String], known: &str) -> bool {
    let makes = ["enum", "struct", "type", "union", "trait", "fn", "mod", "as", ":", "#", "/"];
    let before = |i: usize, k: usize| i.checked_sub(k).map_or("", |j| all[j].as_str());
    let glob = all.windows(2).any(|pair| pair[0] == "*" && [",", ";", "}", "/"].contains(&pair[1].as_str()));
    !glob
        && (0..all.len()).filter(|&i| all[i] == known).all(|i| {
            let typed = before(i, 1) == ":" && before(i, 2) != ":";
            all.get(i + 1).is_some_and(|next| next == "<") && (typed || !makes.contains(&before(i, 1)))
        })
}

fn words(text: &str) -> Vec<String> {
    let mut found = Vec::new();
    let mut word = String::new();
    for c in text.chars().chain([' ']) {
        if c.is_alphanumeric() || c == '_' {
            word.push(c);
            continue;
        }
        if !word.is_empty() {
            found.push(std::mem::take(&mut word));
        }
        if !c.is_whitespace() {
            found.push(c.to_string());
        }
    }
    found
}

/// The types of the standard library that answers have: a reader knows them.
const KNOWN: [&str; 2] = ["Option", "Result"];

/// Names of types: not a number's, and not lower-case words.
fn type_names(words: &[String]) -> Vec<String> {
    words.iter().filter(|word| word.starts_with(|c: char| c.is_uppercase())).cloned().collect()
}

fn uncommented(line: &str) -> &str {
    line.split("//").next().unwrap_or("").trim_end()
}

/// Reads the struct or enum that begins at line i, up to its closing brace.
fn read_type(file: &str, all: &[&str], i: usize) -> Result<(CodeType, usize), String> {
    let head = words(uncommented(all[i]));
    let at = head.iter().position(|word| word == "struct" || word == "enum").ok_or("no type")?;
    let mut found = CodeType {
        name: head[at + 1].clone(),
        file: file.to_string(),
        fields: Vec::new(),
        variants: Vec::new(),
        types: Vec::new(),
        lines: BTreeSet::from([i + 1]),
        first: i + 1,
    };
    if !uncommented(all[i]).ends_with('{') {
        return Err(format!("line {}: this type is not read", i + 1));
    }
    for (j, line) in all.iter().enumerate().skip(i + 1) {
        let line = uncommented(line);
        let parts = words(line);
        if parts.is_empty() {
            continue;
        }
        found.lines.insert(j + 1);
        if line == "}" {
            return Ok((found, j));
        }
        if head[at] == "enum" {
            found.variants.push(parts[0].clone());
            found.types.extend(type_names(&parts[1..]));
        } else {
            let colon = parts.iter().position(|word| word == ":").ok_or(format!("line {}: a field without a type", j + 1))?;
            found.fields.push(parts[colon - 1].clone());
            found.types.extend(type_names(&parts[colon..]));
        }
    }
    Err(format!("line {}: this type has no end", i + 1))
}

/// Reads the head of the function at line i: it ends before the line that is the body's opening brace.
fn read_contract(all: &[&str], i: usize) -> Result<Option<Contract>, String> {
    let indent = all[i].len() - all[i].trim_start().len();
    let mut end = i;
    while !all[end].ends_with('{') || all[end].len() > indent + 1 {
        if all[end].trim_end().ends_with('{') && end == i {
            // No clause stands before the body.
            return Ok(None);
        }
        end += 1;
        if end == all.len() || all[end].trim() == "}" {
            return Ok(None);
        }
    }
    let clause = |line: &str| ["ensures ", "requires "].iter().any(|word| line.trim_start().starts_with(word));
    let split = (i..end).find(|&j| clause(all[j])).unwrap_or(end);
    let head = words(&all[i..split].iter().map(|line| uncommented(line)).collect::<Vec<_>>().join(" "));
    let at = head.iter().position(|word| word == "fn").ok_or("no function")?;
    let name = head[at + 1].clone();
    let mut parameters = Vec::new();
    for pair in head[at + 2..].windows(2) {
        if pair[1] == ":" {
            parameters.push(pair[0].clone());
        }
    }
    let all_tokens: Vec<Token> = (split..end).flat_map(|j| tokens(all[j], j + 1)).collect();
    let mut clauses = Vec::new();
    let mut requires = false;
    // Each clause is a word, maybe a name, and what it says in braces.
    for clause in tree(&all_tokens)?.split_inclusive(|node| matches!(node, Node::Group('{', _, _))) {
        match clause {
            [Node::Name(word, _), Node::Group('{', inner, _)] | [Node::Name(word, _), Node::Name(_, _), Node::Group('{', inner, _)]
                if word == "requires" || word == "ensures" =>
            {
                requires |= word == "requires";
                clauses.push(inner.clone());
            }
            _ => return Err(format!("line {}: this contract is not read", i + 1)),
        }
    }
    let exported = i > 0 && all[i - 1].trim() == "#[unsafe(no_mangle)]";
    Ok(Some(Contract { name, exported, parameters, types: type_names(&head[at + 2..]), requires, clauses, lines: (i + 1..=end).collect() }))
}

/// The line of a `use` or `ghost use` item that ends it.
fn item_end(all: &[&str], i: usize) -> usize {
    (i..all.len()).find(|&j| all[j].ends_with(';')).unwrap_or(all.len() - 1)
}

/// A file of code.
pub fn read_code(name: &str, text: &str) -> Result<CodeFile, String> {
    let all: Vec<&str> = text.lines().collect();
    let mut file = CodeFile::default();
    let mut i = 0;
    while i < all.len() {
        let line = all[i];
        if line.starts_with("ghost use ") {
            let first = i;
            i = item_end(&all, i);
            let ghost: Vec<_> = all[first..=i].iter().flat_map(|line| tokens(line.trim_end_matches(';'), first + 1)).collect();
            file.ghosts.push(read_use(&ghost[1..])?);
        } else if line.starts_with("use ") {
            let first = i;
            i = item_end(&all, i);
            if let Some((krate, names)) = all[first..=i].concat().trim_start_matches("use ").split_once("::") {
                let names = words(names).into_iter().filter(|name| !["{", "}", ",", ";"].contains(&name.as_str()));
                file.uses.extend(names.map(|name| (krate.to_string(), name)));
            }
        } else if ["struct ", "enum ", "pub struct ", "pub enum "].iter().any(|head| line.starts_with(head)) {
            let (found, end) = read_type(name, &all, i)?;
            file.types.push(found);
            i = end;
        } else if line.starts_with("pub fn ") || line.starts_with("pub extern \"C\" fn ") {
            file.contracts.extend(read_contract(&all, i)?);
        }
        i += 1;
    }
    file.drop_known(text);
    Ok(file)
}
