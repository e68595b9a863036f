//! First pages: a crate's `specs/Lib.antt` opens with a table of its definitions (`name, name == meaning`) and of its theorems (`name: statement`).

use crate::follow::Reached;
use crate::repository::{Repository, Thing};

/// The names in the table, with their lines.
pub fn listed(text: &str) -> Vec<(String, usize)> {
    let mut found = Vec::new();
    for (i, line) in text.lines().enumerate() {
        let Some(entry) = line.strip_prefix("--   ") else { continue };
        if let Some((names, _)) = entry.split_once(" == ") {
            found.extend(names.split(", ").map(|name| (name.to_string(), i + 1)));
        } else {
            // Several theorems may share a line.
            let heads = entry.split("; ").filter_map(|part| part.split_once(": ")).filter(|(name, _)| !name.contains(' '));
            found.extend(heads.map(|(name, _)| (name.to_string(), i + 1)));
        }
    }
    found
}

/// Names on a first page that the crate does not have.
pub fn stale(repository: &Repository) -> Vec<String> {
    let mut found = Vec::new();
    for (krate, names) in &repository.pages {
        for (name, line) in names {
            if !repository.has(krate, name) {
                found.push(format!("crates/{krate}/specs/Lib.antt: line {line}: there is no {name} in this crate"));
            }
        }
    }
    found
}

/// Definitions that have to be believed and are not on their crate's first page, where it has a table.
pub fn missing(repository: &Repository, reached: &Reached) -> Vec<String> {
    let mut found = Vec::new();
    for thing in &reached.things {
        let (Thing::Spec(krate, _, name) | Thing::Code(krate, name)) = thing else { continue };
        let Some(page) = repository.pages.get(krate) else { continue };
        if !page.iter().any(|(listed, _)| listed == name) {
            found.push(format!("crates/{krate}/specs/Lib.antt: {name} is not on the first page"));
        }
    }
    found
}
