//! All that is reached from a root: what a name means in a file, and what rests on what.

use crate::names::{Scope, Used, Walk};
use crate::repository::{is_part, named, path_of, Module, Repository, Thing};
use crate::roots::Root;
use crate::specs::{Kind, Use};
use std::collections::{BTreeMap, BTreeSet};

/// What the names of one file mean.
struct Names<'a> {
    repository: &'a Repository,
    uses: &'a [Use],
    /// The file of specs itself, whose declarations need no `use`.
    own: Option<(&'a str, &'a str)>,
}

impl Names<'_> {
    fn one(&self, word: &str) -> Option<Thing> {
        let exact = |name: &str| -> Option<Thing> {
            if let Some((krate, file)) = self.own {
                if let Some(found) = self.repository.item(krate, file, name) {
                    return Some(found);
                }
            }
            let (path, item) = named(self.uses, name)?;
            self.repository.in_module(&self.repository.at(&path)?, &item)
        };
        if let Some(found) = exact(word) {
            return Some(found);
        }
        // Operators, by one of their parts.
        let mut names: Vec<&str> = self.uses.iter().flat_map(|line| line.items.iter().flatten().map(|(_, alias)| alias.as_str())).collect();
        if let Some((krate, file)) = self.own {
            names
                .extend(self.repository.specs[&(krate.to_string(), file.to_string())].declarations.iter().map(|found| found.name.as_str()));
        }
        if let Some(name) = names.into_iter().find(|name| is_part(name, word)) {
            return exact(name);
        }
        let prelude = self.repository.roots.prelude.iter().find(|name| is_part(name, word))?;
        Some(Thing::Library(format!("Prim.{prelude}")))
    }

    fn resolve(&self, path: &[String]) -> Option<Thing> {
        let (last, before) = path.split_last()?;
        let Some((first, between)) = before.split_first() else { return self.one(last) };
        // A module brought in under a name, or the type whose constructor follows.
        let brought = self.uses.iter().find(|line| line.items.is_none() && line.alias.as_ref().or(line.path.last()) == Some(first));
        let mut module = match brought {
            Some(line) => self.repository.at(&line.path)?,
            None => match self.one(first)? {
                Thing::Spec(krate, file, name) => Module::Type(krate, file, name),
                Thing::Code(krate, name) => Module::CodeType(krate, name),
                Thing::Library(name) => Module::Library(name),
            },
        };
        for name in between {
            module = self.repository.below(&module, name)?;
        }
        self.repository.in_module(&module, last)
    }
}

impl Scope for Names<'_> {
    fn is_constructor(&self, name: &str) -> bool {
        match self.one(name) {
            Some(Thing::Spec(krate, file, owner)) => {
                let found = self.repository.declaration(&krate, &file, &owner);
                // A constructor may be brought in under another name than its type's.
                let imported = named(self.uses, name).map_or(name.to_string(), |(_, item)| item);
                found.is_some_and(|found| found.kind == Kind::Data && found.members.iter().any(|member| is_part(&member.name, &imported)))
            }
            Some(Thing::Code(_, owner)) => {
                named(self.uses, name).is_some_and(|(path, _)| path.last().is_some_and(|last| last == "TheVariants") || owner != name)
            }
            Some(Thing::Library(path)) => {
                let last = path.rsplit('.').next().unwrap_or("");
                self.repository.roots.constructors.iter().any(|found| found == last)
            }
            None => false,
        }
    }
}

/// All that is reached, and what could not be read or found.
#[derive(Default)]
pub struct Reached {
    pub things: BTreeSet<Thing>,
    pub faults: BTreeSet<String>,
    /// Where a field is taken, and where a record is given by its fields.
    fields: BTreeMap<String, String>,
    records: BTreeMap<Vec<String>, String>,
}

impl Reached {
    /// A field that is taken; those of a pair have numbers.
    fn field(&mut self, place: &str, field: String, line: usize) {
        if !field.starts_with(|c: char| c.is_ascii_digit()) {
            self.fields.entry(field).or_insert(format!("{place}: line {line}"));
        }
    }

    fn take(&mut self, place: &str, names: &Names, walk: Walk) -> Vec<Thing> {
        let (used, faults) = (walk.used, walk.faults);
        self.faults.extend(faults.into_iter().map(|fault| format!("{place}: {fault}")));
        let mut found = Vec::new();
        for one in used {
            match one {
                Used::Field(field, line) => self.field(place, field, line),
                Used::Record(mut fields, line) => {
                    fields.sort();
                    self.records.entry(fields).or_insert(format!("{place}: line {line}"));
                }
                Used::Name(path, line) => match (names.resolve(&path), names.resolve(&path[..1])) {
                    (Some(thing), _) => found.push(thing),
                    // Fields of what a name in front stands for.
                    (None, Some(front)) => {
                        found.push(front);
                        for field in &path[1..] {
                            self.field(place, field.clone(), line);
                        }
                    }
                    (None, None) => {
                        self.faults.insert(format!("{place}: line {line}: {} is not found", path.join(".")));
                    }
                },
            }
        }
        found
    }

    /// What a thing's own text names.
    fn names_of(&mut self, repository: &Repository, thing: &Thing, statement: bool) -> Vec<Thing> {
        match thing {
            Thing::Library(_) => Vec::new(),
            Thing::Code(krate, name) => {
                let Some(found) = repository.code_type(krate, name) else { return Vec::new() };
                self.types(repository, krate, &found.types)
            }
            Thing::Spec(krate, file, name) => {
                let place = format!("crates/{krate}/{}.antt", path_of(file));
                let Some(found) = repository.declaration(krate, file, name) else { return Vec::new() };
                let uses = &repository.specs[&(krate.clone(), file.clone())].uses;
                let names = Names { repository, uses, own: Some((krate, file)) };
                let mut walk = Walk::new(&names);
                walk.telescope(&found.parameters);
                let outer = walk.bound.len();
                walk.walk(&found.signature);
                walk.bound.truncate(outer);
                for member in &found.members {
                    let outer = walk.bound.len();
                    walk.walk(&member.kind);
                    walk.bound.truncate(outer);
                    if found.kind == Kind::Record {
                        walk.bound.push(member.name.clone());
                    }
                }
                if !statement {
                    for clause in &found.clauses {
                        walk.clause(name, clause);
                    }
                }
                self.take(&place, &names, walk)
            }
        }
    }

    fn types(&mut self, repository: &Repository, krate: &str, types: &[String]) -> Vec<Thing> {
        let mut found = Vec::new();
        for name in types {
            match repository.code_thing(krate, name) {
                Some(thing) => found.push(thing),
                None => {
                    self.faults.insert(format!("crates/{krate}/src: the type {name} is not found"));
                }
            }
        }
        found
    }

    /// Every field that is taken belongs to a record that was reached, and every record that is given is one of them.
    fn check_fields(&mut self, repository: &Repository) {
        let mut records: BTreeSet<Vec<String>> = BTreeSet::new();
        for thing in &self.things {
            let mut fields: Vec<String> = match thing {
                Thing::Spec(krate, file, name) => match repository.declaration(krate, file, name) {
                    Some(found) if found.kind == Kind::Record => found.members.iter().map(|member| member.name.clone()).collect(),
                    _ => continue,
                },
                Thing::Code(krate, name) => match repository.code_type(krate, name) {
                    Some(found) if !found.fields.is_empty() => found.fields.clone(),
                    _ => continue,
                },
                Thing::Library(_) => continue,
            };
            fields.sort();
            records.insert(fields);
        }
        let plain = |field: &str| field.trim_matches(['«', '»']).to_string();
        for (field, place) in &self.fields {
            if !repository.roots.kit_fields.contains(field) && !records.iter().any(|fields| fields.contains(&plain(field))) {
                self.faults.insert(format!("{place}: the field {field} is of no record that was reached"));
            }
        }
        for (given, place) in &self.records {
            let mut fields: Vec<String> = given.iter().map(|field| plain(field)).collect();
            fields.sort();
            if !records.contains(&fields) {
                self.faults.insert(format!("{place}: no record that was reached has the fields {}", fields.join(" ")));
            }
        }
    }

    /// What the roots name.
    fn begin(&mut self, repository: &Repository, root: &Root) -> Vec<Thing> {
        match root {
            Root::Theorem(krate, file, name) => {
                let home = repository.home(krate, file, name);
                let thing = Thing::Spec(krate.clone(), home.clone(), name.clone());
                match repository.declaration(krate, &home, name).map(|found| found.kind) {
                    None => {
                        self.faults.insert(format!("there is no {name} in {file}.antt of crates/{krate}"));
                        Vec::new()
                    }
                    Some(Kind::Plain) => self.names_of(repository, &thing, true),
                    Some(_) => vec![thing],
                }
            }
            Root::Function(krate, name) => {
                let all = repository.contracts(krate, name.as_deref());
                if all.is_empty() {
                    self.faults
                        .insert(format!("there is no public contract {} in crates/{krate}", name.as_deref().unwrap_or("exported to C")));
                }
                let mut found = Vec::new();
                for contract in all {
                    found.extend(self.types(repository, krate, &contract.types));
                    let names = Names { repository, uses: &repository.code[krate].ghosts, own: None };
                    let mut walk = Walk::new(&names);
                    walk.bound.clone_from(&contract.parameters);
                    walk.bound.extend(repository.roots.contract_words.iter().cloned());
                    for clause in &contract.clauses {
                        let outer = walk.bound.len();
                        walk.walk(clause);
                        walk.bound.truncate(outer);
                    }
                    let place = format!("crates/{krate}/src: {}", contract.name);
                    found.extend(self.take(&place, &names, walk));
                }
                found
            }
        }
    }
}

/// All that the roots rest on.
pub fn follow(repository: &Repository, roots: &[Root]) -> Reached {
    let mut reached = Reached::default();
    let mut open: Vec<Thing> = roots.iter().flat_map(|root| reached.begin(repository, root)).collect();
    while let Some(thing) = open.pop() {
        if reached.things.insert(thing.clone()) {
            let statement = matches!(&thing, Thing::Spec(krate, file, name) if repository.roots.is_statement(krate, file, name));
            open.extend(reached.names_of(repository, &thing, statement));
            if let Thing::Spec(krate, file, name) = &thing {
                for (krate, file, name) in repository.roots.tellers(krate, file, name) {
                    open.extend(reached.begin(repository, &Root::Theorem(krate.clone(), file.clone(), name.clone())));
                }
            }
        }
    }
    reached.check_fields(repository);
    reached
}
