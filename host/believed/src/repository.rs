//! The repository's files, and what a path of names leads to in them.

use crate::code::{read_code, CodeFile, CodeType, Contract};
use crate::pages::listed;
use crate::roots::{Root, Roots};
use crate::specs::{read_specs, Declaration, File, Kind, Use};
use std::collections::{BTreeMap, BTreeSet};
use std::path::Path;

/// A thing with a definition: of the specs (crate, file, name), of code (crate, type), or of the kit's libraries.
#[derive(Clone, Debug, PartialEq, Eq, PartialOrd, Ord)]
pub enum Thing {
    Spec(String, String, String),
    Code(String, String),
    Library(String),
}

#[derive(Default)]
pub struct Repository {
    /// By crate and file; the lemmas of a crate as `proofs/File`.
    pub specs: BTreeMap<(String, String), File>,
    pub code: BTreeMap<String, CodeFile>,
    /// The names on the first page of a crate that has a table there.
    pub pages: BTreeMap<String, Vec<(String, usize)>>,
    pub roots: Roots,
}

/// What a part of a name's path stands for.
#[derive(Clone, Debug, PartialEq, Eq)]
pub enum Module {
    Specs(String),
    File(String, String),
    /// A data type or record in a file: its constructors are below it.
    Type(String, String, String),
    Declared(String),
    CodeType(String, String),
    Library(String),
}

pub fn named<'a>(uses: impl IntoIterator<Item = &'a Use>, name: &str) -> Option<(Vec<String>, String)> {
    for line in uses {
        for (item, alias) in line.items.iter().flatten() {
            if alias == name {
                return Some((line.path.clone(), item.clone()));
            }
        }
    }
    None
}

/// Where an operator's name has a place for an operand.
pub const OPERAND: char = '◌';

/// Whether `word` is `name`, or a part of the operator `name`.
pub fn is_part(name: &str, word: &str) -> bool {
    name == word || (name.contains(OPERAND) && name.split(OPERAND).any(|part| !part.is_empty() && part == word.trim_matches(OPERAND)))
}

/// A file of the specs or of the lemmas, below its crate.
pub fn path_of(file: &str) -> String {
    match file.starts_with("proofs/") {
        true => file.to_string(),
        false => format!("specs/{file}"),
    }
}

impl Repository {
    pub fn read(root: &Path, roots: Roots) -> Result<Repository, String> {
        fn files(folder: &Path, before: &str, found: &mut Vec<(String, std::path::PathBuf)>) {
            let mut all: Vec<_> = std::fs::read_dir(folder).into_iter().flatten().flatten().map(|entry| entry.path()).collect();
            all.sort();
            for path in all {
                let name = format!("{before}{}", path.file_name().unwrap_or_default().to_string_lossy());
                match path.is_dir() {
                    true => files(&path, &format!("{name}/"), found),
                    false => found.push((name, path)),
                }
            }
        }
        let mut found = Repository { roots, ..Repository::default() };
        let mut all = Vec::new();
        files(&root.join("crates"), "", &mut all);
        for (name, path) in all {
            let parts: Vec<&str> = name.splitn(3, '/').collect();
            if let [krate, "specs" | "src", file] = parts.as_slice() {
                let text = std::fs::read_to_string(&path).map_err(|error| format!("crates/{name}: {error}"))?;
                found.add(krate, file, &text).map_err(|fault| format!("crates/{name}: {fault}"))?;
            } else if let [krate, "proofs", file] = parts.as_slice() {
                // Lemmas: a theorem may stand among them. What cannot be read there is not found.
                let text = std::fs::read_to_string(&path).map_err(|error| format!("crates/{name}: {error}"))?;
                if let (Some(file), Ok(read)) = (file.strip_suffix(".antt").filter(|file| !file.contains('/')), read_specs(&text)) {
                    found.specs.insert((krate.to_string(), format!("proofs/{file}")), read);
                }
            }
        }
        Ok(found)
    }

    /// Adds a file of a crate: of specs or of code, as its name says.
    pub fn add(&mut self, krate: &str, file: &str, text: &str) -> Result<(), String> {
        if let Some(name) = file.strip_suffix(".antt") {
            let page = if name == "Lib" { listed(text) } else { Vec::new() };
            if !page.is_empty() {
                self.pages.insert(krate.to_string(), page);
            }
            self.specs.insert((krate.to_string(), name.to_string()), read_specs(text)?);
        } else if file.ends_with(".rt") {
            let read = read_code(file, text)?;
            let all = self.code.entry(krate.to_string()).or_default();
            all.uses.extend(read.uses);
            all.ghosts.extend(read.ghosts);
            all.types.extend(read.types);
            all.contracts.extend(read.contracts);
        }
        Ok(())
    }

    pub fn declaration(&self, krate: &str, file: &str, name: &str) -> Option<&Declaration> {
        self.specs.get(&(krate.to_string(), file.to_string()))?.declarations.iter().find(|found| found.name == name)
    }

    /// The file in which a theorem stands that is named with its file's name: of specs, or among the lemmas.
    pub fn home(&self, krate: &str, file: &str, name: &str) -> String {
        let lemmas = format!("proofs/{file}");
        match self.declaration(krate, file, name).is_none() && self.declaration(krate, &lemmas, name).is_some() {
            true => lemmas,
            false => file.to_string(),
        }
    }

    /// Whether a crate declares this name.
    pub fn has(&self, krate: &str, name: &str) -> bool {
        let mut files = self.specs.iter().filter(|((of, _), _)| of == krate).map(|(_, file)| file);
        files.any(|file| file.declarations.iter().any(|found| found.name == name)) || self.code_type(krate, name).is_some()
    }

    /// The declaration of a file that `name` is, or whose constructor it is, or that the file hands on.
    pub fn item(&self, krate: &str, file: &str, name: &str) -> Option<Thing> {
        let File { uses, declarations: all } = self.specs.get(&(krate.to_string(), file.to_string()))?;
        let found = all.iter().find(|found| found.name == name);
        let owner = || all.iter().find(|found| found.kind == Kind::Data && found.members.iter().any(|member| member.name == name));
        let here = found.or_else(owner).map(|found| Thing::Spec(krate.to_string(), file.to_string(), found.name.clone()));
        here.or_else(|| {
            let (path, item) = named(uses.iter().filter(|line| line.public), name)?;
            self.in_module(&self.at(&path)?, &item)
        })
    }

    /// The module below `module` that is named `name`.
    pub fn below(&self, module: &Module, name: &str) -> Option<Module> {
        Some(match module {
            Module::Specs(krate) if name == "declared" => Module::Declared(krate.clone()),
            Module::Specs(krate) if self.specs.contains_key(&(krate.clone(), name.to_string())) => {
                Module::File(krate.clone(), name.to_string())
            }
            Module::File(krate, file) => match self.declaration(krate, file, name) {
                Some(found) if matches!(found.kind, Kind::Data | Kind::Record) => {
                    Module::Type(krate.clone(), file.clone(), name.to_string())
                }
                // A file in the folder of that name.
                _ => {
                    let inner = (krate.clone(), format!("{file}/{name}"));
                    self.specs.contains_key(&inner).then_some(Module::File(inner.0, inner.1))?
                }
            },
            Module::Declared(krate) => {
                self.code_type(krate, name)?;
                Module::CodeType(krate.clone(), name.to_string())
            }
            Module::CodeType(krate, of) if name == "TheVariants" => Module::CodeType(krate.clone(), of.clone()),
            Module::Library(path) => Module::Library(format!("{path}.{name}")),
            _ => return None,
        })
    }

    pub fn at(&self, path: &[String]) -> Option<Module> {
        let (mut module, rest) = match path {
            [first, krate, rest @ ..] if first == "Rattle" && self.roots.libraries.contains(krate) => {
                (Module::Library(format!("Rattle.{krate}")), rest)
            }
            [first, krate, specs, rest @ ..] if first == "Rattle" && specs == "specs" => (Module::Specs(krate.clone()), rest),
            [first, krate, proofs, file, rest @ ..] if first == "Rattle" && proofs == "proofs" => {
                (Module::File(krate.clone(), format!("proofs/{file}")), rest)
            }
            [first, rest @ ..] if self.roots.libraries.contains(first) => (Module::Library(first.clone()), rest),
            _ => return None,
        };
        for name in rest {
            module = self.below(&module, name)?;
        }
        Some(module)
    }

    pub fn in_module(&self, module: &Module, name: &str) -> Option<Thing> {
        match module {
            Module::File(krate, file) => self.item(krate, file, name),
            Module::Type(krate, file, of) => {
                let found = self.declaration(krate, file, of)?;
                found.members.iter().any(|member| member.name == name).then(|| Thing::Spec(krate.clone(), file.clone(), of.clone()))
            }
            Module::CodeType(krate, of) => {
                let found = self.code_type(krate, of)?;
                (of == name || found.variants.iter().any(|variant| variant == name)).then(|| Thing::Code(krate.clone(), of.clone()))
            }
            Module::Library(path) => Some(Thing::Library(format!("{path}.{name}"))),
            _ => None,
        }
    }

    pub fn code_type(&self, krate: &str, name: &str) -> Option<&CodeType> {
        self.code.get(krate)?.types.iter().find(|found| found.name == name)
    }

    /// The type of code that is named so in a crate.
    pub fn code_thing(&self, krate: &str, name: &str) -> Option<Thing> {
        let file = self.code.get(krate)?;
        let home = match file.types.iter().any(|found| found.name == name) {
            true => krate,
            false => &file.uses.iter().find(|(_, used)| used == name)?.0,
        };
        self.code_type(home, name)?;
        Some(Thing::Code(home.to_string(), name.to_string()))
    }

    pub fn lines(&self, thing: &Thing) -> BTreeSet<usize> {
        match thing {
            Thing::Spec(krate, file, name) => match self.declaration(krate, file, name) {
                Some(found) if self.roots.is_statement(krate, file, name) => found.stated.clone(),
                Some(found) => found.lines.clone(),
                None => BTreeSet::new(),
            },
            Thing::Code(krate, name) => self.code_type(krate, name).map(|found| found.lines.clone()).unwrap_or_default(),
            Thing::Library(_) => BTreeSet::new(),
        }
    }

    /// The lines of a statement or contract itself.
    pub fn own_lines(&self, root: &Root) -> usize {
        match root {
            Root::Theorem(krate, file, name) => {
                self.declaration(krate, &self.home(krate, file, name), name).map_or(0, |found| found.stated.len())
            }
            Root::Function(krate, name) => self.contracts(krate, name.as_deref()).iter().map(|found| found.lines.len()).sum(),
        }
    }

    pub fn contracts(&self, krate: &str, name: Option<&str>) -> Vec<&Contract> {
        let all = self.code.get(krate).map(|file| file.contracts.as_slice()).unwrap_or_default();
        all.iter().filter(|found| name.map_or(found.exported, |name| found.name == name)).collect()
    }
}
