//! What is printed, and the page docs/BELIEVED.md.

use crate::follow::{follow, Reached};
use crate::pages::stale;
use crate::repository::{path_of, Repository, Thing};
use crate::roots::Root;
use crate::specs::Kind;
use std::collections::{BTreeMap, BTreeSet};
use std::fmt::Write;

pub struct Believed {
    pub name: String,
    /// Where it begins, and its lines; with a section's header, which stands above.
    pub first: usize,
    pub lines: BTreeSet<usize>,
    /// Its statement says all.
    pub stated: bool,
}

/// The things that were reached, by crate and file.
pub type ByFile = BTreeMap<(String, String), Vec<Believed>>;

pub fn by_file(repository: &Repository, reached: &Reached) -> ByFile {
    let mut found = ByFile::new();
    for thing in &reached.things {
        let lines = repository.lines(thing);
        let (krate, file, one) = match thing {
            Thing::Spec(krate, file, name) => {
                let first = repository.declaration(krate, file, name).map_or(0, |found| found.first);
                let stated = repository.roots.is_statement(krate, file, name);
                (krate, format!("{}.antt", path_of(file)), Believed { name: name.clone(), first, lines, stated })
            }
            Thing::Code(krate, name) => {
                let Some(of) = repository.code_type(krate, name) else { continue };
                (krate, format!("src/{}", of.file), Believed { name: name.clone(), first: of.first, lines, stated: false })
            }
            Thing::Library(_) => continue,
        };
        found.entry((krate.clone(), file)).or_default().push(one);
    }
    for names in found.values_mut() {
        names.sort_by_key(|one| one.first);
    }
    found
}

/// Lines of a file that count: a section's header, which several share, counts once.
fn file_lines(names: &[Believed]) -> usize {
    names.iter().flat_map(|one| &one.lines).collect::<BTreeSet<_>>().len()
}

pub fn total(files: &ByFile) -> (usize, usize) {
    (files.values().map(Vec::len).sum(), files.values().map(|names| file_lines(names)).sum())
}

/// What the kit's libraries provide, by module.
fn libraries(reached: &Reached) -> BTreeMap<String, BTreeSet<String>> {
    let mut found: BTreeMap<String, BTreeSet<String>> = BTreeMap::new();
    for thing in &reached.things {
        if let Thing::Library(path) = thing {
            let (module, name) = path.rsplit_once('.').unwrap_or(("", path));
            found.entry(module.to_string()).or_default().insert(name.to_string());
        }
    }
    found
}

/// A root's name; of a contract also which functions ask something of their callers.
fn title(repository: &Repository, root: &Root) -> String {
    let (title, krate, name) = match root {
        Root::Theorem(krate, file, name) => return format!("`{name}` ({krate} {file})"),
        Root::Function(krate, Some(name)) => (format!("`{krate}::{name}`"), krate, Some(name.as_str())),
        Root::Function(krate, None) => (format!("the functions that `{krate}` exports to C"), krate, None),
    };
    let asking: Vec<String> =
        repository.contracts(krate, name).iter().filter(|found| found.requires).map(|found| format!("`{}`", found.name)).collect();
    if asking.is_empty() {
        title
    } else {
        format!("{title}; {} has a `requires`", asking.join(", "))
    }
}

/// Definitions in files of laws, or among lemmas.
pub fn misplaced(reached: &Reached) -> Vec<(String, String, String)> {
    let mut found = Vec::new();
    for thing in &reached.things {
        if let Thing::Spec(krate, file, name) = thing {
            if file.ends_with("Laws") || file.starts_with("proofs/") {
                found.push((krate.clone(), file.clone(), name.clone()));
            }
        }
    }
    found
}

/// Every file and name with its lines, as text.
pub fn listing(repository: &Repository, reached: &Reached) -> String {
    let files = by_file(repository, reached);
    let mut text = String::new();
    for ((krate, file), names) in &files {
        let _ = writeln!(text, "crates/{krate}/{file}: {} lines", file_lines(names));
        for one in names {
            let _ = writeln!(text, "    {}: {} lines from {}", one.name, one.lines.len(), one.first);
        }
    }
    for (module, names) in libraries(reached) {
        let _ = writeln!(text, "{module}: {}", names.into_iter().collect::<Vec<_>>().join(" "));
    }
    let (names, lines) = total(&files);
    let _ = writeln!(text, "{names} definitions in {} files, {lines} lines", files.len());
    text
}

/// The table of contracts and theorems, each alone, for docs/PROOFS.md.
pub fn table(repository: &Repository) -> String {
    let mut text = String::new();
    let _ = writeln!(text, "| Contract or theorem | What it says | Own lines | Definitions | Their lines |\n|---|---|---|---|---|");
    for (root, says) in &repository.roots.roots {
        let (names, lines) = total(&by_file(repository, &follow(repository, std::slice::from_ref(root))));
        let _ = writeln!(text, "| {} | {says} | {} | {names} | {lines} |", title(repository, root), repository.own_lines(root));
    }
    text
}

/// The lines between which the table stands in docs/PROOFS.md.
const MARKS: (&str, &str) = ("<!-- written by host/believed -->\n", "<!-- up to here -->\n");

/// docs/PROOFS.md with the table as it is now.
pub fn with_table(proofs: &str, table: &str) -> Result<String, String> {
    let missing = "docs/PROOFS.md has no place for the table of contracts and theorems";
    let (before, rest) = proofs.split_once(MARKS.0).ok_or(missing)?;
    let (_, after) = rest.split_once(MARKS.1).ok_or(missing)?;
    Ok(format!("{before}{}{table}{}{after}", MARKS.0, MARKS.1))
}

/// The page docs/BELIEVED.md.
pub fn page(repository: &Repository, reached: &Reached) -> String {
    let files = by_file(repository, reached);
    let (names, lines) = total(&files);
    let mut text = String::new();
    let _ = writeln!(text, "# What must be believed\n");
    let _ = writeln!(text, "All definitions that the public contracts and the headline theorems rest on; docs/PROOFS.md says what that means, and has the table of contracts and theorems.");
    let _ = writeln!(text, "Written by `host/believed` from the sources; the host tests fail if it is not up to date.\n");
    let _ = writeln!(
        text,
        "{names} definitions in {} files, {lines} lines. Comments, blank lines, `use` and `unfolding` lines are not counted.\n",
        files.len()
    );
    let _ = writeln!(text, "## By file\n");
    let _ = writeln!(
        text,
        "Each definition with its lines; of those marked \\* the statement says all, or the theorems that `roots.txt` names beside it do, and their lines are the statement's.\n"
    );
    let _ = writeln!(text, "| File | Definitions | Lines |\n|---|---|---|");
    for ((krate, file), names) in &files {
        let short = file.trim_start_matches("specs/").trim_end_matches(".antt");
        let each = names.iter().map(|one| format!("`{}`{} {}", one.name, if one.stated { "\\*" } else { "" }, one.lines.len()));
        let _ = writeln!(text, "| {krate} {short} | {} | {} |", each.collect::<Vec<_>>().join(", "), file_lines(names));
    }
    let _ = writeln!(text, "\n## From the kit\n\nNames of the kit's own libraries.\n\n| Module | Names |\n|---|---|");
    for (module, names) in libraries(reached) {
        let _ = writeln!(
            text,
            "| {module} | {} |",
            names.iter().map(|name| format!("`{}`", name.replace('|', "\\|"))).collect::<Vec<_>>().join(" ")
        );
    }
    let _ = writeln!(text, "\n## Definitions in files of laws\n");
    let misplaced = misplaced(reached);
    if misplaced.is_empty() {
        let _ = writeln!(text, "None.");
    } else {
        let _ = writeln!(text, "To be moved to files of definitions:\n\n| File | Definition |\n|---|---|");
        for (krate, file, name) in misplaced {
            let _ = writeln!(text, "| {krate} {file} | `{name}` |");
        }
    }
    text
}

/// What is wrong apart from the pages: names on first pages that are not there; definitions in files of laws that are not known to be, and those that are no more; plain declarations whose body was followed.
pub fn faults(repository: &Repository, reached: &Reached) -> Vec<String> {
    let mut found: Vec<String> = reached.faults.iter().cloned().chain(stale(repository)).collect();
    let misplaced = misplaced(reached);
    for (krate, file, name) in &misplaced {
        if !repository.roots.to_move.contains(&(krate.clone(), file.clone(), name.clone())) {
            found.push(format!("crates/{krate}/{}.antt: {name} has to be believed and stands in a file of laws", path_of(file)));
        }
    }
    for place in &repository.roots.to_move {
        if !misplaced.contains(place) {
            found.push(format!("roots.txt: to-move {} {} {}: it is not there any more", place.0, place.1, place.2));
        }
    }
    for thing in &reached.things {
        if let Thing::Spec(krate, file, name) = thing {
            let plain = repository.declaration(krate, file, name).is_some_and(|found| found.kind == Kind::Plain);
            if plain && !repository.roots.is_statement(krate, file, name) {
                found.push(format!(
                    "crates/{krate}/{}.antt: {name} is neither abbrev nor unfoldable: nobody can look into it",
                    path_of(file)
                ));
            }
        }
    }
    found
}
