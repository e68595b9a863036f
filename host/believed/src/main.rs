//! believed: prints what has to be believed, file by file, with lines.
//! believed --check: whether docs/BELIEVED.md and the table in docs/PROOFS.md say so, and no definition among them stands in a file of laws.
//! believed --write: writes both anew.
//! believed --pages: which of them are missing on the first page of their crate, where that has a table.
//! believed --from NAME | CRATE FILE NAME | CRATE::FUNCTION: the same for one definition, theorem or public function alone.

use believed::follow::follow;
use believed::pages::missing;
use believed::report::{faults, listing, page, table, with_table};
use believed::repository::Repository;
use believed::roots::{Root, Roots};

/// The data file, from the repository's root.
const DATA: &str = "host/believed/roots.txt";

fn root_named(repository: &Repository, words: &[String]) -> Result<Root, String> {
    if let [krate, file, name] = words {
        return Ok(Root::Theorem(krate.clone(), file.clone(), name.clone()));
    }
    let [name] = words else { return Err("use: --from NAME, --from CRATE FILE NAME or --from CRATE::FUNCTION".to_string()) };
    if let Some((krate, function)) = name.split_once("::") {
        return Ok(Root::Function(krate.to_string(), Some(function.to_string())));
    }
    let mut places = repository.specs.iter().filter(|(_, file)| file.declarations.iter().any(|found| found.name == *name));
    match (places.next(), places.next()) {
        (Some(((krate, file), _)), None) => Ok(Root::Theorem(krate.clone(), file.clone(), name.clone())),
        (None, _) => Err(format!("there is no {name}")),
        _ => Err(format!("several files have {name}: say CRATE FILE NAME")),
    }
}

fn run() -> Result<bool, String> {
    let words: Vec<String> = std::env::args().skip(1).collect();
    let here = std::env::current_dir().map_err(|error| error.to_string())?;
    let root = here.ancestors().find(|folder| folder.join(DATA).exists()).ok_or("this is not in the repository")?;
    let roots = Roots::read(&std::fs::read_to_string(root.join(DATA)).map_err(|error| error.to_string())?)?;
    let repository = Repository::read(root, roots)?;
    if words.first().is_some_and(|word| word == "--from") {
        let reached = follow(&repository, &[root_named(&repository, &words[1..])?]);
        print!("{}", listing(&repository, &reached));
        reached.faults.iter().for_each(|fault| eprintln!("{fault}"));
        return Ok(reached.faults.is_empty());
    }
    let all: Vec<Root> = repository.roots.roots.iter().map(|(root, _)| root.clone()).collect();
    let reached = follow(&repository, &all);
    let mut wrong = faults(&repository, &reached);
    let path = |name: &str| root.join("docs").join(name);
    let old = |name: &str| std::fs::read_to_string(path(name)).unwrap_or_default();
    let pages = || -> Result<Vec<(&str, String)>, String> {
        Ok(vec![("BELIEVED.md", page(&repository, &reached)), ("PROOFS.md", with_table(&old("PROOFS.md"), &table(&repository))?)])
    };
    match words.first().map(String::as_str) {
        None => print!("{}", listing(&repository, &reached)),
        Some("--write") => {
            for (name, text) in pages()? {
                std::fs::write(path(name), text).map_err(|error| format!("docs/{name}: {error}"))?;
            }
        }
        Some("--check") => {
            for (name, text) in pages()? {
                if old(name) != text {
                    wrong.push(format!("docs/{name} is not what the sources say: believed --write writes it anew"));
                }
            }
        }
        Some("--pages") => wrong.extend(missing(&repository, &reached)),
        Some(word) => return Err(format!("{word} is not known: --check, --write, --pages, --from NAME")),
    }
    wrong.iter().for_each(|fault| eprintln!("{fault}"));
    Ok(wrong.is_empty())
}

fn main() {
    match run() {
        Ok(true) => {}
        Ok(false) => std::process::exit(1),
        Err(fault) => {
            eprintln!("{fault}");
            std::process::exit(2);
        }
    }
}
