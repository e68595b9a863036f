//! The reader on small pieces of specs and code.

use believed::follow::{follow, Reached};
use believed::pages::missing;
use believed::report::{by_file, faults, total, with_table};
use believed::repository::{Repository, Thing};
use believed::roots::{Root, Roots};
use believed::specs::{read_specs, Kind};

const DATA: &str = "libraries lib\nprelude Unit tt\nconstructors true false zero suc\nkit-fields now old new\ncontract-words result\nstatement a Base decided\n";

const BASE: &str = "\
-- A file of definitions.
use lib.Nat.{ℕ, zero, suc, ◌+◌, ◌≤◌}

-- a tree, and its size
pub data Tree (L : Type 0) : Type 0 where
  leaf : ℕ → Tree L
  branch : L → Tree L → Tree L → Tree L

unfoldable pub size : {L : Type 0} → Tree L → ℕ
unfolding extra
size (leaf v) = 0
size (branch l t f) = suc (size t + size f)

abbrev pub extra : ℕ
extra = 1

pub record Held : Type 0 where
  pub tree : Tree ℕ
  -- a field may name one before it
  pub few : size tree ≤ extra

module _ (n : ℕ) where
  abbrev pub within : ℕ → Type 0
  within m = m ≤ n

-- a decision: its statement says all
unfoldable pub decided : (m : ℕ) → within m m
decided m = go m
  where
    go : (k : ℕ) → within k k
    go k = proof k

pub law : (t : Tree ℕ) → size t ≤ extra
unfolding size
law t = proof t
";

const CODE: &str = "\
ghost use Rattle.lib.specs.Path.{◌≡◌};
ghost use Rattle.a.specs.Base.{
    size, extra
};

use b::{Other, Word};

// An answer.
#[derive(Clone, Copy)]
pub enum Answer {
    Done(Word, usize),
    Nothing,
}

// Its size.
#[unsafe(no_mangle)]
pub extern \"C\" fn measure(words: &mut [u64], size: usize) -> Answer
    requires { size ≡ extra }
    ensures written { words.new ≡ extra
        (words.old) }
    ensures is_number { result.high_part ≡ extra }
{
    Answer::Nothing
}
";

fn repository() -> Repository {
    let mut found = Repository { roots: Roots::read(DATA).unwrap(), ..Repository::default() };
    found.add("a", "Base.antt", BASE).unwrap();
    found.add("a", "lib.rt", CODE).unwrap();
    found.add("b", "lib.rt", "pub struct Word {\n    pub low: u64,\n    // a comment\n    pub high_part: u64,\n}\n").unwrap();
    found
}

/// What `text`, as a file Top of crate a, reaches from its declaration `top`.
fn reach(text: &str) -> (Repository, Reached) {
    let mut found = repository();
    found.add("a", "Top.antt", text).unwrap();
    let reached = follow(&found, &[Root::Theorem("a".into(), "Top".into(), "top".into())]);
    (found, reached)
}

fn names(reached: &Reached) -> Vec<String> {
    let name = |thing: &Thing| match thing {
        Thing::Spec(krate, file, name) => format!("{krate}.{file}.{name}"),
        Thing::Code(krate, name) => format!("{krate}::{name}"),
        Thing::Library(path) => path.clone(),
    };
    reached.things.iter().map(name).collect()
}

#[test]
fn declarations_and_their_lines() {
    let file = read_specs(BASE).unwrap();
    let all: Vec<_> = file.declarations.iter().map(|found| (found.name.as_str(), found.kind, found.lines.len())).collect();
    assert_eq!(
        all,
        [
            ("Tree", Kind::Data, 3),
            ("size", Kind::Open, 3),
            ("extra", Kind::Open, 2),
            ("Held", Kind::Record, 3),
            ("within", Kind::Open, 3),
            ("decided", Kind::Open, 5),
            ("law", Kind::Plain, 2),
        ]
    );
    assert_eq!(file.declarations[5].stated.len(), 1);
}

#[test]
fn a_theorem_rests_on_its_statement_alone() {
    let (_, reached) = reach("use Rattle.a.specs.Base.{Tree, size, extra}\nuse lib.Nat.{ℕ, ◌+◌}\npub top : (t : Tree ℕ) → ℕ\nunfolding extra\ntop t = extra + unknown\n");
    assert_eq!(names(&reached), ["a.Base.Tree", "lib.Nat.ℕ"]);
    assert!(reached.faults.is_empty());
}

#[test]
fn names_by_alias_by_module_and_by_type() {
    for body in [
        "use Rattle.a.specs.Base.{leaf as lone}\nabbrev top : ℕ → ℕ\ntop x = lone x\n",
        "use Rattle.a.specs.Base.Tree.{leaf}\nabbrev top : ℕ → ℕ\ntop x = leaf x\n",
        "use Rattle.a.specs.Base as B\nabbrev top : ℕ → ℕ\ntop x = B.leaf x\n",
        "use Rattle.a.specs.Base as B\nabbrev top : ℕ → ℕ\ntop x = B.Tree.leaf x\n",
        "use Rattle.a.specs.Base.{Tree}\nabbrev top : ℕ → ℕ\ntop x = Tree.leaf x\n",
        "use Rattle.a.specs.Base.{leaf}\nabbrev top : ℕ → ℕ\ntop (leaf x) = x\n",
    ] {
        let (_, reached) = reach(&format!("use lib.Nat.{{ℕ}}\n{body}"));
        assert_eq!(names(&reached), ["a.Base.Tree", "a.Top.top", "lib.Nat.ℕ"], "{body}");
        assert!(reached.faults.is_empty(), "{body}: {:?}", reached.faults);
    }
}

#[test]
fn files_in_folders() {
    let mut found = repository();
    found.add("a", "Base/Inner.antt", "abbrev pub inner : Unit\ninner = tt\n").unwrap();
    found.add("a", "Top.antt", "use Rattle.a.specs.Base.Inner.{inner}\nabbrev top : Unit\ntop = inner\n").unwrap();
    let reached = follow(&found, &[Root::Theorem("a".into(), "Top".into(), "top".into())]);
    assert_eq!(names(&reached), ["a.Base/Inner.inner", "a.Top.top", "Prim.Unit", "Prim.tt"]);
    assert!(reached.faults.is_empty(), "{:?}", reached.faults);
}

#[test]
fn names_handed_on_and_mutual_blocks() {
    let mut found = repository();
    found.add("a", "Front.antt", "pub use Rattle.a.specs.Base.{extra as more}\n").unwrap();
    let text = "use Rattle.a.specs.Front.{more}\nuse lib.Nat.{ℕ}\nunfoldable mutual\n  pub top : ℕ\n  top = other\n\n  other : ℕ\n  other = more\n";
    found.add("a", "Top.antt", text).unwrap();
    let reached = follow(&found, &[Root::Theorem("a".into(), "Top".into(), "top".into())]);
    assert_eq!(names(&reached), ["a.Base.extra", "a.Top.other", "a.Top.top", "lib.Nat.ℕ"]);
    assert_eq!(faults(&found, &reached), Vec::<String>::new());
}

#[test]
fn bound_names_are_not_followed() {
    // A parameter, a variable of a case and one of a λ; the second case names the definition.
    let (_, reached) = reach(
        "use lib.Nat.{ℕ}\nuse Rattle.a.specs.Base.{size, extra}\nabbrev top : (size : ℕ) → ℕ → ℕ\ntop size k = elim k [ (extra → h) ↦ extra | h ↦ (λ (size : ℕ). size) extra ]\n",
    );
    assert_eq!(names(&reached), ["a.Base.extra", "a.Top.top", "lib.Nat.ℕ"]);
    // A let ends at the comma.
    let (_, reached) =
        reach("use lib.Nat.{ℕ}\nuse Rattle.a.specs.Base.{extra}\nabbrev top : ℕ → ℕ × ℕ\ntop x = (let extra : ℕ = x in extra, extra)\n");
    assert_eq!(names(&reached), ["a.Base.extra", "a.Top.top", "lib.Nat.ℕ"]);
}

#[test]
fn what_is_not_found_is_a_fault() {
    for (body, fault) in [
        ("abbrev top : Unit\ntop = unknown\n", "unknown is not found"),
        ("use Rattle.a.specs.Base.{unknown}\nabbrev top : Unit\ntop = unknown\n", "unknown is not found"),
        ("use Rattle.a.specs.Base as B\nabbrev top : Unit\ntop = B.unknown\n", "B.unknown is not found"),
        ("use elsewhere.Nat.{ℕ}\nabbrev top : ℕ\ntop = 1\n", "ℕ is not found"),
        ("abbrev top : Unit\ntop = go\n  where\n    go : Unit\n    go = tt\n", "where is not read"),
        ("use lib.Nat.{ℕ}\nabbrev top : ℕ → ℕ\ntop x = x.tree\n", "the field tree is of no record"),
        ("use lib.Nat.{ℕ}\nabbrev top : (ℕ → ℕ) → ℕ\ntop x = (x 1).0.tree\n", "the field tree is of no record"),
        (
            "use Rattle.a.specs.Base.{Held}\nabbrev top : Held\ntop = record { tree = tt }\n",
            "no record that was reached has the fields tree",
        ),
    ] {
        let (_, reached) = reach(body);
        assert!(reached.faults.iter().any(|found| found.contains(fault)), "{body}: {:?}", reached.faults);
    }
}

#[test]
fn records_sections_and_statements() {
    let (repository, reached) =
        reach("use Rattle.a.specs.Base.{Held, size, decided}\nuse lib.Nat.{ℕ}\nabbrev top : Held → ℕ\ntop h = size h.tree (decided 1)\n");
    assert_eq!(
        names(&reached),
        ["a.Base.Held", "a.Base.Tree", "a.Base.decided", "a.Base.extra", "a.Base.size", "a.Base.within", "a.Top.top"]
            .into_iter()
            .chain(["lib.Nat.suc", "lib.Nat.ℕ", "lib.Nat.◌+◌", "lib.Nat.◌≤◌"])
            .collect::<Vec<_>>()
    );
    assert!(reached.faults.is_empty(), "{:?}", reached.faults);
    // Held 3, Tree 3, decided 1, extra 2, size 3, within 3, top 2
    assert_eq!(total(&by_file(&repository, &reached)), (7, 17));
}

#[test]
fn fields_of_what_a_name_stands_for() {
    let (_, reached) = reach(
        "use Rattle.a.specs.Base.{Held, extra}\nuse lib.Nat.{ℕ}\nabbrev given : ℕ → Held\ngiven n = given extra\n\nabbrev whole : Held\nwhole = given 1\n\nabbrev top : ℕ → ℕ\ntop n = n whole.tree (given n).few\n",
    );
    assert!(names(&reached).starts_with(&["a.Base.Held", "a.Base.Tree", "a.Base.extra", "a.Base.size"].map(String::from)));
    assert!(["a.Top.given", "a.Top.top", "a.Top.whole"].iter().all(|name| names(&reached).contains(&name.to_string())));
    assert!(reached.faults.is_empty(), "{:?}", reached.faults);
}

#[test]
fn a_theorem_in_place_of_a_body() {
    let mut found = repository();
    found.add("a", "Top.antt", "use lib.Nat.{ℕ}\nuse Rattle.a.specs.Base.{size}\nabbrev top : ℕ\ntop = size\n").unwrap();
    found.roots = Roots::read(&format!("{DATA}told a Base size by a Base law\n")).unwrap();
    let from = [Root::Theorem("a".into(), "Top".into(), "top".into())];
    let reached = follow(&found, &from);
    assert_eq!(names(&reached), ["a.Base.Tree", "a.Base.extra", "a.Base.size", "a.Top.top", "lib.Nat.ℕ", "lib.Nat.◌≤◌"]);
    assert_eq!(faults(&found, &reached), Vec::<String>::new());
    // Tree 3, extra 2, size 1, top 2
    assert_eq!(total(&by_file(&found, &reached)), (4, 8));
    found.roots = Roots::read(&format!("{DATA}told a Base size by a Base gone\n")).unwrap();
    assert!(follow(&found, &from).faults.iter().any(|fault| fault.contains("there is no gone")));
}

#[test]
fn types_of_code_and_contracts() {
    let (_, reached) = reach(
        "use Rattle.a.specs.declared.Answer.{Answer}\nuse Rattle.a.specs.declared.Answer.TheVariants as A\nuse lib.Nat.{ℕ}\nabbrev top : Answer → ℕ\ntop (A.Done w n) = w.«high_part»\ntop A.Nothing = 0\n",
    );
    assert_eq!(names(&reached), ["a.Top.top", "a::Answer", "b::Word", "lib.Nat.ℕ"]);
    assert!(reached.faults.is_empty(), "{:?}", reached.faults);
    let repository = repository();
    for name in [Some("measure".to_string()), None] {
        let reached = follow(&repository, &[Root::Function("a".into(), name)]);
        assert_eq!(names(&reached), ["a.Base.extra", "a::Answer", "b::Word", "Rattle.lib.specs.Path.◌≡◌", "lib.Nat.ℕ"]);
        assert!(reached.faults.is_empty(), "{:?}", reached.faults);
    }
    let reached = follow(&repository, &[Root::Function("b".into(), Some("measure".into()))]);
    assert!(!reached.faults.is_empty());
}

/// What a function with this answer reaches in a crate c whose file has these lines above it, beside a crate d with a type Result, and what is wrong there.
fn reach_answer(above: &str, answer: &str) -> (Vec<String>, Vec<String>) {
    let mut found = repository();
    let ghosts = "ghost use Rattle.lib.specs.Path.{◌≡◌};\nghost use Rattle.a.specs.Base.{extra};\n";
    let contract = format!("pub fn sized(n: usize) -> {answer}\n    ensures {{ result.now ≡ extra }}\n{{\n    n\n}}\n");
    found.add("c", "lib.rt", &format!("{ghosts}{above}{contract}")).unwrap();
    found.add("d", "lib.rt", "pub enum Result {\n    Done,\n}\n").unwrap();
    let reached = follow(&found, &[Root::Function("c".into(), Some("sized".into()))]);
    (names(&reached), reached.faults.into_iter().collect())
}

#[test]
fn types_that_a_reader_knows() {
    // The library's, then the file's own, then another crate's.
    let plain = ["a.Base.extra", "Rattle.lib.specs.Path.◌≡◌", "lib.Nat.ℕ"];
    for (above, answer, own) in [
        ("", "Result<usize, usize>", None),
        ("pub fn other(m: Option<usize>) -> usize {\n    2 * 3\n}\n", "Option<Result<(usize, usize), usize>>", None),
        ("pub enum Result {\n    Done,\n}\n", "Result", Some("c::Result")),
        ("enum Result {\n    Done,\n}\n", "Result", Some("c::Result")),
        ("pub struct Result<'a> {\n    words: &'a [u64],\n}\n", "Result<'a>", Some("c::Result")),
        ("use d::Result;\n", "Result", Some("d::Result")),
        ("use d::{\n    Result,\n};\n", "Result<usize>", Some("d::Result")),
    ] {
        let (all, faults) = reach_answer(above, answer);
        assert!(faults.is_empty(), "{above}{answer}: {faults:?}");
        assert!(plain.iter().chain(&own).all(|name| all.contains(&name.to_string())), "{above}{answer}: {all:?}");
        assert_eq!(all.len(), plain.len() + own.iter().count(), "{above}{answer}: {all:?}");
    }
    // A name that may be another type's, made or imported as nothing here reads it, is not found.
    for above in [
        "use d::*;\n",
        "use d::{*};\n",
        "use d::{Other, *};\n",
        "use d::{\n    inner::*,\n    Other,\n};\n",
        "pub use d::Result;\n",
        "pub use d::{\n    Other,\n    Result,\n};\n",
        "pub(crate) use d::{\n    Other as Result,\n};\n",
        "use nowhere::Result;\n",
        "use\n    d::Result;\n",
        "mod inner {\n    use d::{\n        Result,\n    };\n}\n",
        "type Result = u64;\n",
        "type\n    Result<T> = u64;\n",
        "pub(crate) enum Result<T> {\n    Done(T),\n}\n",
        "mod inner {\n    pub enum Result {\n        Done,\n    }\n}\n",
        "pub enum r#Result<T> {\n    Done(T),\n}\n",
        "pub(crate) enum /* one */ Result<T> {\n    Done(T),\n}\n",
        "#[doc = \"http://x\"] pub use d::Result;\n",
        "/* // */ pub use d::Result;\n",
        "pub extern \"C\" fn f() {} // ghost\nuse d::*;\n",
        "impl<Result> Held<Result> {\n",
        "#[doc = \"\n// \"] pub use d::Result;\n",
    ] {
        let (_, faults) = reach_answer(above, "Result<usize>");
        assert!(faults.iter().any(|fault| fault.contains("Result")), "{above}: {faults:?}");
    }
    for answer in ["Result", "d::Result", "d::Result<usize>", "io::Result<usize>", "d::r#Result<usize>", "d:: /* x */ Result<usize>"] {
        let (_, faults) = reach_answer("", answer);
        assert!(faults.iter().any(|fault| fault.contains("Result")), "{answer}: {faults:?}");
    }
    let (_, faults) = reach_answer("pub enum Held {\n    Done(d\n        ::Result<u64>),\n}\n", "Held");
    assert!(faults.iter().any(|fault| fault.contains("Result")), "{faults:?}");
}

#[test]
fn definitions_in_files_of_laws() {
    let mut found = repository();
    found
        .add("a", "TopLaws.antt", "abbrev pub Known : Type 0\nKnown = Unit\n\nlemma : Known\nlemma = tt\n\npub top : Known\ntop = lemma\n")
        .unwrap();
    found.add("a", "Top.antt", "use Rattle.a.specs.TopLaws.{Known, lemma}\nabbrev top : Known\ntop = lemma\n").unwrap();
    let theorem = follow(&found, &[Root::Theorem("a".into(), "TopLaws".into(), "top".into())]);
    assert_eq!(faults(&found, &theorem), ["crates/a/specs/TopLaws.antt: Known has to be believed and stands in a file of laws"]);
    found.roots = Roots::read(&format!("{DATA}to-move a TopLaws Known\nto-move a TopLaws gone\n")).unwrap();
    assert_eq!(faults(&found, &theorem), ["roots.txt: to-move a TopLaws gone: it is not there any more"]);
    // A definition that nobody may look into says nothing.
    let all = faults(&found, &follow(&found, &[Root::Theorem("a".into(), "Top".into(), "top".into())]));
    assert!(all.iter().any(|fault| fault.contains("lemma is neither abbrev nor unfoldable")), "{all:?}");
}

#[test]
fn theorems_among_lemmas() {
    let mut found = repository();
    let text = "use Rattle.a.specs.Base.{Tree}\nuse lib.Nat.{ℕ}\nabbrev pub Own : Type 0\nOwn = Unit\n\npub law : Tree ℕ → Unit\nlaw t = tt\n\npub other : Own\nother = tt\n";
    found.specs.insert(("a".into(), "proofs/Inner".into()), read_specs(text).unwrap());
    let root = |name: &str| [Root::Theorem("a".into(), "Inner".into(), name.into())];
    let reached = follow(&found, &root("law"));
    assert_eq!(names(&reached), ["a.Base.Tree", "Prim.Unit", "lib.Nat.ℕ"]);
    assert_eq!(faults(&found, &reached), Vec::<String>::new());
    assert_eq!(found.own_lines(&root("law")[0]), 1);
    let all = faults(&found, &follow(&found, &root("other")));
    assert_eq!(all, ["crates/a/proofs/Inner.antt: Own has to be believed and stands in a file of laws"]);
}

#[test]
fn the_table_has_its_place() {
    let page = "a\n<!-- written by host/believed -->\nold\n<!-- up to here -->\nb\n";
    assert_eq!(with_table(page, "new\n").unwrap(), page.replace("old", "new"));
    assert!(with_table("a\n", "new\n").is_err());
}

#[test]
fn first_pages() {
    let mut found = repository();
    found.add("a", "Lib.antt", "-- A crate.\n--\n-- Definitions\n--   Tree, Answer == a tree\n--   sizes == its size\n--\n-- Theorems\n--   law: it is small; axiom: it is not\npub mod Base\n").unwrap();
    let reached = follow(&found, &[Root::Theorem("a".into(), "Base".into(), "law".into())]);
    assert_eq!(
        faults(&found, &reached),
        ["sizes", "axiom"]
            .iter()
            .zip([5, 8])
            .map(|(name, line)| format!("crates/a/specs/Lib.antt: line {line}: there is no {name} in this crate"))
            .collect::<Vec<_>>()
    );
    let names = ["extra", "size"].map(|name| format!("crates/a/specs/Lib.antt: {name} is not on the first page"));
    assert_eq!(missing(&found, &reached), names);
}
