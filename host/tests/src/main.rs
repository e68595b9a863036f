//! Random tests of the reference and of a program beside it.
//!
//!     tests self [seconds N | count N] [seed N]
//!     tests program PATH [seconds N | count N] [seed N]
//!     tests bellman PATH [seconds N | count N] [seed N]
//!     tests round PATH [seconds N | count N] [seed N]
//!     tests library [seconds N | count N] [seed N]
//!     tests stored FOLDER [PATH]
//!     tests text SEED
//!
//! `self` holds the reference against brute force, the weight rule over all states that matter, compares ground listings by their values, sees that blank
//! lines change nothing but line numbers, that listings of the old kind meet 14 and that both ways to a value agree, works reductions out from states alone, sends value diagrams round
//! (printed by (text), read as the next model's reward, with the same rows), holds moves, spreads and logs against brute force over next states and over all
//! states, all of these with minimum variables too, counts the refusals met, and sees that each slip is caught.
//! `program` feeds random texts to a program and to the reference. `bellman` holds the values, moves, spreads and logs that a program prints against brute force,
//! without the reference's diagrams. `round` sends value diagrams round through a program. `library` (feature `library`) makes random calls of the static
//! library and of the reference, whole texts too, and sees that each call gave each of its answers.
//! `stored` runs each NAME.txt of a folder and compares with NAME.out, by the reference or by the program at PATH. `text` prints
//! the random text of a seed. Default: a minute. Without `seed` or `count`, the seeds from 0 on come first, the same in every run, and then those
//! from a fresh one on, which is printed; `seed N count 1` repeats the run of one seed.

mod bellman;
mod blanks;
mod follows;
mod forms;
mod ground;
#[cfg(feature = "library")]
mod library;
#[cfg(feature = "library")]
mod library_texts;
mod limits;
mod listings;
mod meaning;
mod models;
mod moves;
mod old;
mod order;
mod program;
mod random;
mod reductions;
mod replay;
#[cfg(feature = "library")]
mod shapes;
mod spread;
mod tables;
mod tally;
mod texts;
mod weights;

use random::Random;
use reference::session::{answers, Answer};
use reference::slips::Slips;
use std::io::Write;
use std::path::{Path, PathBuf};
use std::time::{Duration, Instant, SystemTime, UNIX_EPOCH};
use tally::Tally;

/// So many seeds from 0 on meet every refusal.
const SEEDS: u64 = 400;
/// So many seeds are fresh, at least.
const FRESH: u64 = 50;

/// How long a run of seeds goes on.
struct Bound {
    end: Option<Instant>,
    count: u64,
    /// The first seed; none for the fixed ones and then fresh ones.
    first: Option<u64>,
    fresh: u64,
}

impl Bound {
    fn read(arguments: &[String]) -> Result<Bound, String> {
        let since_epoch = SystemTime::now().duration_since(UNIX_EPOCH).map_err(|error| error.to_string())?;
        // far from the fixed ones, and short enough to be typed
        let fresh = 1_000_000 + Random::new(since_epoch.as_nanos() as u64).below(1_000_000_000_000);
        let mut bound = Bound { end: Some(Instant::now() + Duration::from_secs(60)), count: u64::MAX, first: None, fresh };
        for pair in arguments.chunks(2) {
            let [word, number] = pair else {
                return Err(format!("{} needs a number", pair[0]));
            };
            let number: u64 = number.parse().map_err(|_| format!("{number} is no number"))?;
            match word.as_str() {
                "seconds" => bound.end = Some(Instant::now() + Duration::from_secs(number)),
                "count" => (bound.end, bound.count) = (None, number),
                "seed" => bound.first = Some(number),
                _ => return Err(format!("{word} is not known")),
            }
        }
        if bound.end.is_none() {
            bound.first.get_or_insert(0);
        }
        Ok(bound)
    }

    /// The seeds one after another. Where time is bound, at least so many from the first on; without a first one, so many fixed ones and
    /// then fresh ones.
    fn seeds(&self, least: u64) -> Box<dyn Iterator<Item = u64> + '_> {
        let in_time = move || self.end.is_none_or(|end| Instant::now() < end);
        match self.first {
            Some(first) => Box::new((first..).take(self.count as usize).take_while(move |seed| seed - first < least || in_time())),
            None => Box::new((0..least).chain((self.fresh..).take_while(move |seed| seed - self.fresh < FRESH || in_time()))),
        }
    }

    /// What was done, for the printed line: `done` seeds where the least was asked for.
    fn told(&self, done: u64, least: u64) -> String {
        match self.first {
            Some(first) => format!("{done} seeds from {first}"),
            None => format!("{least} seeds from 0 and {} fresh ones from {}", done - least, self.fresh),
        }
    }
}

/// The tests of one seed that a slip could fail.
fn values_and_meanings(seed: u64, slips: Slips, tally: &mut Tally) -> Result<(), String> {
    let failed = |what: &'static str| move |message: String| format!("seed {seed}, {what}: {message}");
    meaning::check_combination(seed, slips, tally).map_err(failed("combination"))?;
    meaning::check_regression(seed, slips, tally).map_err(failed("regression"))?;
    meaning::check_freeing(seed, slips).map_err(failed("freeing"))?;
    meaning::check_cut(seed, slips, tally).map_err(failed("cut"))?;
    reductions::check(seed, slips, tally).map_err(failed("reduction"))?;
    forms::check(seed, slips, tally).map_err(failed("form"))?;
    moves::check(seed, slips, tally).map_err(failed("move"))?;
    spread::check(seed, slips, tally).map_err(failed("spread"))?;
    replay::check(seed, slips, tally).map_err(failed("log"))?;
    bellman::check(seed, slips, tally).map_err(failed("value"))
}

fn self_tests(bound: &Bound) -> Result<(), String> {
    let mut tally = Tally::default();
    let (mut done, mut by_equality) = (0, 0);
    for seed in bound.seeds(SEEDS) {
        values_and_meanings(seed, Slips::NONE, &mut tally)?;
        listings::check(seed, &mut tally).map_err(|message| format!("seed {seed}, listing: {message}"))?;
        order::check(seed).map_err(|message| format!("seed {seed}, order of labels: {message}"))?;
        ground::check(seed).map_err(|message| format!("seed {seed}, ground listings: {message}"))?;
        tables::check(seed).map_err(|message| format!("seed {seed}, tables: {message}"))?;
        blanks::check(seed).map_err(|message| format!("seed {seed}, blank lines: {message}"))?;
        by_equality += weights::check(seed, &mut tally).map_err(|message| format!("seed {seed}, weights: {message}"))?;
        for answer in answers(&texts::text(seed), Slips::NONE) {
            if let Answer::Refused { refusal, .. } = answer {
                tally.meet(refusal);
            }
        }
        done += 1;
    }
    println!("{} pass; weights with impossible paths were accepted {by_equality} times", bound.told(done, SEEDS));
    slips_are_caught()?;
    spread::check_limits(bound.first.unwrap_or(bound.fresh))?;
    println!("states of exactly 16 ground facts are counted, 17 are too many, and one state that meets 15 refuses all");
    println!("logs at their limits: {}", replay::check_limits(bound.first.unwrap_or(bound.fresh))?);
    tally.print();
    match tally.missing() {
        missing if missing.is_empty() => Ok(()),
        missing => Err(format!("refusals never met: {missing:?}")),
    }
}

/// Each wrong version must fail the tests that the right one passes.
fn slips_are_caught() -> Result<(), String> {
    let slips = [
        ("sums under shared names", Slips { sums_shared: true, ..Slips::NONE }),
        ("arguments replaced in turn", Slips { arguments_in_turn: true, ..Slips::NONE }),
        ("a better path through the cut edge", Slips { cover_through_edge: true, ..Slips::NONE }),
        ("a reduction over one object fewer", Slips { one_object_fewer: true, ..Slips::NONE }),
        ("a form numbered by first occurrence", Slips { first_occurrence: true, ..Slips::NONE }),
        ("the last of moves with equal sums", Slips { later_move: true, ..Slips::NONE }),
        ("states by tested facts alone", Slips { tested_facts_only: true, ..Slips::NONE }),
        ("truth diagrams of a logged line in turn", Slips { truths_in_turn: true, ..Slips::NONE }),
        ("the reward before each logged line", Slips { both_rewards: true, ..Slips::NONE }),
        ("values totalled in place of rewards", Slips { values_totalled: true, ..Slips::NONE }),
        ("lowest outside and highest inside", Slips { lowest_outside: true, ..Slips::NONE }),
        ("minimum variables not moved aside", Slips { minimum_in_place: true, ..Slips::NONE }),
        ("a max with a minimum variable done shared", Slips { max_shared: true, ..Slips::NONE }),
        ("freeing that moves minimum variables", Slips { freeing_moves_all: true, ..Slips::NONE }),
    ];
    for (name, slips) in slips {
        let caught = |seed: u64| values_and_meanings(seed, slips, &mut Tally::default()).err();
        let message = (0..1_000).find_map(caught).ok_or(format!("not caught: {name}"))?;
        println!("{name}, caught: {message}");
    }
    Ok(())
}

fn compare(program: &Path, bound: &Bound) -> Result<(), String> {
    let mut done = 0;
    for seed in bound.seeds(SEEDS) {
        let text = texts::text(seed);
        if let Err(message) = program::check(program, &text) {
            let short = program::shortened(program, &text);
            let again = program::check(program, &short).err().unwrap_or_default();
            return Err(format!("seed {seed}: {message}\n{again} for\n{}", String::from_utf8_lossy(&short)));
        }
        done += 1;
    }
    println!("the texts of {} have equal answers", bound.told(done, SEEDS));
    Ok(())
}

fn program_values(program: &Path, bound: &Bound) -> Result<(), String> {
    let (mut done, mut values) = (0, 0);
    for seed in bound.seeds(SEEDS / 4) {
        values += bellman::check_program(program, seed).map_err(|message| format!("seed {seed}: {message}"))?;
        done += 1;
    }
    println!("{values} values, moves, spreads and lines of logs of {} are those of brute force", bound.told(done, SEEDS / 4));
    Ok(())
}

fn round_trips(program: &Path, bound: &Bound) -> Result<(), String> {
    let (mut done, mut rounds) = (0, 0);
    for seed in bound.seeds(SEEDS) {
        rounds += forms::check_program(program, seed).map_err(|message| format!("seed {seed}: {message}"))?;
        done += 1;
    }
    println!("{rounds} value diagrams of {} went round", bound.told(done, SEEDS));
    Ok(())
}

#[cfg(feature = "library")]
fn library_calls(bound: &Bound) -> Result<(), String> {
    let mut answers = library::Answers::default();
    let mut done = 0;
    for seed in bound.seeds(SEEDS) {
        let failed = |message: String| format!("seed {seed}: {message}");
        library::check(seed, &mut answers).map_err(failed)?;
        library_texts::check(seed, &texts::text(seed)).map_err(failed)?;
        done += 1;
    }
    println!("the library's calls of {} have equal answers", bound.told(done, SEEDS));
    answers.print();
    match answers.wrong() {
        wrong if wrong.is_empty() => Ok(()),
        wrong => Err(format!("answers that were never met or are not possible: {wrong:?}")),
    }
}

#[cfg(not(feature = "library"))]
fn library_calls(_: &Bound) -> Result<(), String> {
    Err("built without the static library; build with --features library".to_string())
}

fn stored(folder: &Path, program: Option<&Path>) -> Result<(), String> {
    let entries = std::fs::read_dir(folder).map_err(|error| format!("{}: {error}", folder.display()))?;
    let mut texts: Vec<PathBuf> = entries.filter_map(|entry| entry.ok().map(|e| e.path())).collect();
    texts.retain(|path| path.extension().is_some_and(|extension| extension == "txt"));
    texts.sort();
    let read = |path: &Path| std::fs::read(path).map_err(|error| format!("{}: {error}", path.display()));
    for path in &texts {
        let text = read(path)?;
        let other = match program {
            Some(program) => program::printed(program, &text)?,
            None => reference::session::run(&text),
        };
        if let Some(difference) = program::difference(&read(&path.with_extension("out"))?, &other) {
            return Err(format!("{}: {difference}", path.display()));
        }
    }
    println!("{} texts of {} have their stored answers", texts.len(), folder.display());
    Ok(())
}

fn run(arguments: &[String]) -> Result<(), String> {
    match arguments {
        [mode, rest @ ..] if mode == "self" => self_tests(&Bound::read(rest)?),
        [mode, path, rest @ ..] if mode == "program" => compare(Path::new(path), &Bound::read(rest)?),
        [mode, path, rest @ ..] if mode == "bellman" => program_values(Path::new(path), &Bound::read(rest)?),
        [mode, path, rest @ ..] if mode == "round" => round_trips(Path::new(path), &Bound::read(rest)?),
        [mode, rest @ ..] if mode == "library" => library_calls(&Bound::read(rest)?),
        [mode, folder] if mode == "stored" => stored(Path::new(folder), None),
        [mode, folder, path] if mode == "stored" => stored(Path::new(folder), Some(Path::new(path))),
        [mode, seed] if mode == "text" => {
            let seed = seed.parse().map_err(|_| format!("{seed} is no number"))?;
            std::io::stdout().write_all(&texts::text(seed)).map_err(|error| error.to_string())
        }
        _ => Err("use: tests self | program PATH | bellman PATH | round PATH | library | stored FOLDER [PATH] | text SEED".to_string()),
    }
}

fn main() {
    let arguments: Vec<String> = std::env::args().skip(1).collect();
    if let Err(message) = run(&arguments) {
        eprintln!("{message}");
        std::process::exit(1);
    }
}
