//! include/yindolve.h beside this crate: sizes, refusals with their words and meanings, functions, and the version; and the reference's
//! table of refusals.

use std::collections::BTreeMap;
use yindolve::{calls, Refusal};

const HEADER: &str = include_str!("../../../include/yindolve.h");
const REFERENCE: &str = include_str!("../../../docs/REFERENCE.md");

/// The header's plain constants: #define NAME NUMBER, and the numbers of the enum of refusals.
fn constants() -> BTreeMap<&'static str, u64> {
    let number = |word: &str| word.trim_start_matches("UINT64_C(").trim_end_matches([')', ',']).parse().ok();
    let mut constants = BTreeMap::new();
    for line in HEADER.lines() {
        let words: Vec<&str> = line.split_whitespace().collect();
        let found = match words[..] {
            ["#define", name, value, ..] => number(value).map(|number| (name, number)),
            [name, "=", value, ..] if name.starts_with("YINDOLVE_") => number(value).map(|number| (name, number)),
            _ => None,
        };
        if let Some((name, number)) = found {
            assert_eq!(constants.insert(name, number), None, "{name} twice");
        }
    }
    constants
}

#[test]
fn sizes() {
    let header = constants();
    let sizes = [
        ("YINDOLVE_LEAF", calls::LEAF),
        ("YINDOLVE_PLACES", calls::PLACES as u64),
        ("YINDOLVE_TERM_BITS", calls::TERM_BITS as u64),
        ("YINDOLVE_FIRST_PARAMETER", calls::FIRST_PARAMETER),
        ("YINDOLVE_FIRST_VARIABLE", calls::FIRST_VARIABLE),
        ("YINDOLVE_FIRST_MINIMUM", calls::FIRST_MINIMUM),
        ("YINDOLVE_ARITIES", calls::ARITIES as u64),
        ("YINDOLVE_ROW_WORDS", calls::ROW_WORDS as u64),
        ("YINDOLVE_ROWS", (calls::RESULT_WORDS / calls::ROW_WORDS) as u64),
        ("YINDOLVE_RESULT_WORDS", calls::RESULT_WORDS as u64),
        ("YINDOLVE_WORK_WORDS", calls::WORK_WORDS as u64),
        ("YINDOLVE_FACT_WORDS", calls::FACT_WORDS as u64),
        ("YINDOLVE_SPAN_WORDS", calls::SPAN_WORDS as u64),
        ("YINDOLVE_CONSTANTS", calls::CONSTANTS as u64),
        ("YINDOLVE_VALUE", calls::VALUE),
        ("YINDOLVE_NUMBER_WORDS", calls::NUMBER_WORDS as u64),
        ("YINDOLVE_NAME_WORDS", calls::NAME_WORDS as u64),
        ("YINDOLVE_LISTING_WORDS", calls::LISTING_WORDS as u64),
        ("YINDOLVE_TABLE_WORDS", calls::TABLE_WORDS as u64),
        ("YINDOLVE_STATE_WORDS", calls::STATE_WORDS as u64),
        ("YINDOLVE_VALUE_WORDS", calls::VALUE_WORDS as u64),
        ("YINDOLVE_SESSION_WORK_WORDS", calls::SESSION_WORK_WORDS as u64),
        ("YINDOLVE_ANSWER_BYTES", yindolve::ANSWER_BYTES as u64),
        ("YINDOLVE_FULL", calls::FULL),
    ];
    for (name, size) in sizes {
        assert_eq!(header.get(name), Some(&size), "{name}");
    }
    // nothing else is defined there but the refusals, the version and the head of saved words
    let others = header.keys().filter(|name| !sizes.iter().any(|(known, _)| known == *name));
    let others = others.filter(|name| !name.starts_with("YINDOLVE_VERSION_") && **name != "YINDOLVE_SAVED_HEAD");
    assert_eq!(others.count(), Refusal::ALL.len());
}

#[test]
fn refusals() {
    let header = constants();
    for refusal in Refusal::ALL {
        // 11's name is another one in C, where YINDOLVE_VALUE is the highest value
        let name = if *refusal == Refusal::Value { "TOO_HIGH".to_string() } else { refusal.word().to_uppercase() };
        let name = format!("YINDOLVE_{name}");
        assert_eq!(header.get(name.as_str()), Some(&refusal.number()), "{name}");
        let said = |text: &str| HEADER.contains(&format!("case {name}: return \"{text}\";"));
        assert!(said(refusal.word()) && said(refusal.meaning()), "{name}");
    }
}

/// docs/REFERENCE.md has a row for each refusal, with its number and word.
#[test]
fn refusals_in_the_reference() {
    let rows: Vec<&str> = REFERENCE.split("\n## Refusals\n").nth(1).unwrap().split("\n## ").next().unwrap().lines().collect();
    for refusal in Refusal::ALL {
        let row = format!("| {} | {} | ", refusal.number(), refusal.word());
        assert_eq!(rows.iter().filter(|line| line.starts_with(&row)).count(), 1, "{row}");
    }
    let rows = rows.iter().filter(|line| line.starts_with("| ") && !line.starts_with("| Number"));
    assert_eq!(rows.count(), Refusal::ALL.len());
}

#[test]
fn version() {
    let header = constants();
    let number = |part: &str| header[format!("YINDOLVE_VERSION_{part}").as_str()];
    let version = format!("{}.{}.{}", number("MAJOR"), number("MINOR"), number("PATCH"));
    assert_eq!(version, env!("CARGO_PKG_VERSION"));
    assert!(HEADER.contains(&format!("#define YINDOLVE_VERSION \"{version}\"\n")));
}

/// Each function that this crate calls stands in the header, and the other way round.
#[test]
fn functions() {
    let names = |text: &str, before: &str| {
        let mut names: Vec<String> = text
            .lines()
            .filter_map(|line| line.trim().strip_prefix(before)?.split_once('(').map(|(name, _)| name.to_string()))
            .filter(|name| name.starts_with("yindolve_"))
            .collect();
        names.sort();
        names
    };
    let ffi = include_str!("../src/ffi.rs");
    let combinations = ffi.split("combinations! {").nth(1).and_then(|rest| rest.split('}').next()).unwrap().split_whitespace();
    let mut called: Vec<String> = names(ffi, "pub fn ").into_iter().chain(combinations.map(str::to_string)).collect();
    called.sort();
    assert_eq!(called, names(HEADER, "uint64_t "));
}
