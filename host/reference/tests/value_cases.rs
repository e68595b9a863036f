//! The cases of `valuing::value` and of `reduce::reduce` in crates/call_tests, which the engine's own tests run: stdin has the calls, stdout their answers.

use reference::calls::{cut, reduce, value, Lent};
use reference::terms::{Label, LEAF_MARK, PLACES};
use std::path::Path;

fn lines(file: &str) -> Vec<String> {
    let path = Path::new(env!("CARGO_MANIFEST_DIR")).join("../../crates/call_tests").join(file);
    std::fs::read_to_string(&path).unwrap().lines().map(str::to_string).collect()
}

/// The lines of a group, its heading first.
fn group(file: &str, heading: &str) -> Vec<String> {
    let of_group = lines(file).into_iter().skip_while(|line| !line.starts_with(heading));
    let lines: Vec<String> = of_group.take_while(|line| line.starts_with(heading) || !line.starts_with("## ")).collect();
    assert!(!lines.is_empty(), "no group {heading}");
    lines
}

/// A number, the highest word, or a label as predicate and terms.
fn word(word: &str) -> u64 {
    match word {
        "leaf" | "most" => u64::MAX,
        label if label.contains('.') => {
            let parts: Vec<u64> = label.split('.').map(|part| part.parse().unwrap()).collect();
            assert_eq!(parts.len(), 1 + PLACES, "{label}");
            Label::pack(parts[0], &parts[1..]).0
        }
        number => number.parse().unwrap(),
    }
}

/// The rows of a result as they are printed, of more than 32 the last two; what else is told stands behind their count.
fn rows(words: &[u64], told: &str) -> String {
    let row = |(number, row): (usize, &[u64])| {
        let first = match row[0] {
            LEAF_MARK => "leaf".to_string(),
            label => [Label(label).predicate()]
                .into_iter()
                .chain(Label(label).places())
                .map(|part| part.to_string())
                .collect::<Vec<_>>()
                .join("."),
        };
        format!("\n  {number}: {first} {} {}", row[1], row[2])
    };
    let count = words.len() / 3;
    let shown = words.chunks(3).enumerate().skip(if count > 32 { count - 2 } else { 0 }).map(row);
    format!("  rows {count}{told}{}", shown.collect::<String>())
}

struct Registers {
    arities: Vec<u64>,
    words: [Vec<u64>; 3],
    lent: Lent,
}

impl Default for Registers {
    fn default() -> Registers {
        Registers { arities: Vec::new(), words: Default::default(), lent: Lent::ENOUGH }
    }
}

impl Registers {
    fn of(&mut self, name: &str) -> &mut Vec<u64> {
        let place = ["x", "y", "z"].iter().position(|other| other.eq_ignore_ascii_case(name)).unwrap();
        &mut self.words[place]
    }

    /// Keeps the words of a line; the answer to a call.
    fn take(&mut self, line: &str) -> Option<String> {
        let mut words = line.split([' ', ',']);
        let command = words.next().unwrap();
        if command == "words" {
            let name = words.next().unwrap();
            let numbers: Vec<u64> = words.map(word).collect();
            let [_, 0, base, count] = numbers[..] else { panic!("{line}") };
            *self.of(name) = vec![base; count as usize];
            return None;
        }
        let words: Vec<u64> = words.map(word).collect();
        match command.split_once('/') {
            Some((name, place)) => {
                let place: usize = place.parse().unwrap();
                self.of(name)[place..place + words.len()].copy_from_slice(&words);
            }
            None if command == "arities" => self.arities = words,
            None if command == "buffers" => self.lent = Lent { result: words[0] as usize, space: words[1] as usize },
            None if command == "reduce" => {
                return Some(match reduce(&self.words[0], &self.arities, self.lent) {
                    Ok(words) => rows(&words, ""),
                    Err(refusal) => format!("  refused {}", refusal.number()),
                });
            }
            None if command == "cut" => {
                return Some(match cut(&self.words[0], &self.arities, self.lent) {
                    Ok((words, (row, edge))) => rows(&words, &format!(", {edge} edge of row {row}")),
                    Err(refusal) => format!("  refused {}", refusal.number()),
                });
            }
            None if command == "value" => {
                let [x, y, z] = &self.words;
                return Some(match value(x, &self.arities, words[0], y, z) {
                    Ok(value) => format!("  value {value}"),
                    Err(refusal) => format!("  refused {}", refusal.number()),
                });
            }
            None => *self.of(command) = words,
        }
        None
    }
}

/// Runs a group and compares its answers; the words are kept.
fn answers_of(heading: &str, registers: &mut Registers) {
    let mut printed = Vec::new();
    for line in group("stdin", heading) {
        if line.is_empty() || line.starts_with('#') {
            printed.push(line);
            continue;
        }
        if let Some(answer) = registers.take(&line) {
            printed.push(line);
            printed.extend(answer.lines().map(str::to_string));
        }
    }
    let stored = group("stdout", heading);
    for (line, stored) in printed.iter().zip(&stored) {
        assert_eq!(line, stored);
    }
    assert_eq!(printed.len(), stored.len(), "{}", printed.join("\n"));
}

#[test]
fn answers_of_value() {
    answers_of("## valuing::value", &mut Registers::default());
}

/// The first ones go by the words that are kept from the group before. (That group itself has searches that take the reference hours.)
#[test]
fn answers_of_reduce() {
    const HEADING: &str = "## reduce::reduce";
    let mut registers = Registers::default();
    let before: Vec<String> = lines("stdin").into_iter().take_while(|line| !line.starts_with(HEADING)).collect();
    for kept in ["arities ", "buffers ", "x "] {
        registers.take(before.iter().rfind(|line| line.starts_with(kept)).expect(kept));
    }
    answers_of(HEADING, &mut registers);
}
