//! Whole texts by the static library beside the reference: in one call, in one call with little room for the answers, and line by line
//! with a session that is saved and restored now and then.

use crate::program::difference;
use crate::random::Random;
use reference::text::lines;
use yindolve::{run, run_into, Answer, Full, Refusal, Session, State};

fn expect(what: &str, right: &[u8], other: &[u8]) -> Result<(), String> {
    difference(right, other).map_or(Ok(()), |difference| Err(format!("{what}, {difference}")))
}

/// The state in hand, made anew by its names.
fn in_hand(session: &Session) -> Result<State, Refusal> {
    let lines = session.state_lines();
    let words = |line: &str| line.trim_matches(['(', ')']).split(' ').map(str::to_string).collect::<Vec<String>>();
    let numbers = |words: &[String]| words.iter().filter_map(|word| word.parse().ok()).collect::<Vec<u64>>();
    let mut state = session.state(numbers(&words(&lines[0])[1..])[0]);
    for line in &lines[1..] {
        let words = words(line);
        let objects = numbers(&words[2..]);
        state = if words[0] == "is" { state.is(&words[1], objects[0])? } else { state.fact(&words[1], &objects)? };
    }
    state.finish()
}

pub fn check(seed: u64, text: &[u8]) -> Result<(), String> {
    let right = reference::session::run(text);
    expect("run", &right, &run(text))?;

    // the answers line by line, and the one that closes the text
    let random = &mut Random::new(seed);
    let mut session = Session::open();
    let mut answers: Vec<Vec<u8>> = Vec::new();
    for (number, (line, ended)) in (1..).zip(lines(text)) {
        if random.once_in(20) {
            session = Session::restore(&session.save()).map_err(|damaged| format!("saved before line {number}: {damaged}"))?;
        }
        if ended {
            if let Answer::Value(value) = session.line(line) {
                let by_names = in_hand(&session).and_then(|state| session.value(&state));
                if by_names != Ok(value) {
                    return Err(format!("line {number} answers {value:?}, the call with the state by names {by_names:?}"));
                }
            }
            answers.push(session.answer_bytes().to_vec());
        } else {
            // whatever it is, it is refused as this line is
            session.line("(");
            answers.push(session.answer_bytes().to_vec());
        }
    }
    session.end();
    let closing = session.answer_bytes();
    expect("session", &right, &[&answers.concat(), closing].concat())?;

    // as much as fits
    let room = random.below(right.len() as u64 + 2) as usize;
    let mut buffer = vec![7; room];
    let (bytes, behind) = match run_into(text, &mut buffer) {
        Ok(bytes) => (bytes, right.len()),
        Err(Full { bytes, lines, .. }) => {
            let before: usize = answers[..lines as usize].iter().map(Vec::len).sum();
            let next = answers.get(lines as usize).map_or(closing.len(), Vec::len);
            if before != bytes || bytes + next <= room {
                return Err(format!("run_into says {bytes} bytes and {lines} lines where the buffer has {room} bytes"));
            }
            (bytes, before)
        }
    };
    expect("run_into", &right[..behind], &buffer[..bytes])?;
    if buffer[bytes..].iter().any(|byte| *byte != 7) {
        return Err(format!("run_into writes behind its {bytes} bytes"));
    }
    Ok(())
}
