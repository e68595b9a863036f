//! Sessions by calls: models, states by names, listings, values, and sessions that are saved.

use yindolve::{fact, Answer, Refusal, Row, Session, Space, State};

const SAMPLE: &str = include_str!("../../../examples/sample.txt");
const LIFT_PARTS: &str = include_str!("../../../examples/liftparts.txt");
const RELAY: &str = include_str!("../../../examples/relay.txt");

/// Each example text, by its name.
fn examples() -> Vec<(String, String)> {
    let folder = concat!(env!("CARGO_MANIFEST_DIR"), "/../../examples");
    let paths = std::fs::read_dir(folder).unwrap().map(|entry| entry.unwrap().path());
    let texts = paths.filter(|path| path.extension().is_some_and(|extension| extension == "txt"));
    texts.map(|path| (path.display().to_string(), std::fs::read_to_string(&path).unwrap())).collect()
}

#[test]
fn load_reads_to_the_start() {
    let (mut session, rest) = Session::load_part(SAMPLE.as_bytes()).unwrap();
    assert!(rest.starts_with(b"(objects 2)\n"));
    assert_eq!((session.lines(), session.steps(), session.scale()), (10, 0, 1));
    assert_eq!(session.model_lines().len(), 10);
    assert!(session.state_lines().is_empty());
    assert_eq!(session.value_in_hand(), Err(Refusal::Place));
    // the last line feed may be missing
    let whole = "(reward 7)\n(action wait)\n(variant only 100)\n(start)";
    assert!(Session::load(whole).is_ok());
    assert!(Session::load_part(whole.as_bytes()).unwrap().1.is_empty());
}

#[test]
fn load_tells_the_first_refusal() {
    let refused = |text: &str| Session::load(text).unwrap_err();
    let misspelt = refused(&SAMPLE.replace("(becomes (stock", "(becomes (stok"));
    assert_eq!((misspelt.refusal, misspelt.line), (Refusal::Name, 8));
    assert_eq!(
        misspelt.to_string(),
        "line 8 is refused, 2 (name): a name that is not declared on an earlier accepted line, or one that is given twice: \
         (becomes (stok ?s) (if (= !d ?s) 1 (if (stock ?s) 1 0)))"
    );
    let weights = refused(&SAMPLE.replace("(variant none 1)", "(variant none 2)"));
    assert_eq!((weights.refusal, weights.line, weights.text.as_str()), (Refusal::Weights, 10, "(start)"));
    let carriage = refused(&SAMPLE.replace('\n', "\r\n"));
    assert_eq!((carriage.refusal, carriage.line), (Refusal::Form, 1));
    for text in ["", "\n\n", "(constant hub)\n"] {
        let open = refused(text);
        assert_eq!((open.refusal, open.line), (Refusal::Place, 0));
        assert!(open.to_string().ends_with("the text ends without an accepted (start)"));
    }
}

#[test]
fn calls_answer_as_lines_do() {
    let mut session = Session::load(SAMPLE).unwrap();
    let backup = session.backup().unwrap();
    assert_eq!((backup.steps, backup.rows), (1, 6));
    let cut = session.cut().unwrap();
    assert_eq!((cut.row, cut.edge, cut.rows), (5, false, 5));
    assert_eq!(session.cut(), Err(Refusal::Nothing));
    assert_eq!(session.reduce(), Err(Refusal::Kinds));
    let all = session.cut_all().unwrap();
    assert_eq!((all.cuts, all.rows), (0, 5));
    assert_eq!((session.steps(), session.scale(), session.lines()), (1, 8, 15));

    let mut lift_parts = Session::load(LIFT_PARTS).unwrap();
    lift_parts.backup().unwrap();
    let all = lift_parts.cut_all().unwrap();
    assert_eq!((all.cuts, all.rows), (12, 19));
    lift_parts.backup().unwrap();
    assert_eq!(lift_parts.cut_all(), Err(Refusal::Paths));
    assert_eq!(lift_parts.backup(), Err(Refusal::Space));
    assert_eq!(lift_parts.steps(), 2);

    // what nothing is left to cut of, a reduction shortens; k stays, and values are as they were
    let mut relay = Session::load(RELAY).unwrap();
    assert_eq!(relay.reduce().unwrap().rows, 3);
    relay.backup().unwrap();
    let state = relay.state(3).fact("stock", &[0]).unwrap().fact("near", &[0, 1]).unwrap().fact("near", &[1, 2]).unwrap().finish().unwrap();
    let value = relay.value(&state).unwrap();
    assert_eq!((value.value, relay.cut()), (108, Err(Refusal::Nothing)));
    assert_eq!((relay.reduce().unwrap().rows, relay.steps()), (7, 1));
    assert_eq!(relay.value(&state), Ok(value));
    relay.backup().unwrap();
    assert_eq!(relay.reduce(), Err(Refusal::Runs));

    let mut open = Session::open();
    assert_eq!(open.backup(), Err(Refusal::Place));
    assert_eq!(open.cut_all(), Err(Refusal::Place));
    assert_eq!(open.reduce(), Err(Refusal::Place));
    assert_eq!(open.value(&State { objects: 1, ..State::default() }), Err(Refusal::Place));
    assert_eq!((open.listing(), open.reward()), (None, None));
}

#[test]
fn states_by_names() {
    let mut session = Session::load(LIFT_PARTS).unwrap();
    session.backup().unwrap();
    session.cut_all().unwrap();
    let state = session.state(3).fact("wanted", &[0]).unwrap().fact("aboard", &[0, 2]).unwrap();
    let here = state.clone().fact("here", &[2]).unwrap();
    assert_eq!(session.value(&state.finish().unwrap()).unwrap().to_string(), "0");
    assert_eq!(session.value(&here.finish().unwrap()).unwrap().to_string(), "27/4");

    let refused = |refusal| move |state: Result<_, _>| assert_eq!(state.err(), Some(refusal));
    let state = || session.state(3);
    refused(Refusal::Name)(state().fact("want", &[0]));
    refused(Refusal::Arity)(state().fact("aboard", &[0]));
    refused(Refusal::Range)(state().fact("aboard", &[0, 3]));
    refused(Refusal::Name)(state().is("hub", 0));
    assert_eq!(session.state(0).finish(), Err(Refusal::Range));

    let sample = Session::load(SAMPLE).unwrap();
    refused(Refusal::Range)(sample.state(2).is("hub", 2));
    refused(Refusal::Name)(sample.state(2).is("hub", 0).and_then(|state| state.is("hub", 1)));
    refused(Refusal::Place)(sample.state(2).finish().map(|_| sample.state(2)));
    let value = |constants: &[u64], facts: &[u64]| {
        let facts = facts.iter().map(|predicate| fact(*predicate, &[0])).collect();
        sample.value(&State { objects: 2, constants: constants.to_vec(), facts }).map(|value| value.value)
    };
    assert_eq!(value(&[], &[]), Err(Refusal::Place));
    assert_eq!(value(&[2], &[]), Err(Refusal::Range));
    assert_eq!(value(&[0], &[2]), Err(Refusal::Name));
    assert_eq!(value(&[0], &[0]), Err(Refusal::Name));
    assert_eq!(value(&[0], &[1]), Ok(10));
}

#[test]
fn listings_of_a_session() {
    let mut session = Session::load(SAMPLE).unwrap();
    let reward = session.reward().unwrap();
    assert_eq!(session.listing(), Some(reward.clone()));
    assert_eq!(reward.rows().take(2).collect::<Vec<_>>(), [Row::Leaf(10), Row::Leaf(0)]);
    session.backup().unwrap();
    let value = session.listing().unwrap();
    let Answer::Rows(rows) = session.line("(show)") else { panic!() };
    assert_eq!(value.rows().collect::<Vec<_>>(), rows);
    // they go on in a space of their own
    let mut space = Space::new(session.arities());
    let cut = space.cut(&value).unwrap();
    session.cut().unwrap();
    assert_eq!(session.listing(), Some(cut.listing));
    assert_eq!(session.reward(), Some(reward));
}

/// A value diagram as a form, and the reward of another model that is read from it; one that is too long; no session before (start).
#[test]
fn the_form_of_a_value_diagram() {
    let mut session = Session::load(LIFT_PARTS).unwrap();
    session.backup().unwrap();
    session.cut_all().unwrap();
    let form = session.text().unwrap();
    assert_eq!(session.line("(text)"), Answer::Text(form.clone()));
    assert_eq!(session.answer_bytes(), format!("{form}\n").as_bytes());
    let reward = LIFT_PARTS.lines().find(|line| line.starts_with("(reward ")).unwrap();
    let mut next = Session::load(LIFT_PARTS.replace(reward, &format!("(reward {form})"))).unwrap();
    assert_eq!((next.reward(), next.listing(), next.text()), (session.listing(), session.listing(), Ok(form)));
    // 540 rows that share much; the value diagram stays
    session.backup().unwrap();
    assert_eq!((session.text(), session.listing().unwrap().len()), (Err(Refusal::Length), 540));
    assert_eq!(Session::open().text(), Err(Refusal::Place));
    // a restored session prints the same
    let mut restored = Session::restore(&next.save()).unwrap();
    assert_eq!(restored.text(), next.text());
}

#[test]
fn the_state_in_hand() {
    let mut session = Session::load(SAMPLE).unwrap();
    session.tell("(objects 3)\n(true stock 2)\n(true stock 1)\n(true stock 2)\n(is hub 1)").unwrap();
    assert_eq!(session.state_lines(), ["(objects 3)", "(is hub 1)", "(true stock 2)", "(true stock 1)"]);
    assert_eq!(session.value_in_hand().unwrap().value, 10);
    let refused = session.tell("(objects 2)\n(is hub 2)\n(is hub 0)\n").unwrap_err();
    assert_eq!((refused.refusal, refused.line, refused.text.as_str()), (Refusal::Range, 2, "(is hub 2)"));
    assert_eq!(session.state_lines(), ["(objects 2)"]);
    assert_eq!(session.tell(""), Ok(()));
    let refused = session.tell("\n\n(value)x\n").unwrap_err();
    assert_eq!((refused.refusal, refused.line), (Refusal::Form, 3));
    assert_eq!(session.tell("\n(objects 2)\n\n(is hub 0)\n\n"), Ok(()));
    assert_eq!(session.state_lines(), ["(objects 2)", "(is hub 0)"]);
}

/// The move and the spread: refused with the numbers of what is missing, and the same in a session that was restored.
#[test]
fn moves_and_spreads() {
    let mut session = Session::load(SAMPLE).unwrap();
    assert_eq!(session.best(), Err(Refusal::Missing));
    assert_eq!(session.count(2), Err(Refusal::Place));
    session.tell("(objects 3)\n(is hub 1)\n").unwrap();
    session.backup().unwrap();
    let mut restored = Session::restore(&session.save()).unwrap();
    for session in [&mut session, &mut restored] {
        let best = session.best().unwrap();
        assert_eq!((best.action.as_str(), best.objects.as_slice()), ("fill", &[1][..]));
        assert_eq!(session.answer_bytes(), b"(best fill 1)\n");
        let counts: Vec<(u64, u64)> = session.count(2).unwrap().iter().map(|count| (count.value, count.states)).collect();
        assert_eq!(counts, [(30, 2), (120, 2)]);
        assert_eq!(session.answer_bytes(), b"(count 30 2)\n(count 120 2)\n");
        assert_eq!(session.count(1), Err(Refusal::Range));
        assert_eq!(session.count(65), Err(Refusal::Range));
        assert_eq!(session.count(17), Err(Refusal::Ground));
        assert_eq!(session.count(16).unwrap().iter().map(|count| count.states).sum::<u64>(), 65_536);
    }
}

/// A log by calls: what it comes to, what begins it again, what refuses a line, and a session that was restored in its middle.
#[test]
fn logs() {
    let mut session = Session::load(SAMPLE).unwrap();
    assert_eq!(session.did("fill", "done", &[0]), Err(Refusal::Place));
    session.tell("(objects 3)\n(is hub 1)\n").unwrap();
    session.backup().unwrap();
    let log = session.did("fill", "done", &[1]).unwrap();
    assert_eq!((log.count, log.total, session.answer_bytes()), (1, 10, &b"(did 1 10)\n"[..]));
    let mut restored = Session::restore(&session.save()).unwrap();
    for session in [&mut session, &mut restored] {
        assert_eq!(session.log(), log);
        let log = session.did("fill", "none", &[2]).unwrap();
        assert_eq!((log.count, log.total), (2, 20));
        assert_eq!(session.state_lines(), ["(objects 3)", "(is hub 1)", "(true stock 1)"]);
        assert_eq!(session.value_in_hand().unwrap().value, 120);
        for (action, variant, objects, refusal) in [
            ("drain", "done", &[0][..], Refusal::Name),
            ("fill", "done", &[], Refusal::Arity),
            ("fill", "never", &[0], Refusal::Name),
            ("fill", "done", &[3], Refusal::Range),
            ("fill done", "0", &[], Refusal::Form),
            ("fill", "done 0)", &[], Refusal::Form),
            ("", "done", &[0], Refusal::Form),
        ] {
            assert_eq!(session.did(action, variant, objects), Err(refusal), "{action} {variant}");
        }
        assert_eq!(session.log(), log);
        session.tell("(true stock 1)\n").unwrap();
        assert_eq!((session.log().count, session.log().total), (0, 0));
        let log = session.did("fill", "done", &[0]).unwrap();
        assert_eq!((log.count, log.total), (1, 20));
        session.tell("(objects 2)\n").unwrap();
        assert_eq!((session.log().count, session.log().total), (0, 0));
    }
    let mut weights = Session::load("(reward 1)\n(action try)\n(variant never 0)\n(variant ever 100)\n(start)\n").unwrap();
    weights.tell("(objects 1)\n").unwrap();
    assert_eq!(weights.did("try", "never", &[]), Err(Refusal::Weightless));
}

/// Blank lines count and are no part of the model; what closes a text is known of a restored session too.
#[test]
fn blank_lines_and_the_end_of_a_text() {
    let spaced = SAMPLE.replace('\n', "\n\n");
    let (session, rest) = Session::load_part(spaced.as_bytes()).unwrap();
    assert_eq!((session.lines(), session.model_lines().len()), (19, 10));
    assert!(rest.starts_with(b"\n(objects 2)\n\n"));

    let last = Answer::Refused { refusal: Refusal::Place, line: 0 };
    for (lines, closing) in [
        (&[][..], Answer::Nothing),
        (&["", ""], Answer::Nothing),
        (&["", "x"], last.clone()),
        (&["", " ", ""], last.clone()),
        (&["\r"], last.clone()),
        (&["(constant hub)", ""], last),
        (&["(reward 7)", "(action wait)", "(variant only 100)", "(start)"], Answer::Nothing),
    ] {
        let mut session = Session::open();
        let mut text = String::new();
        let mut answers: Vec<u8> = Vec::new();
        for line in lines {
            session.line(line);
            answers.extend(session.answer_bytes());
            text = text + line + "\n";
        }
        let mut restored = Session::restore(&session.save()).unwrap();
        assert_eq!(session.end(), closing, "{lines:?}");
        assert_eq!(restored.end(), closing, "{lines:?}");
        assert_eq!(restored.lines(), lines.len() as u64);
        answers.extend(session.answer_bytes());
        assert_eq!(answers, yindolve::run(text.as_bytes()), "{lines:?}");
    }
}

/// At every line of every example: a session that is saved and restored goes on as the other does.
#[test]
fn a_restored_session_goes_on() {
    for (name, text) in examples() {
        let mut session = Session::open();
        for line in text.lines() {
            let mut restored = Session::restore(&session.save()).unwrap_or_else(|damaged| panic!("{name}, {line}: {damaged}"));
            assert_eq!(restored.save(), session.save(), "{name}, {line}");
            assert_eq!(restored.vocabulary(), session.vocabulary());
            assert_eq!(restored.line(line), session.line(line), "{name}, {line}");
            assert_eq!((restored.listing(), restored.reward()), (session.listing(), session.reward()), "{name}, {line}");
            assert_eq!(restored.end(), session.end(), "{name}, {line}");
        }
    }
}

/// The calls give the values that the lines give, in every state of every example.
#[test]
fn values_by_calls_and_by_lines() {
    for (name, text) in examples() {
        let mut session = Session::open();
        for line in text.lines() {
            let answer = session.line(line);
            let Answer::Value(value) = answer else { continue };
            let words = |line: &str| line[1..line.len() - 1].split(' ').map(str::to_string).collect::<Vec<String>>();
            let numbers = |words: &[String]| words.iter().map(|word| word.parse().unwrap()).collect::<Vec<u64>>();
            let lines = session.state_lines();
            let mut state = session.state(numbers(&words(&lines[0])[1..])[0]);
            for line in &lines[1..] {
                let words = words(line);
                let objects = numbers(&words[2..]);
                state = if words[0] == "is" { state.is(&words[1], objects[0]) } else { state.fact(&words[1], &objects) }.unwrap();
            }
            assert_eq!(session.value(&state.finish().unwrap()), Ok(value), "{name}");
        }
    }
}
