//! Whole texts and sessions.

use yindolve::{run, run_into, Answer, Refusal, Row, Session, ANSWER_BYTES};

const SAMPLE: &[u8] = include_bytes!("../../../examples/sample.txt");
const ANSWERS: &[u8] = include_bytes!("../../../examples/sample.out");

fn sample_lines() -> impl Iterator<Item = &'static [u8]> {
    SAMPLE.split(|byte| *byte == b'\n').filter(|line| !line.is_empty())
}

#[test]
fn sample() {
    assert_eq!(run(SAMPLE), ANSWERS);
    let mut session = Session::open();
    let mut answers = Vec::new();
    let mut bytes: Vec<u8> = Vec::new();
    for line in sample_lines() {
        answers.push(session.line(line));
        bytes.extend(session.answer_bytes());
    }
    assert_eq!(bytes, ANSWERS);
    let Answer::Rows(rows) = &answers[14] else { panic!("{:?} for (show)", answers[14]) };
    assert_eq!((rows.len(), rows[0]), (6, Row::Leaf(120)));
    assert!(matches!(answers[15], Answer::Cut(cut) if (cut.row, cut.edge, cut.rows) == (5, false, 5)));
    assert!(matches!(answers[16], Answer::Value(value) if (value.value, value.steps, value.scale) == (30, 1, 8)));
    assert_eq!(answers[17], Answer::Refused { refusal: Refusal::Nothing, line: 18 });
    assert_eq!(answers[18], Answer::Nothing);
}

#[test]
fn blank_lines() {
    assert_eq!(run(b""), b"");
    assert_eq!(run(b"\n\n"), b"");
    assert_eq!(run_into(b"\n\n", &mut []), Ok(0));
    assert_eq!(run(b"\r\n"), b"(refused 1 1)\n(refused 5 0)\n");
    assert_eq!(run(b" \n"), b"(refused 1 1)\n(refused 5 0)\n");
    assert_eq!(run(b"\n\nx"), b"(refused 1 3)\n(refused 5 0)\n");
    let spaced: Vec<u8> = sample_lines().flat_map(|line| [b"\n", line, b"\n"].concat()).collect();
    let right = String::from_utf8_lossy(ANSWERS).replace("(refused 16 18)", "(refused 16 36)");
    assert_eq!(String::from_utf8_lossy(&run(&spaced)), right);
}

#[test]
fn little_room() {
    let mut answers = vec![7; 20];
    let full = run_into(SAMPLE, &mut answers).unwrap_err();
    assert_eq!((full.bytes, full.lines), (14, 13));
    assert_eq!(answers, [&ANSWERS[..14], &[7; 6]].concat());
    let mut answers = vec![7; ANSWERS.len() + 1];
    assert_eq!(run_into(SAMPLE, &mut answers), Ok(ANSWERS.len()));
    assert_eq!(answers, [ANSWERS, &[7]].concat());
    let full = run_into(b"(value)\n", &mut []).unwrap_err();
    assert_eq!((full.bytes, full.lines), (0, 0));
}

#[test]
fn answers_past_the_first_buffer() {
    let before: Vec<u8> = sample_lines().take(14).flat_map(|line| [line, b"\n"].concat()).collect();
    let once = run(&[&before[..], b"(show)\n"].concat());
    let (head, rows) = once.split_at(run(&before).len());
    let many = run(&[&before[..], &b"(show)\n".repeat(2_000)].concat());
    assert!(many.len() > 2 * ANSWER_BYTES);
    assert_eq!(many, [head, &rows.repeat(2_000)].concat());
}

#[test]
fn threads() {
    let ask = || {
        let mut session = Session::open();
        sample_lines().map(|line| session.line(line)).collect::<Vec<Answer>>()
    };
    let together: Vec<_> = (0..4).map(|_| std::thread::spawn(ask)).collect();
    for thread in together {
        assert_eq!(thread.join().unwrap(), ask());
    }
}

#[test]
fn clones_go_on_alone() {
    let mut session = Session::load(SAMPLE).unwrap();
    let mut other = session.clone();
    assert_eq!(other.backup().map(|backup| (backup.steps, backup.rows)), Ok((1, 6)));
    // a session may move to another thread
    let shown = std::thread::spawn(move || session.line("(show)")).join().unwrap();
    assert!(matches!(shown, Answer::Rows(rows) if rows.len() == 3), "one step ahead only in the clone");
}
