//! The library's calls beside plain Rust, on the same inputs, in one run; prints Markdown tables. "Rust" is the engine's own sources compiled by rustc (plain.sh), "by hand" the
//! same tables written in Rust with unchecked indices (engine.rs), "reference" the independent implementation (host/reference). Answers are compared before anything is timed.

mod engine;
mod inputs;
mod linked;
mod tables;

use engine::Operation;
use inputs::{room, Random, Room, ARITIES};
use std::hint::black_box;

type Combination = fn(&[u64], &[u64], &[u64], &mut [u64], &mut [u64], &mut u64, &mut u64) -> u64;

/// The calls of the library, or of its sources as plain Rust.
struct Engine {
    check: fn(&[u64], &[u64]) -> u64,
    /// Apart, then shared, of each operation.
    combinations: [[Combination; 2]; 3],
    value: fn(&[u64], &[u64], u64, &[u64], &[u64], &mut u64) -> u64,
    regress: fn(&[u64], &[u64], &[u64], &[u64], &mut [u64], &mut [u64], &mut u64) -> u64,
    free: fn(&[u64], &[u64], u64, &mut [u64], &[u64], &mut u64) -> u64,
    cut: fn(&[u64], &[u64], &mut [u64], &mut [u64], &mut u64, &mut u64, &mut u64) -> u64,
    run: fn(&[u8], &mut [u8], &mut u64, &mut u64) -> u64,
}

macro_rules! engine {
    ($($from:ident)::+) => {{
        use $($from)::+::*;
        Engine {
            check: yindolve_check,
            combinations: [
                [yindolve_sum_apart, yindolve_sum_shared], [yindolve_product_apart, yindolve_product_shared], [yindolve_max_apart, yindolve_max_shared],
            ],
            value: yindolve_value, regress: yindolve_regress, free: yindolve_free_parameters, cut: yindolve_cut, run: yindolve_run,
        }
    }};
}

static LIBRARY: Engine = engine!(linked);
static RUST: Engine = engine!(plain::c_library);
static BOTH: [&Engine; 2] = [&LIBRARY, &RUST];

const OPERATIONS: [Operation; 3] = [Operation::Sum, Operation::Product, Operation::Max];

impl Engine {
    fn checks(&self, w: &[u64]) -> bool {
        (self.check)(&ARITIES, w) == 0
    }

    fn combine(&self, op: usize, shared: usize, x: &[u64], y: &[u64], room: &mut Room) -> engine::Answer {
        let (mut rows, mut pairs) = (0, 0);
        let refusal = (self.combinations[op][shared])(&ARITIES, x, y, &mut room.result, &mut room.work, &mut rows, &mut pairs);
        if refusal == 0 { Ok((rows, pairs)) } else { Err(refusal) }
    }

    fn value_of(&self, arities: &[u64], w: &[u64], objects: u64, facts: &[u64]) -> Result<u64, u64> {
        let mut value = 0;
        let refusal = (self.value)(arities, w, objects, &[0; 16], facts, &mut value);
        if refusal == 0 { Ok(value) } else { Err(refusal) }
    }

    fn regressed(&self, w: &[u64], truths: &[u64], spans: &[u64], room: &mut Room) -> (u64, u64) {
        let mut rows = 0;
        ((self.regress)(&ARITIES, w, truths, spans, &mut room.result, &mut room.work, &mut rows), rows)
    }

    fn freed(&self, w: &[u64], room: &mut Room) -> (u64, u64) {
        let mut rows = 0;
        ((self.free)(&ARITIES, w, 4, &mut room.result, &room.work, &mut rows), rows)
    }

    /// Cuts until none goes: how many went, and the refusal; the rows that are left stand in the result.
    fn cut_all(&self, arities: &[u64], words: &[u64], room: &mut Room) -> (u64, u64) {
        let (mut now, mut cuts) = (words.to_vec(), 0);
        loop {
            let (mut row, mut edge, mut rows) = (0, 0, 0);
            let refusal = (self.cut)(arities, &now, &mut room.result, &mut room.work, &mut row, &mut edge, &mut rows);
            if refusal != 0 {
                return (cuts, refusal);
            }
            cuts += 1;
            now = room.result[..rows as usize * 3].to_vec();
        }
    }

    /// The bytes of a text's answers.
    fn ran(&self, text: &[u8], room: &mut Room) -> usize {
        let (mut bytes, mut lines) = (0, 0);
        assert!((self.run)(text, &mut room.answers, &mut bytes, &mut lines) == 0);
        bytes as usize
    }
}

// ----- measuring

type Run = Box<dyn FnMut()>;

/// A call, what is taken off again (the listing check; the text before a backup), and their samples in ns.
struct Side {
    call: Run,
    part: Option<Run>,
    samples: Vec<f64>,
    taken_off: Vec<f64>,
    times: usize,
    every: usize,
}

struct Line {
    what: String,
    /// What a sample is divided by: rows, pairs or calls, and 1,000 or 1,000,000 for µs and ms.
    per: f64,
    wanted: Option<f64>,
    sides: Vec<Side>,
}

struct Table {
    title: &'static str,
    what: &'static str,
    unit: &'static str,
    /// The name of a third side.
    third: Option<&'static str>,
    lines: Vec<Line>,
}

const ROUNDS: usize = 250;
const SAMPLE: f64 = 100_000.0;
const US: f64 = 1e3;
const MS: f64 = 1e6;

fn side(call: impl FnMut() + 'static) -> Side {
    Side { call: Box::new(call), part: None, samples: vec![], taken_off: vec![], times: 1, every: 1 }
}

fn part(mut side: Side, part: impl FnMut() + 'static) -> Side {
    side.part = Some(Box::new(part));
    side
}

fn keep<T>(v: T) -> &'static T {
    Box::leak(Box::new(v))
}

/// This thread's processor time, in ns.
fn now() -> f64 {
    extern "C" {
        fn clock_gettime(clock: i32, time: *mut [i64; 2]) -> i32;
    }
    const CLOCK_THREAD_CPUTIME_ID: i32 = 3;
    let mut time = [0; 2];
    assert!(unsafe { clock_gettime(CLOCK_THREAD_CPUTIME_ID, &mut time) } == 0);
    time[0] as f64 * 1e9 + time[1] as f64
}

fn timed(call: &mut Run, times: usize) -> f64 {
    let start = now();
    for _ in 0..times {
        call();
    }
    (now() - start) / times as f64
}

/// The time of one call, after as many calls again have warmed up; a long call warms itself up.
fn sample(call: &mut Run, times: usize) -> f64 {
    if times > 1 {
        timed(call, times);
    }
    timed(call, times)
}

/// A sample of each in turn, round by round, so that a busy time of the machine falls on all alike, the sides taking turns in being first. Long calls are sampled less often.
fn measure(tables: &mut [Table]) {
    let mut lines: Vec<&mut Line> = tables.iter_mut().flat_map(|t| &mut t.lines).collect();
    for line in &mut lines {
        for (k, side) in line.sides.iter_mut().enumerate() {
            let once = timed(&mut side.call, 3);
            side.times = ((SAMPLE / once) as usize).max(1);
            side.every = ((once / SAMPLE) as usize).clamp(1, if k < 2 { 10 } else { ROUNDS / 5 });
        }
    }
    for round in 0..ROUNDS {
        for line in &mut lines {
            let n = line.sides.len();
            for k in 0..n {
                let side = &mut line.sides[(k + round) % n];
                if round % side.every == 0 {
                    side.samples.push(sample(&mut side.call, side.times));
                    if let Some(part) = &mut side.part {
                        side.taken_off.push(sample(part, side.times));
                    }
                }
            }
        }
    }
}

/// The time that a twentieth of the samples keep below.
fn low(samples: &[f64]) -> f64 {
    let mut v = samples.to_vec();
    v.sort_by(f64::total_cmp);
    v.get(v.len() / 20).copied().unwrap_or(0.0)
}

/// Three digits or so.
fn shown(x: f64) -> String {
    if x < 0.0995 { format!("{x:.3}") } else if x < 9.95 { format!("{x:.2}") } else if x < 99.5 { format!("{x:.1}") } else { format!("{x:.0}") }
}

fn ratio(x: f64) -> String {
    if x < 0.005 { "below 0.01".to_string() } else { format!("{x:.2}") }
}

fn print(table: &Table) {
    let wants = table.lines.iter().any(|line| line.wanted.is_some());
    let mut head = vec![table.what.to_string(), format!("library, {}", table.unit), "Rust".to_string(), "ratio".to_string()];
    head.extend(table.third.iter().flat_map(|name| [name.to_string(), "ratio".to_string()]));
    head.extend(wants.then(|| "wanted".to_string()));
    println!("\n### {}\n\n| {} |\n|{}", table.title, head.join(" | "), "---|".repeat(head.len()));
    for line in &table.lines {
        let times: Vec<f64> = line.sides.iter().map(|s| (low(&s.samples) - low(&s.taken_off)) / line.per).collect();
        let mut row = vec![line.what.clone(), shown(times[0])];
        for k in 1..if table.third.is_some() { 3 } else { 2 } {
            row.extend(times.get(k).map_or(["-".to_string(), "-".to_string()], |t| [shown(*t), ratio(times[0] / t)]));
        }
        row.extend(wants.then(|| line.wanted.map_or("-".to_string(), |w| format!("{w}"))));
        println!("| {} |", row.join(" | "));
    }
}

// ----- the tables

fn checks(r: &mut Random) -> Table {
    let mut lines = vec![];
    for (rows, wanted) in [(10, 25.0), (30, 25.0), (100, 25.0), (1000, 45.0)] {
        let lists = keep((0..24).map(|_| inputs::listing_of(r, rows, 6)).collect::<Vec<_>>());
        for w in lists {
            let mut bad = w.clone();
            let k = r.below(bad.len() as u64) as usize;
            bad[k] = bad[k].wrapping_add(r.between(1, 3));
            for w in [w, &bad] {
                assert!(BOTH.iter().all(|e| e.checks(w) == engine::check(&ARITIES, w)), "the checks differ");
            }
        }
        let mut sides: Vec<Side> = BOTH.iter().map(|e| side(move || for w in lists { black_box(e.checks(black_box(w))); })).collect();
        sides.push(side(move || for w in lists { black_box(engine::check(&ARITIES, black_box(w))); }));
        lines.push(Line { what: format!("{rows}"), per: lists.iter().map(|w| w.len() / 3).sum::<usize>() as f64, wanted: Some(wanted), sides });
    }
    Table { title: "Listing check", what: "Rows", unit: "ns a row", third: Some("by hand"), lines }
}

struct Case {
    x: Vec<u64>,
    y: Vec<u64>,
    pairs: u64,
}

/// Operands of about `pairs` pairs each, on which all agree.
fn cases(r: &mut Random, op: usize, shared: usize, pairs: usize, n: usize) -> Vec<Case> {
    let (mut v, mut lent, mut hand) = (vec![], [room(), room()], room());
    while v.len() < n {
        let (x, y) = inputs::operands(r, pairs);
        if x.len() > 3072 || y.len() > 3072 {
            continue;
        }
        for tried in 0..3 {
            let a = engine::combine(OPERATIONS[tried], shared == 0, &ARITIES, &x, &y, &mut hand.result, &mut hand.work);
            for (e, room) in BOTH.iter().zip(&mut lent) {
                assert!(e.combine(tried, shared, &x, &y, room) == a && room.result == hand.result, "the combinations differ");
            }
        }
        if let Ok((_, p)) = LIBRARY.combine(op, shared, &x, &y, &mut lent[0]) {
            RUST.combine(op, shared, &x, &y, &mut lent[1]).unwrap();
            engine::combine(OPERATIONS[op], shared == 0, &ARITIES, &x, &y, &mut hand.result, &mut hand.work).unwrap();
            if (p as usize) * 10 >= pairs * 9 && (p as usize) * 10 <= pairs * 11 {
                v.push(Case { x, y, pairs: p });
            }
        }
    }
    v
}

fn combinations(r: &mut Random) -> [Table; 2] {
    let (mut pair, mut whole) = (vec![], vec![]);
    for (shared, names) in [(1, "shared"), (0, "apart")] {
        for (pairs, wanted) in [(10, None), (35, Some(15.0)), (260, Some(28.0)), (3500, Some(45.0))] {
            // sums and products of random operands of the largest size pass the rows of a result
            let op = if pairs > 1000 { 2 } else { 0 };
            let cases = keep(cases(r, op, shared, pairs, if pairs > 1000 { 9 } else { 24 }));
            let calls = || {
                let call = |e: &'static Engine| {
                    let mut lent = room();
                    side(move || for c in cases { black_box(e.combine(op, shared, black_box(&c.x), &c.y, &mut lent)).unwrap(); })
                };
                let mut lent = room();
                let hand = move || for c in cases {
                    black_box(engine::combine(OPERATIONS[op], shared == 0, &ARITIES, black_box(&c.x), &c.y, &mut lent.result, &mut lent.work)).unwrap();
                };
                [call(&LIBRARY), call(&RUST), side(hand)]
            };
            let [library, rust, hand] = calls();
            let check = |s: Side, e: &'static Engine| part(s, move || for c in cases { black_box(e.checks(black_box(&c.x)) & e.checks(&c.y)); });
            let hand = part(hand, move || for c in cases { black_box(engine::check(&ARITIES, black_box(&c.x)) & engine::check(&ARITIES, &c.y)); });
            let total: u64 = cases.iter().map(|c| c.pairs).sum();
            let what = format!("{names}, {pairs}");
            pair.push(Line { what: what.clone(), per: total as f64, wanted, sides: vec![check(library, &LIBRARY), check(rust, &RUST), hand] });
            let wanted = if pairs == 10 { Some(1.0) } else { None };
            whole.push(Line { what, per: cases.len() as f64 * US, wanted, sides: calls().into() });
        }
    }
    let what = "Names, pairs";
    [
        Table { title: "Combination, whole call", what, unit: "µs", third: Some("by hand"), lines: whole },
        Table { title: "Combination, the check of both operands taken off", what, unit: "ns a pair", third: Some("by hand"), lines: pair },
    ]
}

fn values(r: &mut Random) -> [Table; 2] {
    let zeros = [0; 16];
    let parity = keep(vec![(inputs::parity(), vec![])]);
    let random = keep((0..24).map(|_| (inputs::listing_of(r, 50, 3), inputs::facts(r, 60))).collect::<Vec<_>>());
    let line = |what: &str, per: f64, wanted: f64, lists: &'static Vec<(Vec<u64>, Vec<u64>)>| {
        for (w, f) in lists {
            assert!(BOTH.iter().all(|e| e.value_of(&ARITIES, w, 10, f) == engine::value(&ARITIES, w, 10, &zeros, f)), "the values differ");
        }
        let mut sides: Vec<Side> =
            BOTH.iter().map(|e| side(move || for (w, f) in lists { let _ = black_box(e.value_of(&ARITIES, black_box(w), 10, f)); })).collect();
        sides.push(side(move || for (w, f) in lists { let _ = black_box(engine::value(&ARITIES, black_box(w), 10, &zeros, f)); }));
        Line { what: what.to_string(), per, wanted: Some(wanted), sides }
    };
    let lines = vec![
        line("a row visited, 10^6 valuations all needed", 1_222_221.0, 12.0, parity),
        line("a call on 50 rows and 60 facts, 3 variables, 10 objects", 24.0, 10_000.0, random),
    ];
    let mut by_tables = vec![];
    for (what, words, facts, variables) in tables::cases() {
        let (words, facts) = (keep(words), keep(facts));
        let value = LIBRARY.value_of(&tables::ARITIES, words, tables::OBJECTS, facts);
        assert!(value == Ok(2) && value == RUST.value_of(&tables::ARITIES, words, tables::OBJECTS, facts));
        let mut sides: Vec<Side> =
            BOTH.iter().map(|e| side(move || { let _ = black_box(e.value_of(&tables::ARITIES, black_box(words), tables::OBJECTS, facts)); })).collect();
        if variables <= 4 {
            assert!(value == Ok(tables::plain(words, variables, facts)), "the values differ");
            sides.push(side(move || { black_box(tables::plain(black_box(words), variables, facts)); }));
        }
        by_tables.push(Line { what: what.to_string(), per: US, wanted: None, sides });
    }
    [
        Table { title: "Value", what: "Case", unit: "ns", third: Some("by hand"), lines },
        Table { title: "Value by tables, 60 objects", what: "Case", unit: "µs", third: Some("all valuations"), lines: by_tables },
    ]
}

fn regressions(r: &mut Random) -> Table {
    // predicate 1 becomes true of the pairs whose first object is that of constant 0
    let truth = keep(inputs::taught());
    let spans = keep({
        let mut spans = vec![0; 64];
        spans[3] = truth.len() as u64;
        spans
    });
    let mut lists = vec![];
    let mut lent = [room(), room()];
    let mut out = 0;
    while lists.len() < 24 {
        let labels = inputs::labels(r, 18, 6);
        let w = inputs::listing(r, &labels, 26, &(0..10).collect::<Vec<u64>>());
        if w.len() / 3 < 185 || w.len() / 3 > 195 || !labels.iter().any(|&l| engine::predicate(l) == 1) {
            continue;
        }
        let answers: Vec<_> = BOTH.iter().zip(&mut lent).map(|(e, room)| e.regressed(&w, truth, spans, room)).collect();
        assert!(answers[0] == answers[1] && lent[0].result == lent[1].result, "the regressions differ");
        if answers[0].0 == 0 {
            out += answers[0].1;
            lists.push(w);
        }
    }
    let lists = keep(lists);
    let per = lists.len() as f64 * US;
    let sides = BOTH.iter().map(|e| {
        let mut lent = room();
        side(move || for w in lists { black_box(e.regressed(black_box(w), truth, spans, &mut lent)); })
    });
    let what = format!("regression: 190 rows, 18 labels, under 4 rows; {} rows out on average", out / 24);
    let mut lines = vec![Line { what, per, wanted: Some(1000.0), sides: sides.collect() }];
    let freed = keep(lists.iter().map(|w| inputs::with_parameters(w)).collect::<Vec<_>>());
    for w in freed {
        let answers: Vec<_> = BOTH.iter().zip(&mut lent).map(|(e, room)| e.freed(w, room)).collect();
        assert!(answers[0] == answers[1] && answers[0].0 == 0 && lent[0].result == lent[1].result, "the freed listings differ");
    }
    let sides = BOTH.iter().map(|e| {
        let mut lent = room();
        side(move || for w in freed { black_box(e.freed(black_box(w), &mut lent)); })
    });
    lines.push(Line { what: "freeing: 190 rows, 4 parameters".to_string(), per, wanted: None, sides: sides.collect() });
    Table { title: "Regression and freeing", what: "Call", unit: "µs", third: None, lines }
}

fn cuts() -> Table {
    let mut lines = vec![];
    let logistics = inputs::rows(include_str!("logistics.rows"));
    for (what, arities, words, wanted) in [
        ("the first value diagram of examples/logistics.txt, 46 rows", vec![2, 2, 2, 2, 0], logistics, Some(10.0)),
        ("a chain of 21 links and a 5-clique in it against a 4-clique", vec![2, 2], inputs::rows(include_str!("chain.rows")), None),
        ("a ladder and a 5-clique in it against a 4-clique", vec![2, 2], inputs::rows(include_str!("ladder.rows")), None),
        ("all ordered pairs of 7 variables against those of 6", vec![2, 2], inputs::cliques(7), None),
        ("all ordered pairs of 8 variables against those of 7", vec![2, 2], inputs::cliques(8), Some(20.0)),
    ] {
        let (mut all, words) = (arities, keep(words));
        all.resize(32, 0);
        let all = keep(all);
        let mut lent = [room(), room()];
        let answers: Vec<_> = BOTH.iter().zip(&mut lent).map(|(e, room)| e.cut_all(all, words, room)).collect();
        assert!(answers[0] == answers[1] && lent[0].result == lent[1].result, "the cuts differ");
        let (gone, refusal) = answers[0];
        let sides = BOTH.iter().map(|e| {
            let mut lent = room();
            side(move || { black_box(e.cut_all(all, black_box(words), &mut lent)); })
        });
        lines.push(Line { what: format!("{what}: {gone} cuts, then {refusal}"), per: MS, wanted, sides: sides.collect() });
    }
    Table { title: "All cuts of a diagram", what: "Diagram", unit: "ms", third: None, lines }
}

/// The sides of a text, and of the text before it, whose time is taken off.
fn text_sides(text: &'static [u8], before: Option<&'static [u8]>) -> Vec<Side> {
    let expected = reference::session::run(text);
    let mut sides: Vec<Side> = BOTH.iter().map(|e| {
        let mut lent = room();
        let bytes = e.ran(text, &mut lent);
        assert!(lent.answers[..bytes] == expected, "the answers differ");
        let call = side(move || { black_box(e.ran(black_box(text), &mut lent)); });
        let Some(before) = before else { return call };
        let mut lent = room();
        part(call, move || { black_box(e.ran(black_box(before), &mut lent)); })
    }).collect();
    let call = side(move || { black_box(reference::session::run(black_box(text))); });
    sides.push(match before {
        Some(before) => part(call, move || { black_box(reference::session::run(black_box(before))); }),
        None => call,
    });
    sides
}

fn backups() -> Table {
    let model = |text: &str| text[..text.find("(start)\n").unwrap() + 8].to_string();
    let line = |what: &str, before: String, wanted: Option<f64>| {
        let text = keep(format!("{before}(backup)\n"));
        Line { what: what.to_string(), per: MS, wanted, sides: text_sides(text.as_bytes(), Some(keep(before).as_bytes())) }
    };
    let ground = include_str!("ground.txt");
    let lines = vec![
        line("bench/ground.txt, its fourth backup, 52,700 pairs", ground[..ground.rfind("(backup)").unwrap()].to_string(), Some(1.5)),
        line("examples/sample.txt, its first", model(include_str!("../examples/sample.txt")), None),
        line("examples/logistics.txt, its first", model(include_str!("../examples/logistics.txt")), None),
    ];
    Table { title: "One backup", what: "Model", unit: "ms", third: Some("reference"), lines }
}

/// Texts by their paths, whole.
fn runs(paths: Vec<String>) -> Table {
    let mut lines = vec![];
    for path in paths {
        let text = keep(std::fs::read(&path).unwrap());
        let what = path.rsplit('/').next().unwrap().trim_end_matches(".txt").to_string();
        lines.push(Line { what, per: MS, wanted: None, sides: text_sides(text, None) });
    }
    Table { title: "Whole runs of nine models, by the library", what: "Text", unit: "ms", third: Some("reference"), lines }
}

fn main() {
    let mut r = Random(88172645463325252);
    let mut all = vec![checks(&mut r)];
    all.extend(combinations(&mut r));
    all.extend(values(&mut r));
    all.push(regressions(&mut r));
    all.push(cuts());
    all.push(backups());
    all.push(runs(std::env::args().skip(1).collect()));
    measure(&mut all);
    all.iter().for_each(print);
}
