//! Two static libraries side by side, on the same inputs, in one run; sides.sh has put one_ before the symbols of the first and two_ before those of the second.
//! `sides count TEXT..` makes each call once, between marks for callgrind. `sides time COUNTS TEXT..` takes times and prints the table, with what callgrind counted:
//! lines of a line's number, a side, instructions and pairs. Answers and result buffers are compared first: the two may differ in pairs alone, and a library from before
//! the wider labels is lent the same listings as it takes them.

mod engine;
mod inputs;
mod old;

use engine::LEAF;
use inputs::{room, Random, Room, ARITIES};
use std::ffi::{c_char, CString};
use std::hint::black_box;
use std::time::Instant;

type Combination = unsafe extern "C" fn(
    *const u64, usize, *const u64, usize, *const u64, usize, *mut u64, usize, *mut u64, usize, *mut u64, *mut u64,
) -> u64;

const OPERATIONS: [&str; 3] = ["sum", "product", "max"];

/// The calls of one library; a combination's number is twice its operation's, one more for names apart.
struct Side {
    /// Whether it takes listings of the old kind.
    old: bool,
    check: unsafe extern "C" fn(*const u64, usize, *const u64, usize) -> u64,
    run: unsafe extern "C" fn(*const u8, usize, *mut u8, usize, *mut u64, *mut u64) -> u64,
    combinations: [Combination; 6],
}

macro_rules! side {
    ($check:ident, $run:ident, $($name:ident),*) => {{
        extern "C" {
            fn $check(arities: *const u64, arities_count: usize, words: *const u64, words_count: usize) -> u64;
            fn $run(text: *const u8, text_count: usize, answers: *mut u8, answers_count: usize, bytes: *mut u64, lines: *mut u64) -> u64;
            $(fn $name(
                arities: *const u64, arities_count: usize, first: *const u64, first_count: usize, second: *const u64, second_count: usize,
                result: *mut u64, result_count: usize, work: *mut u64, work_count: usize, rows: *mut u64, pairs: *mut u64,
            ) -> u64;)*
        }
        let old = unsafe { $check(ARITIES.as_ptr(), ARITIES.len(), [LEAF, 0, 0].as_ptr(), 3) != 0 };
        Side { old, check: $check, run: $run, combinations: [$($name),*] }
    }};
}

extern "C" {
    fn count_begin();
    fn count_end(name: *const c_char);
}

#[derive(Clone)]
enum Job {
    Check(Vec<u64>),
    Combine(usize, Vec<u64>, Vec<u64>),
    Text(Vec<u8>),
}

/// The job as this library takes it.
fn job_for(side: &Side, job: &Job) -> Job {
    match job {
        Job::Check(w) if side.old => Job::Check(old::old_listing(w)),
        Job::Combine(k, x, y) if side.old => Job::Combine(*k, old::old_listing(x), old::old_listing(y)),
        other => other.clone(),
    }
}

/// The refusal, and the rows or bytes of the answer.
fn call(side: &Side, job: &Job, room: &mut Room) -> (u64, u64) {
    let (mut size, mut more) = (0, 0);
    let refusal = unsafe {
        match job {
            Job::Check(w) => (side.check)(ARITIES.as_ptr(), 32, w.as_ptr(), w.len()),
            Job::Combine(k, x, y) => (side.combinations[*k])(
                ARITIES.as_ptr(), 32, x.as_ptr(), x.len(), y.as_ptr(), y.len(), room.result.as_mut_ptr(), 3072, room.work.as_mut_ptr(), 6144,
                &mut size, &mut more,
            ),
            Job::Text(t) => (side.run)(t.as_ptr(), t.len(), room.answers.as_mut_ptr(), room.answers.len(), &mut size, &mut more),
        }
    };
    (refusal, size)
}

/// A line of the table: the jobs of each side.
struct Line {
    what: String,
    jobs: [Vec<Job>; 2],
}

/// The refusal, and the result's rows or the answers as labels are packed now.
fn answer(side: &Side, job: &Job, room: &mut Room) -> (u64, Vec<u64>, String) {
    let (refusal, size) = call(side, job, room);
    let (words, bytes) = match job {
        Job::Check(_) => (vec![], vec![]),
        Job::Combine(..) => (room.result[..size as usize * 3].to_vec(), vec![]),
        Job::Text(_) => (vec![], room.answers[..size as usize].to_vec()),
    };
    let text = String::from_utf8(bytes).unwrap();
    match side.old {
        true => (refusal, old::listing(&words), old::answers(&text)),
        false => (refusal, words, text),
    }
}

/// A line on whose calls both libraries agree.
fn line(sides: &[Side; 2], what: String, jobs: Vec<Job>) -> Line {
    let mut room = room();
    let jobs = [0, 1].map(|k| jobs.iter().map(|job| job_for(&sides[k], job)).collect::<Vec<Job>>());
    for (one, two) in jobs[0].iter().zip(&jobs[1]) {
        let (a, b) = (answer(&sides[0], one, &mut room), answer(&sides[1], two, &mut room));
        assert!(a == b, "the answers differ: {what} {a:?} {b:?}");
    }
    Line { what, jobs }
}

/// Every line of the table.
fn lines(sides: &[Side; 2], texts: &[String]) -> Vec<Line> {
    let mut r = Random(88172645463325252);
    let mut lent = room();
    let mut all = vec![];
    for rows in [10, 30, 100] {
        let jobs = (0..24).map(|_| Job::Check(inputs::listing_of(&mut r, rows, 6))).collect();
        all.push(line(sides, format!("check, {rows} rows"), jobs));
    }
    let jobs = (0..4).map(|k| Job::Check(inputs::chain(k, 998, k))).collect();
    all.push(line(sides, "check, chains of 1,000 rows".to_string(), jobs));
    for (k, names) in [(0, "shared"), (1, "apart")] {
        for (what, size, op, n) in [("small", 10, 0, 200), ("middling", 35, 0, 200), ("large", 260, 0, 300), ("largest", 3500, 2, 20)] {
            let mut jobs = vec![];
            while jobs.len() < n {
                let (x, y) = inputs::operands(&mut r, size);
                let job = Job::Combine(2 * op + k, x, y);
                if call(&sides[0], &job_for(&sides[0], &job), &mut lent).0 == 0 {
                    jobs.push(job);
                }
            }
            all.push(line(sides, format!("{} {names}, {what}", OPERATIONS[op]), jobs));
        }
    }
    for zeros in [0, 2, 4, 6, 8] {
        let operands: Vec<_> = (0..500).map(|_| (inputs::with_zeros(&mut r, zeros), inputs::with_zeros(&mut r, zeros))).collect();
        for op in [1, 0, 2] {
            let jobs = operands.iter().map(|(x, y)| Job::Combine(2 * op, x.clone(), y.clone())).collect();
            all.push(line(sides, format!("{}, {zeros} edges in 10 to leaf 0", OPERATIONS[op]), jobs));
        }
    }
    for op in [1, 0, 2] {
        let jobs = (0..100).map(|_| Job::Combine(2 * op, inputs::chain(0, 10, 0), inputs::chain(16, 100, 5))).collect();
        all.push(line(sides, format!("{}, chains", OPERATIONS[op]), jobs));
    }
    for path in texts {
        let text = std::fs::read_to_string(path).unwrap();
        let text: String = text.lines().filter(|l| !l.is_empty()).flat_map(|l| [l, "\n"]).collect();
        let name = path.rsplit('/').next().unwrap().trim_end_matches(".txt");
        all.push(line(sides, format!("text {name}"), vec![Job::Text(text.into_bytes())]));
    }
    all
}

fn go(side: &Side, jobs: &[Job], room: &mut Room) {
    for job in jobs {
        black_box(call(side, black_box(job), room));
    }
}

fn count(sides: &[Side; 2], lines: &[Line]) {
    let mut room = room();
    for (i, l) in lines.iter().enumerate() {
        for k in [0, 1] {
            let name = CString::new(format!("{i} {k}")).unwrap();
            unsafe { count_begin() };
            go(&sides[k], &l.jobs[k], &mut room);
            unsafe { count_end(name.as_ptr()) };
        }
    }
}

const ROUNDS: usize = 100;
const SAMPLE: f64 = 100_000.0;

/// The least time of all calls of each line, in ns, for both sides: a sample of each line and side in turn, round by round, the sides taking turns in being first.
fn times(sides: &[Side; 2], lines: &[Line]) -> Vec<[f64; 2]> {
    let mut room = room();
    let mut least = vec![[f64::MAX; 2]; lines.len()];
    for round in 0..ROUNDS {
        for (l, best) in lines.iter().zip(&mut least) {
            let repeats = (SAMPLE / best[0].min(best[1])).max(1.0) as usize;
            for k in [round % 2, 1 - round % 2] {
                go(&sides[k], &l.jobs[k], &mut room);
                let start = Instant::now();
                for _ in 0..repeats {
                    go(&sides[k], &l.jobs[k], &mut room);
                }
                best[k] = best[k].min(start.elapsed().as_nanos() as f64 / repeats as f64);
            }
        }
    }
    least
}

/// What callgrind counted for a line, for both sides.
#[derive(Clone, Copy, Default)]
struct Count {
    instructions: [f64; 2],
    pairs: [u64; 2],
}

fn print(lines: &[Line], counts: &[Count], times: &[[f64; 2]]) {
    println!("{:<36}{:>17}{:>23}{:>8}{:>20}{:>8}", "", "pairs walked", "instructions, 1,000", "ratio", "least time, µs", "ratio");
    for ((l, c), t) in lines.iter().zip(counts).zip(times) {
        let n = c.instructions.map(|n| n / 1e3);
        println!(
            "{:<36}{:>9}{:>8}{:>12.1}{:>11.1}{:>8.3}{:>11.1}{:>9.1}{:>8.3}",
            l.what, c.pairs[0], c.pairs[1], n[0], n[1], n[1] / n[0], t[0] / 1e3, t[1] / 1e3, t[1] / t[0]
        );
    }
}

fn main() {
    let sides = [
        side!(
            one_yindolve_check, one_yindolve_run, one_yindolve_sum_shared, one_yindolve_sum_apart, one_yindolve_product_shared,
            one_yindolve_product_apart, one_yindolve_max_shared, one_yindolve_max_apart
        ),
        side!(
            two_yindolve_check, two_yindolve_run, two_yindolve_sum_shared, two_yindolve_sum_apart, two_yindolve_product_shared,
            two_yindolve_product_apart, two_yindolve_max_shared, two_yindolve_max_apart
        ),
    ];
    let words: Vec<String> = std::env::args().skip(1).collect();
    if words[0] == "count" {
        return count(&sides, &lines(&sides, &words[1..]));
    }
    let lines = lines(&sides, &words[2..]);
    let mut counts = vec![Count::default(); lines.len()];
    for l in std::fs::read_to_string(&words[1]).unwrap().lines() {
        let n: Vec<usize> = l.split(' ').map(|n| n.parse().unwrap()).collect();
        counts[n[0]].instructions[n[1]] = n[2] as f64;
        counts[n[0]].pairs[n[1]] = n[3] as u64;
    }
    print(&lines, &counts, &times(&sides, &lines));
}
