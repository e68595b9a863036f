//! The engine's calls in tight Rust: the same tables and the same order of work, indices unchecked. What the proved library is compared with.

pub const LEAF: u64 = u64::MAX;
pub const PREDICATES: usize = 32;
pub const PLACES: usize = 6;
pub const TERM_BITS: usize = 8;
pub const FACT_WORDS: usize = 1 + PLACES;
const CONSTANTS: usize = 16;
const FIXED_END: u64 = 20;
pub const FIRST_VARIABLE: u64 = 64;
const VARIABLES: u64 = 64;
const TERM_END: usize = (FIRST_VARIABLE + VARIABLES) as usize;
const MOST: u64 = 1_000_000_000_000_000_000;
const ROWS: usize = 1024;
const SPACE_ROWS: usize = 2048;
const FEW: usize = 320;
const PAIRS: usize = 4096;
const ENTRY: usize = 5;
const PLAN_BUCKETS: usize = 4096;
const BUCKETS: usize = 2048;

#[derive(Clone, Copy, PartialEq, Eq, Debug)]
pub enum Operation {
    Sum,
    Product,
    Max,
}

/// Rows and pairs, or the number of the refusal.
pub type Answer = Result<(u64, u64), u64>;

#[inline(always)]
fn at<T: Copy>(s: &[T], i: usize) -> T {
    unsafe { *s.get_unchecked(i) }
}

#[inline(always)]
fn put<T>(s: &mut [T], i: usize, v: T) {
    unsafe { *s.get_unchecked_mut(i) = v }
}

// ----- labels

pub const fn label(predicate: u64, terms: &[u64]) -> u64 {
    let (mut l, mut k) = (predicate, 0);
    while k < PLACES {
        l = (l << TERM_BITS) + if k < terms.len() { terms[k] } else { 0 };
        k += 1;
    }
    l
}

#[inline(always)]
pub fn predicate(l: u64) -> u64 {
    l >> (TERM_BITS * PLACES)
}

#[inline(always)]
pub fn place(l: u64, k: usize) -> u64 {
    l >> (TERM_BITS * (PLACES - 1 - k)) & ((1 << TERM_BITS) - 1)
}

// ----- the listing check

fn is_term(t: u64) -> bool {
    t < FIXED_END || t >= FIRST_VARIABLE && t < TERM_END as u64
}

fn label_fits(arities: &[u64], l: u64) -> bool {
    let p = predicate(l);
    if p >= PREDICATES as u64 {
        return false;
    }
    let a = at(arities, p as usize) as usize;
    l & ((1 << (TERM_BITS * (PLACES - a))) - 1) == 0 && (0..a).all(|k| is_term(place(l, k))) && (p != 0 || place(l, 0) < place(l, 1))
}

fn row_fits(arities: &[u64], w: &[u64], i: usize) -> bool {
    let (l, b, c) = (at(w, i * 3), at(w, i * 3 + 1), at(w, i * 3 + 2));
    if l == LEAF {
        return b <= MOST && c == 0;
    }
    if !label_fits(arities, l) {
        return false;
    }
    let (t, f) = (b as usize, c as usize);
    t < i && f < i && t != f && at(w, t * 3) > l && at(w, f * 3) > l
}

#[inline(always)]
fn hash(a: u64, b: u64, c: u64) -> usize {
    let x = (a >> 32) * 44453
        + (a as u32 as u64) * 33739
        + (b as u32 as u64) * 57641
        + (b >> 32) * 60493
        + (c as u32 as u64) * 25717;
    ((x + (x >> 7) + (x >> 17)) % BUCKETS as u64) as usize
}

/// One up from the place of the row, or 0.
#[inline(always)]
fn lookup(w: &[u64], heads: &[u16], links: &[u16], h: usize, a: u64, b: u64, c: u64) -> usize {
    let mut n = at(heads, h) as usize;
    while n != 0 {
        let k = n - 1;
        if at(w, k * 3) == a && at(w, k * 3 + 1) == b && at(w, k * 3 + 2) == c {
            return n;
        }
        n = at(links, k) as usize;
    }
    0
}

fn enter_row(w: &[u64], heads: &mut [u16], links: &mut [u16], i: usize) -> bool {
    let (a, b, c) = (at(w, i * 3), at(w, i * 3 + 1), at(w, i * 3 + 2));
    let h = hash(a, b, c);
    if lookup(w, heads, links, h, a, b, c) != 0 {
        return false;
    }
    put(links, i, at(heads, h));
    put(heads, h, (i + 1) as u16);
    true
}

fn finish_rows(w: &[u64], i: usize, n: usize) -> usize {
    if at(w, i * 3) == LEAF {
        return if i == n { i + 1 } else { 0 };
    }
    let (t, f) = (at(w, i * 3 + 1) as usize, at(w, i * 3 + 2) as usize);
    let a = if t < n { n } else { finish_rows(w, t, n) };
    if a == 0 {
        return 0;
    }
    let b = if f < a { a } else { finish_rows(w, f, a) };
    if b == i {
        i + 1
    } else {
        0
    }
}

#[inline(never)]
pub fn check(arities: &[u64], w: &[u64]) -> bool {
    if arities.len() != PREDICATES || arities[0] != 2 || arities.iter().any(|&a| a > PLACES as u64) {
        return false;
    }
    let m = w.len() / 3;
    if m * 3 != w.len() || m == 0 || m > ROWS {
        return false;
    }
    let mut heads = [0u16; BUCKETS];
    let mut links = [0u16; ROWS];
    for i in 0..m {
        if !row_fits(arities, w, i) || !enter_row(w, &mut heads, &mut links, i) {
            return false;
        }
    }
    finish_rows(w, m - 1, 0) == m
}

// ----- the walk of pairs

struct Walk<'a> {
    x: &'a [u64],
    y: &'a [u64],
    plan: &'a mut [u64],
    heads: &'a mut [u16],
    op: Operation,
    limit: usize,
    count: usize,
}

const FULL: usize = usize::MAX;

#[inline(always)]
fn pair_hash(k: u64) -> usize {
    (k * 2654435769 >> 16) as usize % PLAN_BUCKETS
}

impl Walk<'_> {
    #[inline(always)]
    fn visit(&mut self, i: usize, j: usize) -> usize {
        let k = (i * SPACE_ROWS + j) as u64;
        let mut n = at(self.heads, pair_hash(k)) as usize;
        while n != 0 {
            let e = (n - 1) * ENTRY;
            if at(self.plan, e) == k {
                return n - 1;
            }
            n = at(self.plan, e + 1) as usize;
        }
        self.below(i, j)
    }

    fn below(&mut self, i: usize, j: usize) -> usize {
        let (x, y) = (self.x, self.y);
        let (a, b) = (at(x, i * 3), at(y, j * 3));
        let (xt, xf) = (at(x, i * 3 + 1), at(x, i * 3 + 2));
        let (yt, yf) = (at(y, j * 3 + 1), at(y, j * 3 + 2));
        let l = if a <= b { a } else { b };
        if l == LEAF || self.op == Operation::Product && (a == LEAF && xt == 0 || b == LEAF && yt == 0) {
            return self.add(i, j, LEAF, xt, yt);
        }
        let (ti, tj, fi, fj) = if a < b {
            (xt as usize, j, xf as usize, j)
        } else if b < a {
            (i, yt as usize, i, yf as usize)
        } else {
            (xt as usize, yt as usize, xf as usize, yf as usize)
        };
        let t = self.visit(ti, tj);
        if t == FULL {
            return FULL;
        }
        let f = self.visit(fi, fj);
        if f == FULL {
            return FULL;
        }
        self.add(i, j, l, t as u64, f as u64)
    }

    #[inline(always)]
    fn add(&mut self, i: usize, j: usize, l: u64, first: u64, second: u64) -> usize {
        let n = self.count;
        if n == self.limit {
            return FULL;
        }
        let k = (i * SPACE_ROWS + j) as u64;
        let h = pair_hash(k);
        let e = n * ENTRY;
        put(self.plan, e, k);
        put(self.plan, e + 1, at(self.heads, h) as u64);
        put(self.plan, e + 2, l);
        put(self.plan, e + 3, first);
        put(self.plan, e + 4, second);
        put(self.heads, h, (n + 1) as u16);
        self.count = n + 1;
        n
    }
}

// ----- the working space

struct Space<'a> {
    rows: &'a mut [u64],
    heads: &'a mut [u16],
    links: &'a mut [u16],
    count: usize,
}

impl Space<'_> {
    /// The place of the row, or FULL.
    #[inline(always)]
    fn form(&mut self, a: u64, b: u64, c: u64) -> usize {
        let h = hash(a, b, c);
        let n = lookup(self.rows, self.heads, self.links, h, a, b, c);
        if n != 0 {
            return n - 1;
        }
        let k = self.count;
        if k == SPACE_ROWS {
            return FULL;
        }
        put(self.rows, k * 3, a);
        put(self.rows, k * 3 + 1, b);
        put(self.rows, k * 3 + 2, c);
        put(self.links, k, at(self.heads, h));
        put(self.heads, h, (k + 1) as u16);
        self.count = k + 1;
        k
    }
}

#[inline(always)]
fn too_high(op: Operation, v: u64, w: u64) -> bool {
    match op {
        Operation::Sum => v + w > MOST,
        Operation::Product => !(v <= 1_000_000_000 && w <= 1_000_000_000) && v != 0 && w > MOST / v,
        Operation::Max => false,
    }
}

#[inline(always)]
fn operate(op: Operation, v: u64, w: u64) -> u64 {
    match op {
        Operation::Sum => v + w,
        Operation::Product => v * w,
        Operation::Max => v.max(w),
    }
}

enum Joined {
    At(usize, usize),
    TooManyPairs,
    TooHighValue,
    NoRoom,
}

/// Clears what the walk touched, checks the leaves and forms the rows of a finished plan.
fn form_plan(op: Operation, plan: &mut [u64], heads: &mut [u16], walked: usize, n: usize, space: &mut Space) -> Joined {
    for k in 0..n {
        put(heads, pair_hash(at(plan, k * ENTRY)), 0);
    }
    if walked == FULL {
        return Joined::TooManyPairs;
    }
    for k in 0..n {
        let e = k * ENTRY;
        if at(plan, e + 2) == LEAF && too_high(op, at(plan, e + 3), at(plan, e + 4)) {
            return Joined::TooHighValue;
        }
    }
    let mut last = 0;
    for k in 0..n {
        let e = k * ENTRY;
        let (l, a, b) = (at(plan, e + 2), at(plan, e + 3), at(plan, e + 4));
        last = if l == LEAF {
            space.form(LEAF, operate(op, a, b), 0)
        } else {
            let t = at(plan, a as usize * ENTRY + 4);
            let f = at(plan, b as usize * ENTRY + 4);
            if t == f {
                t as usize
            } else {
                space.form(l, t, f)
            }
        };
        if last == FULL {
            return Joined::NoRoom;
        }
        put(plan, e + 4, last as u64);
    }
    Joined::At(last, n)
}

#[inline(always)]
fn join_listings(op: Operation, x: &[u64], y: &[u64], plan: &mut [u64], heads: &mut [u16], limit: usize, space: &mut Space) -> Joined {
    let mut walk = Walk { x, y, plan, heads, op, limit, count: 0 };
    let walked = walk.below(x.len() / 3 - 1, y.len() / 3 - 1);
    let n = walk.count;
    form_plan(op, plan, heads, walked, n, space)
}

#[inline(always)]
fn join_rows(op: Operation, i: usize, j: usize, plan: &mut [u64], heads: &mut [u16], limit: usize, space: &mut Space) -> Joined {
    let rows: &[u64] = space.rows;
    let mut walk = Walk { x: rows, y: rows, plan, heads, op, limit, count: 0 };
    let walked = walk.below(i, j);
    let n = walk.count;
    form_plan(op, plan, heads, walked, n, space)
}

// ----- names shared

#[inline(never)]
fn shared_many(op: Operation, x: &[u64], y: &[u64], work: &mut [u64]) -> (Joined, usize) {
    let mut plan = [0u64; PAIRS * ENTRY];
    let mut index = [0u16; PLAN_BUCKETS];
    let mut heads = [0u16; BUCKETS];
    let mut links = [0u16; SPACE_ROWS];
    let mut space = Space { rows: work, heads: &mut heads, links: &mut links, count: 0 };
    let r = join_listings(op, x, y, &mut plan, &mut index, PAIRS, &mut space);
    (r, space.count)
}

#[inline(never)]
fn shared_few(op: Operation, x: &[u64], y: &[u64], work: &mut [u64]) -> (Joined, usize) {
    let mut plan = [0u64; FEW * ENTRY];
    let mut index = [0u16; PLAN_BUCKETS];
    let mut heads = [0u16; BUCKETS];
    let mut links = [0u16; SPACE_ROWS];
    let mut space = Space { rows: work, heads: &mut heads, links: &mut links, count: 0 };
    let r = join_listings(op, x, y, &mut plan, &mut index, FEW, &mut space);
    (r, space.count)
}

fn combine_shared(op: Operation, x: &[u64], y: &[u64], out: &mut [u64], work: &mut [u64]) -> Answer {
    let mut tried = (Joined::TooManyPairs, 0);
    if x.len() / 3 <= FEW && y.len() / 3 <= FEW {
        tried = shared_few(op, x, y, work);
    }
    if let Joined::TooManyPairs = tried.0 {
        tried = shared_many(op, x, y, work);
    }
    let (r, n) = tried;
    match r {
        Joined::At(_, pairs) => {
            if n > ROWS {
                return Err(9);
            }
            out[..n * 3].copy_from_slice(&work[..n * 3]);
            Ok((n as u64, pairs as u64))
        }
        Joined::TooManyPairs => Err(10),
        Joined::TooHighValue => Err(11),
        Joined::NoRoom => Err(9),
    }
}

// ----- names apart

fn mark(arities: &[u64], w: &[u64], used: &mut [u8; TERM_END]) {
    for i in 0..w.len() / 3 {
        let l = at(w, i * 3);
        if l != LEAF {
            for k in 0..at(arities, predicate(l) as usize) as usize {
                put(used, place(l, k) as usize, 1);
            }
        }
    }
}

fn close_map(used: &[u8; TERM_END], first: u64) -> [u64; TERM_END] {
    let mut map = [0u64; TERM_END];
    let mut next = first;
    for t in 0..TERM_END {
        if (t as u64) < FIRST_VARIABLE {
            map[t] = t as u64;
        } else if used[t] != 0 {
            map[t] = next;
            next += 1;
        }
    }
    map
}

#[inline(always)]
fn renamed(arities: &[u64], map: &[u64; TERM_END], l: u64) -> u64 {
    let p = predicate(l);
    let mut r = label(p, &[]);
    for k in 0..at(arities, p as usize) as usize {
        r += at(map, place(l, k) as usize) << (TERM_BITS * (PLACES - 1 - k));
    }
    r
}

fn enter(arities: &[u64], w: &[u64], map: &[u64; TERM_END], space: &mut Space, numbers: &mut [u16]) -> usize {
    let mut root = 0;
    for k in 0..w.len() / 3 {
        let (l, b, c) = (at(w, k * 3), at(w, k * 3 + 1), at(w, k * 3 + 2));
        root = if l == LEAF {
            space.form(l, b, 0)
        } else {
            let t = at(numbers, b as usize) as u64;
            let f = at(numbers, c as usize) as u64;
            space.form(renamed(arities, map, l), t, f)
        };
        if root == FULL {
            return FULL;
        }
        put(numbers, k, root as u16);
    }
    root
}

fn number(rows: &[u64], marks: &mut [u16], order: &mut [u16], n: usize, i: usize) -> usize {
    let mut n = n;
    if at(rows, i * 3) != LEAF {
        let (t, f) = (at(rows, i * 3 + 1) as usize, at(rows, i * 3 + 2) as usize);
        if at(marks, t) == 0 {
            n = number(rows, marks, order, n, t);
        }
        if at(marks, f) == 0 {
            n = number(rows, marks, order, n, f);
        }
    }
    put(order, n, i as u16);
    put(marks, i, (n + 1) as u16);
    n + 1
}

fn write_closed(arities: &[u64], rows: &[u64], root: usize, pairs: usize, out: &mut [u64]) -> Answer {
    let mut marks = [0u16; SPACE_ROWS];
    let mut order = [0u16; SPACE_ROWS];
    let m = number(rows, &mut marks, &mut order, 0, root);
    if m > ROWS {
        return Err(9);
    }
    for k in 0..m {
        let i = at(&order, k) as usize;
        let (l, b, c) = (at(rows, i * 3), at(rows, i * 3 + 1), at(rows, i * 3 + 2));
        let (b, c) = if l == LEAF { (b, 0) } else { (at(&marks, b as usize) as u64 - 1, at(&marks, c as usize) as u64 - 1) };
        put(out, k * 3, l);
        put(out, k * 3 + 1, b);
        put(out, k * 3 + 2, c);
    }
    let mut used = [0u8; TERM_END];
    mark(arities, &out[..m * 3], &mut used);
    let map = close_map(&used, FIRST_VARIABLE);
    for k in 0..m {
        let l = at(out, k * 3);
        if l != LEAF {
            put(out, k * 3, renamed(arities, &map, l));
        }
    }
    Ok((m as u64, pairs as u64))
}

#[inline(never)]
fn join_few(op: Operation, i: usize, j: usize, space: &mut Space) -> Joined {
    let mut plan = [0u64; FEW * ENTRY];
    let mut index = [0u16; PLAN_BUCKETS];
    join_rows(op, i, j, &mut plan, &mut index, FEW, space)
}

#[inline(never)]
fn join_many(op: Operation, i: usize, j: usize, space: &mut Space) -> Joined {
    let mut plan = [0u64; PAIRS * ENTRY];
    let mut index = [0u16; PLAN_BUCKETS];
    join_rows(op, i, j, &mut plan, &mut index, PAIRS, space)
}

fn combine_apart(op: Operation, arities: &[u64], x: &[u64], y: &[u64], out: &mut [u64], work: &mut [u64]) -> Answer {
    let (mut used_x, mut used_y) = ([0u8; TERM_END], [0u8; TERM_END]);
    mark(arities, x, &mut used_x);
    mark(arities, y, &mut used_y);
    let count = |u: &[u8; TERM_END]| u[FIRST_VARIABLE as usize..].iter().map(|&b| b as u64).sum::<u64>();
    let n = count(&used_x);
    if n + count(&used_y) > VARIABLES {
        return Err(8);
    }
    let mut heads = [0u16; BUCKETS];
    let mut links = [0u16; SPACE_ROWS];
    let mut numbers = [0u16; ROWS];
    let mut space = Space { rows: work, heads: &mut heads, links: &mut links, count: 0 };
    let i = enter(arities, x, &close_map(&used_x, FIRST_VARIABLE), &mut space, &mut numbers);
    if i == FULL {
        return Err(9);
    }
    let j = enter(arities, y, &close_map(&used_y, FIRST_VARIABLE + n), &mut space, &mut numbers);
    if j == FULL {
        return Err(9);
    }
    let mut r = Joined::TooManyPairs;
    if space.count <= 2 * FEW {
        r = join_few(op, i, j, &mut space);
    }
    if let Joined::TooManyPairs = r {
        r = join_many(op, i, j, &mut space);
    }
    match r {
        Joined::At(root, pairs) => write_closed(arities, space.rows, root, pairs, out),
        Joined::TooManyPairs => Err(10),
        Joined::TooHighValue => Err(11),
        Joined::NoRoom => Err(9),
    }
}

#[inline(never)]
pub fn combine(op: Operation, apart: bool, arities: &[u64], x: &[u64], y: &[u64], out: &mut [u64], work: &mut [u64]) -> Answer {
    if !check(arities, x) || !check(arities, y) {
        return Err(14);
    }
    if out.len() < ROWS * 3 || work.len() < SPACE_ROWS * 3 {
        return Err(18);
    }
    if apart {
        combine_apart(op, arities, x, y, out, work)
    } else {
        combine_shared(op, x, y, out, work)
    }
}

// ----- value

const FREE: u64 = u64::MAX;
const INDEXED: usize = 4096;

struct Search<'a> {
    words: &'a [u64],
    high: &'a [u64],
    arities: &'a [u64],
    facts: &'a [u64],
    index: &'a [u16],
    env: [u64; TERM_END],
    n: u64,
}

const FACTORS: [u64; PLACES] = [40503, 60493, 52711, 36013, 27191, 45887];

/// By the objects of the used places.
#[inline(always)]
fn fact_hash(p: u64, objects: &[u64]) -> usize {
    let low = |v: u64| v as u32 as u64;
    let mut x = low(p) * 30011;
    for k in 0..objects.len() {
        x += low(at(objects, k)) * at(&FACTORS, k);
    }
    ((x + (x >> 10) + (x >> 20)) % BUCKETS as u64) as usize
}

#[inline(always)]
fn says(facts: &[u64], i: usize, p: u64, objects: &[u64]) -> bool {
    let e = i * FACT_WORDS;
    at(facts, e) == p && (0..objects.len()).all(|k| at(facts, e + 1 + k) == at(objects, k))
}

impl Search<'_> {
    #[inline(always)]
    fn truth(&self, p: u64, objects: &[u64]) -> bool {
        if p == 0 {
            return at(objects, 0) == at(objects, 1);
        }
        let mut n = at(self.index, fact_hash(p, objects)) as usize;
        while n != 0 {
            if says(self.facts, n - 1, p, objects) {
                return true;
            }
            n = at(self.index, BUCKETS + n - 1) as usize;
        }
        (INDEXED..self.facts.len() / FACT_WORDS).any(|i| says(self.facts, i, p, objects))
    }

    fn go(&mut self, start: usize, best: u64) -> u64 {
        let mut r = start;
        while at(self.high, r) >= best {
            let l = at(self.words, r * 3);
            if l == LEAF {
                return at(self.words, r * 3 + 1) + 1;
            }
            let p = predicate(l);
            let arity = at(self.arities, p as usize) as usize;
            let mut objects = [0u64; PLACES];
            for k in 0..arity {
                let t = place(l, k) as usize;
                let o = at(&self.env, t);
                if o == FREE {
                    return self.bind(r, t, best);
                }
                put(&mut objects, k, o);
            }
            r = if self.truth(p, &objects[..arity]) { at(self.words, r * 3 + 1) } else { at(self.words, r * 3 + 2) } as usize;
        }
        best
    }

    fn bind(&mut self, r: usize, t: usize, best: u64) -> u64 {
        let mut b = best;
        for v in 0..self.n {
            if at(self.high, r) < b {
                break;
            }
            put(&mut self.env, t, v);
            b = self.go(r, b);
        }
        put(&mut self.env, t, FREE);
        b
    }
}

/// The predicate of a fact, and the objects of its used places.
fn fact<'a>(arities: &[u64], facts: &'a [u64], i: usize) -> (u64, &'a [u64]) {
    let p = at(facts, i * FACT_WORDS);
    let arity = if p < PREDICATES as u64 { at(arities, p as usize) as usize } else { 0 };
    (p, &facts[i * FACT_WORDS + 1..][..arity])
}

#[inline(never)]
pub fn value(arities: &[u64], w: &[u64], n: u64, constants: &[u64], facts: &[u64]) -> Result<u64, u64> {
    if !check(arities, w) {
        return Err(14);
    }
    let object = |c: usize| constants.get(c).copied().unwrap_or(0);
    let rows = facts.len() / FACT_WORDS;
    if n == 0 || (0..CONSTANTS).any(|c| object(c) >= n) {
        return Err(4);
    }
    for i in 0..rows {
        if fact(arities, facts, i).1.iter().any(|&v| v >= n) {
            return Err(4);
        }
    }
    let m = w.len() / 3;
    let mut used = [0u8; TERM_END];
    mark(arities, w, &mut used);
    if used[CONSTANTS..FIXED_END as usize].iter().any(|&b| b != 0) {
        return Err(6);
    }
    let v = used[FIRST_VARIABLE as usize..].iter().filter(|&&b| b != 0).count();
    let mut p = 1u64;
    for _ in 0..v {
        p = p.saturating_mul(n);
        if p > 1_000_000 {
            return Err(15);
        }
    }
    let mut high = [0u64; ROWS];
    for i in 0..m {
        let (l, b, c) = (at(w, i * 3), at(w, i * 3 + 1), at(w, i * 3 + 2));
        high[i] = if l == LEAF { b } else { at(&high, b as usize).max(at(&high, c as usize)) };
    }
    let mut env = [FREE; TERM_END];
    for c in 0..CONSTANTS {
        env[c] = object(c);
    }
    let mut index = [0u16; BUCKETS + INDEXED];
    for i in 0..rows.min(INDEXED) {
        let (p, objects) = fact(arities, facts, i);
        let h = fact_hash(p, objects);
        let next = at(&index, h);
        put(&mut index, BUCKETS + i, next);
        put(&mut index, h, (i + 1) as u16);
    }
    let mut search = Search { words: w, high: &high, arities, facts, index: &index, env, n };
    Ok(search.go(m - 1, 0) - 1)
}
