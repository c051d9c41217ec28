// Compares the model with the compiled Rattle, through the static libraries of `try_c_distance` and `try_c_match`.
#[path = "model.rs"]
mod model;
use model::*;
use std::time::Instant;

unsafe extern "C" {
    fn curve_root(y: u64) -> u64;
    fn curve_straight(s: *const i32, n: usize, q: *const i32, m: usize, limit: u64, out: *mut u64, outs: usize) -> usize;
    fn curve_bound(s: *const i32, n: usize, low: *const i32, lows: usize, high: *const i32, highs: usize, limit: u64, out: *mut u64, outs: usize) -> usize;
    fn curve_warped(s: *const i32, n: usize, q: *const i32, m: usize, b: usize, limit: u64, low: *mut i32, lows: usize, high: *mut i32, highs: usize, out: *mut u64, outs: usize) -> usize;
    fn curve_envelopes(q: *const i32, m: usize, b: usize, low: *mut i32, lows: usize, high: *mut i32, highs: usize) -> bool;
    fn curve_normal(s: *const i32, n: usize, room: *mut i32, m: usize, out: *mut u64, outs: usize) -> usize;
    fn curve_matches(
        kind: u32, s: *const i32, n: usize, q: *const i32, m: usize, b: u32, threshold: u64, scale: u32, shift: u32,
        curve: *mut i32, curves: usize, low: *mut i32, lows: usize, high: *mut i32, highs: usize, room: *mut i32, rooms: usize,
        row: *mut u64, rows: usize, out: *mut u64, outs: usize,
    ) -> usize;
    fn curve_outside(s: *const i32, n: usize) -> usize;
    fn curve_windows(s: *const i32, n: usize, w: usize, d: u32, sums: *mut i32, sums_long: usize, rows: *mut i32, rows_long: usize) -> usize;
}

const ROOM: usize = 4096;

struct Test {
    r: Numbers,
    inputs: u64,
    wrong: u64,
    matches: u64,
    stretches: u64,
    early: u64,
    refused: u64,
    out: Vec<u64>,
    row: Vec<u64>,
    a: Vec<i32>,
    b: Vec<i32>,
    c: Vec<i32>,
    d: Vec<i32>,
}

impl Test {
    fn say(&mut self, good: bool, what: &str, more: impl FnOnce() -> String) {
        self.inputs += 1;
        if !good {
            self.wrong += 1;
            if self.wrong <= 10 { println!("DIFFERENT: {what} {}", more()) }
        }
    }

    /// A number that may have been left early.
    fn within(&mut self, d: i128, limit: u64, r: u64) -> bool {
        if d <= limit as i128 { r as i128 == d } else { self.early += 1; r > limit }
    }

    fn root(&mut self, y: u64) {
        let r = unsafe { curve_root(y) };
        self.say(r == root(y), "root", || format!("{y}: {r}"));
    }

    fn straight(&mut self, s: &[i32], q: &[i32], limit: u64) {
        let (n, m) = (s.len(), q.len());
        let k = unsafe { curve_straight(s.as_ptr(), n, q.as_ptr(), m, limit, self.out.as_mut_ptr(), ROOM) };
        let mut good = k == n - m + 1;
        for at in 0..n - m + 1 { let r = self.out[at]; good = self.within(straight(&s[at..at + m], q), limit, r) && good }
        self.say(good, "straight", || format!("{s:?} {q:?} {limit}"));
    }

    fn warped(&mut self, s: &[i32], q: &[i32], b: usize, limit: u64) {
        let (n, m) = (s.len(), q.len());
        let k = unsafe { curve_warped(s.as_ptr(), n, q.as_ptr(), m, b, limit, self.a.as_mut_ptr(), m, self.b.as_mut_ptr(), m, self.out.as_mut_ptr(), ROOM) };
        let mut good = k == n - m + 1;
        for at in 0..n - m + 1 { let r = self.out[at]; good = self.within(warped(&s[at..at + m], q, b), limit, r) && good }
        self.say(good, "warped", || format!("{s:?} {q:?} {b} {limit}"));
    }

    fn envelopes(&mut self, s: &[i32], q: &[i32], b: usize, limit: u64) {
        let (n, m) = (s.len(), q.len());
        let told = unsafe { curve_envelopes(q.as_ptr(), m, b, self.a.as_mut_ptr(), m, self.b.as_mut_ptr(), m) };
        let (low, high) = envelopes(q, b);
        let good = told && self.a[..m] == low && self.b[..m] == high;
        self.say(good, "envelopes", || format!("{q:?} {b}"));
        let k = unsafe { curve_bound(s.as_ptr(), n, low.as_ptr(), m, high.as_ptr(), m, limit, self.out.as_mut_ptr(), ROOM) };
        let mut good = k == n - m + 1;
        for at in 0..n - m + 1 { let r = self.out[at]; good = self.within(bound(&s[at..at + m], &low, &high), limit, r) && good }
        self.say(good, "bound", || format!("{s:?} {q:?} {b} {limit}"));
    }

    fn normal(&mut self, s: &[i32], m: usize) {
        let n = s.len();
        let k = unsafe { curve_normal(s.as_ptr(), n, self.a.as_mut_ptr(), m, self.out.as_mut_ptr(), ROOM) };
        let good = k == n - m + 1 && (0..k).all(|at| self.out[at] as i128 == spread(&s[at..at + m]));
        self.say(good, "spread", || format!("{s:?} {m}"));
        let last = (0..n - m + 1).rev().find_map(|at| normalised(&s[at..at + m]));
        let good = match last { None => true, Some(v) => self.a[..m] == v };
        self.say(good, "normalised", || format!("{s:?} {m}"));
    }

    fn matches(&mut self, kind: u32, s: &[i32], q: &[i32], b: usize, e: u64, scale: u32, shift: u32) {
        let (n, m) = (s.len(), q.len());
        let k = unsafe {
            curve_matches(
                kind, s.as_ptr(), n, q.as_ptr(), m, b as u32, e, scale, shift,
                self.a.as_mut_ptr(), m, self.b.as_mut_ptr(), m, self.c.as_mut_ptr(), m, self.d.as_mut_ptr(), m,
                self.row.as_mut_ptr(), m + 1, self.out.as_mut_ptr(), ROOM,
            )
        };
        if kind == 1 && spread(q) == 0 {
            self.refused += 1;
            return self.say(k == 0, "flat query", || format!("{q:?}"));
        }
        let mut good = k == n - m + 1;
        for at in 0..n - m + 1 {
            let stretch = &s[at..at + m];
            let d = if kind == 0 { match_raw(stretch, q, b, e) } else { match_normal(stretch, q, b, e, scale, shift) };
            self.stretches += 1;
            if d.is_some() { self.matches += 1 }
            good = self.out[at] as i128 == (match d { None => 0, Some(d) => d + 1 }) && good;
        }
        self.say(good, "match test", || format!("{kind} {s:?} {q:?} {b} {e} {scale} {shift}"));
    }

    fn windows(&mut self, s: &[i32], w: usize, d: u32) {
        let n = s.len();
        let k = unsafe { curve_windows(s.as_ptr(), n, w, d, self.a.as_mut_ptr(), ROOM, self.b.as_mut_ptr(), ROOM) };
        let good = k == n - w + 1
            && (0..k).all(|at| { let sum = total(&s[at..at + w]) as i64; self.a[at] as i64 == sum && self.b[at] as i64 == row_number(sum, d as i64) });
        self.say(good, "windows", || format!("{s:?} {w} {d}"));
    }

    /// A value out of its limits, or a length: nothing is written.
    fn refusals(&mut self, s: &[i32], q: &[i32]) {
        let (n, m) = (s.len(), q.len());
        let mut bad = s.to_vec();
        let k = self.r.below(n as u64) as usize;
        bad[k] = [10001, -10001, i32::MAX, i32::MIN][self.r.below(4) as usize];
        let k = self.r.below(2 * n as u64) as usize;
        if k < n { bad[k] = 10001 }
        let o = self.out.as_mut_ptr();
        let at = unsafe { curve_outside(bad.as_ptr(), n) };
        let first = bad.iter().position(|&v| !(-10000..=10000).contains(&v)).unwrap_or(n);
        self.say(at == first, "outside", || format!("{bad:?} {at}"));
        let all = unsafe { curve_outside(s.as_ptr(), n) };
        self.say(all == n, "inside", || format!("{s:?} {all}"));
        let x = unsafe {
            [
                curve_straight(bad.as_ptr(), n, q.as_ptr(), m, 0, o, ROOM),
                curve_straight(q.as_ptr(), m, bad.as_ptr(), n, 0, o, if n == m { ROOM } else { 0 }),
                curve_straight(s.as_ptr(), n, q.as_ptr(), 0, 0, o, ROOM),
                curve_straight(s.as_ptr(), n, q.as_ptr(), m, 0, o, n - m),
                curve_warped(bad.as_ptr(), n, q.as_ptr(), m, 0, 0, self.a.as_mut_ptr(), m, self.b.as_mut_ptr(), m, o, ROOM),
                curve_warped(s.as_ptr(), n, q.as_ptr(), m, 0, 0, self.a.as_mut_ptr(), m, self.b.as_mut_ptr(), m, o, n - m),
                curve_warped(s.as_ptr(), n, q.as_ptr(), m, 0, 0, self.a.as_mut_ptr(), m - 1, self.b.as_mut_ptr(), m, o, ROOM),
                curve_normal(bad.as_ptr(), n, self.a.as_mut_ptr(), m, o, ROOM),
            ]
        };
        self.refused += x.len() as u64;
        self.say(x.iter().all(|&y| y == 0), "refused", || format!("{bad:?} {q:?} {x:?}"));
    }

    /// Thresholds: 0, the greatest, any, and just at and below the distance of some stretch.
    fn threshold(&mut self, d: i128) -> u64 {
        let any = self.r.below(40);
        match self.r.below(6) {
            0 => 0,
            1 => 1_000_000_000_000,
            2 => (d as u64).min(1_000_000_000_000),
            3 => (d as u64).saturating_sub(1).min(1_000_000_000_000),
            4 => (d as u64 + 1 + any * any).min(1_000_000_000_000),
            _ => self.r.below(1u64 << any) % 1_000_000_000_001,
        }
    }

    fn all(&mut self, s: &[i32], q: &[i32], b: usize) {
        let m = q.len();
        let at = self.r.below((s.len() - m + 1) as u64) as usize;
        let near = &s[at..at + m];
        let e = { let d = straight(near, q); self.threshold(d) };
        self.straight(s, q, e);
        let f = { let d = warped(near, q, b); self.threshold(d) };
        self.warped(s, q, b, f);
        self.envelopes(s, q, b, f);
        self.normal(s, m);
        self.matches(0, s, q, 0, e, 10, 0);
        self.matches(0, s, q, b, f, 10, 0);
        let (scale, shift) = (self.r.from_to(10, 100) as u32, if self.r.below(3) == 0 { 20000 } else { self.r.below(300) as u32 });
        let (scale, shift) = if self.r.below(4) == 0 { (10, 0) } else { (scale, shift) };
        let pair = match (normalised(near), normalised(q)) { (Some(x), Some(y)) => (straight(&x, &y), warped(&x, &y, b)), _ => (0, 0) };
        let e = self.threshold(pair.0);
        self.matches(1, s, q, 0, e, scale, shift);
        let e = self.threshold(pair.1);
        self.matches(1, s, q, b, e, scale, shift);
    }
}

fn main() {
    let turns: u64 = std::env::args().nth(1).map_or(12_000, |x| x.parse().unwrap());
    let start = Instant::now();
    let mut t = Test {
        r: Numbers(88172645463325252), inputs: 0, wrong: 0, matches: 0, stretches: 0, early: 0, refused: 0,
        out: vec![0; ROOM], row: vec![0; ROOM], a: vec![0; ROOM], b: vec![0; ROOM], c: vec![0; ROOM], d: vec![0; ROOM],
    };
    // roots: around squares and powers, and the greatest numbers
    for k in 0..3000u64 {
        let x = if k < 1000 { k } else { t.r.below(1 << 32) };
        for y in [x * x, (x * x).saturating_sub(1), x * x + 2 * x, k, u64::MAX - k] { t.root(y) }
        let y = t.r.next();
        t.root(y);
    }
    // small and middling inputs of all sorts
    for k in 0..turns {
        let m = match k % 40 { 0 => t.r.from_to(50, 90), 1..=4 => t.r.from_to(17, 49), 5..=8 => 1, _ => t.r.from_to(2, 20) } as usize;
        let n = m + t.r.below(if m > 49 { 4 } else { 14 }) as usize;
        let sort = t.r.below(8);
        let s = values(&mut t.r, n, sort);
        let q = query(&mut t.r, &s, m);
        let b = match t.r.below(4) { 0 => m - 1, 1 => 0, 2 => t.r.below(4) as usize, _ => t.r.below(m as u64) as usize };
        t.all(&s, &q, b);
        if k % 4 == 0 {
            t.refusals(&s, &q);
            let w = t.r.from_to(1, m as i64) as usize;
            let d = [1, 2, 3, 1_000_000, t.r.from_to(1, 1000), t.r.from_to(1, 1_000_000)][t.r.below(6) as usize] as u32;
            t.windows(&s, w, d);
        }
    }
    // the greatest: m = 1,024, both ends of the values, every band from 0 to m - 1
    for k in 0..32u64 {
        let m = if k % 4 == 3 { t.r.from_to(1000, 1023) as usize } else { 1024 };
        let n = m + t.r.below(2) as usize;
        let s = values(&mut t.r, n, k % 8);
        let q = match k % 5 { 0 => vec![10000; m], 1 => vec![-10000; m], 2 => values(&mut t.r, m, 3), _ => query(&mut t.r, &s, m) };
        let b = match k % 3 { 0 => m - 1, 1 => 0, _ => t.r.below(m as u64) as usize };
        t.all(&s, &q, b);
        t.windows(&s, 256, 7);
        for e in [0, 1_000_000_000_000] { t.straight(&s, &q, e); t.matches((k % 2) as u32, &s, &q, 0, e, 100, 20000) }
    }
    println!(
        "{} inputs, {} differences ({} stretches tried for a match, {} matched; {} left early, {} refused) in {:.1} s",
        t.inputs, t.wrong, t.stretches, t.matches, t.early, t.refused, start.elapsed().as_secs_f64()
    );
    if t.wrong > 0 { std::process::exit(1) }
}
