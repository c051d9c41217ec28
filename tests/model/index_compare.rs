// Compares the model with the compiled entries over lent records, through the static library of `try_c_index`, and with the plain C that they are raced against: index_compare [TURNS].
#![allow(dead_code)]
mod answers;
mod entries;
mod index;
mod lent;
mod model;
mod texts;
use index::*;
use lent::*;
use model::*;
use std::time::Instant;

unsafe extern "C" {
    fn plain_build(s: *const i32, n: usize, w: usize, d: u32, g: u32, rows: *mut Row, room: usize, left: *mut u32, right: *mut u32) -> usize;
    fn plain_extend(
        s: *const i32, n: usize, w: usize, d: u32, old: usize, rows0: *const Row, count0: usize, left0: *const u32, right0: *const u32,
        rows: *mut Row, room: usize, left: *mut u32, right: *mut u32,
    ) -> usize;
    fn plain_audit(s: *const i32, n: usize, w: usize, d: u32, windows: u32, rows: *const Row, count: usize, left: *const u32, right: *const u32, room: usize) -> i32;
}

/// How often an entry that makes an index was not refused, and each refusal.
#[derive(Default)]
struct Tally { made: u64, refused: [u64; 24] }

impl Tally {
    fn add(&mut self, a: &Answer) { if a.kind == 3 { self.refused[a.first] += 1 } else { self.made += 1 } }

    fn told(&self, numbers: &[usize]) -> String { numbers.iter().map(|&k| format!("{k}: {}", self.refused[k])).collect::<Vec<_>>().join(" ") }
}

struct Test {
    r: Numbers,
    inputs: u64,
    wrong: u64,
    plain: u64,
    /// how often an audit said yes, wrong, missing, and each refusal
    said: [u64; 3],
    refused: [u64; 23],
    built: Tally,
    extended: Tally,
}

impl Test {
    fn say(&mut self, good: bool, what: &str, more: impl FnOnce() -> String) {
        self.inputs += 1;
        if !good {
            self.wrong += 1;
            if self.wrong <= 10 { println!("DIFFERENT: {what} {}", more()) }
        }
    }

    fn audit(&mut self, s: &[i32], x: &Lent) {
        let right = answers::audit(s, x);
        if right.kind == 3 { self.refused[right.first] += 1 } else { self.said[right.kind as usize] += 1 }
        let told = entries::audit(s, x);
        self.say(told == right, "audit", || format!("{s:?} {x:?}: {told:?}, the model {right:?}"));
        if x.suits(s.len()) { self.plain_audit(s, x, right) }
    }

    /// Buffers of these lengths, full of rubbish.
    fn rubbish(&mut self, rooms: [usize; 3]) -> Buffers {
        let mut b = Buffers::of_rubbish(&mut self.r, rooms.into_iter().max().unwrap());
        b.cut(rooms);
        b
    }

    fn build(&mut self, s: &[i32], w: u32, d: u32, g: u32, rooms: [usize; 3]) {
        let mut b = self.rubbish(rooms);
        let mut after = b.clone();
        let answer = answers::build(s, w, d, g, &mut after);
        self.built.add(&answer);
        let told = entries::build(s, w, d, g, &mut b);
        self.say(told == answer && b == after, "build", || format!("{s:?} {w} {d} {g} {rooms:?}: {told:?}, the model {answer:?}"));
    }

    fn extend(&mut self, s: &[i32], x: &Lent, rooms: [usize; 3]) {
        let mut b = self.rubbish(rooms);
        let mut after = b.clone();
        let answer = answers::extend(s, x, &mut after);
        self.extended.add(&answer);
        let told = entries::extend(s, x, &mut b);
        self.say(told == answer && b == after, "extend", || format!("{s:?} {x:?} {rooms:?}: {told:?}, the model {answer:?}"));
        if answer.kind == 0 { self.plain_extend(s, x) }
    }

    // ---- the plain C, on inputs that are not refused for their numbers

    fn plain_audit(&mut self, s: &[i32], x: &Lent, right: Answer) {
        let room = x.left.len().min(x.right.len());
        let told = unsafe { plain_audit(s.as_ptr(), s.len(), x.head.window as usize, x.head.width, x.head.windows, x.rows.as_ptr(), x.rows.len(), x.left.as_ptr(), x.right.as_ptr(), room) };
        let kind = match (right.kind, right.first) { (3, 2) => 3, (3, _) => 4, (kind, _) => kind };
        self.plain += 1;
        self.say(told as u32 == kind, "plain audit", || format!("{s:?} {x:?}: {told}, the model {right:?}"));
    }

    fn plain_build(&mut self, s: &[i32], w: usize, d: u32, g: u32) {
        let room = s.len() - w + 1 + self.r.below(3) as usize;
        let mut b = Buffers::of_rubbish(&mut self.r, room);
        let count = unsafe { plain_build(s.as_ptr(), s.len(), w, d, g, b.rows.as_mut_ptr(), room, b.left.as_mut_ptr(), b.right.as_mut_ptr()) };
        let x = build(s, w, d as i64, g as i64);
        self.plain += 1;
        self.say(count == x.rows.len() && b == Buffers::of(&x, room), "plain build", || format!("{s:?} {w} {d} {g}"));
    }

    fn plain_extend(&mut self, s: &[i32], x: &Lent) {
        let room = s.len() - x.head.window as usize + 1 + self.r.below(3) as usize;
        let mut b = Buffers::of_rubbish(&mut self.r, room);
        let count = unsafe {
            plain_extend(
                s.as_ptr(), s.len(), x.head.window as usize, x.head.width, x.head.windows as usize, x.rows.as_ptr(), x.rows.len(), x.left.as_ptr(), x.right.as_ptr(),
                b.rows.as_mut_ptr(), room, b.left.as_mut_ptr(), b.right.as_mut_ptr(),
            )
        };
        let y = extend(&x.index(), s);
        self.plain += 1;
        self.say(count == y.rows.len() && b == Buffers::of(&y, room), "plain extend", || format!("{s:?} {x:?}"));
    }

    // ---- one turn of each

    fn audits(&mut self, n: usize) {
        let s = any_series(&mut self.r, n);
        let (w, d, g) = any_numbers(&mut self.r, n);
        let mut x = Lent::of(&build(&s, w, d as i64, g as i64));
        if self.r.below(2) == 0 { x.rubbish_behind(&mut self.r) }
        if self.r.below(2) == 0 { return self.audit(&s, &x) }
        let how = self.r.below(6);
        if how < 2 { x.refile(&mut self.r); }
        if how > 2 { x.damage(&mut self.r) }
        if how > 4 { x.damage(&mut self.r) }
        let s = if how == 2 || self.r.below(8) == 0 { damaged_series(&mut self.r, &s) } else { s };
        self.audit(&s, &x);
    }

    fn builds(&mut self, n: usize) {
        let s = any_series(&mut self.r, n);
        let (w, d, g) = any_numbers(&mut self.r, n);
        self.plain_build(&s, w, d, g);
        let windows = n - w + 1;
        let rooms = [0; 3].map(|_| windows + self.r.below(4) as usize);
        self.build(&s, w as u32, d, g, rooms);
        let any = [0, 1, 100, 101, 256, 257, 1_000_000, 1_000_001, u32::MAX];
        let mut pick = |x: u32| if self.r.below(6) == 0 { any[self.r.below(9) as usize] } else { x };
        let (w, d, g) = (pick(w as u32), pick(d), pick(g));
        let rooms = [0; 3].map(|_| (windows + self.r.below(4) as usize).saturating_sub(self.r.below(4) as usize / 3));
        let s = if self.r.below(3) == 0 { damaged_series(&mut self.r, &s) } else { s };
        self.build(&s, w, d, g, rooms);
    }

    /// By no value, by one or by many; the old index damaged or filed wrongly half of the time.
    fn extends(&mut self, n: usize) {
        let s = any_series(&mut self.r, n);
        let (w, d, g) = any_numbers(&mut self.r, n);
        let old = match self.r.below(4) { 0 => n, 1 => (n - 1).max(w), _ => self.r.from_to(w as i64, n as i64) as usize };
        let mut x = Lent::of(&build(&s[..old], w, d as i64, g as i64));
        if self.r.below(2) == 0 { x.rubbish_behind(&mut self.r) }
        let windows = n - w + 1;
        let rooms = [0; 3].map(|_| (windows + self.r.below(4) as usize).saturating_sub(self.r.below(16) as usize / 15));
        if self.r.below(2) == 0 { return self.extend(&s, &x, rooms) }
        let how = self.r.below(6);
        if how < 3 { x.refile(&mut self.r); }
        if how > 1 { x.damage(&mut self.r) }
        let s = if how == 5 { damaged_series(&mut self.r, &s) } else { s };
        self.extend(&s, &x, rooms);
    }

    /// The greatest series, one value more, and an index of one row that is right.
    fn greatest(&mut self) {
        let s = vec![1; (1 << 20) + 1];
        for (n, w) in [(1 << 20, 1), (1 << 20, 256), ((1 << 20) + 1, 2), ((1 << 20) + 1, 1)] {
            let windows = n - w as usize + 1;
            let row = Row { low: 0, up: 1_000, first: 0, runs: 1 };
            let x = Lent { head: Head { window: w, width: 1_000, windows: windows as u32 }, rows: vec![row], left: vec![0], right: vec![windows as u32 - 1] };
            self.audit(&s[..n], &x);
            let x = Lent { head: Head { windows: windows as u32 - 2, ..x.head }, right: vec![windows as u32 - 3], ..x };
            self.extend(&s[..n], &x, [windows; 3]);
        }
    }
}

fn main() {
    let turns: u64 = std::env::args().nth(1).map_or(120_000, |x| x.parse().unwrap());
    let start = Instant::now();
    let mut t = Test { r: Numbers(88172645463325252), inputs: 0, wrong: 0, plain: 0, said: [0; 3], refused: [0; 23], built: Tally::default(), extended: Tally::default() };
    for k in 0..turns {
        let n = match k % 100 { 0 => t.r.from_to(150, 400), 1..=9 => t.r.from_to(40, 149), 10..=19 => t.r.from_to(1, 3), _ => t.r.from_to(4, 40) } as usize;
        t.audits(n);
        if k % 2 == 0 { t.builds(n) }
        if k % 2 == 1 { t.extends(n) }
    }
    t.greatest();
    let told: Vec<String> = [1, 2, 20, 21, 22].iter().map(|&k| format!("{k}: {}", t.refused[k])).collect();
    println!(
        "{} inputs, {} differences ({} of the plain C; audits: {} yes, {} filed wrongly, {} missing, refused {}; builds: {} built, refused {}; extensions: {} made, refused {}) in {:.1} s",
        t.inputs, t.wrong, t.plain, t.said[0], t.said[1], t.said[2], told.join(" "), t.built.made, t.built.told(&[1, 2, 3, 4, 5, 23]), t.extended.made, t.extended.told(&[1, 2, 20, 22, 23]), start.elapsed().as_secs_f64()
    );
    if t.wrong > 0 { std::process::exit(1) }
}
