// Compares the model with the compiled entry that searches, through the static library of `try_c_search`, and with the plain C that it is raced against: search_compare [TURNS].
#![allow(dead_code)]
mod answers;
mod entries;
mod index;
mod lent;
mod model;
mod texts;
use index::*;
use lent::*;
use model::*;
use std::cmp::Ordering;
use std::collections::BTreeMap;
use std::time::Instant;

#[repr(C)]
#[derive(Clone, Copy, PartialEq, Eq, Debug, Default)]
struct Counts { candidates: u64, matches: u64 }

unsafe extern "C" {
    fn plain_search(
        series: *const i32, n: usize, head: Head, rows: *const Row, count: usize, left: *const u32, right: *const u32, runs: usize, asked: Asked, query: *const i32, m: usize,
        first: *mut u32, last: *mut u32, scratch: *mut u16, offsets: *mut u32, distances: *mut u64, room: u64, found: *mut Counts,
    ) -> i32;
    fn plain_scan(series: *const i32, n: usize, asked: Asked, query: *const i32, m: usize, offsets: *mut u32, distances: *mut u64, room: u64, found: *mut Counts) -> i32;
}

struct Test {
    r: Numbers,
    inputs: u64,
    wrong: u64,
    plain: u64,
    /// searches of each kind that looked, those with matches, all matches, lists too short, each refusal
    looked: [u64; 4],
    matched: u64,
    matches: u64,
    full: u64,
    refused: [u64; 31],
    /// searches through an index that is well formed and wrong, and series searched through several indexes
    misled: u64,
    several: u64,
    /// searches through an index with fewer windows than the series, of each kind
    short: Kinds,
    /// searches for the closest few, those with a tie at the k-th place, those refused, and of each kind
    few_tried: u64,
    few_tied: u64,
    few_refused: u64,
    few: Kinds,
}

/// How often each kind came.
type Kinds = BTreeMap<String, u64>;

/// How many windows a short index lacks, and what comes of a search through it.
const LACKS: [&str; 6] = ["some", "1", "w - 1", "w", "m", "all but one"];
const CAME: [&str; 3] = ["right", "wrong", "refused"];

/// Each kind of search through a short index; none has come yet.
fn short_kinds() -> Kinds {
    let lacks = LACKS.iter().flat_map(|lacks| CAME.map(|came| format!("lacks {lacks} {came}")));
    let refused = [2, 6, 7, 8, 9, 10, 30, 11, 20, 23, 24].iter().map(|n| format!("refused {n}"));
    let found = ["match across the end", "match past the end", "ruled out across the end"].map(String::from);
    lacks.chain(refused).chain(found).map(|kind| (kind, 0)).collect()
}

/// The refusals of a search for the closest few, and those that come together with 30.
const FEW_REFUSED: [u32; 12] = [1, 2, 6, 7, 8, 9, 10, 30, 11, 20, 22, 23];
const WITH_30: [u32; 5] = [10, 11, 20, 22, 23];

/// Each kind of search for the closest few; none has come yet.
fn few_kinds() -> Kinds {
    let refused = FEW_REFUSED.iter().map(|n| format!("refused {n}")).chain(WITH_30.iter().map(|n| format!("30 with {n}")));
    let asked = ["k 0", "k 1", "k 64", "k 65", "k 2^31 - 1", "list of k - 1", "list of k", "list of k + 1", "slices of two lengths"];
    let found = ["k below the matches", "k at the matches", "k above the matches", "all as far", "tie inside", "k 64 below the matches", "short index", "wrong index"];
    refused.chain(asked.iter().chain(&found).map(|kind| kind.to_string())).map(|kind| (kind, 0)).collect()
}

/// The matches of a scan of all offsets.
fn scan(s: &[i32], z: &Question) -> Vec<(usize, u64)> { matches_among(&(0..=s.len() - z.query.len()).collect::<Vec<_>>(), s, z) }

/// The index passes the audit against the series cut to the values that it covers.
fn passes(s: &[i32], x: &Lent) -> bool { matches!(audit(&x.index(), &s[..(x.head.windows + x.head.window) as usize - 1]), Audited::Yes) }

impl Test {
    fn say(&mut self, good: bool, what: &str, more: impl FnOnce() -> String) {
        self.inputs += 1;
        if !good {
            self.wrong += 1;
            if self.wrong <= 10 { println!("DIFFERENT: {what} {}", more()) }
        }
    }

    /// What came of a search, counted.
    fn count(&mut self, answer: Searched, a: Asked) {
        if answer.kind == 3 { self.refused[answer.first] += 1; return }
        self.looked[2 * (a.kind != 0) as usize + (a.band > 0) as usize] += 1;
        self.matched += (answer.second > 0) as u64;
        self.matches += answer.second as u64;
        self.full += (answer.kind == 1) as u64;
    }

    /// What came of a search through a short index, counted: the answer, and the offsets in the list.
    fn count_short(&mut self, s: &[i32], x: &Lent, q: &[i32], answer: Searched, listed: &[u32]) {
        let (n, m, w, windows) = (s.len() as i64, q.len() as i64, x.head.window as i64, x.head.windows as i64);
        let lacks = n + 1 - w - windows;
        if lacks <= 0 { return }
        let mut came = |kind: String, is: bool| *self.short.entry(kind).or_default() += is as u64;
        let number = match answer.kind { 0 | 2 => 0, 1 => 24, _ => answer.first };
        let which = if number > 0 { 2 } else { !passes(s, x) as usize };
        for (k, is) in [true, lacks == 1, lacks == w - 1, lacks == w, lacks == m, windows == 1].into_iter().enumerate() { came(format!("lacks {} {}", LACKS[k], CAME[which]), is) }
        if number > 0 { came(format!("refused {number}"), true) }
        if answer.kind == 3 { return }
        // offsets from here on have a window at or past the count
        let across = (windows - (m / w - 1) * w).max(0);
        came("match across the end".into(), listed.iter().any(|&j| across <= j as i64 && (j as i64) < windows));
        came("match past the end".into(), listed.iter().any(|&j| windows <= j as i64));
        came("ruled out across the end".into(), (answer.first as i64) < n - m + 1 - across);
    }

    /// What came of a search for the closest few, counted.
    fn count_few(&mut self, s: &[i32], x: &Lent, a: Asked, q: &[i32], rooms: [usize; 5], answer: Searched) {
        if a.pick == 0 { return }
        let (z, k, list) = (answers::question(a, q), a.count as usize, rooms[3].min(rooms[4]));
        let index = x.index();
        self.few_tried += 1;
        let mut came = |kind: String, is: bool| *self.few.entry(kind).or_default() += is as u64;
        for (kind, is) in [("0", 0), ("1", 1), ("64", 64), ("65", 65), ("2^31 - 1", i32::MAX as usize)] { came(format!("k {kind}"), k == is) }
        for (kind, is) in [("k - 1", k.wrapping_sub(1)), ("k", k), ("k + 1", k + 1)] { came(format!("list of {kind}"), list == is) }
        came("slices of two lengths".into(), rooms[3] != rooms[4]);
        if answer.kind == 3 {
            let applies: Vec<u32> = search_conditions(&index, s, &z, [rooms[0].min(rooms[1]), rooms[2], list]).iter().filter(|c| c.1.is_some()).map(|c| c.0).collect();
            for n in WITH_30 { came(format!("30 with {n}"), applies.contains(&30) && applies.contains(&n)) }
            came(format!("refused {}", answer.first), true);
            self.few_refused += 1;
            return;
        }
        let matches = search(&index, s, &z).matches;
        let whole = closest(&matches, matches.len());
        self.few_tied += tie_at(&matches, k) as u64;
        came("tie inside".into(), whole.windows(2).take(k - 1).any(|two| two[0].1 == two[1].1));
        came("all as far".into(), whole.len() > 1 && whole[0].1 == whole[whole.len() - 1].1);
        came(format!("k {} the matches", match k.cmp(&whole.len()) { Ordering::Less => "below", Ordering::Equal => "at", Ordering::Greater => "above" }), true);
        came("k 64 below the matches".into(), k == 64 && k < whole.len());
        came("short index".into(), (x.head.windows + x.head.window) as usize <= s.len());
        came("wrong index".into(), !passes(s, x));
    }

    /// One search into buffers full of rubbish; what is listed where nothing is refused.
    fn search(&mut self, s: &[i32], x: &Lent, a: Asked, q: &[i32], rooms: [usize; 5]) -> Option<Vec<(u32, u64)>> {
        let mut b = Lists::of_rubbish(&mut self.r, rooms);
        let mut after = b.clone();
        let answer = answers::search(s, x, a, q, &mut after);
        self.count(answer, a);
        let most = if a.pick == 0 { rooms[3].min(rooms[4]) } else { a.count as usize };
        let listed = if answer.kind == 3 { 0 } else { answer.second.min(most) };
        self.count_short(s, x, q, answer, &after.offsets[..listed]);
        self.count_few(s, x, a, q, rooms, answer);
        let told = entries::search(s, x, a, q, &mut b);
        self.say(told == answer && b == after, "search", || format!("{s:?} {x:?} {a:?} {q:?} {rooms:?}: {told:?} {b:?}, the model {answer:?} {after:?}"));
        let whole = matches!(answer.kind, 0 | 2);
        if whole && self.r.below(2) == 0 { self.plain(s, x, a, q, &after, answer) }
        whole.then(|| b.offsets.iter().copied().zip(b.distances.iter().copied()).take(listed).collect())
    }

    /// The plain C, where nothing is refused; its list is as long as the shorter of the two slices.
    fn plain(&mut self, s: &[i32], x: &Lent, a: Asked, q: &[i32], after: &Lists, answer: Searched) {
        let windows = s.len() + 1 - x.head.window as usize;
        let room = after.offsets.len().min(after.distances.len());
        let mut b = Lists::of_rubbish(&mut self.r, [windows, windows, windows, room, room]);
        let mut right = after.clone();
        right.first.truncate(windows);
        right.last.truncate(windows);
        right.scratch.truncate(windows);
        right.offsets.truncate(room);
        right.distances.truncate(room);
        let mut counts = Counts::default();
        let done = unsafe {
            plain_search(
                s.as_ptr(), s.len(), x.head, x.rows.as_ptr(), x.rows.len(), x.left.as_ptr(), x.right.as_ptr(), x.left.len().min(x.right.len()), a, q.as_ptr(), q.len(),
                b.first.as_mut_ptr(), b.last.as_mut_ptr(), b.scratch.as_mut_ptr(), b.offsets.as_mut_ptr(), b.distances.as_mut_ptr(), room as u64, &mut counts,
            )
        };
        self.plain += 1;
        let same = done == 1 && b == right && counts == Counts { candidates: answer.first as u64, matches: answer.second as u64 };
        self.say(same, "plain search", || format!("{s:?} {x:?} {a:?} {q:?}: {counts:?} {b:?}"));
        if !passes(s, x) { return }
        let done = unsafe { plain_scan(s.as_ptr(), s.len(), a, q.as_ptr(), q.len(), b.offsets.as_mut_ptr(), b.distances.as_mut_ptr(), room as u64, &mut counts) };
        self.plain += 1;
        self.say(done == 1 && b == right && counts.matches == answer.second as u64, "plain scan", || format!("{s:?} {a:?} {q:?}: {counts:?} {b:?}"));
    }

    // ---- inputs

    /// A query that the series resembles at some places: nearly the same, or moved and stretched too where it is normalised.
    fn plant(&mut self, s: &mut [i32], q: &[i32], normal: bool) {
        let r = &mut self.r;
        for _ in 0..r.below(4) {
            let at = r.below((s.len() - q.len() + 1) as u64) as usize;
            let (k, t) = if normal { (r.from_to(7, 14), r.from_to(-50, 50)) } else { (10, 0) };
            let (noise, late) = (r.from_to(0, 2), r.below(2) as usize);
            for j in 0..q.len() { s[at + j] = in_limits(q[j.saturating_sub(late)] as i64 * k / 10 + t + r.from_to(-noise, noise)) }
        }
    }

    /// A threshold at the distance of some stretch or beside it, none, or the greatest.
    fn threshold(&mut self, s: &[i32], q: &[i32], normal: bool, b: usize) -> u64 {
        let at = self.r.below((s.len() - q.len() + 1) as u64) as usize;
        let near = &s[at..at + q.len()];
        let d = if q.len() > 300 && b > 0 { self.r.below(100_000) as i128 } else if !normal { distance(near, q, b) } else { match (normalised(near), normalised(q)) { (Some(x), Some(y)) => distance(&x, &y, b), _ => 0 } };
        let d = (d as u64).min(1_000_000_000_000);
        match self.r.below(8) { 0 => 0, 1 => 1_000_000_000_000, 2 => d.saturating_sub(1), 3 | 4 => d, 5 => d / 2, 6 => (2 * d).min(1_000_000_000_000), _ => self.r.below(1_000_000) }
    }

    /// Asked for all matches, with a count that says nothing.
    fn asked(&mut self, s: &[i32], q: &[i32], normal: bool, warped: bool) -> Asked {
        let most = q.len() as u64 - 1;
        let band = if !warped || most == 0 { 0 } else { 1 + match self.r.below(3) { 0 => self.r.below(most), _ => self.r.below(most.min(4)) } } as u32;
        let threshold = self.threshold(s, q, normal, band as usize);
        let scale = match self.r.below(4) { 0 => 10, 1 => 100, _ => self.r.from_to(10, 40) } as u32;
        let shift = match self.r.below(4) { 0 => 0, 1 => 20_000, _ => self.r.from_to(0, 300) } as u32;
        let count = match self.r.below(4) { 0 => 0, 1 => 1 + self.r.below(64) as u32, 2 => 65, _ => self.r.next() as u32 };
        Asked { kind: if normal { [1, 2, u32::MAX][self.r.below(3) as usize] } else { 0 }, band, threshold, scale, shift, pick: 0, count }
    }

    /// Asked for the closest few of so many matches: the least and the greatest k, and beside the matches.
    fn few_of(&mut self, a: Asked, matches: usize) -> Asked {
        let near = matches.min(63) as u32;
        let k = match self.r.below(10) { 0 | 1 => 1, 2 | 3 => 64, 4 => near, 5 => near + 1, 6 => near.saturating_sub(1), 7 => near / 2, 8 => 1 + self.r.below(64) as u32, _ => 1 + self.r.below(near as u64 + 1) as u32 };
        Asked { pick: [1, 2, u32::MAX][self.r.below(3) as usize], count: k.max(1), ..a }
    }

    /// One of the numbers at a limit or past it.
    fn past_limits(&mut self, mut a: Asked, m: usize) -> Asked {
        let k = self.r.below(4) as usize;
        match self.r.below(if a.pick == 0 { 4 } else { 8 }) {
            0 => a.band = [m as u32, m as u32 + 1, u32::MAX, (m as u32).wrapping_sub(1)][k],
            1 => a.threshold = [1_000_000_000_001, u64::MAX, 1 << 63, 1_000_000_000_000][k],
            2 => a.scale = [9, 101, 0, u32::MAX][k],
            3 => a.shift = [20_001, u32::MAX, 20_000, 1 << 31][k],
            _ => a.count = [0, 65, i32::MAX as u32, u32::MAX][k],
        }
        a
    }

    /// A query that may be empty, too long, or have a value outside.
    fn damaged_query(&mut self, q: &[i32], n: usize) -> Vec<i32> {
        let mut q = q.to_vec();
        let k = self.r.below(q.len() as u64) as usize;
        match self.r.below(6) {
            0 => q[k] = [10_001, -10_001, i32::MAX, i32::MIN][self.r.below(4) as usize],
            1 => q.truncate(k),
            2 => q.resize(n + 1, 1),
            3 => q.resize(1_025, 2),
            4 => q = vec![5; q.len()],
            _ => q.clear(),
        }
        q
    }

    fn rooms(&mut self, windows: usize, list: usize) -> [usize; 5] {
        let mut at_least = |n: usize| n + self.r.below(4) as usize;
        [at_least(windows), at_least(windows), at_least(windows), at_least(list), at_least(list)]
    }

    /// One turn: a series with planted matches, searched through several indexes that are right, then through one that may not be; one turn in four through indexes of its beginnings too.
    fn turn(&mut self, n: usize, kind: u64) {
        let normal = kind >= 2;
        let m = match self.r.below(6) { 0 => n, 1 => 1 + self.r.below(n as u64) as usize, _ => 1 + self.r.below(n.min(9) as u64) as usize };
        let m = if normal && n > 1 { m.max(2) } else { m };
        let mut s = any_series(&mut self.r, n);
        let q = query(&mut self.r, &s, m.min(1_024));
        self.plant(&mut s, &q, normal);
        let a = self.asked(&s, &q, normal, kind % 2 == 1);
        let mut lists = vec![];
        for _ in 0..2 {
            let (w, d, g) = any_numbers(&mut self.r, n);
            let x = Lent::of(&build(&s, w.min(q.len()), d as i64, g as i64));
            let rooms = self.rooms(n, n);
            lists.extend(self.search(&s, &x, a, &q, rooms));
        }
        if lists.len() == 2 {
            self.several += 1;
            self.say(lists[0] == lists[1], "two indexes", || format!("{s:?} {a:?} {q:?}: {lists:?}"));
        }
        self.damaged(&s, &q, a, 0);
        if self.r.below(4) > 0 { return }
        self.beginnings(&s, &q, a);
        for k in 0..14 { self.damaged(&s, &q, a, k % 7) }
    }

    /// The index of the series without its last windows: none is lacking, 1, w - 1, w, m, all but one, or any number of them.
    fn beginning(&mut self, s: &[i32], m: usize, (w, d, g): (usize, u32, u32), which: u64) -> Lent {
        let windows = s.len() + 1 - w;
        let lacks = match which { 0 => 0, 1 => 1, 2 => w - 1, 3 => w, 4 => m, 5 => windows - 1, _ => self.r.below(windows as u64) as usize };
        Lent::of(&build(&s[..s.len() - lacks.min(windows - 1)], w, d as i64, g as i64))
    }

    /// Through the right index of one of the beginnings: the list is what a scan of the whole series gives.
    fn right(&mut self, s: &[i32], q: &[i32], a: Asked, which: u64, scan: &[(usize, u64)]) -> Option<Vec<(u32, u64)>> {
        let (w, d, g) = any_numbers(&mut self.r, s.len());
        let x = self.beginning(s, q.len(), (w.min(q.len()), d, g), which);
        let rooms = self.rooms(s.len(), if a.pick == 0 { s.len() } else { a.count as usize });
        let list = self.search(s, &x, a, q, rooms)?;
        let same = list.iter().map(|&(j, d)| (j as usize, d)).eq(scan.iter().copied());
        self.say(same, "scan", || format!("{s:?} {x:?} {a:?} {q:?}: {list:?}, the scan {scan:?}"));
        Some(list)
    }

    /// Through right indexes of several beginnings: each list is that of a scan of the whole series, and all are the same.
    fn beginnings(&mut self, s: &[i32], q: &[i32], a: Asked) {
        let scan = scan(s, &answers::question(a, q));
        let mut lists = vec![];
        for which in 0..7 { lists.extend(self.right(s, q, a, which, &scan)) }
        self.several += (lists.len() > 1) as u64;
        self.say(lists.windows(2).all(|two| two[0] == two[1]), "beginnings", || format!("{s:?} {a:?} {q:?}: {lists:?}"));
    }

    /// The closest few of a series with many ties: through right indexes of its beginnings, where the list is the beginning of the scan put in order, and as often damaged.
    fn closest_few(&mut self, kind: u64) {
        let n = match self.r.below(8) { 0 => self.r.from_to(65, 100), 1 => self.r.from_to(1, 4), _ => self.r.from_to(5, 30) } as usize;
        let normal = kind >= 2;
        let s = self.tied_series(n, normal);
        let m = (1 + self.r.below(9) as usize).max(1 + normal as usize).min(n);
        let q = query(&mut self.r, &s, m);
        let mut a = self.asked(&s, &q, normal, kind % 2 == 1);
        if self.r.below(4) > 0 { (a.threshold, a.scale, a.shift) = (1_000_000_000_000, 100, 20_000) }
        let scan = scan(&s, &answers::question(a, &q));
        for which in 0..7 {
            let few = self.few_of(a, scan.len());
            self.right(&s, &q, few, which, &closest(&scan, few.count as usize));
            let few = self.few_of(a, scan.len());
            self.damaged(&s, &q, few, which);
        }
    }

    /// A series of which many stretches are as far from a query: small values, one stretch again and again, flat where that can match, rising or falling.
    fn tied_series(&mut self, n: usize, normal: bool) -> Vec<i32> {
        let r = &mut self.r;
        match r.below(6) {
            0 => any_series(r, n),
            1 => values(r, n, 1),
            2 => (0..n).map(|_| r.below(2) as i32).collect(),
            3 if !normal => values(r, n, 4),
            4 => { let part = 1 + r.below(6) as usize; let part = any_series(r, part); part.iter().copied().cycle().take(n).collect() }
            _ => { let (from, step) = (r.from_to(-9_000, 9_000), r.from_to(-60, 60)); (0..n as i64).map(|k| in_limits(from + k * step)).collect() }
        }
    }

    /// A short list or buffer, numbers past their limits, an index that is wrong or ill formed, a series or a query that is damaged: one of these, of the closest few up to three; through the index of one of the beginnings.
    fn damaged(&mut self, s: &[i32], q: &[i32], a: Asked, which: u64) {
        let (w, d, g) = any_numbers(&mut self.r, s.len());
        let w = if self.r.below(4) > 0 { w.min(q.len()) } else { w };
        let mut x = self.beginning(s, q.len(), (w, d, g), which);
        if self.r.below(2) == 0 { x.rubbish_behind(&mut self.r) }
        let (mut s, mut q, mut a) = (s.to_vec(), q.to_vec(), a);
        let windows = s.len() - w + 1;
        let (list, times, ways) = if a.pick == 0 { (self.r.below(4) as usize, 1, 8) } else { (a.count as usize, 1 + self.r.below(3), 10) };
        let mut rooms = self.rooms(windows, list);
        for _ in 0..times {
            match self.r.below(ways) {
                0 => rooms[self.r.below(3) as usize] = windows - 1,
                1 | 2 => { x.refile(&mut self.r); self.misled += bad_row(&x.index()).is_none() as u64 }
                3 => x.damage(&mut self.r),
                5 if !q.is_empty() => q = self.damaged_query(&q, s.len()),
                6 if !s.is_empty() => s = damaged_series(&mut self.r, &s),
                7 => rooms[3 + self.r.below(2) as usize] = [0, list.saturating_sub(1)][self.r.below(2) as usize],
                _ => a = self.past_limits(a, q.len()),
            }
        }
        self.search(&s, &x, a, &q, rooms);
    }

    /// Queries of 1,024 values and one more, over a longer series.
    fn longest(&mut self, kind: u64) {
        let n = self.r.from_to(1_024, 1_200) as usize;
        let mut s = any_series(&mut self.r, n);
        let m = 1_024 - self.r.below(3) as usize;
        let q = query(&mut self.r, &s, m);
        self.plant(&mut s, &q, kind >= 2);
        let mut a = self.asked(&s, &q, kind >= 2, false);
        a.band = if kind % 2 == 0 { 0 } else { self.r.from_to(1, 30) as u32 };
        let most = 1 << self.r.below(30);
        a.threshold = self.r.below(most);
        if self.r.below(2) == 0 { a = self.few_of(a, 50) }
        for w in [256, 1 + self.r.below(256) as usize] {
            let which = self.r.below(7);
            let x = self.beginning(&s, m, (w, 1_000, 80), which);
            let rooms = self.rooms(n, 100);
            self.search(&s, &x, a, &q, rooms);
        }
    }
}

fn main() {
    let turns: u64 = std::env::args().nth(1).map_or(60_000, |x| x.parse().unwrap());
    let start = Instant::now();
    let mut t = Test { r: Numbers(88172645463325252), inputs: 0, wrong: 0, plain: 0, looked: [0; 4], matched: 0, matches: 0, full: 0, refused: [0; 31], misled: 0, several: 0, short: short_kinds(), few_tried: 0, few_tied: 0, few_refused: 0, few: few_kinds() };
    for k in 0..turns {
        let n = match k % 100 { 0 => t.r.from_to(60, 120), 1..=9 => t.r.from_to(30, 59), 10..=19 => t.r.from_to(1, 3), _ => t.r.from_to(4, 29) } as usize;
        t.turn(n, k / 100 % 4);
        if k % 8 == 0 { t.closest_few(k / 8 % 4) }
        if k % 2_000 == 0 { t.longest(k / 2_000 % 4) }
    }
    let kinds = |kinds: &Kinds| kinds.iter().map(|(kind, times)| format!("{kind} {times}")).collect::<Vec<_>>().join(", ");
    let told: Vec<String> = (0..31).filter(|&k| t.refused[k] > 0).map(|k| format!("{k}: {}", t.refused[k])).collect();
    println!(
        "{} inputs, {} differences ({} of the plain C; looked: raw {} straight, {} warped, normalised {} straight, {} warped; {} with matches, {} matches, {} lists too short, {} through a wrong index, {} series through several indexes; refused {}; through short indexes {}; the closest few: {} tried, {} with a tie at the k-th place, {} refused: {}) in {:.1} s",
        t.inputs, t.wrong, t.plain, t.looked[0], t.looked[1], t.looked[2], t.looked[3], t.matched, t.matches, t.full, t.misled, t.several, told.join(" "), kinds(&t.short), t.few_tried, t.few_tied, t.few_refused, kinds(&t.few), start.elapsed().as_secs_f64()
    );
    let never: Vec<&String> = t.short.iter().chain(&t.few).filter(|(_, times)| **times == 0).map(|(kind, _)| kind).collect();
    if !never.is_empty() { println!("no search through a short index, or for the closest few: {never:?}") }
    if t.wrong > 0 || !never.is_empty() { std::process::exit(1) }
}
