// Writes cases of calls with what the model gives: make_calls FOLDER, into index/calls.txt, search/calls.txt and text/calls.txt of it. tests/vectors/README.md has the format.
// A case by hand names the number that it must be given; random ones are drawn until there are so many of each number. Prints how often each number is given.
#![allow(dead_code)]
mod answers;
mod index;
mod lent;
mod model;
mod spoil;
mod texts;
use index::*;
use lent::*;
use model::*;
use spoil::spoiled;
use std::collections::BTreeMap;
use texts::{read_index, write_index};

const MOST: u32 = i32::MAX as u32;
/// What an audit says where it finds windows filed wrongly or nowhere, beside the numbers of refusals.
const WRONG: u32 = 101;
const MISSING: u32 = 102;
/// A search through an index with fewer windows than the series that no number below 22 refuses.
const SHORT: u32 = 103;

// ---- lines

fn list(word: &str, entries: impl ExactSizeIterator<Item = String>) -> String {
    let count = entries.len();
    format!("{word} {count}{}\n", entries.map(|e| format!(" {e}")).collect::<String>())
}

fn pairs<T: ToString>(word: &str, one: &[u32], other: &[T]) -> String { list(word, one.iter().zip(other).map(|(a, b)| format!("{a} {}", b.to_string()))) }

fn series(s: &[i32]) -> String { list("series", s.iter().map(i32::to_string)) }

fn index_lines(h: Head, rows: &[Row], left: &[u32], right: &[u32]) -> String {
    let rows = list("rows", rows.iter().map(|r| format!("{} {} {} {}", r.low, r.up, r.first, r.runs)));
    format!("head {} {} {}\n{rows}{}", h.window, h.width, h.windows, pairs("runs", left, right))
}

fn index_lent(x: &Lent) -> String { index_lines(x.head, &x.rows, &x.left, &x.right) }

fn text_lines(text: &[u8]) -> String { format!("text {}\n{}", text.iter().filter(|&&b| b == b'\n').count(), str::from_utf8(text).unwrap()) }

/// An index that is given, or that nothing is.
fn made(a: &Answer, b: &Buffers) -> String {
    if a.kind == 3 { return format!("gives {} {} 0 0\nkept\n", a.first, a.second) }
    format!("gives 0 0 {} {}\n{}", a.first, a.second, index_lines(a.head, &b.rows[..a.first], &b.left[..a.second], &b.right[..a.second]))
}

/// A note with the numbers that apply, where there are several.
fn noted(note: &str, conditions: &Conditions) -> String {
    let mut numbers: Vec<u32> = conditions.iter().filter(|c| c.1.is_some()).map(|c| c.0).collect();
    numbers.dedup();
    if numbers.len() < 2 { return note.into() }
    let numbers: Vec<String> = numbers.iter().map(u32::to_string).collect();
    format!("{note}{}{} apply", if note.is_empty() { "" } else { ": " }, numbers.join(" "))
}

/// The number that a call gives.
fn number(a: &Answer) -> u32 { if a.kind == 3 { a.first as u32 } else { 0 } }

fn wide(s: &[i32]) -> Vec<i64> { s.iter().map(|&v| v as i64).collect() }

// ---- cases

/// What a search is lent, of all matches or of the closest few; `room` is of candidates, scratch and list.
struct Search { s: Vec<i32>, x: Lent, a: Asked, q: Vec<i32>, room: [usize; 3] }

/// A file of cases, and how often each entry is given each number.
#[derive(Default)]
struct File { text: String, cases: usize, given: BTreeMap<(&'static str, u32), usize> }

/// Each entry writes its case and says true where the model gives the number that is wanted; else it writes nothing.
impl File {
    fn case(&mut self, entry: &'static str, number: u32, note: &str, lent: String, given: String) -> bool {
        let note = if note.is_empty() { String::new() } else { format!("note {note}\n") };
        self.text += &format!("case {} {entry}\n{note}{lent}{given}end\n", self.cases);
        self.cases += 1;
        *self.given.entry((entry, number)).or_default() += 1;
        true
    }

    fn build(&mut self, want: u32, note: &str, s: &[i32], [w, d, g]: [u32; 3], room: [usize; 2]) -> bool {
        let mut b = Buffers::of_sevens(room[0], room[1]);
        let a = answers::build(s, w, d, g, &mut b);
        let note = noted(note, &build_conditions(&wide(s), 1 << 20, w as i64, d as i64, g as i64, room[0].min(room[1])));
        let lent = format!("{}window {w}\nwidth {d}\nmerge {g}\nroom {} {}\n", series(s), room[0], room[1]);
        number(&a) == want && self.case("build", want, &note, lent, made(&a, &b))
    }

    fn extend(&mut self, want: u32, note: &str, s: &[i32], x: &Lent, room: [usize; 2]) -> bool {
        let mut b = Buffers::of_sevens(room[0], room[1]);
        let a = answers::extend(s, x, &mut b);
        let note = noted(note, &extend_conditions(&x.index(), s, room[0].min(room[1])));
        let lent = format!("{}{}room {} {}\n", series(s), index_lent(x), room[0], room[1]);
        number(&a) == want && self.case("extend", want, &note, lent, made(&a, &b))
    }

    fn audit(&mut self, want: u32, note: &str, s: &[i32], x: &Lent) -> bool {
        let a = answers::audit(s, x);
        let (number, says) = match a.kind {
            0 => (0, "yes".into()),
            1 => (WRONG, format!("wrong {} {}", a.first, a.second)),
            2 => (MISSING, format!("missing {}", a.first)),
            _ => (a.first as u32, format!("refused {} {}", a.first, a.second)),
        };
        let note = noted(note, &audit_conditions(&x.index(), &wide(s), 1 << 20));
        number == want && self.case("audit", want, &note, format!("{}{}", series(s), index_lent(x)), format!("says {says}\n"))
    }

    fn search(&mut self, want: u32, note: &str, Search { s, x, a, q, room }: &Search) -> bool {
        let mut b = Lists::of_sevens(*room);
        let told = answers::search(s, x, *a, q, &mut b);
        let number = match told.kind { 0 | 2 => 0, 1 => 24, _ => told.first as u32 };
        let (entry, closest, most) = if a.pick == 0 { ("search", String::new(), room[2]) } else { ("few", format!("closest {}\n", a.count), a.count as usize) };
        let given = if told.kind == 3 { format!("gives {number} {} 0 0\nkept\n", told.second) } else {
            // only the first run can end at 0
            let runs = if told.first == 0 { 0 } else { 1 + b.last[1..].iter().take_while(|&&last| last > 0).count() };
            let listed = told.second.min(most);
            format!("gives {number} 0 {} {}\n{}{}", told.first, told.second, pairs("candidates", &b.first[..runs], &b.last[..runs]), pairs("list", &b.offsets[..listed], &b.distances[..listed]))
        };
        let note = noted(note, &search_conditions(&x.index(), s, &answers::question(*a, q), *room));
        let kind = if a.kind == 0 { "raw" } else { "normal" };
        let asked = format!("{}limits {} {} {} {}\n{closest}hours none\n", list(&format!("query {kind}"), q.iter().map(i32::to_string)), a.band, a.threshold, a.scale, a.shift);
        let lent = format!("{}indexes 1\n{}{asked}room {} {} {}\n", series(s), index_lent(x), room[0], room[1], room[2]);
        number == want && self.case(entry, want, &note, lent, given)
    }

    fn write(&mut self, want: u32, note: &str, x: &Lent, room: usize) -> bool {
        let mut text = vec![7; room];
        let a = answers::write(x, &mut text);
        let given = if a.kind == 3 { format!("gives {} {} 0\nkept\n", a.first, a.second) } else { format!("gives 0 0 {}\n{}", a.first, text_lines(&text[..a.first])) };
        number(&a) == want && self.case("write", want, note, format!("{}room {room}\n", index_lent(x)), given)
    }

    fn read(&mut self, want: u32, note: &str, text: &[u8], room: [usize; 2]) -> bool {
        let mut b = Buffers::of_sevens(room[0], room[1]);
        let a = answers::read(text, &mut b);
        number(&a) == want && self.case("read", want, note, format!("{}room {} {}\n", text_lines(text), room[0], room[1]), made(&a, &b))
    }
}

/// So many cases of each number, drawn until they are there.
fn draw(quota: &[(u32, usize)], mut one: impl FnMut(u32, usize) -> bool) {
    for &(number, count) in quota {
        for k in 0..count { assert!((0..100_000).any(|_| one(number, k)), "{number} is never given") }
    }
}

// ---- what random cases are lent

fn pick<T: Copy>(r: &mut Numbers, of: &[T]) -> T { of[r.below(of.len() as u64) as usize] }

/// A value outside its limits.
fn outside(r: &mut Numbers, s: &mut [i32]) {
    if s.is_empty() { return }
    s[r.below(s.len() as u64) as usize] = pick(r, &[10_001, -10_001, i32::MAX, i32::MIN]);
}

fn rubbish_behind(r: &mut Numbers, x: &mut Lent) {
    for _ in 0..r.from_to(1, 3) { x.left.push(r.below(1 << 31) as u32); x.right.push(r.below(1 << 31) as u32) }
}

/// The index damaged so that the format can tell it: two columns of one length, no number above 2^31 - 1.
fn damage(r: &mut Numbers, x: &mut Lent) {
    loop {
        let mut y = x.clone();
        y.damage(r);
        let runs = y.left.len().min(y.right.len());
        y.left.truncate(runs);
        y.right.truncate(runs);
        let h = y.head;
        if [h.window, h.width, h.windows].iter().chain(&y.left).chain(&y.right).chain(y.rows.iter().flat_map(|r| [&r.first, &r.runs])).all(|&n| n <= MOST) { return *x = y }
    }
}

/// How much is wrong with a case that is to be given this number.
fn harm(r: &mut Numbers, number: u32) -> u64 { if number == 0 { 0 } else { 1 + r.below(3) } }

fn any_build(r: &mut Numbers, harm: u64) -> (Vec<i32>, [u32; 3], [usize; 2]) {
    let n = r.from_to(1, 18) as usize;
    let mut s = any_series(r, n);
    let (w, d, g) = any_numbers(r, n);
    let windows = n - w + 1;
    let (mut numbers, mut room) = ([w as u32, d, g], [0; 2].map(|_| windows + r.below(3) as usize));
    for _ in 0..harm {
        match r.below(7) {
            0 => s.clear(),
            1 => outside(r, &mut s),
            2 => numbers[0] = pick(r, &[0, n as u32 + 1, 257, MOST]),
            3 => numbers[1] = pick(r, &[0, 1_000_001, MOST]),
            4 => numbers[2] = pick(r, &[101, 1_000, MOST]),
            5 => room[0] = windows - 1,
            _ => room[1] = r.below(windows as u64) as usize,
        }
    }
    (s, numbers, room)
}

fn any_extend(r: &mut Numbers, harm: u64) -> (Vec<i32>, Lent, [usize; 2]) {
    let n = r.from_to(2, 18) as usize;
    let mut s = any_series(r, n);
    let (w, d, g) = any_numbers(r, n);
    let old = match r.below(4) { 0 => n, 1 => (n - 1).max(w), _ => r.from_to(w as i64, n as i64) as usize };
    let mut x = Lent::of(&build(&s[..old], w, d as i64, g as i64));
    if r.below(3) == 0 { x.refile(r); }
    if r.below(3) == 0 { rubbish_behind(r, &mut x) }
    let windows = n - w + 1;
    let mut room = [0; 2].map(|_| windows + r.below(3) as usize);
    for _ in 0..harm {
        match r.below(6) {
            0 => s.clear(),
            1 => outside(r, &mut s),
            2 => damage(r, &mut x),
            3 => s.truncate(r.below(old as u64) as usize),
            4 => room[0] = windows - 1,
            _ => room[1] = r.below(windows as u64) as usize,
        }
    }
    (s, x, room)
}

fn any_audit(r: &mut Numbers, harm: u64) -> (Vec<i32>, Lent) {
    let n = r.from_to(1, 18) as usize;
    let mut s = any_series(r, n);
    let (w, d, g) = any_numbers(r, n);
    let mut x = Lent::of(&build(&s, w, d as i64, g as i64));
    if r.below(3) == 0 { rubbish_behind(r, &mut x) }
    for _ in 0..harm {
        match r.below(6) {
            0 => s.clear(),
            1 => outside(r, &mut s),
            2 => damage(r, &mut x),
            3 => { x.refile(r); }
            4 => s.push(0),
            _ => { s.pop(); }
        }
    }
    (s, x)
}

/// A search of the kinds 0 to 3: raw straight and warped, normalised straight and warped.
fn any_search(r: &mut Numbers, kind: usize, number: u32) -> Search {
    let (normal, n) = (kind >= 2, r.from_to(5, 22) as usize);
    let m = r.from_to(2, n.min(8) as i64) as usize;
    let sort = pick(r, &[0, 1, 1, 2, 2, 6]);
    let mut s = values(r, n, sort);
    let q = loop { let q = query(r, &s, m); if !normal || spread(&q) > 0 { break q } else { s = values(r, n, 1) } };
    let band = if kind % 2 == 1 { r.from_to(1, m as i64 - 1) as u32 } else { 0 };
    let threshold = match r.below(6) { 0 => 0, 1 => 1_000_000_000_000, _ => middle(&s, &q, normal, band as usize) };
    let a = Asked { kind: normal as u32, band, threshold, scale: pick(r, &[10, 15, 25, 40, 100]), shift: pick(r, &[0, 20, 300, 20_000]), pick: 0, count: 0 };
    let w = r.from_to(1, m.min(5) as i64) as usize;
    let mut x = Lent::of(&build(&s, w, pick(r, &[1, 2, 7, 50, 1_000]), pick(r, &[0, 50, 80, 100])));
    if r.below(5) == 0 { x.refile(r); }
    if r.below(3) == 0 { rubbish_behind(r, &mut x) }
    let windows = n - w + 1;
    let list = if number == 24 { r.below(3) as usize } else { n - m + 1 + r.below(3) as usize };
    Search { s, x, a, q, room: [windows + r.below(3) as usize, windows + r.below(3) as usize, list] }
}

/// Of the searches that are answered three of four find something, and a list in two is exactly full.
fn finds(c: &mut Search, k: usize) -> bool {
    let matches = answers::search(&c.s, &c.x, c.a, &c.q, &mut Lists::of_sevens(c.room)).second;
    if k % 2 == 0 { c.room[2] = matches }
    k % 16 < 4 || matches > 0
}

/// How many windows the index lacks.
fn short_of(c: &Search) -> i64 { c.s.len() as i64 + 1 - c.x.head.window as i64 - c.x.head.windows as i64 }

/// Through the index of a beginning of the series instead, which may be wrong; false where no beginning is shorter.
fn shorten(r: &mut Numbers, c: &mut Search) -> bool {
    let (n, w) = (c.s.len(), c.x.head.window as usize);
    if n == w { return false }
    let covered = r.from_to(w as i64, n as i64 - 1) as usize;
    c.x = Lent::of(&build(&c.s[..covered], w, c.x.head.width as i64, pick(r, &[0, 80])));
    if r.below(3) == 0 { c.x.refile(r); }
    if r.below(3) == 0 { rubbish_behind(r, &mut c.x) }
    true
}

fn spoil_search(r: &mut Numbers, c: &mut Search) {
    let (n, m, windows) = (c.s.len(), c.q.len(), c.x.head.windows as usize);
    match r.below(14) {
        0 => c.s.clear(),
        1 => outside(r, &mut c.s),
        2 => outside(r, &mut c.q),
        3 => if r.below(2) == 0 { c.q.clear() } else { c.q.resize(n + 1, 1) },
        4 => c.x.head.window = m as u32 + 1,
        5 => c.a.band = m as u32 + pick(r, &[0, 1, 1_000]),
        6 => c.a.threshold = pick(r, &[1_000_000_000_001, u64::MAX, 1 << 63]),
        7 => c.a.scale = pick(r, &[0, 9, 101, MOST]),
        8 => c.a.shift = pick(r, &[20_001, MOST]),
        9 => c.q = vec![pick(r, &[-7, 0, 10_000]); m],
        10 => damage(r, &mut c.x),
        11 => c.s.push(0),
        12 => { c.s.pop(); }
        _ => c.room[r.below(2) as usize] = windows.saturating_sub(1),
    }
}

/// Asked for the closest few: the least k and the greatest, and below, at and above the matches.
fn ask_few(r: &mut Numbers, c: &mut Search) {
    let matches = search(&c.x.index(), &c.s, &answers::question(c.a, &c.q)).matches.len() as u32;
    (c.a.pick, c.a.count) = (1, pick(r, &[1, 64, matches / 2, matches.saturating_sub(1), matches, matches + 1]).max(1));
    c.room[2] = c.a.count as usize + r.below(3) as usize;
}

/// One of the matches that are not handed out is as close as the last that is.
fn tied(c: &Search) -> bool { tie_at(&search(&c.x.index(), &c.s, &answers::question(c.a, &c.q)).matches, c.a.count as usize) }

fn spoil_few(r: &mut Numbers, c: &mut Search) {
    match r.below(6) {
        0 => c.a.count = pick(r, &[0, 65, MOST]),
        1 => c.room[2] = pick(r, &[0, (c.a.count as usize).saturating_sub(1)]).min(c.room[2]),
        _ => spoil_search(r, c),
    }
}

/// The index of a random series, or the same damaged until it is not well formed.
fn any_index(r: &mut Numbers, bad: bool) -> Lent {
    let n = r.from_to(1, 18) as usize;
    let s = any_series(r, n);
    let (w, d, g) = any_numbers(r, n);
    let mut x = Lent::of(&build(&s, w, d as i64, g as i64));
    if r.below(3) == 0 { rubbish_behind(r, &mut x) }
    while bad && bad_row(&x.index()).is_none() { damage(r, &mut x) }
    x
}

/// Bytes that stand well in a file of lines, and a newline at the end.
fn lines_of_letters(text: &[u8]) -> bool { text.last().is_none_or(|&b| b == b'\n') && text.iter().all(|b| matches!(b, b' '..=b'~' | b'\n' | b'\r' | b'\t')) }

// ---- index/calls.txt

/// The paper's series, and its index with g = 80.
const PAPER: [i32; 5] = [1, 2, 4, 3, 1];
fn paper() -> Lent { lent([2, 2, 4], &[[2, 4, 0, 1], [4, 8, 1, 1]], &[(0, 0), (1, 3)]) }

fn builds(f: &mut File, r: &mut Numbers) {
    let (s, up, waves) = (&PAPER[..], [10_000; 258], [3, -4, 5, -9, 0, 2, 2, 7, -6, 1, -4, 3, 8, -9, -1, 4]);
    for (want, note, s, numbers, room) in [
        (0, "the worked example", s, [2, 2, 80], [4, 4]),
        (0, "nothing merged", s, [2, 2, 0], [4, 4]),
        (0, "room left: zeros", s, [2, 2, 80], [6, 9]),
        (0, "as many windows as rows and runs", &[5, 1, 9, 3], [1, 1, 0], [4, 4]),
        (0, "one window", s, [5, 3, 100], [1, 1]),
        (0, "one value", &[-10_000], [1, 1, 100], [1, 1]),
        (0, "w 256 and n 256", &up[..256], [256, 1_000_000, 80], [1, 1]),
        (0, "w 256, the greatest sums", &up, [256, 1, 80], [3, 3]),
        (0, "negative sums, d 2", &[-1, -2, -3, -4, -5], [1, 2, 0], [5, 5]),
        (0, "values at both limits", &[10_000, -10_000, 10_000, -10_000], [2, 7, 80], [3, 3]),
        (0, "d 1", s, [1, 1, 0], [5, 5]),
        (0, "d 1,000,000", &[-1, 0, -1], [1, 1_000_000, 0], [3, 3]),
        (1, "no value", &[], [2, 2, 80], [4, 4]),
        (1, "no value and no room", &[], [0, 0, 101], [0, 0]),
        (2, "the first of two", &[1, 10_001, -10_001], [2, 2, 80], [2, 2]),
        (2, "the last", &[1, 2, i32::MIN], [2, 2, 80], [2, 2]),
        (2, "the first", &[i32::MAX, 2, 3], [4, 2, 80], [2, 1]),
        (3, "w 0", s, [0, 2, 80], [6, 6]),
        (3, "w n + 1", s, [6, 2, 80], [6, 6]),
        (3, "w 257", &up[..257], [257, 2, 80], [6, 6]),
        (3, "w 2^31 - 1", s, [MOST, 2, 101], [6, 6]),
        (4, "d 0", s, [2, 0, 80], [4, 4]),
        (4, "d 1,000,001", s, [2, 1_000_001, 80], [4, 4]),
        (4, "d 0", s, [2, 0, MOST], [0, 4]),
        (5, "g 101", s, [2, 2, 101], [4, 4]),
        (5, "g 101", s, [2, 2, 101], [4, 3]),
        (23, "a row too few", s, [2, 2, 80], [3, 4]),
        (23, "a run too few", s, [2, 2, 80], [4, 3]),
        (23, "no room", s, [5, 2, 80], [0, 0]),
    ] { assert!(f.build(want, note, s, numbers, room), "{note}") }
    for g in (0..=100).step_by(10) { assert!(f.build(0, &format!("g {g}"), &waves, [1, 2, g], [16, 16])) }
    draw(&[(0, 18), (1, 2), (2, 3), (3, 4), (4, 4), (5, 4), (23, 4)], |number, _| {
        let harm = harm(r, number);
        let (s, numbers, room) = any_build(r, harm);
        f.build(number, "", &s, numbers, room)
    });
}

fn extensions(f: &mut File, r: &mut Numbers) {
    let x = paper();
    let rubbish = lent([2, 2, 4], &[[2, 4, 0, 1], [4, 8, 1, 1]], &[(0, 0), (1, 3), (9, 2), (MOST, 0)]);
    let gap = lent([1, 2, 2], &[[2, 4, 0, 1], [8, 10, 1, 1]], &[(0, 0), (1, 1)]);
    let wrong = lent([2, 2, 4], &[[2, 4, 0, 1], [4, 8, 1, 1]], &[(3, 3), (0, 0)]);
    let bad = lent([2, 2, 4], &[[2, 4, 0, 1], [4, 8, 2, 1]], &[(0, 0), (1, 3)]);
    let none = lent([2, 2, 4], &[], &[]);
    for (want, note, s, x, room) in [
        (0, "by no value: a copy", &PAPER[..], &x, [4, 4]),
        (0, "by no value, rubbish behind the runs", &PAPER, &rubbish, [4, 5]),
        (0, "joins the last run", &[1, 2, 4, 3, 1, 3], &x, [5, 5]),
        (0, "begins a run", &[1, 2, 4, 3, 1, 2], &rubbish, [5, 5]),
        (0, "a row before all", &[1, 2, 4, 3, 1, -2], &x, [5, 5]),
        (0, "a row between", &[3, 9, 5], &gap, [3, 3]),
        (0, "a row behind all", &[1, 2, 4, 3, 1, 7], &x, [7, 6]),
        (0, "what is filed wrongly stays", &[1, 2, 4, 3, 1, 3], &wrong, [5, 5]),
        (0, "no rows before", &[1, 2, 4, 3, 1, -9, -9], &none, [6, 6]),
        (0, "many values", &[1, 2, 4, 3, 1, -2, -3, 0, 0, 8, 9, 1], &x, [11, 11]),
        (1, "no value", &[], &x, [5, 5]),
        (1, "no value, a bad row, no room", &[], &bad, [0, 0]),
        (2, "a new value", &[1, 2, 4, 3, 1, 10_001], &x, [5, 5]),
        (2, "an old value and a bad row", &[1, -10_001, 4, 3], &bad, [0, 0]),
        (20, "a part that begins too late", &PAPER, &bad, [4, 4]),
        (20, "a bad row, too few values, no room", &PAPER[..3], &bad, [0, 0]),
        (20, "w 0", &PAPER, &lent([0, 2, 4], &[], &[]), [9, 9]),
        (22, "a value too few", &PAPER[..4], &x, [4, 4]),
        (22, "w above n", &PAPER, &lent([6, 2, 1], &[], &[]), [4, 4]),
        (22, "a value too few, no room", &PAPER[..4], &x, [0, 2]),
        (23, "a row too few", &[1, 2, 4, 3, 1, 3], &x, [4, 5]),
        (23, "a run too few", &[1, 2, 4, 3, 1, 3], &x, [5, 4]),
    ] { assert!(f.extend(want, note, s, x, room), "{note}") }
    draw(&[(0, 24), (1, 2), (2, 5), (20, 8), (22, 6), (23, 6)], |number, _| {
        let harm = harm(r, number);
        let (s, x, room) = any_extend(r, harm);
        f.extend(number, "", &s, &x, room)
    });
}

fn audits(f: &mut File, r: &mut Numbers) {
    let (head, rows, runs) = ([2, 2, 4], [[2, 4, 0, 1], [4, 8, 1, 1]], [(0, 0), (1, 3)]);
    let ones = [1; 257];
    for (want, note, s, x) in [
        (0, "the worked example", &PAPER[..], paper()),
        (0, "rubbish behind the runs", &PAPER, lent(head, &rows, &[(0, 0), (1, 3), (9, 2), (0, MOST)])),
        (0, "ranges to both limits", &PAPER, lent(head, &[[-4_000_000, 4, 0, 1], [4, 4_000_000, 1, 1]], &runs)),
        (0, "w 256", &ones[..256], lent([256, 1, 1], &[[256, 257, 0, 1]], &[(0, 0)])),
        (WRONG, "the first row", &PAPER, lent(head, &rows, &[(1, 1), (0, 0)])),
        (WRONG, "the last offset", &[1, 2, 4, 3, 9], paper()),
        (WRONG, "a window in two rows", &PAPER, lent(head, &rows, &[(0, 0), (0, 2)])),
        (MISSING, "one", &PAPER, lent(head, &rows, &[(0, 0), (1, 2)])),
        (MISSING, "all: no rows, rubbish in the runs", &PAPER, lent(head, &[], &[(3, 1), (MOST, 7)])),
        (1, "no value", &[], lent([257, 2, 4], &rows, &runs)),
        (2, "the last value and a bad head", &[1, 2, 4, 3, 10_001], lent([2, 0, 4], &rows, &runs)),
        (20, "w 257", &ones, lent([257, 1, 1], &[[257, 258, 0, 1]], &[(0, 0)])),
        (20, "d 1,000,001", &PAPER, lent([2, 1_000_001, 4], &[], &[])),
        (20, "windows 0", &PAPER, lent([2, 2, 0], &[], &[])),
        (20, "an empty range", &PAPER, lent(head, &[[2, 4, 0, 1], [4, 4, 1, 1]], &runs)),
        (20, "an end that is no multiple", &PAPER, lent(head, &[[2, 4, 0, 1], [4, 7, 1, 1]], &runs)),
        (20, "up above its limit", &PAPER, lent(head, &[[2, 4, 0, 1], [4, 4_000_002, 1, 1]], &runs)),
        (20, "an overlap is the later row's", &PAPER, lent(head, &[[2, 6, 0, 1], [4, 8, 1, 1]], &runs)),
        (20, "a row without runs", &PAPER, lent(head, &[[2, 4, 0, 0], [4, 8, 0, 1]], &runs)),
        (20, "a part past the run buffer", &PAPER, lent(head, &[[2, 4, 0, 1], [4, 8, 1, 2]], &runs)),
        (20, "runs that touch", &PAPER, lent(head, &[[2, 8, 0, 2]], &[(0, 1), (2, 3)])),
        (20, "a run past the windows", &PAPER, lent(head, &rows, &[(0, 0), (1, 4)])),
        (20, "the total passes the windows", &PAPER, lent(head, &rows, &[(0, 3), (1, 1)])),
        (20, "a bad row, too many windows", &PAPER, lent([2, 2, 9], &[[2, 4, 0, 1], [4, 8, 0, 1]], &runs)),
        (21, "a value too many", &[1, 2, 4, 3, 1, 2], paper()),
        (22, "a value too few", &PAPER[..4], paper()),
        (22, "windows 1,048,576", &PAPER, lent([2, 2, 1_048_576], &rows, &runs)),
    ] { assert!(f.audit(want, note, s, &x), "{note}") }
    draw(&[(0, 8), (WRONG, 9), (MISSING, 6), (1, 2), (2, 4), (20, 8), (21, 4), (22, 4)], |number, _| {
        let harm = harm(r, number);
        let (s, x) = any_audit(r, harm);
        f.audit(number, "", &s, &x)
    });
}

// ---- search/calls.txt

/// The kind and the limits, for all matches.
fn asked([kind, band, threshold, scale, shift]: [u64; 5]) -> Asked { Asked { kind: kind as u32, band: band as u32, threshold, scale: scale as u32, shift: shift as u32, pick: 0, count: 0 } }

/// The same for the closest few.
fn few(limits: [u64; 5], count: u32) -> Asked { Asked { pick: 1, count, ..asked(limits) } }

/// The index of values and sums from 0 to 999, in one row.
fn thousand(w: u32, windows: u32) -> Lent { lent([w, 1_000, windows], &[[0, 1_000, 0, 1]], &[(0, windows - 1)]) }

fn searches(f: &mut File, r: &mut Numbers) {
    let (raw, normal) = ([0, 0, 5, 10, 0], [1, 0, 0, 20, 1]);
    let ones = vec![1; 1_025];
    let apart = lent([2, 2, 4], &[[2, 4, 0, 1], [4, 6, 1, 1], [6, 8, 2, 1]], &[(0, 0), (3, 3), (1, 2)]);
    let rubbish = lent([2, 2, 4], &[[2, 4, 0, 1], [4, 8, 1, 1]], &[(0, 0), (1, 3), (MOST, 0), (2, 2)]);
    let bad = lent([2, 2, 4], &[[2, 4, 0, 1], [4, 8, 1, 1]], &[(0, 0), (1, 4)]);
    let pair = lent([2, 2, 1], &[[2, 4, 0, 1]], &[(0, 0)]);
    let down = lent([1, 5, 6], &[[-10_000, -9_995, 0, 2], [-5, 0, 2, 2]], &[(0, 0), (3, 4), (1, 2), (5, 5)]);
    for (want, note, s, x, limits, q, room) in [
        (0, "the worked example", &PAPER[..], paper(), raw, &[2, 4][..], [4, 4, 3]),
        (0, "E 4", &PAPER, paper(), [0, 0, 4, 10, 0], &[2, 4], [4, 4, 3]),
        (0, "two candidates", &PAPER, apart, [0, 0, 0, 10, 0], &[4, 3], [4, 4, 1]),
        (0, "rubbish behind the runs", &PAPER, rubbish, raw, &[2, 4], [5, 6, 4]),
        (0, "no match and no list", &PAPER, paper(), [0, 0, 0, 10, 0], &[9, 9], [4, 4, 0]),
        (0, "a candidate, no match, no list", &PAPER, paper(), [0, 0, 0, 10, 0], &[1, 3], [4, 4, 0]),
        (0, "m = n", &PAPER, paper(), [0, 4, 1_000_000_000_000, 100, 20_000], &[0, 0, 0, 0, 0], [4, 4, 1]),
        (0, "a raw query that is flat", &PAPER, paper(), raw, &[3, 3], [4, 4, 4]),
        (0, "normalised, twice as high", &[0, 2], pair.clone(), normal, &[0, 1], [1, 1, 1]),
        (0, "normalised, thrice: no match", &[0, 3], pair.clone(), normal, &[0, 1], [1, 1, 0]),
        (0, "nearly flat", &[0, 2], pair.clone(), [1, 1, 1_000_000, 100, 20_000], &[9_999, 10_000], [1, 1, 1]),
        (0, "negative sums", &[-10_000, -1, -2, -9_999, -9_998, -3], down, [0, 1, 2, 10, 0], &[-1, -2], [6, 6, 9]),
        (0, "no rows: no candidate", &PAPER, lent([2, 2, 4], &[], &[]), raw, &[2, 4], [4, 4, 0]),
        (0, "a window in no row", &PAPER, lent([2, 2, 4], &[[4, 8, 0, 1]], &[(2, 3)]), raw, &[2, 4], [4, 4, 3]),
        (0, "w 256 = m", &ones[..256], thousand(256, 1), raw, &ones[..256], [1, 1, 1]),
        (0, "m 1,024", &ones[..1_024], thousand(256, 769), [0, 0, 0, 10, 0], &ones[..1_024], [769, 769, 1]),
        (1, "no value", &[], paper(), raw, &[2, 4], [4, 4, 3]),
        (1, "nothing at all", &[], lent([0, 0, 0], &[], &[]), [1, 0, 0, 0, 0], &[], [0, 0, 0]),
        (2, "a value, and one of the query before it", &[1, 2, 10_001, 3, 1], paper(), raw, &[-10_001, 4], [4, 4, 3]),
        (2, "a value of the query", &PAPER, paper(), raw, &[2, -10_001], [4, 4, 3]),
        (2, "a value of a query that is too long", &PAPER, bad.clone(), [0, 9, u64::MAX, 9, 0], &[0, 0, 0, 0, 0, 10_001], [3, 3, 3]),
        (6, "m 0", &PAPER, paper(), raw, &[], [4, 4, 3]),
        (6, "m = n + 1", &PAPER, paper(), raw, &[1, 2, 4, 3, 1, 1], [4, 4, 3]),
        (6, "m 1,025", &ones, thousand(1, 1_025), raw, &ones, [1_025, 1_025, 1]),
        (7, "m = w - 1", &PAPER, paper(), raw, &[2], [4, 4, 3]),
        (7, "w 300", &PAPER, lent([300, 2, 4], &[], &[]), [0, 2, 5, 9, 0], &[2, 4], [4, 4, 3]),
        (8, "b = m", &PAPER, paper(), [0, 2, 5, 10, 0], &[2, 4], [4, 4, 3]),
        (9, "E 10^12 + 1", &PAPER, paper(), [0, 0, 1_000_000_000_001, 10, 0], &[2, 4], [4, 4, 3]),
        (9, "E 2^64 - 1", &PAPER, paper(), [1, 0, u64::MAX, 9, 0], &[2, 2], [4, 4, 3]),
        (10, "a 9", &PAPER, paper(), [0, 0, 5, 9, 0], &[2, 4], [4, 4, 3]),
        (10, "a 101", &PAPER, paper(), [1, 0, 5, 101, 0], &[2, 4], [4, 4, 3]),
        (10, "h 20,001", &PAPER, paper(), [0, 0, 5, 10, 20_001], &[2, 4], [4, 4, 3]),
        (11, "a flat query", &PAPER, paper(), normal, &[5, 5], [4, 4, 3]),
        (11, "a query of one value", &PAPER, lent([1, 10, 5], &[[0, 10, 0, 1]], &[(0, 4)]), normal, &[4], [5, 5, 3]),
        (11, "flat, and all that follows", &PAPER[..4], bad.clone(), normal, &[5, 5], [0, 0, 0]),
        (20, "w 257 = m", &ones[..257], thousand(257, 1), raw, &ones[..257], [1, 1, 1]),
        (20, "w 0", &PAPER, lent([0, 2, 4], &[], &[]), raw, &[2, 4], [9, 9, 3]),
        (20, "the second row", &PAPER, bad, raw, &[2, 4], [4, 4, 3]),
        (0, "a value too many", &[1, 2, 4, 3, 1, 1], paper(), raw, &[2, 4], [5, 5, 3]),
        (23, "a value too many, scratch too short", &[1, 2, 4, 3, 1, 1], paper(), raw, &[2, 4], [5, 4, 3]),
        (22, "a value too few", &PAPER[..4], paper(), raw, &[2, 4], [4, 4, 3]),
        (22, "a value too few, no candidates", &PAPER[..4], paper(), raw, &[2, 4], [0, 4, 3]),
        (23, "candidates one too short", &PAPER, paper(), raw, &[2, 4], [3, 4, 3]),
        (23, "scratch one too short", &PAPER, paper(), raw, &[2, 4], [4, 3, 3]),
        (24, "the list one too short", &PAPER, paper(), raw, &[2, 4], [4, 4, 2]),
        (24, "no list", &PAPER, paper(), raw, &[2, 4], [5, 6, 0]),
        (24, "normalised", &[0, 2], pair, normal, &[0, 1], [1, 1, 0]),
    ] { assert!(f.search(want, note, &Search { s: s.into(), x, a: asked(limits), q: q.into(), room }), "{note}") }
    draw(&[(0, 52), (1, 2), (2, 5), (6, 4), (7, 4), (8, 4), (9, 4), (10, 4), (11, 4), (20, 8), (SHORT, 6), (22, 6), (23, 6), (24, 12)], |number, k| {
        let mut c = any_search(r, if number == 11 { 2 + k % 2 } else { k % 4 }, number);
        if number == 0 && !finds(&mut c, k) { return false }
        if number != 24 { for _ in 0..harm(r, number) { spoil_search(r, &mut c) } }
        let short = short_of(&c) > 0;
        if number == SHORT { return short && [0, 23, 24].iter().any(|&n| f.search(n, "", &c)) }
        !(number == 23 && short) && f.search(number, "", &c)
    });
}

/// Through indexes that have fewer windows than the series.
fn shorts(f: &mut File, r: &mut Numbers) {
    // the query stands at 0 and 8, and nearly so at 16, the last offset
    let (s, q, w) = ([40, 41, 52, 93, 30, 0, 21, 64, 40, 41, 52, 93, 30, 0, 21, 75, 40, 41, 54, 93, 30, 0, 21], [40, 41, 52, 93, 30, 0, 21], 3);
    let windows = s.len() + 1 - w;
    for (kind, limits) in [("raw", [0, 0, 4, 10, 0]), ("raw warped", [0, 1, 4, 10, 0]), ("normal", [1, 0, 100, 11, 1]), ("normal warped", [1, 1, 100, 11, 1])] {
        for (lacks, count) in [("no window", 0), ("one window", 1), ("w - 1 windows", w - 1), ("w windows", w), ("m windows", q.len()), ("all windows but one", windows - 1)] {
            let x = Lent::of(&build(&s[..s.len() - count], w, 5, 0));
            assert!(f.search(0, &format!("{kind}, lacks {lacks}"), &Search { s: s.into(), x, a: asked(limits), q: q.into(), room: [windows, windows, 3] }))
        }
    }
    let (s, raw, all) = ([1, 2, 4, 3, 1, 2, 4], [0, 0, 5, 10, 0], [6, 6, 5]);
    let (head, rows, ones) = ([2, 2, 4], [[2, 4, 0, 1], [4, 8, 1, 1]], vec![1; 1_024]);
    let bad = lent(head, &rows, &[(0, 0), (1, 4)]);
    for (want, note, s, x, limits, q, room) in [
        (0, "no rows: each window below the count rules out", &s[..], lent(head, &[], &[]), raw, &[2, 4][..], all),
        (0, "no rows, windows 1", &s, lent([2, 2, 1], &[], &[]), raw, &[2, 4], all),
        (0, "windows below the count in no row", &s, lent(head, &[[4, 8, 0, 1]], &[(2, 3)]), raw, &[2, 4], all),
        (0, "a window in two rows, one in none", &s, lent(head, &rows, &[(0, 1), (1, 2)]), raw, &[2, 4], all),
        (0, "windows in each other's row", &s, lent(head, &rows, &[(1, 3), (0, 0)]), [0, 0, 0, 10, 0], &[2, 4], all),
        (0, "rubbish behind the runs", &s, lent(head, &rows, &[(0, 0), (1, 3), (4, 5), (MOST, 0)]), raw, &[2, 4], all),
        (0, "the second part past the count, the first ruled out", &s, paper(), raw, &[9, 9, 2, 4], [6, 6, 0]),
        (0, "the second part past the count, the first met", &s, paper(), raw, &[2, 4, 9, 9], [6, 6, 0]),
        (0, "m = n", &s, paper(), raw, &s, [6, 6, 1]),
        (0, "w 1, windows 1", &s, thousand(1, 1), raw, &[4], [7, 7, 7]),
        (0, "w = m, windows 1", &s, thousand(5, 1), raw, &[1, 2, 4, 3, 1], [3, 3, 1]),
        (0, "w 256, windows 1", &ones[..258], thousand(256, 1), raw, &ones[..256], [3, 3, 3]),
        (0, "m 1,024, windows 1", &ones, thousand(256, 1), raw, &ones, [769, 769, 1]),
        (2, "a value past the index", &[1, 2, 4, 3, 1, 2, 10_001], paper(), raw, &[2, 4], all),
        (2, "a value of the query, a bad row, no room", &s, bad.clone(), raw, &[2, 10_001], [0, 0, 0]),
        (6, "m 0", &s, paper(), raw, &[], all),
        (6, "m = n + 1", &s, paper(), raw, &[1, 2, 4, 3, 1, 2, 4, 3], all),
        (7, "m = w - 1", &s, paper(), raw, &[2], all),
        (8, "b = m", &s, paper(), [0, 2, 5, 10, 0], &[2, 4], all),
        (9, "E 10^12 + 1", &s, paper(), [0, 0, 1_000_000_000_001, 10, 0], &[2, 4], all),
        (10, "a 9", &s, paper(), [0, 0, 5, 9, 0], &[2, 4], all),
        (10, "h 20,001", &s, paper(), [1, 0, 5, 10, 20_001], &[2, 4], all),
        (11, "a flat query, a bad row, no room", &s, bad.clone(), [1, 0, 5, 10, 0], &[5, 5], [0, 0, 0]),
        (20, "a run at the count", &s, bad.clone(), raw, &[2, 4], all),
        (20, "a run at the count, no room", &s, bad, raw, &[2, 4], [4, 4, 0]),
        (20, "the total passes the count", &s, lent(head, &rows, &[(0, 3), (1, 1)]), raw, &[2, 4], all),
        (20, "windows 0", &s, lent([2, 2, 0], &[], &[]), raw, &[2, 4], all),
        (23, "as many candidates as the index has windows", &s, paper(), raw, &[2, 4], [4, 6, 5]),
        (23, "as much scratch as the index has windows", &s, paper(), raw, &[2, 4], [6, 4, 5]),
        (23, "candidates one too short", &s, paper(), raw, &[2, 4], [5, 6, 5]),
        (24, "the list one too short", &s, paper(), raw, &[2, 4], [6, 6, 4]),
        (24, "no list", &s, paper(), raw, &[2, 4], [6, 6, 0]),
    ] { assert!(f.search(want, note, &Search { s: s.into(), x, a: asked(limits), q: q.into(), room }), "{note}") }
    draw(&[(0, 16), (2, 2), (6, 1), (7, 1), (8, 1), (9, 1), (10, 1), (11, 1), (20, 5), (23, 4), (24, 4)], |number, k| {
        let mut c = any_search(r, if number == 11 { 2 + k % 2 } else { k % 4 }, number);
        if !shorten(r, &mut c) { return false }
        if number == 0 && !finds(&mut c, k) { return false }
        if number != 24 { for _ in 0..harm(r, number) { spoil_search(r, &mut c) } }
        short_of(&c) > 0 && f.search(number, "", &c)
    });
}

/// The closest few.
fn fews(f: &mut File, r: &mut Numbers) {
    let (raw, warped, far, normal) = ([0, 0, 5, 10, 0], [0, 1, 5, 10, 0], [0, 0, 10_000, 10, 0], [1, 0, 0, 20, 1]);
    let (threes, up, down): ([i32; 70], [i32; 70], [i32; 70]) = ([3; 70], std::array::from_fn(|k| k as i32), std::array::from_fn(|k| 69 - k as i32));
    let bad = lent([2, 2, 4], &[[2, 4, 0, 1], [4, 8, 1, 1]], &[(0, 0), (1, 4)]);
    let teeth = lent([2, 2, 5], &[[2, 4, 0, 1]], &[(0, 4)]);
    let (longer, all) = ([1, 2, 4, 3, 1, 2, 4], [70, 70, 64]);
    for (want, note, s, x, limits, k, q, room) in [
        (0, "the worked example, k 1", &PAPER[..], paper(), raw, 1, &[2, 4][..], [4, 4, 1]),
        (0, "k 2, the third as far as the second", &PAPER, paper(), raw, 2, &[2, 4], [4, 4, 2]),
        (0, "as many as match", &PAPER, paper(), raw, 3, &[2, 4], [4, 4, 3]),
        (0, "one more than match", &PAPER, paper(), raw, 4, &[2, 4], [4, 4, 4]),
        (0, "k 64", &PAPER, paper(), raw, 64, &[2, 4], [4, 4, 64]),
        (0, "a list longer than k: zeros", &PAPER, paper(), raw, 2, &[2, 4], [6, 5, 7]),
        (0, "warped", &PAPER, paper(), warped, 2, &[2, 4], [4, 4, 2]),
        (0, "no match", &PAPER, paper(), [0, 0, 0, 10, 0], 1, &[1, 3], [4, 4, 1]),
        (0, "no candidate", &PAPER, paper(), [0, 0, 0, 10, 0], 3, &[9, 9], [4, 4, 3]),
        (0, "m = n", &PAPER, paper(), [0, 4, 1_000_000_000_000, 100, 20_000], 64, &[0, 0, 0, 0, 0], [4, 4, 64]),
        (0, "normalised, three as close", &[0, 2, 0, 2, 0, 2], teeth.clone(), normal, 2, &[0, 1], [5, 5, 2]),
        (0, "normalised and warped", &[0, 2, 0, 2, 0, 2], teeth, [1, 1, 1_000_000, 20, 1], 4, &[0, 1], [5, 5, 4]),
        (0, "70 as far, k 1", &threes, thousand(1, 70), raw, 1, &[1], all),
        (0, "70 as far, k 64", &threes, thousand(1, 70), raw, 64, &[1], all),
        (0, "65 as far, k 64", &threes[..65], thousand(1, 65), raw, 64, &[1], all),
        (0, "64 as far, k 64", &threes[..64], thousand(1, 64), raw, 64, &[1], all),
        (0, "each farther than the one before, k 64", &up, thousand(1, 70), far, 64, &[0], all),
        (0, "each closer than the one before, k 64", &down, thousand(1, 70), far, 64, &[0], all),
        (0, "each closer than the one before, k 1", &down, thousand(1, 70), far, 1, &[0], all),
        (0, "closer and closer, then farther, two by two as far", &up, thousand(1, 70), far, 64, &[35], all),
        (0, "the closest in no row", &PAPER, lent([2, 2, 4], &[[2, 4, 0, 1]], &[(0, 0)]), raw, 1, &[2, 4], [4, 4, 1]),
        (0, "a short index, the second as close and past its end", &longer, paper(), raw, 1, &[2, 4], [6, 6, 1]),
        (0, "a short index, both", &longer, paper(), raw, 2, &[2, 4], [6, 6, 2]),
        (0, "a short index without rows", &longer, lent([2, 2, 4], &[], &[]), raw, 2, &[2, 4], [6, 6, 2]),
        (1, "no value, k 0", &[], paper(), raw, 0, &[2, 4], [4, 4, 3]),
        (2, "a value of the query, k 65", &PAPER, paper(), raw, 65, &[2, -10_001], [4, 4, 3]),
        (6, "m 0, k 0", &PAPER, paper(), raw, 0, &[], [4, 4, 3]),
        (7, "m = w - 1, k 65", &PAPER, paper(), raw, 65, &[2], [4, 4, 3]),
        (8, "b = m, k 0", &PAPER, paper(), [0, 2, 5, 10, 0], 0, &[2, 4], [4, 4, 3]),
        (9, "E 10^12 + 1, k 0", &PAPER, paper(), [0, 0, 1_000_000_000_001, 10, 0], 0, &[2, 4], [4, 4, 3]),
        (10, "a 9, k 65", &PAPER, paper(), [0, 0, 5, 9, 0], 65, &[2, 4], [4, 4, 3]),
        (10, "h 20,001, k 0, and all that follows", &PAPER[..4], bad.clone(), [1, 0, 5, 10, 20_001], 0, &[5, 5], [0, 0, 0]),
        (30, "k 0", &PAPER, paper(), raw, 0, &[2, 4], [4, 4, 3]),
        (30, "k 0, no list", &PAPER, paper(), raw, 0, &[2, 4], [4, 4, 0]),
        (30, "k 65", &PAPER, paper(), raw, 65, &[2, 4], [4, 4, 65]),
        (30, "k 2^31 - 1", &PAPER, paper(), raw, MOST, &[2, 4], [4, 4, 64]),
        (30, "k 65, a flat query", &PAPER, paper(), normal, 65, &[5, 5], [4, 4, 65]),
        (30, "k 0, the second row", &PAPER, bad.clone(), raw, 0, &[2, 4], [4, 4, 3]),
        (30, "k 65, a value too few", &PAPER[..4], paper(), raw, 65, &[2, 4], [4, 4, 65]),
        (30, "k 65, a list of 64", &PAPER, paper(), raw, 65, &[2, 4], [4, 4, 64]),
        (30, "k 0, and all that follows", &PAPER[..4], bad.clone(), normal, 0, &[5, 5], [0, 0, 0]),
        (11, "a flat query, no list", &PAPER, paper(), normal, 1, &[5, 5], [4, 4, 0]),
        (20, "the second row, no list", &PAPER, bad, raw, 1, &[2, 4], [4, 4, 0]),
        (22, "a value too few, the list one too short", &PAPER[..4], paper(), raw, 3, &[2, 4], [4, 4, 2]),
        (23, "the list one too short", &PAPER, paper(), raw, 3, &[2, 4], [4, 4, 2]),
        (23, "the list one too short, holds all that match", &PAPER, paper(), raw, 4, &[2, 4], [4, 4, 3]),
        (23, "no match and no list", &PAPER, paper(), [0, 0, 0, 10, 0], 1, &[9, 9], [4, 4, 0]),
        (23, "k 64, a list of 63", &threes, thousand(1, 70), raw, 64, &[1], [70, 70, 63]),
        (23, "candidates one too short", &PAPER, paper(), raw, 1, &[2, 4], [3, 4, 1]),
        (23, "scratch as long as a short index has windows", &longer, paper(), raw, 1, &[2, 4], [6, 4, 1]),
    ] { assert!(f.search(want, note, &Search { s: s.into(), x, a: few(limits, k), q: q.into(), room }), "{note}") }
    draw(&[(0, 32), (1, 2), (2, 3), (6, 2), (7, 2), (8, 2), (9, 2), (10, 4), (30, 10), (11, 2), (20, 4), (22, 3), (23, 8)], |number, k| {
        let mut c = any_search(r, if number == 11 { 2 + k % 2 } else { k % 4 }, number);
        if r.below(3) == 0 && !shorten(r, &mut c) { return false }
        ask_few(r, &mut c);
        if number == 0 && k % 8 < 4 && !tied(&c) { return false }
        for _ in 0..harm(r, number) { spoil_few(r, &mut c) }
        f.search(number, "", &c)
    });
}

// ---- text/calls.txt

fn writes(f: &mut File, r: &mut Numbers) {
    let long = write_index(&paper().index()).len();
    let none = lent([256, 1_000_000, 1_048_576], &[], &[(5, 1)]);
    let far = lent([256, 1_000_000, 1_048_576], &[[-4_000_000, -1_000_000, 0, 1], [3_000_000, 4_000_000, 1, 1]], &[(0, 0), (1_048_574, 1_048_575), (MOST, MOST)]);
    let bad = lent([2, 2, 4], &[[2, 4, 0, 1], [4, 8, 1, 2]], &[(0, 0), (1, 3)]);
    for (want, note, x, room) in [
        (0, "exactly as long as the text", paper(), long),
        (0, "longer: zeros", paper(), long + 9),
        (0, "no rows, rubbish in the runs", none, 100),
        (0, "the greatest numbers, rubbish behind", far, 200),
        (23, "one byte too short", paper(), long - 1),
        (23, "no byte", paper(), 0),
        (20, "a part past the run buffer", bad.clone(), 200),
        (20, "a bad row and no room", bad, 0),
        (20, "w 0", lent([0, 2, 4], &[], &[]), 99),
        (20, "windows 1,048,577", lent([2, 2, 1_048_577], &[], &[]), 99),
    ] { assert!(f.write(want, note, &x, room), "{note}") }
    draw(&[(0, 14), (20, 8), (23, 6)], |number, _| {
        let x = any_index(r, number == 20);
        let long = if number == 20 { 50 } else { write_index(&x.index()).len() };
        let room = if number == 23 { r.below(long as u64) as usize } else { long + r.below(4) as usize };
        f.write(number, "", &x, room)
    });
}

fn reads(f: &mut File, r: &mut Numbers) {
    let text = |rows: &str| format!("(index (window 2) (width 2) (windows 4)\n{rows})\n");
    let worked = write_index(&paper().index());
    for (want, note, text, room) in [
        (0, "the worked example", worked.clone(), [2, 2]),
        (0, "room left: zeros", worked.clone(), [3, 7]),
        (0, "no rows and no room", text(""), [0, 0]),
        (12, "an empty text", "".into(), [2, 2]),
        (12, "the head alone", "(index (window 2) (width 2) (windows 4)\n".into(), [2, 2]),
        (12, "the last line is missing", worked.strip_suffix(")\n").unwrap().into(), [2, 2]),
        (12, "a line too many", format!("{worked})\n"), [2, 2]),
        (12, "an empty line", text("\n(row 2 4 (0 0))\n"), [2, 2]),
        (12, "a zero too many", text("(row 2 04 (0 0))\n"), [2, 2]),
        (12, "-0", text("(row -0 4 (0 0))\n"), [2, 2]),
        (12, "19 digits", text("(row 2 1000000000000000000 (0 0))\n"), [2, 2]),
        (12, "two spaces", text("(row 2 4  (0 0))\n"), [2, 2]),
        (12, "a carriage return", worked.replace('\n', "\r\n"), [2, 2]),
        (12, "a bad line behind a bad row, no room", text("(row 3 4 (0 0))\n(row 4 8 (1 3)\n"), [0, 0]),
        (12, "no case's end, but a line of the text", "end\ncase 0 read\n".into(), [2, 2]),
        (20, "18 digits", text("(row 2 999999999999999999 (0 0))\n"), [2, 2]),
        (20, "a row without runs", text("(row 2 4 (0 0))\n(row 4 8)\n"), [2, 2]),
        (20, "windows negative", "(index (window 2) (width 2) (windows -4)\n)\n".into(), [2, 2]),
        (20, "a bad row and no room", text("(row 2 4 (0 4))\n"), [0, 0]),
        (23, "a row too few", worked.clone(), [1, 2]),
        (23, "a run too few", worked.clone(), [2, 1]),
        (23, "no room", worked, [0, 0]),
    ] { assert!(f.read(want, note, text.as_bytes(), room), "{note}") }
    draw(&[(0, 14), (12, 14), (20, 8), (23, 6)], |number, k| {
        let x = any_index(r, false).index();
        let mut text = write_index(&x).into_bytes();
        if number == 12 || number == 20 { for _ in 0..1 + k % 2 { text = spoiled(r, text) } }
        let runs: i64 = x.rows.iter().map(|r| r.runs).sum();
        let mut room = [x.rows.len(), runs as usize].map(|n| n + r.below(3) as usize);
        if number == 23 { room = [x.rows.len() - 1 + k % 2, runs as usize - k % 2] }
        lines_of_letters(&text) && (number != 20 || read_index(&text).is_ok()) && f.read(number, "", &text, room)
    });
}

fn main() {
    let folder = std::env::args().nth(1).expect("a folder");
    let parts: [(&str, &[fn(&mut File, &mut Numbers)], &[(&str, &[u32])]); 3] = [
        ("index", &[builds, extensions, audits], &[("build", &[0, 1, 2, 3, 4, 5, 23]), ("extend", &[0, 1, 2, 20, 22, 23]), ("audit", &[0, 1, 2, 20, 21, 22, WRONG, MISSING])]),
        ("search", &[searches, shorts, fews], &[("search", &[0, 1, 2, 6, 7, 8, 9, 10, 11, 20, 22, 23, 24]), ("few", &[0, 1, 2, 6, 7, 8, 9, 10, 30, 11, 20, 22, 23])]),
        ("text", &[writes, reads], &[("write", &[0, 20, 23]), ("read", &[0, 12, 20, 23])]),
    ];
    for (name, makers, entries) in parts {
        let (mut f, mut r) = (File::default(), Numbers(0x9E3779B97F4A7C15));
        for make in makers { make(&mut f, &mut r) }
        for (entry, numbers) in entries {
            let told: Vec<String> = numbers.iter().map(|&n| format!("{} {}", match n { WRONG => "wrong".into(), MISSING => "missing".into(), n => n.to_string() }, f.given[&(*entry, n)])).collect();
            println!("{entry}: {}", told.join(", "));
        }
        println!("{name}/calls.txt: {} cases, {} bytes", f.cases, f.text.len());
        std::fs::create_dir_all(format!("{folder}/{name}")).unwrap();
        std::fs::write(format!("{folder}/{name}/calls.txt"), f.text).unwrap();
    }
}
