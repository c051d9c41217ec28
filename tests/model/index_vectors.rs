// Writes the vectors that the program `try_index` runs: cases of the paper and of its readings, whose answers are written by hand (and compared with the model's), and what the model answers on random inputs.
// One line for each, all numbers, after a line with the number of lines.
//   1 n values w d g lefts rights, then what is expected: kind, head, two numbers; how many rows, these, and the row that every other record is; the two columns of the run buffer
//   2 n values head, how many rows, these; lefts and the left ends, rights and the right ends; then what is expected: kind, no head, two numbers
//   3 n values head, how many rows, these; lefts and the left ends, rights and the right ends; the lengths of the two columns of the fresh run buffer; then what is expected, as of a build
//   0 g ends the group g. Kinds: 0 the index or yes, 1 wrong, 2 missing, 3 refused.
#![allow(dead_code)]
mod index;
mod lent;
mod model;
mod texts;
use index::*;
use lent::*;
use model::*;

const ROOM: usize = 64;

struct Lines(Vec<String>);

fn listed<T: std::fmt::Display>(l: &[T]) -> String { l.iter().map(|x| format!(" {x}")).collect() }
fn row(r: &Row) -> String { format!(" {} {} {} {}", r.low, r.up, r.first, r.runs) }
fn wide(s: &[i32]) -> Vec<i64> { s.iter().map(|&v| v as i64).collect() }

fn series_and_index(s: &[i32], x: &Lent) -> String {
    let h = x.head;
    let rows: String = x.rows.iter().map(row).collect();
    format!("{}{} {} {} {} {}{rows} {}{} {}{}", s.len(), listed(s), h.window, h.width, h.windows, x.rows.len(), x.left.len(), listed(&x.left), x.right.len(), listed(&x.right))
}

/// What the model answers to an audit.
fn audited(s: &[i32], x: &Index) -> [usize; 3] {
    match audit_refusal(x, &wide(s), 1 << 20) {
        Some((number, place)) => [3, number as usize, place],
        None => match audit(x, s) {
            Audited::Yes => [0, 0, 0],
            Audited::Wrong(k, j) => [1, k, j],
            Audited::Missing(n) => [2, n, 0],
        },
    }
}

impl Lines {
    fn end(&mut self, group: u32) { self.0.push(format!("0 {group}")) }

    /// What a build or an extension into columns of these lengths answers and leaves, where the window length is w.
    fn made(&mut self, call: String, w: u32, made: Result<Index, Refusal>, [lefts, rights]: [usize; 2]) -> [usize; 3] {
        let mut t = call;
        let told = match made {
            Err((number, place)) => {
                t += &format!(" 3 0 0 0 {number} {place} 0{}", row(&Row { low: 7, up: 9, first: 5, runs: w }));
                t += &listed(&(0..lefts).map(|i| 1000 + i).collect::<Vec<_>>());
                t += &listed(&(0..rights).map(|i| 2000 + i).collect::<Vec<_>>());
                [3, number as usize, place]
            }
            Ok(x) => {
                let b = Lent::of(&x);
                t += &format!(" 0 {w} {} {} {} {} {}", b.head.width, b.head.windows, b.rows.len(), b.left.len(), b.rows.len());
                for r in &b.rows { t += &row(r) }
                t += &row(&Row::default());
                let column = |l: &[u32], n: usize| { let mut l = l.to_vec(); l.resize(n, 0); listed(&l) };
                t += &column(&b.left, lefts);
                t += &column(&b.right, rights);
                [0, b.rows.len(), b.left.len()]
            }
        };
        self.0.push(t);
        told
    }

    /// A build into columns of these lengths; how the model answers it.
    fn build(&mut self, s: &[i32], w: u32, d: u32, g: u32, lefts: usize, rights: usize) -> [usize; 3] {
        let refusal = build_refusal(&wide(s), 1 << 20, w as i64, d as i64, g as i64, ROOM.min(lefts).min(rights));
        let made = refusal.map_or_else(|| Ok(build(s, w as usize, d as i64, g as i64)), Err);
        self.made(format!("1 {}{} {w} {d} {g} {lefts} {rights}", s.len(), listed(s)), w, made, [lefts, rights])
    }

    /// An extension into columns of these lengths; what the model makes of it, and its answer.
    fn extend(&mut self, s: &[i32], x: &Lent, rooms: [usize; 2]) -> (Option<Index>, [usize; 3]) {
        let old = x.index();
        let refusal = extend_refusal(&old, s, ROOM.min(rooms[0]).min(rooms[1]));
        let made = refusal.map_or_else(|| Ok(extend(&old, s)), Err);
        (made.clone().ok(), self.made(format!("3 {} {} {}", series_and_index(s, x), rooms[0], rooms[1]), x.head.window, made, rooms))
    }

    fn audit(&mut self, s: &[i32], x: &Lent) -> [usize; 3] {
        let told = audited(s, &x.index());
        self.0.push(format!("2 {} {} 0 0 0 {} {}", series_and_index(s, x), told[0], told[1], told[2]));
        told
    }

    // ---- by hand: the answer is said here, and the model must say the same

    fn build_says(&mut self, s: &[i32], w: u32, d: u32, g: u32, room: usize, says: [usize; 3], rows: &[[i64; 4]]) {
        assert_eq!(self.build(s, w, d, g, room, room), says, "{w} {d} {g}");
        if says[0] == 0 {
            let x = build(s, w as usize, d as i64, g as i64);
            assert_eq!(x.rows.iter().map(|r| [r.low, r.up, r.first, r.runs]).collect::<Vec<_>>(), rows);
        }
    }

    fn audit_says(&mut self, s: &[i32], x: &Lent, says: [usize; 3]) { assert_eq!(self.audit(s, x), says, "{x:?}") }

    fn extend_says(&mut self, s: &[i32], x: &Lent, room: usize, rows: &[[i64; 4]], runs: &[(i64, i64)]) {
        let (made, told) = self.extend(s, x, [room, room]);
        let made = made.expect("an index");
        assert_eq!(told, [0, rows.len(), runs.len()], "{x:?}");
        assert_eq!(made.rows.iter().map(|r| [r.low, r.up, r.first, r.runs]).collect::<Vec<_>>(), rows, "{x:?}");
        assert_eq!(made.runs, runs, "{x:?}");
    }

    fn extend_refused(&mut self, s: &[i32], x: &Lent, rooms: [usize; 2], number: usize, place: usize) { assert_eq!(self.extend(s, x, rooms).1, [3, number, place], "{x:?}") }
}

fn paper_builds(l: &mut Lines) {
    let s = [1, 2, 4, 3, 1];
    l.build_says(&s, 2, 2, 80, 5, [0, 2, 2], &[[2, 4, 0, 1], [4, 8, 1, 1]]);
    l.build_says(&s, 2, 2, 0, 4, [0, 3, 3], &[[2, 4, 0, 1], [4, 6, 1, 1], [6, 8, 2, 1]]);
    l.build_says(&s, 2, 2, 100, 6, [0, 2, 2], &[[2, 4, 0, 1], [4, 8, 1, 1]]);
    l.build_says(&s, 2, 1, 0, 5, [0, 4, 4], &[[3, 4, 0, 1], [4, 5, 1, 1], [6, 7, 2, 1], [7, 8, 3, 1]]);
    l.build_says(&s, 2, 1, 100, 5, [0, 3, 3], &[[3, 4, 0, 1], [4, 5, 1, 1], [6, 8, 2, 1]]);
    l.build_says(&s, 2, 1_000_000, 0, 5, [0, 1, 1], &[[0, 1_000_000, 0, 1]]);
    l.build_says(&s, 5, 2, 0, 1, [0, 1, 1], &[[10, 12, 0, 1]]);
    l.build_says(&[-1], 1, 2, 0, 1, [0, 1, 1], &[[-2, 0, 0, 1]]);
    l.build_says(&[-3, -1, -2], 1, 2, 0, 3, [0, 2, 2], &[[-4, -2, 0, 1], [-2, 0, 1, 1]]);
    l.build_says(&[-10_000, 10_000], 1, 1_000_000, 0, 2, [0, 2, 2], &[[-1_000_000, 0, 0, 1], [0, 1_000_000, 1, 1]]);
    l.build_says(&[0; 256], 256, 1, 80, 1, [0, 1, 1], &[[0, 1, 0, 1]]);
    l.build_says(&[10_000; 257], 256, 1_000_000, 0, 2, [0, 1, 1], &[[2_000_000, 3_000_000, 0, 1]]);
    l.build_says(&[-10_000; 257], 256, 1_000_000, 100, 3, [0, 1, 1], &[[-3_000_000, -2_000_000, 0, 1]]);
    l.end(0);
}

fn refused_builds(l: &mut Lines) {
    let s = [1, 2, 4, 3, 1];
    let mut says = |s: &[i32], w: u32, d: u32, g: u32, room: usize, number: usize, place: usize| l.build_says(s, w, d, g, room, [3, number, place], &[]);
    says(&[], 1, 1, 0, 5, 1, 0);
    says(&[1, 2, 10_001, -10_001], 2, 2, 0, 5, 2, 2);
    says(&[-10_001], 0, 0, 101, 0, 2, 0);
    says(&s, 0, 0, 101, 0, 3, 0);
    says(&s, 6, 2, 0, 5, 3, 0);
    says(&[0; 300], 257, 1, 0, 60, 3, 0);
    says(&s, 2, 0, 101, 0, 4, 0);
    says(&s, 2, 1_000_001, 0, 5, 4, 0);
    says(&s, 2, 2, 101, 0, 5, 0);
    says(&s, 2, 2, 80, 3, 23, 0);
    says(&[0; 65], 1, 1, 0, 70, 23, 0);
    assert_eq!(l.build(&s, 2, 2, 80, 3, 5), [3, 23, 0]);
    assert_eq!(l.build(&s, 2, 2, 80, 5, 3), [3, 23, 0]);
    assert_eq!(l.build(&[0; 64], 1, 1, 0, 80, 64), [0, 1, 1]);
    l.end(1);
}

/// The paper's index, whole and damaged in each way that the readings 6 to 11 name.
fn paper_audits(l: &mut Lines) {
    let s = [1, 2, 4, 3, 1];
    let (head, rows, runs) = ([2, 2, 4], [[2, 4, 0, 1], [4, 8, 1, 1]], [(0, 0), (1, 3)]);
    let bad = |row: usize| [3, 20, row];
    const YES: [usize; 3] = [0, 0, 0];
    // whole; one row for all; what lies behind the last part does not matter, nor that a column is longer
    l.audit_says(&s, &lent(head, &rows, &runs), YES);
    l.audit_says(&s, &lent(head, &[[2, 8, 0, 1]], &[(0, 3)]), YES);
    l.audit_says(&s, &lent(head, &rows, &[(0, 0), (1, 3), (9, 2), (7, 7)]), YES);
    let mut longer = lent(head, &rows, &runs);
    longer.left.push(3);
    l.audit_says(&s, &longer, YES);
    // 6: ranges
    for (low, up, says) in [(2, 2, bad(0)), (4, 2, bad(0)), (3, 4, bad(0)), (1, 4, bad(0)), (-4_000_002, 4, bad(0)), (-4_000_000, 4, YES)] {
        l.audit_says(&s, &lent(head, &[[low, up, 0, 1], rows[1]], &runs), says);
    }
    for (low, up, says) in [(4, 7, bad(1)), (4, 4_000_002, bad(1)), (4, 4_000_000, YES), (6, 8, [1, 1, 3])] {
        l.audit_says(&s, &lent(head, &[rows[0], [low, up, 1, 1]], &runs), says);
    }
    // 7: no rows
    l.audit_says(&s, &lent(head, &[], &[]), [2, 4, 0]);
    l.audit_says(&s, &lent(head, &[], &runs), [2, 4, 0]);
    // 8: the head
    for h in [[0, 2, 4], [257, 2, 4], [2, 0, 4], [2, 1_000_001, 4], [2, 2, 0], [2, 2, 1_048_577]] { l.audit_says(&s, &lent(h, &rows, &runs), bad(0)) }
    l.audit_says(&s, &lent([2, 2, 1_048_576], &rows, &runs), [3, 22, 0]);
    // 9: overlaps, order, totals
    l.audit_says(&s, &lent(head, &[rows[0], [2, 8, 1, 1]], &runs), bad(1));
    l.audit_says(&s, &lent(head, &[[4, 8, 0, 1], [2, 4, 1, 1]], &[(1, 3), (0, 0)]), bad(1));
    l.audit_says(&s, &lent(head, &rows, &[(0, 3), (1, 3)]), bad(1));
    l.audit_says(&s, &lent(head, &rows, &[(0, 3), (0, 0)]), bad(1));
    // 10: parts and runs
    for (k, first, n) in [(0, 1, 1), (0, 0, 0), (1, 0, 1), (1, 2, 1), (1, 1, 0), (1, 1, 2)] {
        let mut r = rows;
        (r[k][2], r[k][3]) = (first, n);
        l.audit_says(&s, &lent(head, &r, &runs), bad(k));
    }
    for e in [(1, 4), (2, 1), (4, 4)] { l.audit_says(&s, &lent(head, &rows, &[(0, 0), e]), bad(1)) }
    l.audit_says(&s, &lent(head, &[[2, 8, 0, 2]], &[(0, 1), (2, 3)]), bad(0));
    l.audit_says(&s, &lent(head, &[[2, 8, 0, 2]], &[(2, 3), (0, 0)]), bad(0));
    l.audit_says(&s, &lent(head, &[[2, 8, 0, 2]], &[(0, 1), (3, 3)]), [2, 1, 0]);
    let mut shorter = lent(head, &rows, &runs);
    shorter.right.pop();
    l.audit_says(&s, &shorter, bad(1));
    // 11: filed wrongly, or nowhere
    l.audit_says(&s, &lent(head, &rows, &[(1, 1), (0, 0)]), [1, 0, 1]);
    l.audit_says(&s, &lent(head, &rows, &[(0, 1), (2, 3)]), [1, 0, 1]);
    l.audit_says(&s, &lent(head, &rows, &[(0, 0), (0, 2)]), [1, 1, 0]);
    l.audit_says(&[1, 2, 4, 3, 9], &lent(head, &rows, &runs), [1, 1, 3]);
    l.audit_says(&s, &lent(head, &rows, &[(0, 0), (1, 2)]), [2, 1, 0]);
    l.audit_says(&s, &lent(head, &rows[1..].iter().map(|r| [r[0], r[1], 0, 1]).collect::<Vec<_>>(), &[(2, 2)]), [2, 3, 0]);
    // the series and its windows
    l.audit_says(&s, &lent([2, 2, 3], &rows, &[(0, 0), (1, 2)]), [3, 21, 0]);
    l.audit_says(&s, &lent([2, 2, 5], &rows, &runs), [3, 22, 0]);
    l.audit_says(&s, &lent([6, 2, 4], &rows, &runs), [3, 22, 0]);
    l.audit_says(&[], &lent(head, &rows, &runs), [3, 1, 0]);
    l.audit_says(&[1, 2, 4, 10_001, -10_001], &lent([0, 2, 4], &rows, &runs), [3, 2, 3]);
    l.end(2);
}

/// Extensions of the paper's index and of small ones: by no, one and many windows, of indexes that are wrong (reading 12), and refused.
fn extensions(l: &mut Lines) {
    let (s, head, rows, runs) = ([1, 2, 4, 3, 1], [2, 2, 4], [[2, 4, 0, 1], [4, 8, 1, 1]], [(0, 0), (1, 3)]);
    let whole = lent(head, &rows, &runs);
    // by no window: a copy, without what lies behind the last part; one that is wrong too; an index without rows
    l.extend_says(&s, &whole, 4, &[[2, 4, 0, 1], [4, 8, 1, 1]], &[(0, 0), (1, 3)]);
    l.extend_says(&s, &lent(head, &rows, &[(0, 0), (1, 3), (9, 2)]), 6, &[[2, 4, 0, 1], [4, 8, 1, 1]], &[(0, 0), (1, 3)]);
    l.extend_says(&s, &lent(head, &rows, &[(3, 3), (0, 0)]), 5, &[[2, 4, 0, 1], [4, 8, 1, 1]], &[(3, 3), (0, 0)]);
    l.extend_says(&s, &lent(head, &[], &[]), 4, &[], &[]);
    // by one window, of sum 4, 3 and 6: it joins the last run of its row, or begins another
    l.extend_says(&[1, 2, 4, 3, 1, 3], &whole, 5, &[[2, 4, 0, 1], [4, 8, 1, 1]], &[(0, 0), (1, 4)]);
    l.extend_says(&[1, 2, 4, 3, 1, 2], &whole, 5, &[[2, 4, 0, 2], [4, 8, 2, 1]], &[(0, 0), (4, 4), (1, 3)]);
    l.extend_says(&[1, 2, 4, 3, 1, 5], &lent(head, &rows, &[(0, 0), (1, 2)]), 7, &[[2, 4, 0, 1], [4, 8, 1, 2]], &[(0, 0), (1, 2), (4, 4)]);
    // a new row before, between and after old ones
    l.extend_says(&[1, 2, 4, 3, 1, -2], &whole, 5, &[[-2, 0, 0, 1], [2, 4, 1, 1], [4, 8, 2, 1]], &[(4, 4), (0, 0), (1, 3)]);
    l.extend_says(&[3, 9, 5], &lent([1, 2, 2], &[[2, 4, 0, 1], [8, 10, 1, 1]], &[(0, 0), (1, 1)]), 3, &[[2, 4, 0, 1], [4, 6, 1, 1], [8, 10, 2, 1]], &[(0, 0), (2, 2), (1, 1)]);
    l.extend_says(&[1, 2, 4, 3, 1, 7], &whole, 5, &[[2, 4, 0, 1], [4, 8, 1, 1], [8, 10, 2, 1]], &[(0, 0), (1, 3), (4, 4)]);
    // nothing is merged: new rows of width d beside each other, the range of an old one kept with its gap
    l.extend_says(&[0, 2, 3, 4, 7, 0], &lent([1, 2, 1], &[[-4, 2, 0, 1]], &[(0, 0)]), 6, &[[-4, 2, 0, 2], [2, 4, 2, 1], [4, 6, 3, 1], [6, 8, 4, 1]], &[(0, 0), (5, 5), (1, 2), (3, 3), (4, 4)]);
    // by many windows, of which each is filed, not the first alone; negative sums round down
    l.extend_says(&[-1, -2, -3, -1, 0], &lent([1, 2, 1], &[[-2, 0, 0, 1]], &[(0, 0)]), 5, &[[-4, -2, 0, 1], [-2, 0, 1, 2], [0, 2, 3, 1]], &[(2, 2), (0, 1), (3, 3), (4, 4)]);
    l.extend_says(&[-10_000, -10_000, 10_000], &lent([1, 1_000_000, 1], &[[-1_000_000, 0, 0, 1]], &[(0, 0)]), 3, &[[-1_000_000, 0, 0, 1], [0, 1_000_000, 1, 1]], &[(0, 1), (2, 2)]);
    l.extend_says(&[1, 1, 1, 1, 1], &lent([2, 1, 1], &[], &[]), 4, &[[2, 3, 0, 1]], &[(1, 3)]);
    l.extend_says(&[0; 64], &lent([1, 1, 1], &[[0, 1, 0, 1]], &[(0, 0)]), 64, &[[0, 1, 0, 1]], &[(0, 63)]);
    // 12: a wrong or a missing filing stays; a window in two rows too
    l.extend_says(&[1, 2, 4, 3, 1, 3], &lent(head, &rows, &[(3, 3), (0, 0)]), 5, &[[2, 4, 0, 1], [4, 8, 1, 2]], &[(3, 3), (0, 0), (4, 4)]);
    l.extend_says(&[1, 2, 4, 3, 1, 2], &lent(head, &rows, &[(3, 3), (0, 0)]), 5, &[[2, 4, 0, 1], [4, 8, 1, 1]], &[(3, 4), (0, 0)]);
    l.extend_says(&[1, 2, 4, 3, 1, 3], &lent(head, &rows, &[(1, 2), (1, 2)]), 5, &[[2, 4, 0, 1], [4, 8, 1, 2]], &[(1, 2), (1, 2), (4, 4)]);
    // refused: 1, 2, 20, 22, 23
    let more = [1, 2, 4, 3, 1, 3];
    l.extend_refused(&[], &whole, [5, 5], 1, 0);
    l.extend_refused(&[1, 2, 10_001, -10_001, 1, 1], &lent([0, 2, 4], &rows, &runs), [0, 0], 2, 2);
    for h in [[0, 2, 4], [257, 2, 4], [2, 0, 4], [2, 1_000_001, 4], [2, 2, 0], [2, 2, 1_048_577]] { l.extend_refused(&more, &lent(h, &rows, &runs), [5, 5], 20, 0) }
    l.extend_refused(&more, &lent(head, &[rows[0], [2, 8, 1, 1]], &runs), [5, 5], 20, 1);
    l.extend_refused(&more, &lent(head, &rows, &[(0, 0), (1, 4)]), [5, 5], 20, 1);
    l.extend_refused(&more, &lent(head, &rows, &runs[..1]), [0, 0], 20, 1);
    l.extend_refused(&s[..4], &whole, [0, 0], 22, 0);
    l.extend_refused(&s, &lent([6, 2, 4], &rows, &runs), [5, 5], 22, 0);
    l.extend_refused(&s, &lent([2, 2, 1_048_576], &rows, &runs), [5, 5], 22, 0);
    for rooms in [[4, 5], [5, 4], [0, 0]] { l.extend_refused(&more, &whole, rooms, 23, 0) }
    l.extend_refused(&[0; 65], &lent([1, 1, 1], &[[0, 1, 0, 1]], &[(0, 0)]), [70, 70], 23, 0);
    l.end(6);
}

/// By no value, by one or by many; half of the old indexes damaged or filed wrongly.
fn random_extensions(l: &mut Lines) {
    let mut r = Numbers(2862933555777941757);
    for group in [7, 8] {
        let mut k = 0;
        while k < 30 {
            let n = r.from_to(1, 14) as usize;
            let mut s = any_series(&mut r, n);
            let (w, d, g) = any_numbers(&mut r, n);
            let old = match r.below(4) { 0 => n, 1 => (n - 1).max(w), _ => r.from_to(w as i64, n as i64) as usize };
            let mut x = Lent::of(&build(&s[..old], w, d as i64, g as i64));
            let rooms = [0; 2].map(|_| (n - w + 1 + r.below(3) as usize).saturating_sub(r.below(12) as usize / 11));
            if group == 8 {
                if k % 2 == 0 { x.refile(&mut r); } else { x.damage(&mut r) }
                if k % 8 == 7 { s = damaged_series(&mut r, &s) }
            }
            if !readable(&s, &x) { continue }
            l.extend(&s, &x, rooms);
            k += 1;
        }
        l.end(group);
    }
}

/// Numbers that the program reads.
fn readable(s: &[i32], x: &Lent) -> bool {
    let value = |v: i32| (-500_000_000..=500_000_000).contains(&v);
    let small = |v: u32| v <= 4_000_000_000;
    let h = x.head;
    s.iter().all(|&v| value(v)) && x.rows.len() <= ROOM && x.rows.iter().all(|r| value(r.low) && value(r.up) && small(r.first) && small(r.runs)) && x.left.iter().chain(&x.right).all(|&v| small(v))
        && [h.window, h.width, h.windows].into_iter().all(small)
}

fn random_vectors(l: &mut Lines) {
    let mut r = Numbers(3935559000370003845);
    for _ in 0..120 {
        let n = r.from_to(1, 12) as usize;
        let s = any_series(&mut r, n);
        let (w, d, g) = any_numbers(&mut r, n);
        let room = n + 1 - w;
        let more = |r: &mut Numbers| match r.below(8) { 0 => room.saturating_sub(1), 1 => room + 2, _ => room };
        let (lefts, rights) = (more(&mut r), more(&mut r));
        l.build(&s, w as u32, d, g, lefts, rights);
    }
    l.end(3);
    for group in [4, 5] {
        let mut k = 0;
        while k < if group == 4 { 60 } else { 160 } {
            let n = r.from_to(1, 12) as usize;
            let mut s = any_series(&mut r, n);
            let (w, d, g) = any_numbers(&mut r, n);
            let mut x = Lent::of(&build(&s, w, d as i64, g as i64));
            if group == 5 {
                x.damage(&mut r);
                if k % 3 == 0 { x.damage(&mut r) }
                if k % 8 == 0 { s = damaged_series(&mut r, &s) }
            }
            if !readable(&s, &x) { continue }
            l.audit(&s, &x);
            k += 1;
        }
        l.end(group);
    }
}

fn main() {
    let mut l = Lines(vec![]);
    paper_builds(&mut l);
    refused_builds(&mut l);
    paper_audits(&mut l);
    random_vectors(&mut l);
    extensions(&mut l);
    random_extensions(&mut l);
    println!("{}", l.0.len());
    for t in &l.0 { println!("{t}") }
}
