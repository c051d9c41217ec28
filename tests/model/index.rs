// A model of the index: built, extended, audited, searched and judged, written from the words of documents 01 and 02 (items 1 and 2) and from nothing else. Rows are sets of offsets; nothing is fast.
use crate::model::{envelopes, match_normal, match_raw, normalised, root, row_number, spread, total};
use std::collections::{BTreeMap, BTreeSet};

/// A row record, as it is lent.
#[repr(C)]
#[derive(Clone, Copy, PartialEq, Eq, Debug, Default)]
pub struct Row { pub low: i32, pub up: i32, pub first: u32, pub runs: u32 }

/// A row with any numbers, as a text may have them.
#[derive(Clone, Copy, PartialEq, Eq, Debug)]
pub struct AnyRow { pub low: i64, pub up: i64, pub first: i64, pub runs: i64 }

/// An index as it is lent or was read: exactly these rows, and run entries, of which the last may belong to no row.
#[derive(Clone, PartialEq, Eq, Debug)]
pub struct Index { pub window: i64, pub width: i64, pub windows: i64, pub rows: Vec<AnyRow>, pub runs: Vec<(i64, i64)> }

/// A row as a range and its offsets.
#[derive(Clone, Debug)]
pub struct SetRow { pub low: i64, pub up: i64, pub has: BTreeSet<usize> }

pub type Refusal = (u32, usize);

pub enum Audited { Yes, Wrong(usize, usize), Missing(usize) }

/// What is asked: all matches, or the closest few, so many.
pub struct Question<'a> { pub normal: bool, pub query: &'a [i32], pub band: i64, pub threshold: i64, pub scale: i64, pub shift: i64, pub closest: Option<i64> }

/// What a search finds, the closest few too: the candidates, and of each match offset and distance.
pub struct Found { pub candidates: Vec<usize>, pub matches: Vec<(usize, u64)> }

pub fn window_sums(s: &[i32], w: usize) -> Vec<i64> {
    (0..s.len() + 1 - w).map(|j| total(&s[j..j + w]) as i64).collect()
}

/// "Runs [l, r] of offsets, ascending, joined where they touch."
pub fn runs_of(set: &BTreeSet<usize>) -> Vec<(usize, usize)> {
    let mut runs: Vec<(usize, usize)> = vec![];
    for &j in set {
        match runs.last_mut() {
            Some(run) if run.1 + 1 == j => run.1 = j,
            _ => runs.push((j, j)),
        }
    }
    runs
}

/// Rows with their runs one after the other in the run buffer.
pub fn laid_out(w: usize, d: i64, n: usize, rows: &[SetRow]) -> Index {
    let mut x = Index { window: w as i64, width: d, windows: n as i64, rows: vec![], runs: vec![] };
    for r in rows {
        let runs = runs_of(&r.has);
        x.rows.push(AnyRow { low: r.low, up: r.up, first: x.runs.len() as i64, runs: runs.len() as i64 });
        x.runs.extend(runs.iter().map(|&(l, r)| (l as i64, r as i64)));
    }
    x
}

/// "Building files each window, drops empty rows, then goes once upward."
pub fn build(s: &[i32], w: usize, d: i64, g: i64) -> Index {
    let sums = window_sums(s, w);
    let mut filed: BTreeMap<i64, BTreeSet<usize>> = BTreeMap::new();
    for (j, &z) in sums.iter().enumerate() {
        filed.entry(row_number(z, d)).or_default().insert(j);
    }
    let mut rows: Vec<SetRow> = vec![];
    for (k, has) in filed {
        let next = SetRow { low: k * d, up: (k + 1) * d, has };
        if let Some(current) = rows.last_mut() {
            let union: BTreeSet<usize> = current.has.union(&next.has).copied().collect();
            if 100 * (runs_of(&union).len() as i64) < g * (runs_of(&current.has).len() + runs_of(&next.has).len()) as i64 {
                current.up = next.up;
                current.has = union;
                continue;
            }
        }
        rows.push(next);
    }
    laid_out(w, d, sums.len(), &rows)
}

pub fn set_rows(x: &Index) -> Vec<SetRow> {
    x.rows.iter().map(|r| SetRow {
        low: r.low,
        up: r.up,
        has: x.runs[r.first as usize..(r.first + r.runs) as usize].iter().flat_map(|&(l, r)| l as usize..=r as usize).collect(),
    }).collect()
}

/// "Extending keeps old ranges. A new window goes to the row whose range holds its sum, or to a new row of width d. Nothing is merged."
pub fn extend(x: &Index, s: &[i32]) -> Index {
    let sums = window_sums(s, x.window as usize);
    let mut rows = set_rows(x);
    for j in x.windows as usize..sums.len() {
        match rows.iter_mut().find(|r| r.low <= sums[j] && sums[j] < r.up) {
            Some(r) => { r.has.insert(j); }
            None => {
                let k = row_number(sums[j], x.width);
                rows.push(SetRow { low: k * x.width, up: (k + 1) * x.width, has: BTreeSet::from([j]) });
            }
        }
    }
    rows.sort_by_key(|r| r.low);
    laid_out(x.window as usize, x.width, sums.len(), &rows)
}

/// "An index is well formed if ..": none, or the first bad row, 0 for the head.
pub fn bad_row(x: &Index) -> Option<usize> {
    let inside = |z: i64, low: i64, high: i64| low <= z && z <= high;
    if !inside(x.window, 1, 256) || !inside(x.width, 1, 1_000_000) || !inside(x.windows, 1, 1_048_576) {
        return Some(0);
    }
    let (mut end, mut place, mut lengths) = (-4_000_000, 0i64, 0i128);
    for (k, r) in x.rows.iter().enumerate() {
        let range = r.low < r.up && r.low % x.width == 0 && r.up % x.width == 0 && inside(r.low, -4_000_000, 4_000_000) && inside(r.up, -4_000_000, 4_000_000) && end <= r.low;
        let part = r.runs >= 1 && r.first == place && r.first as i128 + r.runs as i128 <= x.runs.len() as i128;
        if !range || !part {
            return Some(k);
        }
        let mut least = 0;
        for &(l, r) in &x.runs[r.first as usize..(r.first + r.runs) as usize] {
            if l < least || r < l || r >= x.windows {
                return Some(k);
            }
            least = r + 2;
            lengths += (r - l + 1) as i128;
        }
        if lengths > x.windows as i128 {
            return Some(k);
        }
        end = r.up;
        place = r.first + r.runs;
    }
    None
}

/// "Yes exactly if every window stands in the row that holds its sum and in no other; else the first row and offset filed wrongly; else how many windows stand nowhere."
pub fn audit(x: &Index, s: &[i32]) -> Audited {
    let sums = window_sums(s, x.window as usize);
    let rows = set_rows(x);
    for (k, r) in rows.iter().enumerate() {
        for &j in &r.has {
            if sums[j] < r.low || r.up <= sums[j] {
                return Audited::Wrong(k, j);
            }
        }
    }
    match (0..sums.len()).filter(|j| !rows.iter().any(|r| r.has.contains(j))).count() {
        0 => Audited::Yes,
        n => Audited::Missing(n),
    }
}

fn floor(a: i128, b: i128) -> i128 { a.div_euclid(b) }

/// The range of part i.
pub fn range(z: &Question, w: usize, i: usize) -> (i128, i128) {
    let m = z.query.len() as i128;
    let curve = if z.normal { normalised(z.query).unwrap() } else { z.query.to_vec() };
    let (low, high) = envelopes(&curve, z.band as usize);
    let r = root(w as u64 * z.threshold as u64) as i128;
    let (low, high) = (total(&low[i * w..i * w + w]) - r, total(&high[i * w..i * w + w]) + r);
    if !z.normal {
        return (low, high);
    }
    let (w, a, h) = (w as i128, z.scale as i128, z.shift as i128);
    let (x, y, t, c) = (low - w, high + w, total(z.query), spread(z.query));
    let (u, v) = (root((100 * c / (a * a)) as u64) as i128, root((a * a * c / 100) as u64) as i128 + 1);
    let from = (x * u).min(x * v) + 100 * w * (t - m * h);
    let to = (y * u).max(y * v) + 100 * w * (t + m * h);
    (-floor(-from, 100 * m), floor(to, 100 * m))
}

/// "Offset j from 0 to n - m is a candidate exactly if for each part i, window j + i x w stands in some row with low <= upper end and up > lower end."
/// 02, item 1: "A window at or past the index's window count counts as met."
pub fn search(x: &Index, s: &[i32], z: &Question) -> Found {
    let (m, w) = (z.query.len(), x.window as usize);
    let rows = set_rows(x);
    let parts: Vec<BTreeSet<usize>> = (0..m / w).map(|i| {
        let (low, high) = range(z, w, i);
        rows.iter().filter(|r| r.low as i128 <= high && r.up as i128 > low).flat_map(|r| r.has.iter().copied()).collect()
    }).collect();
    let met = |i: usize, j: usize| j >= x.windows as usize || parts[i].contains(&j);
    let candidates: Vec<usize> = (0..=s.len() - m).filter(|j| (0..parts.len()).all(|i| met(i, j + i * w))).collect();
    let matches = matches_among(&candidates, s, z);
    Found { candidates, matches }
}

/// "A search lists matches among candidates, with offset and distance."
pub fn matches_among(offsets: &[usize], s: &[i32], z: &Question) -> Vec<(usize, u64)> {
    offsets.iter().filter_map(|&j| {
        let (stretch, b, e) = (&s[j..j + z.query.len()], z.band as usize, z.threshold as u64);
        let d = if z.normal { match_normal(stretch, z.query, b, e, z.scale as u32, z.shift as u32) } else { match_raw(stretch, z.query, b, e) };
        d.map(|d| (j, d as u64))
    }).collect()
}

/// 02, item 2: "the k matches of least distance within E, by distance and then by earlier offset; all of them if there are fewer": "the beginning of the whole list put in that order".
pub fn closest(matches: &[(usize, u64)], k: usize) -> Vec<(usize, u64)> {
    let mut list = matches.to_vec();
    list.sort_by_key(|&(offset, distance)| (distance, offset));
    list.truncate(k);
    list
}

/// The first match that is not among the closest k is as far as the last that is.
pub fn tie_at(matches: &[(usize, u64)], k: usize) -> bool {
    let list = closest(matches, k + 1);
    k > 0 && list.len() > k && list[k - 1].1 == list[k].1
}

// ---- refusals, each table in the order in which its numbers are judged

/// A refusal's number, and its place where it applies.
pub type Conditions = Vec<(u32, Option<usize>)>;

fn first(conditions: &[(u32, Option<usize>)]) -> Option<Refusal> {
    conditions.iter().find_map(|&(n, p)| p.map(|p| (n, p)))
}

fn at_zero(applies: bool) -> Option<usize> { applies.then_some(0) }

fn outside(s: &[i64]) -> Option<usize> { s.iter().position(|v| !(-10000..=10000).contains(v)) }

fn wide(s: &[i32]) -> Vec<i64> { s.iter().map(|&v| v as i64).collect() }

const MOST: usize = 1 << 20;

pub fn build_conditions(s: &[i64], most: usize, w: i64, d: i64, g: i64, room: usize) -> Conditions {
    let n = s.len();
    vec![
        (1, at_zero(n < 1 || n > most)),
        (2, outside(s)),
        (3, at_zero(w < 1 || w > 256 || w > n as i64)),
        (4, at_zero(!(1..=1_000_000).contains(&d))),
        (5, at_zero(!(0..=100).contains(&g))),
        (23, at_zero((room as i64) < n as i64 - w + 1)),
    ]
}

pub fn build_refusal(s: &[i64], most: usize, w: i64, d: i64, g: i64, room: usize) -> Option<Refusal> { first(&build_conditions(s, most, w, d, g, room)) }

/// How the windows of an index stand to those of a series.
fn windows(x: &Index, n: usize) -> std::cmp::Ordering { x.windows.cmp(&(n as i64 - x.window + 1)) }

pub fn extend_conditions(x: &Index, s: &[i32], room: usize) -> Conditions {
    let n = s.len();
    vec![
        (1, at_zero(n < 1 || n > MOST)),
        (2, outside(&wide(s))),
        (20, bad_row(x)),
        (22, at_zero(windows(x, n).is_gt())),
        (23, at_zero((room as i64) < n as i64 - x.window + 1)),
    ]
}

pub fn extend_refusal(x: &Index, s: &[i32], room: usize) -> Option<Refusal> { first(&extend_conditions(x, s, room)) }

pub fn audit_conditions(x: &Index, s: &[i64], most: usize) -> Conditions {
    let n = s.len();
    vec![
        (1, at_zero(n < 1 || n > most)),
        (2, outside(s)),
        (20, bad_row(x)),
        (21, at_zero(windows(x, n).is_lt())),
        (22, at_zero(windows(x, n).is_gt())),
    ]
}

pub fn audit_refusal(x: &Index, s: &[i64], most: usize) -> Option<Refusal> { first(&audit_conditions(x, s, most)) }

fn flat(q: &[i64]) -> bool { q.iter().all(|&v| v == q[0]) }

/// 6 to 11, and 30 directly after 10: what is asked of a query, its band, its limits and the number of the closest few, beside the window length.
fn query_conditions(n: usize, q: &[i64], normal: bool, w: i64, band: i64, threshold: i64, scale: i64, shift: i64, closest: Option<i64>) -> Conditions {
    let m = q.len();
    vec![
        (6, at_zero(m < 1 || m > 1024 || m > n)),
        (7, at_zero((m as i64) < w)),
        (8, at_zero(band < 0 || band > m as i64 - 1)),
        (9, at_zero(!(0..=1_000_000_000_000).contains(&threshold))),
        (10, at_zero(!(10..=100).contains(&scale) || !(0..=20_000).contains(&shift))),
        (30, at_zero(closest.is_some_and(|k| !(1..=64).contains(&k)))),
        (11, at_zero(normal && m > 0 && flat(q))),
    ]
}

/// All but 24, beside the entries of candidates, scratch and list. 02, item 2: "a list with fewer than k entries is 23".
pub fn search_conditions(x: &Index, s: &[i32], z: &Question, [candidates, scratch, list]: [usize; 3]) -> Conditions {
    let (n, q) = (s.len(), wide(z.query));
    let mut table = vec![(1, at_zero(n < 1 || n > MOST)), (2, outside(&wide(s))), (2, outside(&q))];
    table.extend(query_conditions(n, &q, z.normal, x.window, z.band, z.threshold, z.scale, z.shift, z.closest));
    table.extend([
        (20, bad_row(x)),
        (22, at_zero(windows(x, n).is_gt())),
        (23, at_zero((candidates.min(scratch) as i64) < n as i64 - x.window + 1 || z.closest.is_some_and(|k| (list as i64) < k))),
    ]);
    table
}

pub fn search_refusal(x: &Index, s: &[i32], z: &Question, room: [usize; 3]) -> Option<Refusal> { first(&search_conditions(x, s, z, room)) }

/// The search program's build and search, judged together.
pub fn program_refusal(c: &crate::texts::Call) -> Option<Refusal> {
    let (n, w) = (c.series.len(), c.window);
    let mut table = vec![
        (1, at_zero(n < 1 || n > 4096)),
        (2, outside(&c.series)),
        (2, outside(&c.query)),
        (3, at_zero(w < 1 || w > 256 || w > n as i64)),
        (4, at_zero(!(1..=1_000_000).contains(&c.width))),
        (5, at_zero(!(0..=100).contains(&c.merge))),
    ];
    table.extend(query_conditions(n, &c.query, c.normal, w, c.band, c.threshold, c.scale, c.shift, None));
    first(&table)
}
