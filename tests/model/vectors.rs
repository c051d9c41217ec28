// Writes the vectors that the program `try_distance` runs: first the paper's cases, written by hand, then what the model answers on random inputs.
// One line for each, all numbers: 1 test; n, the values of the series; m, the values of the query; b; E; a; h; then the answers: how many, and these.
// A line `0 g` ends the group g. An answer of -1 is 'above E' of a distance.
#[path = "model.rs"]
mod model;
use model::*;

const ROOT: u64 = 1;
const STRAIGHT: u64 = 2;
const WARPED: u64 = 3;
const ENVELOPES: u64 = 4;
const BOUND: u64 = 5;
const SPREAD: u64 = 6;
const NORMAL: u64 = 7;
const RAW_MATCH: u64 = 8;
const NORMAL_MATCH: u64 = 9;
const ROWS: u64 = 10;

fn line(test: u64, s: &[i32], q: &[i32], b: usize, e: u64, a: u32, h: u32, want: &[i128]) {
    let mut t = format!("{test} {}", s.len());
    for x in s { t += &format!(" {x}") }
    t += &format!(" {}", q.len());
    for x in q { t += &format!(" {x}") }
    t += &format!(" {b} {e} {a} {h} {}", want.len());
    for x in want { t += &format!(" {x}") }
    println!("{t}");
}

fn wide(v: &[i32]) -> Vec<i128> { v.iter().map(|&x| x as i128).collect() }
fn cut(d: i128, e: u64) -> i128 { if d <= e as i128 { d } else { -1 } }
fn told(d: Option<i128>) -> i128 { match d { None => 0, Some(d) => d + 1 } }

fn main() {
    // the paper's cases: these answers are its own, not the model's
    line(ROOT, &[], &[], 0, 8, 0, 0, &[2]);
    line(ROOT, &[], &[], 0, 9, 0, 0, &[3]);
    line(NORMAL, &[0, 0, 1], &[0, 0, 0], 0, 0, 0, 0, &[-70, -70, 141]);
    line(NORMAL, &[1, 3], &[0, 0], 0, 0, 0, 0, &[-100, 100]);
    line(STRAIGHT, &[0, 0, 1], &[0, 1, 1], 0, 1, 0, 0, &[1]);
    line(WARPED, &[0, 0, 1], &[0, 1, 1], 0, 1, 0, 0, &[1]);
    line(WARPED, &[0, 0, 1], &[0, 1, 1], 1, 1, 0, 0, &[0]);
    line(ENVELOPES, &[], &[0, 3, 1], 1, 0, 0, 0, &[0, 0, 1, 3, 3, 3]);
    line(ROWS, &[0, -1], &[0, 0], 0, 2, 0, 0, &[-1, -1]);
    line(RAW_MATCH, &[1, 2, 4, 3, 1], &[2, 4], 0, 5, 10, 0, &[6, 1, 6, 0]);
    line(RAW_MATCH, &[1, 2, 4, 3, 1], &[2, 4], 0, 4, 10, 0, &[0, 1, 0, 0]);
    line(RAW_MATCH, &[1, 2, 4, 3, 1], &[4, 3], 0, 0, 10, 0, &[0, 0, 1, 0]);
    line(NORMAL_MATCH, &[0, 2], &[0, 1], 0, 0, 20, 1, &[1]);
    line(NORMAL_MATCH, &[0, 3], &[0, 1], 0, 0, 20, 1, &[0]);
    line(NORMAL_MATCH, &[0, 2], &[5, 5], 0, 0, 20, 1, &[]);
    println!("0 0");
    let mut r = Numbers(6364136223846793005);
    for k in 0..24u64 {
        let x = r.below(1 << 32);
        let y = [x * x, (x * x).saturating_sub(1), x, 999_999_999_999 + k][k as usize % 4].min(999_999_999_999_999_999);
        line(ROOT, &[], &[], 0, y, 0, 0, &[root(y) as i128]);
    }
    println!("0 {ROOT}");
    for test in STRAIGHT..=ROWS {
        for k in 0..26u64 {
            let m = if k == 0 { 1 } else { r.from_to(2, 9) as usize };
            let n = m + r.below(5) as usize;
            let s = { let sort = k % 8; values(&mut r, n, sort) };
            let q = query(&mut r, &s, m);
            let b = match k % 3 { 0 => m - 1, 1 => r.below(m as u64) as usize, _ => 0 };
            let at = r.below((n - m + 1) as u64) as usize;
            let near = &s[at..at + m];
            let (a, h) = (r.from_to(10, 40) as u32, if k % 2 == 0 { 20000 } else { r.below(200) as u32 });
            let all: Vec<&[i32]> = (0..n - m + 1).map(|at| &s[at..at + m]).collect();
            let edge = |d: i128| match k % 4 { 0 => 1_000_000_000_000, 1 => (d as u64).saturating_sub(1), _ => d as u64 };
            match test {
                STRAIGHT => { let e = edge(straight(near, &q)); line(test, &s, &q, 0, e, 0, 0, &all.iter().map(|s| cut(straight(s, &q), e)).collect::<Vec<_>>()) }
                WARPED => { let e = edge(warped(near, &q, b)); line(test, &s, &q, b, e, 0, 0, &all.iter().map(|s| cut(warped(s, &q, b), e)).collect::<Vec<_>>()) }
                ENVELOPES => { let (l, u) = envelopes(&q, b); line(test, &[], &q, b, 0, 0, 0, &[wide(&l), wide(&u)].concat()) }
                BOUND => {
                    let (l, u) = envelopes(&q, b);
                    let e = edge(bound(near, &l, &u));
                    line(test, &s, &q, b, e, 0, 0, &all.iter().map(|s| cut(bound(s, &l, &u), e)).collect::<Vec<_>>())
                }
                SPREAD => line(test, &s, &q, 0, 0, 0, 0, &all.iter().map(|s| spread(s)).collect::<Vec<_>>()),
                NORMAL => line(test, near, &q, 0, 0, 0, 0, &normalised(near).map_or(vec![], |v| wide(&v))),
                RAW_MATCH => { let e = edge(distance(near, &q, b)); line(test, &s, &q, b, e, 10, 0, &all.iter().map(|s| told(match_raw(s, &q, b, e))).collect::<Vec<_>>()) }
                NORMAL_MATCH => {
                    let e = match (normalised(near), normalised(&q)) { (Some(x), Some(y)) => edge(distance(&x, &y, b)), _ => 0 };
                    let want = if spread(&q) == 0 { vec![] } else { all.iter().map(|s| told(match_normal(s, &q, b, e, a, h))).collect::<Vec<_>>() };
                    line(test, &s, &q, b, e, a, h, &want)
                }
                _ => {
                    let d = [1, 2, 3, 1_000_000, 77][k as usize % 5];
                    let sums: Vec<i128> = all.iter().map(|s| total(s)).collect();
                    let rows: Vec<i128> = sums.iter().map(|&x| row_number(x as i64, d) as i128).collect();
                    line(test, &s, &q, 0, d as u64, 0, 0, &[sums, rows].concat())
                }
            }
        }
        println!("0 {test}");
    }
}
