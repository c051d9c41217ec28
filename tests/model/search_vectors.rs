// Writes the vectors that the program `try_search` runs: first the paper's cases, written by hand, then what the model answers on random inputs.
// One line for each, all numbers, a list as how many entries it has and these: 0; the series; the head; the rows, four numbers each; the two columns of the runs; the kind, 1 for normalised; the query; b; E; a; h;
// the answer (0 and both counts; 1, both counts and a full list; 3 and the refusal's number and place); the five buffers afterwards, which held sevens before. A line with the number of a group ends it.
#![allow(dead_code)]
mod index;
mod lent;
mod model;
mod texts;
use index::*;
use lent::*;
use model::*;

fn list<T: ToString>(v: &[T]) -> String { std::iter::once(v.len().to_string()).chain(v.iter().map(T::to_string)).collect::<Vec<_>>().join(" ") }

/// What is asked, and the lengths of the five buffers.
struct Asked<'a> { s: &'a [i32], x: &'a Lent, z: Question<'a>, rooms: [usize; 5] }

fn line(a: &Asked, answer: [usize; 3], after: [&[u64]; 5]) {
    let (h, z) = (a.x.head, &a.z);
    let rows: Vec<i64> = a.x.rows.iter().flat_map(|r| [r.low as i64, r.up as i64, r.first as i64, r.runs as i64]).collect();
    let buffers: Vec<String> = (0..5).map(|k| { let mut b = after[k].to_vec(); b.resize(a.rooms[k], if answer[0] == 3 { 7 } else { 0 }); list(&b) }).collect();
    println!(
        "0 {} {} {} {} {} {} {} {} {} {} {} {} {} {} {} {} {}",
        list(a.s), h.window, h.width, h.windows, list(&rows), list(&a.x.left), list(&a.x.right), z.normal as u8, list(z.query), z.band, z.threshold, z.scale, z.shift, answer[0], answer[1], answer[2], buffers.join(" ")
    );
}

/// A line as the model answers.
fn told(a: &Asked) {
    let x = a.x.index();
    let room = a.rooms[3].min(a.rooms[4]);
    if let Some((number, place)) = search_refusal(&x, a.s, &a.z, [a.rooms[0].min(a.rooms[1]), a.rooms[2], room]) {
        return line(a, [3, number as usize, place], [&[]; 5]);
    }
    let f = search(&x, a.s, &a.z);
    let runs = runs_of(&f.candidates.iter().copied().collect());
    let few = &f.matches[..room.min(f.matches.len())];
    let column = |v: Vec<usize>| v.iter().map(|&x| x as u64).collect::<Vec<_>>();
    let (left, right) = (column(runs.iter().map(|r| r.0).collect()), column(runs.iter().map(|r| r.1).collect()));
    let (at, size) = (column(few.iter().map(|e| e.0).collect()), few.iter().map(|e| e.1).collect::<Vec<_>>());
    line(a, [(f.matches.len() > room) as usize, f.candidates.len(), f.matches.len()], [&left, &right, &[], &at, &size]);
}

/// The paper's cases: these answers are its own, not the model's.
fn cases() {
    let raw = |query, threshold| Question { normal: false, query, band: 0, threshold, scale: 10, shift: 0, closest: None };
    let s = [1, 2, 4, 3, 1];
    let merged = lent([2, 2, 4], &[[2, 4, 0, 1], [4, 8, 1, 1]], &[(0, 0), (1, 3)]);
    let apart = lent([2, 2, 4], &[[2, 4, 0, 1], [4, 6, 1, 1], [6, 8, 2, 1]], &[(0, 0), (3, 3), (1, 2)]);
    let all = [4, 4, 4, 3, 3];
    line(&Asked { s: &s, x: &merged, z: raw(&[2, 4], 5), rooms: all }, [0, 4, 3], [&[0], &[3], &[], &[0, 1, 2], &[5, 0, 5]]);
    line(&Asked { s: &s, x: &merged, z: raw(&[2, 4], 4), rooms: all }, [0, 3, 1], [&[1], &[3], &[], &[1], &[0]]);
    line(&Asked { s: &s, x: &merged, z: raw(&[4, 3], 0), rooms: all }, [0, 3, 1], [&[1], &[3], &[], &[2], &[0]]);
    line(&Asked { s: &s, x: &apart, z: raw(&[4, 3], 0), rooms: all }, [0, 2, 1], [&[1], &[2], &[], &[2], &[0]]);
    line(&Asked { s: &s, x: &merged, z: raw(&[2, 4], 5), rooms: [4, 4, 4, 2, 3] }, [1, 4, 3], [&[0], &[3], &[], &[0, 1], &[5, 0]]);
    line(&Asked { s: &s, x: &merged, z: raw(&[9, 9], 0), rooms: [4, 4, 4, 0, 0] }, [0, 0, 0], [&[]; 5]);
    line(&Asked { s: &s, x: &merged, z: raw(&[2], 5), rooms: all }, [3, 7, 0], [&[]; 5]);
    line(&Asked { s: &s, x: &merged, z: Question { scale: 9, ..raw(&[2, 4], 5) }, rooms: all }, [3, 10, 0], [&[]; 5]);
    line(&Asked { s: &s, x: &merged, z: Question { normal: true, ..raw(&[5, 5], 5) }, rooms: all }, [3, 11, 0], [&[]; 5]);
    let near = Question { normal: true, query: &[0, 1], band: 0, threshold: 0, scale: 20, shift: 1, closest: None };
    let one = lent([2, 2, 1], &[[2, 4, 0, 1]], &[(0, 0)]);
    line(&Asked { s: &[0, 2], x: &one, z: Question { ..near }, rooms: [1; 5] }, [0, 1, 1], [&[0], &[0], &[], &[0], &[0]]);
    line(&Asked { s: &[0, 3], x: &one, z: near, rooms: [1; 5] }, [0, 1, 0], [&[0], &[0], &[], &[], &[]]);
    let ones = [1; 257];
    line(&Asked { s: &ones[..256], x: &lent([256, 1000, 1], &[[0, 1000, 0, 1]], &[(0, 0)]), z: raw(&ones[..256], 0), rooms: [1; 5] }, [0, 1, 1], [&[0], &[0], &[], &[0], &[0]]);
    line(&Asked { s: &ones, x: &lent([257, 1000, 1], &[[0, 1000, 0, 1]], &[(0, 0)]), z: raw(&ones, 0), rooms: [1; 5] }, [3, 20, 0], [&[]; 5]);
}

/// A vector of a group: 2 to 5 the four kinds, 6 short lists, 7 short buffers, 8 wrong indexes, 9 ill-formed ones, 10 numbers and values past their limits.
fn vector(r: &mut Numbers, group: u64, k: u64) {
    let kind = if group <= 5 { group - 2 } else { k % 4 };
    let (normal, warped) = (kind >= 2, kind % 2 == 1);
    let n = r.from_to(5, 12) as usize;
    let m = r.from_to(2, 5) as usize;
    let sort = [1, 2, 6][r.below(3) as usize];
    let mut s = values(r, n, sort);
    let mut q = loop { let q = query(r, &s, m); if !normal || spread(&q) > 0 { break q } else { s = values(r, n, 1) } };
    let b = if warped { r.from_to(1, m as i64 - 1) } else { 0 };
    let e = match r.below(4) { 0 => 0, 1 => 1_000_000_000_000, _ => middle(&s, &q, normal, b as usize) };
    let w = r.from_to(1, m.min(3) as i64) as usize;
    let d = [1, 2, 7, 50][r.below(4) as usize];
    let mut x = Lent::of(&build(&s, w, d, [0, 80, 100][r.below(3) as usize]));
    let windows = n - w + 1;
    let mut rooms = [windows, windows + r.below(2) as usize, windows + r.below(2) as usize, n, n + r.below(2) as usize];
    let (mut band, mut threshold, mut scale, mut shift) = (b, e as i64, r.from_to(10, 40), [0, 20, 20_000][r.below(3) as usize]);
    match group {
        6 => { rooms[3] = r.below(3) as usize; rooms[4] = r.below(3) as usize; threshold = 1_000_000_000_000; shift = 20_000; scale = 100 }
        7 => rooms[r.below(3) as usize] = windows - 1,
        8 => { for _ in 0..2 { x.refile(r); } }
        9 => while bad_row(&x.index()).is_none() { x.damage(r) },
        10 => match k % 8 {
            0 => band = m as i64,
            1 => threshold = 1_000_000_000_001,
            2 => scale = [9, 101][r.below(2) as usize],
            3 => shift = 20_001,
            4 => s[n / 2] = [10_001, -10_001][r.below(2) as usize],
            5 => q[m / 2] = [10_001, -10_001][r.below(2) as usize],
            6 => q.resize(n + 1, 1),
            _ => { if r.below(2) == 0 { s.push(1) } else { s.pop(); } }
        },
        _ => {}
    }
    if x.rows.len() > 16 || x.rows.iter().any(|r| r.low.abs_diff(0) > 100_000_000 || r.up.abs_diff(0) > 100_000_000 || r.first.max(r.runs) > 4_000_000_000) || x.left.iter().chain(&x.right).any(|&v| v > 4_000_000_000) || [x.head.window, x.head.width, x.head.windows].iter().any(|&v| v > 4_000_000_000) {
        return vector(r, group, k);
    }
    told(&Asked { s: &s, x: &x, z: Question { normal, query: &q, band, threshold, scale, shift, closest: None }, rooms });
}

fn main() {
    cases();
    println!("1");
    let mut r = Numbers(6364136223846793005);
    for group in 2..=10 {
        for k in 0..if group == 10 { 24 } else { 27 } { vector(&mut r, group, k) }
        println!("{group}");
    }
}
