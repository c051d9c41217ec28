// Compares the entry write, through the static library of `try_c_text`, with the model: random indexes, a third of them ill formed, buffers short and long and full of rubbish.
#![allow(dead_code)]
mod answers;
mod entries;
mod index;
mod lent;
mod model;
mod texts;
use index::{Row, bad_row};
use lent::{Head, Lent};
use model::Numbers;
use std::time::Instant;
use texts::write_index;

/// A well-formed index.
fn good(r: &mut Numbers) -> Lent {
    let width = [1, 2, 7, 1000, 1_000_000, r.from_to(1, 1_000_000)][r.below(6) as usize] as u32;
    let windows = [1, 9, 100, 1_048_576, r.from_to(1, 1_048_576)][r.below(5) as usize] as u32;
    let head = Head { window: [1, 256, r.from_to(1, 256)][r.below(3) as usize] as u32, width, windows };
    let mut x = Lent { head, rows: vec![], left: vec![], right: vec![] };
    let (d, most) = (width as i64, 4_000_000 / width as i64);
    let mut at = match r.below(3) { 0 => -most, 1 => r.from_to(-most, most), _ => -(most.min(3)) };
    let mut total = 0u64;
    for _ in 0..r.below(65) {
        let low = at + if r.below(3) == 0 { r.from_to(0, 5) } else { 0 };
        let up = low + 1 + if r.below(4) == 0 { r.from_to(0, 20) } else { 0 };
        if up > most { break }
        let (first, mut free) = (x.left.len() as u32, if r.below(2) == 0 { 0 } else { r.below(windows as u64) });
        for _ in 0..1 + r.below(6) {
            let l = free + if r.below(2) == 0 { 0 } else { r.below(1000) };
            let e = l + if r.below(2) == 0 { 0 } else { r.below(1000) };
            if e >= windows as u64 || total + e - l + 1 > windows as u64 { break }
            total += e - l + 1;
            x.left.push(l as u32);
            x.right.push(e as u32);
            free = e + 2;
        }
        let runs = x.left.len() as u32 - first;
        if runs == 0 { break }
        x.rows.push(Row { low: (low * d) as i32, up: (up * d) as i32, first, runs });
        at = up;
    }
    // entries behind the last row's belong to no row
    for _ in 0..r.below(4) { x.left.push(r.next() as u32); if r.below(2) == 0 { x.right.push(r.next() as u32) } }
    while x.right.len() < x.rows.iter().map(|r| r.runs as usize).sum() { x.right.push(0) }
    x
}

fn any(r: &mut Numbers) -> u32 {
    [0, 1, u32::MAX, 1 << 31, r.below(100) as u32, r.next() as u32, 1_048_576, 1_048_577, 256, 257][r.below(10) as usize]
}

/// One or two things changed.
fn spoiled(r: &mut Numbers, mut x: Lent) -> Lent {
    for _ in 0..1 + r.below(2) {
        let k = r.below(x.rows.len().max(1) as u64) as usize;
        let i = r.below(x.left.len().max(1) as u64) as usize;
        match r.below(9) {
            0 => x.head.window = any(r),
            1 => x.head.width = any(r),
            2 => x.head.windows = any(r),
            3 => if let Some(y) = x.rows.get_mut(k) { y.low = y.low.wrapping_add(any(r) as i32) },
            4 => if let Some(y) = x.rows.get_mut(k) { y.up = if r.below(2) == 0 { y.low } else { any(r) as i32 } },
            5 => if let Some(y) = x.rows.get_mut(k) { y.first = if r.below(2) == 0 { y.first.wrapping_add(1) } else { any(r) } },
            6 => if let Some(y) = x.rows.get_mut(k) { y.runs = if r.below(2) == 0 { 0 } else { any(r) } },
            7 => if i < x.left.len() { x.left[i] = any(r) },
            _ => if i < x.right.len() { x.right[i] = any(r) },
        }
    }
    x
}

fn main() {
    let turns: u64 = std::env::args().nth(1).map_or(20_000, |s| s.parse().unwrap());
    let (start, mut r) = (Instant::now(), Numbers(0x9E3779B97F4A7C15));
    let (mut wrong, mut written, mut bad, mut short) = (0u64, 0u64, 0u64, 0u64);
    for k in 0..turns {
        let mut x = good(&mut r);
        while k % 3 == 0 && bad_row(&x.index()).is_none() { x = spoiled(&mut r, x) }
        let long = if bad_row(&x.index()).is_none() { write_index(&x.index()).len() } else { 200 };
        let size = match r.below(6) { 0 => long, 1 => long.saturating_sub(1), 2 => long + 1, 3 => r.below(long as u64 + 1) as usize, 4 => 0, _ => long + r.below(300) as usize };
        let mut text: Vec<u8> = (0..size).map(|_| r.next() as u8).collect();
        let mut after = text.clone();
        let expected = answers::write(&x, &mut after);
        match (expected.kind, expected.first) { (3, 20) => bad += 1, (3, _) => short += 1, _ => written += 1 }
        let answer = entries::write(&x, &mut text);
        if answer != expected || text != after {
            wrong += 1;
            if wrong <= 5 { println!("DIFFERENT: answer {answer:?} expected {expected:?} size {size} {x:?}") }
        }
    }
    println!("{turns} indexes, {wrong} differences ({written} written, {bad} ill formed, {short} with a short buffer) in {:.1} s", start.elapsed().as_secs_f64());
    if wrong > 0 { std::process::exit(1) }
}
