// Compares the audit of two texts, through the static library of `payout`, with the model: indexes built of random series and spelled, most of the pairs damaged in a number, in bytes or in the series.
// audit_compare [TURNS]; writes one line: pairs, how often each outcome came, differences, seconds. Fails on a difference, and if an outcome never came.
#![allow(dead_code)]
mod index;
mod lent;
mod model;
mod texts;
use lent::{any_numbers, any_series, damaged_series};
use model::Numbers;
use std::collections::BTreeMap;
use std::time::Instant;

unsafe extern "C" {
    fn audit_text(index: *const u8, index_length: usize, series: *const u8, series_length: usize) -> u64;
}

/// The line that a number stands for, unpacked as payout/worbyldaq.h does.
fn said(answer: u64) -> String {
    let v = answer / 8;
    match answer % 8 {
        0 => "(yes)\n".into(),
        1 => format!("(wrong {} {})\n", v / 1_048_576, v % 1_048_576),
        2 => format!("(missing {v})\n"),
        3 => format!("(refused 12 {v})\n"),
        _ => format!("(refused {} {})\n", v % 32, v / 32),
    }
}

fn series_line(s: &[i32]) -> Vec<u8> {
    let values: String = s.iter().map(|v| format!(" {v}")).collect();
    format!("(series{values})\n").into_bytes()
}

/// One number of a text becomes another, spelled well or not.
fn change_number(r: &mut Numbers, text: &mut Vec<u8>) {
    let number = |k: usize| text[k].is_ascii_digit() || text[k] == b'-';
    let starts: Vec<usize> = (0..text.len()).filter(|&k| number(k) && (k == 0 || !number(k - 1))).collect();
    if starts.is_empty() { return }
    let from = starts[r.below(starts.len() as u64) as usize];
    let to = (from..text.len()).find(|&k| !number(k)).unwrap_or(text.len());
    let old: i64 = String::from_utf8_lossy(&text[from..to]).parse().unwrap_or(0);
    let new = match r.below(16) {
        0 => "999999999999999999".into(),
        1 => "1000000000000000000".into(),
        2 => "-999999999999999999".into(),
        3 => format!("0{old}"),
        4 => "-0".into(),
        5 => "4294967296".into(),
        6 => "-2147483649".into(),
        7 => (-old).to_string(),
        8 => "0".into(),
        9 => (old + r.from_to(-300, 300)).to_string(),
        k => (old + if k % 2 == 0 { 1 } else { -1 }).to_string(),
    };
    text.splice(from..to, new.into_bytes());
}

/// A byte changed, put in or taken out; a line twice or left out; the text cut short.
fn change_bytes(r: &mut Numbers, text: &mut Vec<u8>) {
    if text.is_empty() { return text.push(b'(') }
    let k = r.below(text.len() as u64) as usize;
    let bytes = b" ()\n\r\0-0123456789rowindex";
    let b = bytes[r.below(bytes.len() as u64) as usize];
    let line = text[..k].iter().rposition(|&c| c == b'\n').map_or(0, |i| i + 1)..text[k..].iter().position(|&c| c == b'\n').map_or(text.len(), |i| k + i + 1);
    match r.below(8) {
        0 | 1 => text[k] = b,
        2 => text.insert(k, b),
        3 => { text.remove(k); }
        4 => text.truncate(k),
        5 => text.push(b),
        6 => { let twice = text[line.clone()].to_vec(); text.splice(line.start..line.start, twice); }
        _ => { text.drain(line); }
    }
}

/// A pair of texts.
fn pair(r: &mut Numbers) -> (Vec<u8>, Vec<u8>) {
    let n = match r.below(400) { 0 => r.from_to(4_094, 4_099), 1..40 => r.from_to(40, 300), _ => r.from_to(1, 24) } as usize;
    let s = any_series(r, n);
    let (w, d, g) = any_numbers(r, n);
    let mut text = texts::write_index(&index::build(&s, w, d as i64, g as i64)).into_bytes();
    let mut line = series_line(&s);
    for _ in 0..r.below(3) {
        match r.below(8) {
            0..3 => change_number(r, &mut text),
            3 => change_bytes(r, &mut text),
            4 => change_number(r, &mut line),
            5 => change_bytes(r, &mut line),
            _ => line = series_line(&damaged_series(r, &s)),
        }
    }
    (text, line)
}

fn main() {
    let turns: u64 = std::env::args().nth(1).map_or(200_000, |t| t.parse().expect("how many pairs"));
    let (start, mut r, mut different) = (Instant::now(), Numbers(2026), 0);
    let mut came: BTreeMap<String, u64> = ["(yes)", "(wrong", "(missing", "(refused 1", "(refused 2", "(refused 12", "(refused 20", "(refused 21", "(refused 22"].iter().map(|k| (k.to_string(), 0)).collect();
    for _ in 0..turns {
        let (text, line) = pair(&mut r);
        let want = texts::audit_texts(&text, &line);
        let got = said(unsafe { audit_text(text.as_ptr(), text.len(), line.as_ptr(), line.len()) });
        let words = if want.starts_with("(refused") { 2 } else { 1 };
        *came.entry(want.trim_end().split(' ').take(words).collect::<Vec<_>>().join(" ")).or_default() += 1;
        if got != want {
            different += 1;
            if different <= 5 { println!("{}{}says {got}not {want}", String::from_utf8_lossy(&text), String::from_utf8_lossy(&line)) }
        }
    }
    let never = came.values().filter(|&&k| k == 0).count();
    let list: Vec<String> = came.iter().map(|(k, v)| format!("{} {v}", k.trim_matches(['(', ')']))).collect();
    println!("{turns} pairs ({}), {different} differences, {:.1} s", list.join(", "), start.elapsed().as_secs_f64());
    std::process::exit((different > 0 || never > 0) as i32);
}
