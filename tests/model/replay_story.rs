// Writes the story that the program `replay` is tried with, by the model: replay_story FOLDER, into stdin and stdout of it. crates/replay/src/main.rt has the form of what is read.
// It fails, and writes nothing, if a call is refused or a list is not what a scan of all offsets finds.
#![allow(dead_code)]
mod index;
mod model;
mod texts;
use index::*;
use std::{fs, path::PathBuf};

// ---- the story

/// The prices that the index covers.
const FIRST: [i32; 32] = [
    84, 85, 83, 84,
    86, 85, 82, 57, 66, 62, 39, 26, 25, // a fall
    37, 52, 66, 75, 80, 83, 84, 82, 83, 85, 86, 89, 91, 93, 94,
    95, 94, 91, 65, // the next begins
];

/// The prices that come later, one by one.
const LATER: [i32; 24] = [
    74, 69, 44, 31, 29, // and ends
    44, 61, 75, 83,
    88, 88, 84, 59, 68, 65, 40, 28, 26, // a third
    27, 29, 28, 27, 28, 27,
];

const QUERY: [i32; 9] = [90, 89, 86, 61, 70, 66, 41, 29, 27];

const ASKED: Question = Question { normal: true, query: &QUERY, band: 1, threshold: 300, scale: 12, shift: 6, closest: None };

const WINDOW: usize = 3;
const WIDTH: i64 = 16;
const MERGE: i64 = 50;

/// How many entries each buffer of the program has.
const ROOM: usize = 4096;

// ---- what is read

fn list(v: &[i32]) -> String { format!("{}{}\n", v.len(), v.iter().map(|x| format!(" {x}")).collect::<String>()) }

fn read(series: &[i32]) -> String {
    let z = ASKED;
    format!("{} {WINDOW} {WIDTH} {MERGE}\n{}{} {} {} {} {}\n{}", FIRST.len(), list(series), z.normal as u8, z.band, z.threshold, z.scale, z.shift, list(z.query))
}

// ---- what is written

fn counted(n: usize, one: &str, many: &str) -> String { format!("{n} {}", if n == 1 { one } else { many }) }

fn prices(n: usize) -> String { counted(n, "price", "prices") }

/// A match, with how many of its prices come later.
fn told((offset, distance): (usize, u64)) -> String {
    let m = QUERY.len();
    let newer = (offset..offset + m).filter(|&k| k >= FIRST.len()).count();
    format!("  at {offset}, distance {distance}, {newer} of its {} newer than the index\n", prices(m))
}

fn written(series: &[i32]) -> String {
    assert_eq!(build_refusal(&FIRST.map(i64::from), ROOM, WINDOW as i64, WIDTH, MERGE, ROOM), None);
    let x = build(&FIRST, WINDOW, WIDTH, MERGE);
    let mut out = format!("index of {}: window length {}, {}\n", prices(FIRST.len()), x.window, counted(x.windows as usize, "window", "windows"));
    let mut before = vec![];
    for n in FIRST.len()..=series.len() {
        let s = &series[..n];
        assert_eq!(search_refusal(&x, s, &ASKED, [ROOM; 3]), None);
        let Found { candidates, matches } = search(&x, s, &ASKED);
        let offsets: Vec<usize> = (0..=n - QUERY.len()).collect();
        assert_eq!(matches, matches_among(&offsets, s, &ASKED), "list and scan of {n} prices");
        out += &format!("{}: {} of {}, the scan finds the same\n", prices(n), counted(matches.len(), "match", "matches"), counted(candidates.len(), "candidate", "candidates"));
        out.extend(matches.iter().filter(|e| !before.contains(*e)).map(|&e| told(e)));
        before = matches;
    }
    let lists = LATER.len() + 1;
    out + &format!("{lists} of {lists} lists are the scan's\n")
}

fn main() {
    let folder = PathBuf::from(std::env::args().nth(1).expect("a folder"));
    let series = [&FIRST[..], &LATER].concat();
    let written = written(&series);
    fs::write(folder.join("stdin"), read(&series)).unwrap();
    fs::write(folder.join("stdout"), written).unwrap();
}
