// Writes the story that the program `desk` is tried with, by the model: desk_story FOLDER, into stdin and stdout of it. crates/desk/src/main.rt has the form of what is read.
// It fails, and writes nothing, if a call is refused, if the matches are not what a scan of all offsets finds, or if the last that is listed is not as far as the first that is not.
#![allow(dead_code)]
mod index;
mod model;
mod texts;
use index::*;
use std::{fs, path::PathBuf};

// ---- the story

/// Six falls, at distances 5, 4, 4, 0, 4 and 9 from the query.
const SERIES: [i32; 48] = [
    50, 51, 50, 49,
    50, 41, 30, 22, 36, 47, 50, 51,
    52, 40, 30, 20, 37, 48, 50, 49,
    50, 40, 32, 20, 38, 49, 51, 50,
    50, 40, 30, 20, 39, 50, 50, 51,
    50, 38, 30, 20, 36, 48, 51,
    50, 43, 30, 20, 35,
];

const QUERY: [i32; 4] = [50, 40, 30, 20];

/// How many are asked for: the third and the fourth are equally far.
const COUNT: usize = 3;

const ASKED: Question = Question { normal: false, query: &QUERY, band: 0, threshold: 8, scale: 10, shift: 0, closest: Some(COUNT as i64) };

const WINDOW: usize = 2;
const WIDTH: i64 = 8;
const MERGE: i64 = 50;

/// How many entries each buffer of the program has, and its list.
const ROOM: usize = 4096;
const LIST: usize = 64;

// ---- what is read

fn list(v: &[i32]) -> String { format!("{}{}\n", v.len(), v.iter().map(|x| format!(" {x}")).collect::<String>()) }

fn read() -> String {
    let z = ASKED;
    format!("{WINDOW} {WIDTH} {MERGE}\n{}{} {} {} {} {}\n{}{COUNT}\n", list(&SERIES), z.normal as u8, z.band, z.threshold, z.scale, z.shift, list(z.query))
}

// ---- what is written

fn written() -> String {
    assert_eq!(build_refusal(&SERIES.map(i64::from), ROOM, WINDOW as i64, WIDTH, MERGE, ROOM), None);
    let x = build(&SERIES, WINDOW, WIDTH, MERGE);
    assert_eq!(search_refusal(&x, &SERIES, &ASKED, [ROOM, ROOM, LIST]), None);
    let Found { candidates, matches } = search(&x, &SERIES, &ASKED);
    let offsets: Vec<usize> = (0..=SERIES.len() - QUERY.len()).collect();
    assert_eq!(matches, matches_among(&offsets, &SERIES, &ASKED), "list and scan");
    assert!(tie_at(&matches, COUNT));
    let head = format!("the closest {COUNT} of {} matches, among {} candidates\n", matches.len(), candidates.len());
    head + &closest(&matches, COUNT).iter().map(|(offset, distance)| format!("  at {offset}, distance {distance}\n")).collect::<String>()
}

fn main() {
    let folder = PathBuf::from(std::env::args().nth(1).expect("a folder"));
    let written = written();
    fs::write(folder.join("stdin"), read()).unwrap();
    fs::write(folder.join("stdout"), written).unwrap();
}
