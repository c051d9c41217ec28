// Compares the entry read, through the static library of `try_c_text`, with the model: every truncation of the worked texts, then texts of random indexes spoiled byte by byte, number by number and line by line, into buffers short and long and full of rubbish: read [TURNS].
#![allow(dead_code)]
mod answers;
mod entries;
mod index;
mod lent;
mod model;
mod spoil;
mod texts;
use index::{bad_row, build};
use lent::{Buffers, Lent, any_numbers, any_series};
use model::Numbers;
use spoil::spoiled;
use std::time::Instant;
use texts::write_index;

const WORKED: [&str; 4] = [
    "(index (window 2) (width 2) (windows 4)\n(row 2 4 (0 0))\n(row 4 8 (1 3))\n)\n",
    "(index (window 1) (width 7) (windows 12)\n(row -14 -7 (0 0) (2 5) (10 11))\n(row -7 7 (1 1) (7 8))\n(row 21 28 (9 9))\n)\n",
    "(index (window 256) (width 1000000) (windows 1048576)\n(row -4000000 4000000 (0 1048575))\n)\n",
    "(index (window 3) (width 5) (windows 1)\n)\n",
];

struct Test { r: Numbers, inputs: u64, wrong: u64, loaded: u64, refused: [u64; 24] }

impl Test {
    fn read(&mut self, text: &[u8], rooms: [usize; 3]) {
        let mut b = Buffers::of_rubbish(&mut self.r, rooms.into_iter().max().unwrap());
        b.cut(rooms);
        let mut after = b.clone();
        let answer = answers::read(text, &mut after);
        if answer.kind == 3 { self.refused[answer.first] += 1 } else { self.loaded += 1 }
        let told = entries::read(text, &mut b);
        self.inputs += 1;
        if told != answer || b != after {
            self.wrong += 1;
            if self.wrong <= 10 { println!("DIFFERENT: {:?} {rooms:?}: {told:?}, the model {answer:?}", String::from_utf8_lossy(text)) }
        }
    }

    /// Room for so many rows and runs: enough, one short, more, or none.
    fn rooms(&mut self, rows: usize, runs: usize) -> [usize; 3] {
        [rows, runs, runs].map(|n| match self.r.below(12) { 0 => n.saturating_sub(1), 1 => 0, 2..=6 => n, _ => n + self.r.below(4) as usize })
    }

    fn truncations(&mut self, text: &str) {
        for k in 0..=text.len() { self.read(&text.as_bytes()[..k], [4, 8, 8]) }
    }

    /// The text of an index of a series, as it is or spoiled.
    fn random(&mut self, spoil: bool) {
        let n = self.r.from_to(1, 24) as usize;
        let s = any_series(&mut self.r, n);
        let (w, d, g) = any_numbers(&mut self.r, n);
        let mut x = build(&s, w, d as i64, g as i64);
        if self.r.below(8) == 0 {
            let mut lent = Lent::of(&x);
            lent.damage(&mut self.r);
            let y = lent.index();
            if bad_row(&y).is_none() { x = y }
        }
        let mut text = write_index(&x).into_bytes();
        if spoil { for _ in 0..1 + self.r.below(2) { text = spoiled(&mut self.r, text) } }
        let rooms = self.rooms(x.rows.len(), x.runs.len());
        self.read(&text, rooms);
    }
}

fn main() {
    let turns: u64 = std::env::args().nth(1).map_or(200_000, |s| s.parse().unwrap());
    let start = Instant::now();
    let mut t = Test { r: Numbers(0x2545F4914F6CDD1D), inputs: 0, wrong: 0, loaded: 0, refused: [0; 24] };
    for text in WORKED { t.truncations(text) }
    for k in 0..turns { t.random(k % 8 != 0) }
    println!("{} texts read, {} differences ({} read, refused 12: {} 20: {} 23: {}) in {:.1} s", t.inputs, t.wrong, t.loaded, t.refused[12], t.refused[20], t.refused[23], start.elapsed().as_secs_f64());
    if t.wrong > 0 { std::process::exit(1) }
}
