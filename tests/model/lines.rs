// Compares the program's lines and the series line as they are read in pieces, through the static library of `try_c_lines`, with the model: the worked lines and their truncations, then random lines spoiled byte by byte, number by number and line by line, in pieces of random sizes, into buffers short and long (of the eight numbers at most eight: place 8 is where a number goes that is none of them): lines [TURNS].
#![allow(dead_code)]
mod index;
mod model;
mod spoil;
mod texts;
use model::Numbers;
use spoil::spoiled;
use std::time::Instant;
use texts::{Call, read_call, read_series};

unsafe extern "C" {
    fn lines_read(
        text: *const u8, size: usize, program: bool, sizes: *const usize, pieces: usize, numbers: *mut i64, room: usize, series: *mut i32, values: usize, query: *mut i32, asked: usize,
    ) -> Told;
}

/// What was read: the first bad line or 0; of the series and of the query how many values there are, and how many stand before the first outside its limits.
#[repr(C)]
#[derive(Clone, Copy, PartialEq, Eq, Debug)]
struct Told { line: usize, series: usize, inside: usize, asked: usize, within: usize }

const WORKED: &str = "(window 2)\n(width 2)\n(merge 80)\n(series 1 2 4 3 1)\n(find raw 0 5 10 0 (query 2 4))\n";
const SERIES: &str = "(series 1 -2 10000 -10001 0 999999999999999999)\n";

fn clamped(x: i64) -> i32 { x.clamp(i32::MIN as i64, i32::MAX as i64) as i32 }

fn inside(v: &[i64]) -> usize { v.iter().take_while(|x| (-10000..=10000).contains(*x)).count() }

/// The first values, as far as there is room.
fn kept<T: Copy>(buffer: &mut [T], values: impl Iterator<Item = T>) { for (to, x) in buffer.iter_mut().zip(values) { *to = x } }

#[derive(Clone, PartialEq, Debug)]
struct Kept { numbers: Vec<i64>, series: Vec<i32>, query: Vec<i32> }

struct Test { r: Numbers, inputs: u64, wrong: u64, fine: u64, bad: u64 }

impl Test {
    /// What the model says of a text, and of the buffers where it can be read.
    fn expected(&self, text: &[u8], program: bool, b: &mut Kept) -> Result<Told, usize> {
        let c = if program { read_call(text)? } else { Call { window: 0, width: 0, merge: 0, series: read_series(text)?, normal: false, band: 0, threshold: 0, scale: 0, shift: 0, query: vec![] } };
        if program { kept(&mut b.numbers, [c.window, c.width, c.merge, c.band, c.threshold, c.scale, c.shift, !c.normal as i64].into_iter()) }
        kept(&mut b.series, c.series.iter().map(|&x| clamped(x)));
        kept(&mut b.query, c.query.iter().map(|&x| clamped(x)));
        Ok(Told { line: 0, series: c.series.len(), inside: inside(&c.series), asked: c.query.len(), within: inside(&c.query) })
    }

    fn sizes(&mut self, n: usize) -> Vec<usize> {
        let most = [1, 2, 5, 40, n + 3][self.r.below(5) as usize];
        (0..self.r.below(2 + 2 * n as u64 / most as u64)).map(|_| self.r.below(most as u64 + 1) as usize).collect()
    }

    fn read(&mut self, text: &[u8], program: bool) {
        let sizes = self.sizes(text.len());
        let room = if self.r.below(4) == 0 { self.r.below(9) as usize } else { 8 };
        let mut b = Kept { numbers: vec![7; room], series: vec![-3; self.r.below(12) as usize], query: vec![5; self.r.below(8) as usize] };
        let mut after = b.clone();
        let expected = self.expected(text, program, &mut after);
        let told = unsafe {
            lines_read(
                text.as_ptr(), text.len(), program, sizes.as_ptr(), sizes.len(), b.numbers.as_mut_ptr(), b.numbers.len(), b.series.as_mut_ptr(), b.series.len(), b.query.as_mut_ptr(), b.query.len(),
            )
        };
        let good = match expected {
            Ok(right) => { self.fine += 1; told == right && b == after }
            Err(line) => { self.bad += 1; told.line == line }
        };
        self.inputs += 1;
        if !good {
            self.wrong += 1;
            if self.wrong <= 10 { println!("DIFFERENT: {:?} {program} {sizes:?}: {told:?} {b:?}, the model {expected:?} {after:?}", String::from_utf8_lossy(text)) }
        }
    }

    fn number(&mut self) -> i64 {
        match self.r.below(8) {
            0 => 0,
            1 => self.r.from_to(-999_999_999_999_999_999, 999_999_999_999_999_999),
            2 => [10_000, -10_000, 10_001, -10_001, 2_147_483_648, -2_147_483_649, 2_147_483_647][self.r.below(7) as usize],
            3 => self.r.from_to(-20_000, 20_000),
            _ => self.r.from_to(-99, 99),
        }
    }

    fn values(&mut self) -> String { (0..self.r.below(14)).map(|_| format!(" {}", self.number())).collect() }

    fn random(&mut self, program: bool, spoil: bool) {
        let series = format!("(series{})\n", self.values());
        let text = if program {
            let n: Vec<i64> = (0..7).map(|_| self.number()).collect();
            let kind = ["raw", "normal"][self.r.below(2) as usize];
            format!("(window {})\n(width {})\n(merge {})\n{series}(find {kind} {} {} {} {} (query{}))\n", n[0], n[1], n[2], n[3], n[4], n[5], n[6], self.values())
        } else { series };
        let mut text = text.into_bytes();
        if spoil { for _ in 0..1 + self.r.below(2) { text = spoiled(&mut self.r, text) } }
        self.read(&text, program);
    }
}

fn main() {
    let turns: u64 = std::env::args().nth(1).map_or(200_000, |s| s.parse().unwrap());
    let start = Instant::now();
    let mut t = Test { r: Numbers(0x9E3779B97F4A7C15), inputs: 0, wrong: 0, fine: 0, bad: 0 };
    for (text, program) in [(WORKED, true), (SERIES, false)] { for k in 0..=text.len() { for _ in 0..20 { t.read(&text.as_bytes()[..k], program) } } }
    for k in 0..turns { t.random(k % 3 != 0, k % 5 != 0) }
    println!("{} lines read in pieces, {} differences ({} read, {} with a bad line) in {:.1} s", t.inputs, t.wrong, t.fine, t.bad, start.elapsed().as_secs_f64());
    if t.wrong > 0 { std::process::exit(1) }
}
