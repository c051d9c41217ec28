// Holds the compiled entries to cases of calls: calls LEAST FOLDER.., each with a file calls.txt as tests/vectors/README.md describes it. With --cfg model it is the model that is held to them.
// Writes a line for each difference and for each case that cannot be read, then the counts; fails on any of them, and where fewer cases than LEAST ran.
#![allow(dead_code)]
#[cfg(model)]
mod answers;
mod case;
#[cfg(not(model))]
mod entries;
mod index;
mod lent;
mod model;
mod texts;
#[cfg(model)]
use answers as entries;
use case::Type::{self, Byte, Count, Large, Signed};
use case::{Bad, Lines, cut, shown};
use index::Row;
use lent::{Answer, Asked, Buffers, Head, Lent, Lists};

/// What a call gave: the answer as a line, and how the line that is wanted is read; the head of an index that was made; what stands in the buffers.
struct Gave { answer: String, wanted: fn(&mut Lines) -> Result<String, Bad>, head: Vec<i128>, buffers: Vec<Buffer> }

/// A lent buffer after a call, its entries one after another, and the line that tells what stands first in it; scratch has no line.
struct Buffer { word: &'static str, entry: &'static [Type], after: Vec<i128> }

const HEAD: &[Type] = &[Count; 3];
const ROW: &[Type] = &[Signed, Signed, Count, Count];
const PAIR: &[Type] = &[Count, Count];
const MATCH: &[Type] = &[Count, Large];

// ---- lines that several entries share

fn series(c: &mut Lines) -> Result<Vec<i32>, Bad> { Ok(c.list("series", &[Signed])?.iter().map(|&v| v as i32).collect()) }

fn index(c: &mut Lines) -> Result<Lent, Bad> {
    let (head, rows, runs) = (c.numbers("head", HEAD)?, c.list("rows", ROW)?, c.list("runs", PAIR)?);
    Ok(Lent {
        head: Head { window: head[0] as u32, width: head[1] as u32, windows: head[2] as u32 },
        rows: rows.chunks(4).map(|r| Row { low: r[0] as i32, up: r[1] as i32, first: r[2] as u32, runs: r[3] as u32 }).collect(),
        left: runs.chunks(2).map(|r| r[0] as u32).collect(),
        right: runs.chunks(2).map(|r| r[1] as u32).collect(),
    })
}

/// The only one of the indexes: more cannot be lent.
fn one_index(c: &mut Lines) -> Result<Lent, Bad> {
    let mut line = c.line("indexes")?;
    match line.number(Count)? { 1 => line.end()?, _ => return line.bad("a search takes one index") };
    index(c)
}

fn no_hours(c: &mut Lines) -> Result<String, Bad> {
    let mut line = c.line("hours")?;
    match line.word()? { "none" => line.end(), _ => line.bad("a search takes no hours") }
}

/// The query, and what is asked of it: all matches.
fn asked(c: &mut Lines) -> Result<(Vec<i32>, Asked), Bad> {
    let mut line = c.line("query")?;
    let kind = match line.word()? { "raw" => 0, "normal" => 1, _ => return line.bad("a query is raw or normal") };
    let query = line.list(&[Signed])?.iter().map(|&v| v as i32).collect();
    line.end()?;
    let n = c.numbers("limits", &[Count, Large, Count, Count])?;
    Ok((query, Asked { kind, band: n[0] as u32, threshold: n[1] as u64, scale: n[2] as u32, shift: n[3] as u32, pick: 0, count: 0 }))
}

/// The entries of the buffers to lend.
fn room<const N: usize>(c: &mut Lines) -> Result<[usize; N], Bad> {
    let mut line = c.line("room")?;
    let n = line.numbers(&[Count; N])?;
    if n.iter().any(|&n| n > 1 << 24) { return line.bad("more room than can be lent") }
    line.end().map(|_| std::array::from_fn(|k| n[k] as usize))
}

/// Sevens in room for an index.
fn fresh(c: &mut Lines) -> Result<Buffers, Bad> { room(c).map(|[rows, runs]| Buffers::of_sevens(rows, runs)) }

// ---- the entries: each reads what is lent, calls, and tells what was given

fn build(c: &mut Lines) -> Result<Gave, Bad> {
    let (s, w, d, g, mut b) = (series(c)?, c.count("window")?, c.count("width")?, c.count("merge")?, fresh(c)?);
    Ok(made(entries::build(&s, w, d, g, &mut b), b))
}

fn extend(c: &mut Lines) -> Result<Gave, Bad> {
    let (s, x, mut b) = (series(c)?, index(c)?, fresh(c)?);
    Ok(made(entries::extend(&s, &x, &mut b), b))
}

fn audit(c: &mut Lines) -> Result<Gave, Bad> {
    let (s, x) = (series(c)?, index(c)?);
    let a = entries::audit(&s, &x);
    let answer = match a.kind {
        0 => "says yes".into(),
        1 => format!("says wrong {} {}", a.first, a.second),
        2 => format!("says missing {}", a.first),
        3 => format!("says refused {} {}", a.first, a.second),
        _ => format!("{a:?}"),
    };
    Ok(Gave { answer, wanted: says, head: vec![], buffers: vec![] })
}

/// A search that gives all matches, or the closest few.
fn search(c: &mut Lines, few: bool) -> Result<Gave, Bad> {
    let (s, x, (q, mut a)) = (series(c)?, one_index(c)?, asked(c)?);
    if few { (a.pick, a.count) = (1, c.count("closest")?) }
    no_hours(c)?;
    let mut b = Lists::of_sevens(room(c)?);
    let a = entries::search(&s, &x, a, &q, &mut b);
    let buffers = vec![pairs("candidates", PAIR, &b.first, &b.last), pairs("list", MATCH, &b.offsets, &b.distances), single("scratch", &[], &b.scratch)];
    let good = if few { 2 } else { 0 };
    Ok(Gave { answer: given::<2>(good, a.kind, a.first, a.second), wanted: gives::<2>, head: vec![], buffers })
}

fn write(c: &mut Lines) -> Result<Gave, Bad> {
    let (x, [size]) = (index(c)?, room(c)?);
    let mut text = vec![7; size];
    let a = entries::write(&x, &mut text);
    Ok(Gave { answer: given::<1>(0, a.kind, a.first, a.second), wanted: gives::<1>, head: vec![], buffers: vec![single("text", &[Byte], &text)] })
}

fn read(c: &mut Lines) -> Result<Gave, Bad> {
    let (text, mut b) = (c.text()?, fresh(c)?);
    Ok(made(entries::read(&text, &mut b), b))
}

// ---- what was given

/// The answer of any entry but the audit, number, place and so many counts: its kind where nothing refuses is `good`.
fn given<const COUNTS: usize>(good: u32, kind: u32, first: usize, second: usize) -> String {
    let numbers = match kind {
        _ if kind == good => [0, 0, first, second],
        1 => [24, 0, first, second],
        3 => [first, second, 0, 0],
        _ => return format!("an answer of kind {kind}"),
    };
    format!("gives{}", numbers[..2 + COUNTS].iter().map(|n| format!(" {n}")).collect::<String>())
}

/// An index that was made, or a refusal.
fn made(a: Answer, b: Buffers) -> Gave {
    let rows = b.rows.iter().flat_map(|r| [r.low as i128, r.up as i128, r.first as i128, r.runs as i128]).collect();
    let head = [a.head.window, a.head.width, a.head.windows].map(|n| n as i128).to_vec();
    let buffers = vec![Buffer { word: "rows", entry: ROW, after: rows }, pairs("runs", PAIR, &b.left, &b.right)];
    Gave { answer: given::<2>(0, a.kind, a.first, a.second), wanted: gives::<2>, head, buffers }
}

/// One column as a buffer.
fn single<T: Copy + Into<i128>>(word: &'static str, entry: &'static [Type], column: &[T]) -> Buffer {
    Buffer { word, entry, after: column.iter().map(|&n| n.into()).collect() }
}

/// Two columns as one buffer.
fn pairs<T: Copy + Into<i128>>(word: &'static str, entry: &'static [Type], one: &[u32], other: &[T]) -> Buffer {
    Buffer { word, entry, after: one.iter().zip(other).flat_map(|(&a, &b)| [a as i128, b.into()]).collect() }
}

// ---- what is wanted

fn gives<const COUNTS: usize>(c: &mut Lines) -> Result<String, Bad> {
    let mut line = c.line("gives")?;
    line.numbers(&[&[Count; 2][..], &[Count; COUNTS]].concat())?;
    line.end()
}

fn says(c: &mut Lines) -> Result<String, Bad> {
    let mut line = c.line("says")?;
    let numbers = match line.word()? { "yes" => 0, "missing" => 1, "wrong" | "refused" => 2, _ => return line.bad("an audit says yes, wrong, missing or refused") };
    line.numbers(&[Count; 2][..numbers])?;
    line.end()
}

/// What the next line says of a buffer, and zeros behind it.
fn wanted(c: &mut Lines, b: &Buffer) -> Result<Vec<i128>, Bad> {
    let mut first = match b.word {
        "scratch" => vec![],
        "text" => c.text()?.iter().map(|&b| b as i128).collect(),
        word => c.list(word, b.entry)?,
    };
    if first.len() < b.after.len() { first.resize(b.after.len(), 0) }
    Ok(first)
}

/// What of a call differs from the lines that follow it. A refusal but 24 keeps the buffers.
fn held(c: &mut Lines, gave: Gave) -> Result<Vec<String>, Bad> {
    let wanted_answer = (gave.wanted)(c)?;
    let mut differs = vec![];
    if wanted_answer != gave.answer { differs.push(format!("wanted {wanted_answer}, got {}", gave.answer)) }
    if gave.buffers.is_empty() { return Ok(differs) }
    let kept = !wanted_answer.starts_with("gives 0 ") && !wanted_answer.starts_with("gives 24 ");
    if kept {
        c.numbers("kept", &[])?;
    } else if !gave.head.is_empty() {
        differs.extend(difference("head", HEAD, &c.numbers("head", HEAD)?, &gave.head));
    }
    for b in &gave.buffers {
        let wanted = if kept { vec![7; b.after.len()] } else { wanted(c, b)? };
        differs.extend(difference(b.word, b.entry, &wanted, &b.after));
    }
    Ok(differs)
}

/// The first entry in which two buffers differ.
fn difference(word: &str, entry: &[Type], wanted: &[i128], got: &[i128]) -> Option<String> {
    let at = (0..wanted.len().max(got.len())).find(|&k| wanted.get(k) != got.get(k))?;
    let wide = entry.len().max(1);
    let show = |n: &[i128]| match n.get(at / wide * wide..) {
        None | Some([]) => "none".into(),
        Some(n) if entry == [Byte] => format!("{:?}", String::from_utf8_lossy(&n.iter().take(30).map(|&b| b as u8).collect::<Vec<_>>())),
        Some(n) => n.iter().take(wide).map(|n| n.to_string()).collect::<Vec<_>>().join(" "),
    };
    Some(format!("{word}, entry {}: wanted {}, got {}", at / wide, show(wanted), show(got)))
}

// ---- cases and folders

/// The entries that a case may call; what each differs in.
const ENTRIES: [(&str, fn(&mut Lines) -> Result<Vec<String>, Bad>); 7] = [
    ("build", |c| build(c).and_then(|gave| held(c, gave))),
    ("extend", |c| extend(c).and_then(|gave| held(c, gave))),
    ("audit", |c| audit(c).and_then(|gave| held(c, gave))),
    ("search", |c| search(c, false).and_then(|gave| held(c, gave))),
    ("few", |c| search(c, true).and_then(|gave| held(c, gave))),
    ("write", |c| write(c).and_then(|gave| held(c, gave))),
    ("read", |c| read(c).and_then(|gave| held(c, gave))),
];

/// A case: its number and entry, and what differs.
fn case(c: &mut Lines) -> Result<(String, Vec<String>), Bad> {
    let mut line = c.line("case")?;
    let (number, entry) = (line.number(Count)?, line.word()?);
    let Some((_, run)) = ENTRIES.iter().find(|e| e.0 == entry) else { return line.bad(format!("there is no entry `{}`", shown(entry))) };
    line.end()?;
    c.skip("note");
    let differs = run(c)?;
    c.numbers("end", &[])?;
    Ok((format!("case {number} {entry}"), differs))
}

#[derive(Default)]
struct Tally { cases: usize, different: usize, unreadable: usize }

impl Tally {
    fn unreadable(&mut self, what: String) {
        self.unreadable += 1;
        println!("{what}");
    }

    fn folder(&mut self, folder: &str) {
        let path = format!("{}/calls.txt", folder.trim_end_matches('/'));
        let file = match std::fs::read(&path) { Ok(file) => file, Err(e) => return self.unreadable(format!("{path}: {e}")) };
        let mut c = match Lines::of(&file) { Ok(c) => c, Err(bad) => return self.unreadable(format!("{path}:{}: {}", bad.line, bad.why)) };
        if c.done() { self.unreadable(format!("{path}: no case")) }
        while !c.done() {
            match case(&mut c) {
                Ok((label, differs)) => {
                    self.cases += 1;
                    self.different += !differs.is_empty() as usize;
                    for d in differs { println!("{folder} {label}: {}", cut(&d)) }
                }
                Err(bad) => {
                    self.unreadable(format!("{path}:{}: {}", bad.line, bad.why));
                    c.skip_to("case");
                }
            }
        }
    }
}

fn main() {
    let mut arguments = std::env::args().skip(1);
    let least: usize = arguments.next().and_then(|n| n.parse().ok()).expect("how many cases at least");
    let mut t = Tally::default();
    for folder in arguments { t.folder(&folder) }
    println!("calls: {} cases, {} different, {} unreadable", t.cases, t.different, t.unreadable);
    std::process::exit((t.cases < least.max(1) || t.different > 0 || t.unreadable > 0) as i32);
}
