// What the model answers to each entry and leaves in the buffers that it is lent: the functions of entries.rs, by the model.
use crate::index::{self, Audited, Found, Index, Question, Refusal};
use crate::lent::{Answer, Asked, Buffers, Lent, Lists, Searched, numbers};
use crate::texts::{read_index, write_index};

const MOST: usize = 1 << 20;

fn wide(s: &[i32]) -> Vec<i64> { s.iter().map(|&v| v as i64).collect() }

fn refused((number, place): Refusal) -> Answer { numbers(3, number as usize, place) }

/// Zeros behind what is written.
fn filled<T: Copy + Default>(room: usize, with: Vec<T>) -> Vec<T> { let mut v = with; v.resize(room, T::default()); v }

/// An index that is made: refused, the buffers stay; else they hold it and zeros.
fn made(b: &mut Buffers, made: Result<Index, Refusal>) -> Answer {
    match made {
        Err(no) => refused(no),
        Ok(x) => {
            let rooms = [b.rows.len(), b.left.len(), b.right.len()];
            *b = Buffers::of(&x, rooms.into_iter().max().unwrap());
            b.cut(rooms);
            Answer { kind: 0, head: Lent::of(&x).head, first: x.rows.len(), second: x.runs.len() }
        }
    }
}

/// The entries of the shortest buffer.
fn room(b: &Buffers) -> usize { b.rows.len().min(b.left.len()).min(b.right.len()) }

pub fn build(s: &[i32], w: u32, d: u32, g: u32, b: &mut Buffers) -> Answer {
    let no = index::build_refusal(&wide(s), MOST, w as i64, d as i64, g as i64, room(b));
    made(b, no.map_or_else(|| Ok(index::build(s, w as usize, d as i64, g as i64)), Err))
}

pub fn extend(s: &[i32], x: &Lent, b: &mut Buffers) -> Answer {
    let old = x.index();
    let no = index::extend_refusal(&old, s, room(b));
    made(b, no.map_or_else(|| Ok(index::extend(&old, s)), Err))
}

pub fn audit(s: &[i32], x: &Lent) -> Answer {
    let x = x.index();
    if let Some(no) = index::audit_refusal(&x, &wide(s), MOST) { return refused(no) }
    match index::audit(&x, s) {
        Audited::Yes => numbers(0, 0, 0),
        Audited::Wrong(row, offset) => numbers(1, row, offset),
        Audited::Missing(count) => numbers(2, count, 0),
    }
}

/// The question that a search asks of the model.
pub fn question(a: Asked, q: &[i32]) -> Question<'_> {
    Question { normal: a.kind != 0, query: q, band: a.band as i64, threshold: a.threshold.min(i64::MAX as u64) as i64, scale: a.scale as i64, shift: a.shift as i64, closest: (a.pick != 0).then_some(a.count as i64) }
}

/// A search that is not refused leaves the candidates as joined runs, matches as far as the list holds them or the closest few, and zeros.
pub fn search(s: &[i32], x: &Lent, a: Asked, q: &[i32], b: &mut Lists) -> Searched {
    let (x, z) = (x.index(), question(a, q));
    let room = b.offsets.len().min(b.distances.len());
    if let Some((number, place)) = index::search_refusal(&x, s, &z, [b.first.len().min(b.last.len()), b.scratch.len(), room]) {
        return Searched { kind: 3, first: number as usize, second: place };
    }
    let Found { candidates, matches } = index::search(&x, s, &z);
    let runs = index::runs_of(&candidates.iter().copied().collect());
    let (kind, list) = match z.closest {
        None => ((matches.len() > room) as u32, matches[..room.min(matches.len())].to_vec()),
        Some(k) => (2, index::closest(&matches, k as usize)),
    };
    *b = Lists {
        first: filled(b.first.len(), runs.iter().map(|r| r.0 as u32).collect()),
        last: filled(b.last.len(), runs.iter().map(|r| r.1 as u32).collect()),
        scratch: vec![0; b.scratch.len()],
        offsets: filled(b.offsets.len(), list.iter().map(|e| e.0 as u32).collect()),
        distances: filled(b.distances.len(), list.iter().map(|e| e.1).collect()),
    };
    Searched { kind, first: candidates.len(), second: matches.len() }
}

pub fn write(x: &Lent, text: &mut [u8]) -> Answer {
    let x = x.index();
    if let Some(row) = index::bad_row(&x) { return refused((20, row)) }
    let full = write_index(&x).into_bytes();
    if full.len() > text.len() { return refused((23, 0)) }
    text.fill(0);
    text[..full.len()].copy_from_slice(&full);
    numbers(0, full.len(), 0)
}

pub fn read(text: &[u8], b: &mut Buffers) -> Answer {
    let made_of = |x: Index| match index::bad_row(&x) {
        Some(row) => Err((20, row)),
        None if b.rows.len() < x.rows.len() || b.left.len().min(b.right.len()) < x.runs.len() => Err((23, 0)),
        None => Ok(x),
    };
    let no = read_index(text).map_err(|line| (12, line)).and_then(made_of);
    made(b, no)
}
