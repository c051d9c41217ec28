// Lent indexes for the comparison: laid out as the entries take them, and damaged in every way that document 01 has a word for.
use crate::index::{laid_out, set_rows, AnyRow, Index, Row, SetRow};
use crate::model::{values, Numbers};

/// The head of an index, as it is lent.
#[repr(C)]
#[derive(Clone, Copy, PartialEq, Eq, Debug, Default)]
pub struct Head { pub window: u32, pub width: u32, pub windows: u32 }

/// An answer as it is told to C.
#[repr(C)]
#[derive(Clone, Copy, PartialEq, Eq, Debug)]
pub struct Answer { pub kind: u32, pub head: Head, pub first: usize, pub second: usize }

/// An answer without a head; its kind is 3 where the call is refused.
pub fn numbers(kind: u32, first: usize, second: usize) -> Answer { Answer { kind, head: Head::default(), first, second } }

#[derive(Clone, PartialEq, Eq, Debug)]
pub struct Lent { pub head: Head, pub rows: Vec<Row>, pub left: Vec<u32>, pub right: Vec<u32> }

/// The three lent buffers of a build or an extension.
#[derive(Clone, PartialEq, Eq, Debug)]
pub struct Buffers { pub rows: Vec<Row>, pub left: Vec<u32>, pub right: Vec<u32> }

/// The kind, the limits and the pick, as a search is asked for them: kind 0 is raw, any other normalised; pick 0 is all matches, any other the closest `count`.
#[repr(C)]
#[derive(Clone, Copy, PartialEq, Eq, Debug)]
pub struct Asked { pub kind: u32, pub band: u32, pub threshold: u64, pub scale: u32, pub shift: u32, pub pick: u32, pub count: u32 }

/// A search's answer as it is told to C: 0 and both counts, 1 and both counts where the list is full, 2 and both counts where the closest few are listed, 3 and the refusal's number and place.
#[repr(C)]
#[derive(Clone, Copy, PartialEq, Eq, Debug)]
pub struct Searched { pub kind: u32, pub first: usize, pub second: usize }

/// The five lent buffers of a search.
#[derive(Clone, PartialEq, Eq, Debug)]
pub struct Lists { pub first: Vec<u32>, pub last: Vec<u32>, pub scratch: Vec<u16>, pub offsets: Vec<u32>, pub distances: Vec<u64> }

impl Lists {
    pub fn of_rubbish(r: &mut Numbers, rooms: [usize; 5]) -> Lists {
        Lists {
            first: (0..rooms[0]).map(|_| r.next() as u32).collect(),
            last: (0..rooms[1]).map(|_| r.next() as u32).collect(),
            scratch: (0..rooms[2]).map(|_| r.next() as u16).collect(),
            offsets: (0..rooms[3]).map(|_| r.next() as u32).collect(),
            distances: (0..rooms[4]).map(|_| r.next()).collect(),
        }
    }

    /// Sevens in each: so many entries of candidates, of scratch and of the list.
    pub fn of_sevens([candidates, scratch, list]: [usize; 3]) -> Lists {
        Lists { first: vec![7; candidates], last: vec![7; candidates], scratch: vec![7; scratch], offsets: vec![7; list], distances: vec![7; list] }
    }
}

fn row_of(r: &AnyRow) -> Row { Row { low: r.low as i32, up: r.up as i32, first: r.first as u32, runs: r.runs as u32 } }

impl Buffers {
    /// An index, and zeros behind it.
    pub fn of(x: &Index, room: usize) -> Buffers {
        let x = Lent::of(x);
        let mut b = Buffers { rows: x.rows, left: x.left, right: x.right };
        b.rows.resize(room, Row::default());
        b.left.resize(room, 0);
        b.right.resize(room, 0);
        b
    }

    /// Sevens in each: so many row records and run entries.
    pub fn of_sevens(rows: usize, runs: usize) -> Buffers {
        Buffers { rows: vec![Row { low: 7, up: 7, first: 7, runs: 7 }; rows], left: vec![7; runs], right: vec![7; runs] }
    }

    /// The three to lengths of their own.
    pub fn cut(&mut self, rooms: [usize; 3]) {
        self.rows.truncate(rooms[0]);
        self.left.truncate(rooms[1]);
        self.right.truncate(rooms[2]);
    }

    pub fn of_rubbish(r: &mut Numbers, room: usize) -> Buffers {
        let mut any = || r.next() as u32;
        Buffers {
            rows: (0..room).map(|_| Row { low: any() as i32, up: any() as i32, first: any(), runs: any() }).collect(),
            left: (0..room).map(|_| any()).collect(),
            right: (0..room).map(|_| any()).collect(),
        }
    }
}

/// A series of any of the sorts of values.
pub fn any_series(r: &mut Numbers, n: usize) -> Vec<i32> { let sort = r.below(8); values(r, n, sort) }

/// A window length, a row width and a merge limit for a series of n values.
pub fn any_numbers(r: &mut Numbers, n: usize) -> (usize, u32, u32) {
    let most = n.min(256) as i64;
    let w = match r.below(6) { 0 => 1, 1 => most, 2 => r.from_to(1, most), _ => r.from_to(1, most.min(8)) } as usize;
    let d = match r.below(7) { 0 => 1, 1 => 1_000_000, 2 => r.from_to(1, 1_000_000), 3 => r.from_to(2, 9), _ => r.from_to(10, 5_000) } as u32;
    let g = match r.below(4) { 0 => 0, 1 => 100, 2 => 80, _ => r.from_to(0, 100) } as u32;
    (w, d, g)
}

/// A value changed or outside its limits, or one value more or fewer.
pub fn damaged_series(r: &mut Numbers, s: &[i32]) -> Vec<i32> {
    let mut s = s.to_vec();
    let k = r.below(s.len() as u64) as usize;
    match r.below(8) {
        0 => s[k] = [10_001, -10_001, i32::MAX, i32::MIN][r.below(4) as usize],
        1 => s[k] = [10_000, -10_000][r.below(2) as usize],
        2 => s[k] = (s[k] + r.from_to(-3, 3) as i32).clamp(-10_000, 10_000),
        3 => s.push(s[k]),
        4 => { s.pop(); }
        5 => s.truncate(k),
        6 => { let i = r.below(s.len() as u64) as usize; s.swap(i, k) }
        _ => s[k] = r.from_to(-10_000, 10_000) as i32,
    }
    s
}

/// An index as it is written by hand.
pub fn lent(head: [u32; 3], rows: &[[i32; 4]], runs: &[(u32, u32)]) -> Lent {
    Lent {
        head: Head { window: head[0], width: head[1], windows: head[2] },
        rows: rows.iter().map(|r| Row { low: r[0], up: r[1], first: r[2] as u32, runs: r[3] as u32 }).collect(),
        left: runs.iter().map(|e| e.0).collect(),
        right: runs.iter().map(|e| e.1).collect(),
    }
}

impl Lent {
    pub fn of(x: &Index) -> Lent {
        Lent {
            head: Head { window: x.window as u32, width: x.width as u32, windows: x.windows as u32 },
            rows: x.rows.iter().map(row_of).collect(),
            left: x.runs.iter().map(|e| e.0 as u32).collect(),
            right: x.runs.iter().map(|e| e.1 as u32).collect(),
        }
    }

    /// As the model takes it: as many entries as the shorter of the two slices has.
    pub fn index(&self) -> Index {
        Index {
            window: self.head.window as i64, width: self.head.width as i64, windows: self.head.windows as i64,
            rows: self.rows.iter().map(|r| AnyRow { low: r.low as i64, up: r.up as i64, first: r.first as i64, runs: r.runs as i64 }).collect(),
            runs: self.left.iter().zip(&self.right).map(|(&l, &r)| (l as i64, r as i64)).collect(),
        }
    }

    /// The numbers of the head are in their limits, and are those of an index of a series of n values.
    pub fn suits(&self, n: usize) -> bool {
        let h = self.head;
        n <= 1 << 20 && (1..=256).contains(&h.window) && (1..=1_000_000).contains(&h.width) && h.windows > 0 && h.windows as usize + h.window as usize == n + 1
    }

    pub fn rubbish_behind(&mut self, r: &mut Numbers) {
        for _ in 0..r.below(4) { self.left.push(r.next() as u32) }
        for _ in 0..r.below(4) { self.right.push(r.next() as u32) }
    }

    fn any_row(&self, r: &mut Numbers) -> Option<usize> { (!self.rows.is_empty()).then(|| r.below(self.rows.len() as u64) as usize) }

    fn any_entry(&self, r: &mut Numbers) -> Option<usize> {
        let n = self.left.len().min(self.right.len());
        (n > 0).then(|| r.below(n as u64) as usize)
    }

    /// Damaged once, in one of the ways below; where there is nothing to damage it stays.
    pub fn damage(&mut self, r: &mut Numbers) {
        match r.below(9) {
            0 => self.range_moved(r),
            1 => self.rows_mixed(r),
            2 => self.part_moved(r),
            3 => self.run_moved(r),
            4 => self.head_moved(r),
            5 => self.extremes(r),
            6 => self.slices_cut(r),
            7 => self.run_split(r),
            _ => self.refile(r),
        };
    }

    /// A range end moved: by a width, by less, onto the other end, to the limits and past them.
    fn range_moved(&mut self, r: &mut Numbers) -> Option<()> {
        let (k, d) = (self.any_row(r)?, self.head.width as i64);
        let row = self.rows[k];
        let end = if r.below(2) == 0 { row.low } else { row.up } as i64;
        let limit = 4_000_000 / d.max(1) * d;
        let to = match r.below(10) {
            0 => end + d,
            1 => end - d,
            2 => end + 1,
            3 => end - 1,
            4 => row.low as i64,
            5 => row.up as i64,
            6 => limit,
            7 => -limit,
            8 => limit + d,
            _ => -limit - d,
        }.clamp(i32::MIN as i64, i32::MAX as i64) as i32;
        if end == row.low as i64 { self.rows[k].low = to } else { self.rows[k].up = to }
        Some(())
    }

    /// Rows out of order or overlapping: ranges exchanged, rows exchanged, doubled, dropped, none left.
    fn rows_mixed(&mut self, r: &mut Numbers) -> Option<()> {
        let (i, k) = (self.any_row(r)?, self.any_row(r)?);
        let (a, b) = (self.rows[i], self.rows[k]);
        match r.below(6) {
            0 => { self.rows[i] = Row { low: b.low, up: b.up, ..a }; self.rows[k] = Row { low: a.low, up: a.up, ..b } }
            1 => self.rows.swap(i, k),
            2 => self.rows[k].low = a.low,
            3 => self.rows.insert(i, b),
            4 => { self.rows.remove(k); }
            _ => if r.below(4) == 0 { self.rows.clear() } else { self.rows.truncate(k) },
        }
        Some(())
    }

    /// `first` or `runs` off by one, none, or far off.
    fn part_moved(&mut self, r: &mut Numbers) -> Option<()> {
        let k = self.any_row(r)?;
        let to = |r: &mut Numbers, x: u32| match r.below(6) { 0 | 1 => x.wrapping_add(1), 2 | 3 => x.wrapping_sub(1), 4 => 0, _ => r.next() as u32 };
        if r.below(2) == 0 { self.rows[k].first = to(r, self.rows[k].first) } else { self.rows[k].runs = to(r, self.rows[k].runs) }
        Some(())
    }

    /// A run reversed, touching or overlapping the next, longer or shorter, at and beyond the windows, anything.
    fn run_moved(&mut self, r: &mut Numbers) -> Option<()> {
        let i = self.any_entry(r)?;
        let next = (i + 1).min(self.left.len() - 1);
        match r.below(11) {
            0 => std::mem::swap(&mut self.left[i], &mut self.right[i]),
            1 => self.right[i] = self.left[next].wrapping_sub(1),
            2 => self.right[i] = self.left[next].wrapping_sub(2),
            3 => self.right[i] = self.left[next],
            4 => self.right[i] = self.right[i].wrapping_add(1),
            5 => self.left[i] = self.left[i].wrapping_sub(1),
            6 => self.left[i] = self.left[i].wrapping_add(1),
            7 => self.right[i] = self.head.windows.wrapping_sub(1),
            8 => self.right[i] = self.head.windows,
            9 => self.left[i] = r.next() as u32,
            _ => self.right[i] = r.next() as u32,
        }
        Some(())
    }

    /// A run of a row cut in two that touch, or that leave out the offset between them, and the rows after it moved along.
    fn run_split(&mut self, r: &mut Numbers) -> Option<()> {
        if crate::index::bad_row(&self.index()).is_some() { return None }
        let k = self.any_row(r)?;
        let i = self.rows[k].first as usize + r.below(self.rows[k].runs as u64) as usize;
        let (l, end, gap) = (self.left[i], self.right[i], r.below(2) as u32);
        if end - l <= gap { return None }
        let middle = r.from_to(l as i64, (end - gap) as i64 - 1) as u32;
        self.right[i] = middle;
        self.left.insert(i + 1, middle + 1 + gap);
        self.right.insert(i + 1, end);
        self.rows[k].runs += 1;
        for row in &mut self.rows[k + 1..] { row.first += 1 }
        Some(())
    }

    /// A number of the head at its limits, past them, or another one.
    fn head_moved(&mut self, r: &mut Numbers) -> Option<()> {
        let k = r.below(8) as usize;
        match r.below(3) {
            0 => self.head.window = [0, 1, 256, 257, u32::MAX, self.head.window + 1, self.head.window - 1, self.head.window + self.head.windows][k],
            1 => self.head.width = [0, 1, 1_000_000, 1_000_001, u32::MAX, self.head.width / 2, self.head.width.wrapping_mul(2), self.head.width.wrapping_add(1)][k],
            _ => self.head.windows = [0, 1, 1_048_576, 1_048_577, u32::MAX, self.head.windows.wrapping_add(1), self.head.windows.wrapping_sub(1), self.head.windows / 2][k],
        }
        Some(())
    }

    /// A field of a row, or a run's end, at the extremes of its type or beside a limit.
    fn extremes(&mut self, r: &mut Numbers) -> Option<()> {
        let (k, i) = (self.any_row(r)?, self.any_entry(r)?);
        let z = [i32::MIN, i32::MAX, -4_000_000, 4_000_000, -4_000_001, 4_000_001, 0, -1][r.below(8) as usize];
        let n = [u32::MAX, u32::MAX - 1, 1 << 31, (1 << 31) - 1, 1 << 20, 0, 1, self.left.len() as u32][r.below(8) as usize];
        match r.below(6) {
            0 => self.rows[k].low = z,
            1 => self.rows[k].up = z,
            2 => self.rows[k].first = n,
            3 => self.rows[k].runs = n,
            4 => self.left[i] = n,
            _ => self.right[i] = n,
        }
        Some(())
    }

    /// The run slices cut, or one longer than the other.
    fn slices_cut(&mut self, r: &mut Numbers) -> Option<()> {
        let i = self.any_entry(r)?;
        match r.below(4) {
            0 => self.left.truncate(i),
            1 => self.right.truncate(i),
            2 => { self.left.truncate(i); self.right.truncate(i) }
            _ => if r.below(2) == 0 { self.left.push(0) } else { self.right.push(0) },
        }
        Some(())
    }

    /// Offsets of a row moved to another row, dropped or doubled, and the index laid out anew: it stays well formed, but for a total too great.
    pub fn refile(&mut self, r: &mut Numbers) -> Option<()> {
        let x = self.index();
        if crate::index::bad_row(&x).is_some() { return None }
        let mut rows: Vec<SetRow> = set_rows(&x);
        let i = self.any_row(r)?;
        let k = (i + 1 + r.below(rows.len().max(2) as u64 - 1) as usize) % rows.len();
        let how = r.below(4);
        for j in rows[i].has.clone() {
            if r.below(3) > 0 { continue }
            if how != 0 { rows[i].has.remove(&j); }
            if how != 1 { rows[k].has.insert(j); }
        }
        if how == 3 { for row in &mut rows { let some = row.has.first().copied(); if r.below(4) == 0 { some.map(|j| row.has.remove(&j)); } } }
        rows.retain(|row| !row.has.is_empty());
        *self = Lent::of(&laid_out(self.head.window as usize, self.head.width as i64, self.head.windows as usize, &rows));
        Some(())
    }
}
