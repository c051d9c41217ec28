// A model of distances, normalised values, envelopes and the match test, written from the words of document 01 and from nothing else.
// It takes no care for speed: whole tables, every place looked at, numbers of 128 bits, which nothing here comes near to.
#![allow(dead_code)]

/// "The whole square root, rounded down": the greatest r with r * r at most y.
pub fn root(y: u64) -> u64 {
    let (mut low, mut above) = (0u128, 1u128 << 32);
    while above - low > 1 {
        let middle = (low + above) / 2;
        if middle * middle <= y as u128 { low = middle } else { above = middle }
    }
    low as u64
}

/// "Sum of squared differences, no root taken."
pub fn straight(s: &[i32], q: &[i32]) -> i128 {
    s.iter().zip(q).map(|(&x, &y)| (x as i128 - y as i128) * (x as i128 - y as i128)).sum()
}

/// "Least total of squared differences over paths from pair (0, 0) to pair (m-1, m-1), each step adding 1 to the first place,
/// the second or both, every pair (i, j) having |i - j| at most b": the whole table, with no number where no path goes.
pub fn warped(s: &[i32], q: &[i32], b: usize) -> i128 {
    let m = q.len();
    let mut table: Vec<Option<i128>> = vec![None; m * m];
    for i in 0..m {
        for j in 0..m {
            if i.abs_diff(j) > b {
                continue;
            }
            let cost = (s[i] as i128 - q[j] as i128) * (s[i] as i128 - q[j] as i128);
            if i == 0 && j == 0 {
                table[0] = Some(cost);
                continue;
            }
            let mut before: Option<i128> = None;
            let mut take = |x: Option<i128>| {
                if let Some(t) = x {
                    before = Some(match before { None => t, Some(u) => if t < u { t } else { u } })
                }
            };
            if i > 0 { take(table[(i - 1) * m + j]) }
            if j > 0 { take(table[i * m + j - 1]) }
            if i > 0 && j > 0 { take(table[(i - 1) * m + j - 1]) }
            table[i * m + j] = before.map(|t| t + cost);
        }
    }
    table[m * m - 1].unwrap()
}

/// "Straight at band 0", else warped; a table at band 0 gives the same, which the comparison tries.
pub fn distance(s: &[i32], q: &[i32], b: usize) -> i128 {
    if b == 0 { straight(s, q) } else { warped(s, q, b) }
}

/// "T = sum of s."
pub fn total(s: &[i32]) -> i128 {
    s.iter().map(|&x| x as i128).sum()
}

/// "A = m x (sum of squares) - T x T."
pub fn spread(s: &[i32]) -> i128 {
    s.len() as i128 * s.iter().map(|&x| x as i128 * x as i128).sum::<i128>() - total(s) * total(s)
}

/// "The sign of c = m x s(j) - T and the size of the greatest t with t x t x A at most (100 x c)^2"; none of a flat stretch.
pub fn normalised(s: &[i32]) -> Option<Vec<i32>> {
    let (a, sum) = (spread(s), total(s));
    if a == 0 {
        return None;
    }
    Some(s.iter().map(|&x| {
        let c = s.len() as i128 * x as i128 - sum;
        let square = (100 * c) * (100 * c);
        let (mut low, mut above) = (0i128, 1i128);
        while above * above * a <= square { above *= 2 }
        while above - low > 1 {
            let middle = (low + above) / 2;
            if middle * middle * a <= square { low = middle } else { above = middle }
        }
        (if c < 0 { -low } else { low }) as i32
    }).collect())
}

/// "Least and greatest query value within b places that exist."
pub fn envelopes(q: &[i32], b: usize) -> (Vec<i32>, Vec<i32>) {
    let near = |k: usize| (0..q.len()).filter(move |j| j.abs_diff(k) <= b).map(|j| q[j]);
    ((0..q.len()).map(|k| near(k).min().unwrap()).collect(), (0..q.len()).map(|k| near(k).max().unwrap()).collect())
}

/// What the values of a stretch lie outside an envelope, squared and summed.
pub fn bound(s: &[i32], low: &[i32], high: &[i32]) -> i128 {
    (0..s.len()).map(|k| {
        let (x, l, h) = (s[k] as i128, low[k] as i128, high[k] as i128);
        let out = if x > h { x - h } else if x < l { l - x } else { 0 };
        out * out
    }).sum()
}

/// "It matches a raw query exactly if its distance is at most E."
pub fn match_raw(s: &[i32], q: &[i32], b: usize, e: u64) -> Option<i128> {
    let d = distance(s, q, b);
    if d <= e as i128 { Some(d) } else { None }
}

/// A normalised query: "a stretch that has them matches exactly if its distance is at most E, 100 x A(s) <= a^2 x A(q),
/// 100 x A(q) <= a^2 x A(s), and |T(s) - T(q)| <= m x h."
pub fn match_normal(s: &[i32], q: &[i32], b: usize, e: u64, a: u32, h: u32) -> Option<i128> {
    let (ns, nq) = (normalised(s)?, normalised(q)?);
    let (scale, shift) = (a as i128 * a as i128, q.len() as i128 * h as i128);
    if 100 * spread(s) > scale * spread(q) || 100 * spread(q) > scale * spread(s) || (total(s) - total(q)).abs() > shift {
        return None;
    }
    let d = distance(&ns, &nq, b);
    if d <= e as i128 { Some(d) } else { None }
}

/// "Row k holds sums from k x d up to but not including (k+1) x d, k rounded down for negative sums too."
pub fn row_number(sum: i64, d: i64) -> i64 {
    let mut k = sum / d;
    while k * d > sum { k -= 1 }
    while (k + 1) * d <= sum { k += 1 }
    k
}

// ---- inputs

/// A source of numbers that are the same in each run.
pub struct Numbers(pub u64);

impl Numbers {
    pub fn next(&mut self) -> u64 {
        self.0 ^= self.0 << 13;
        self.0 ^= self.0 >> 7;
        self.0 ^= self.0 << 17;
        self.0.wrapping_mul(0x2545F4914F6CDD1D)
    }
    pub fn below(&mut self, n: u64) -> u64 { (self.next() >> 16) % n }
    pub fn from_to(&mut self, low: i64, high: i64) -> i64 { low + self.below((high - low + 1) as u64) as i64 }
}

pub fn in_limits(x: i64) -> i32 { x.clamp(-10000, 10000) as i32 }

/// Values of several sorts: anything, small, a walk, the ends only, flat, nearly flat, few levels, flat with one end.
pub fn values(r: &mut Numbers, n: usize, sort: u64) -> Vec<i32> {
    let base = r.from_to(-10000, 10000);
    match sort {
        0 => (0..n).map(|_| r.from_to(-10000, 10000) as i32).collect(),
        1 => (0..n).map(|_| r.from_to(-3, 3) as i32).collect(),
        2 => { let mut v = base; let step = r.from_to(1, 300); (0..n).map(|_| { v = in_limits(v + r.from_to(-step, step)) as i64; v as i32 }).collect() }
        3 => (0..n).map(|_| if r.below(2) == 0 { 10000 } else { -10000 }).collect(),
        4 => vec![base as i32; n],
        5 => { let mut v = vec![base as i32; n]; let k = r.below(n as u64) as usize; v[k] = in_limits(base + r.from_to(-1, 1)); v }
        6 => (0..n).map(|_| in_limits(base + r.from_to(0, 2) * 50)).collect(),
        _ => { let mut v = vec![10000; n]; let k = r.below(n as u64) as usize; v[k] = -10000; v }
    }
}

/// A query: anything, or the stretch at some place, as it is, with noise, moved and stretched, or warped.
pub fn query(r: &mut Numbers, s: &[i32], m: usize) -> Vec<i32> {
    let at = r.below((s.len() - m + 1) as u64) as usize;
    let near = &s[at..at + m];
    match r.below(8) {
        0 => { let sort = r.below(8); values(r, m, sort) }
        1 => near.to_vec(),
        2 => near.iter().map(|&x| in_limits(x as i64 + r.from_to(-1, 1))).collect(),
        3 => { let k = r.from_to(1, 60); near.iter().map(|&x| in_limits(x as i64 + r.from_to(-k, k))).collect() }
        4 => { let (k, t) = (r.from_to(5, 20), r.from_to(-300, 300)); near.iter().map(|&x| in_limits(x as i64 * k / 10 + t)).collect() }
        5 => { let t = r.from_to(-100, 100); near.iter().map(|&x| in_limits(x as i64 + t)).collect() }
        _ => {
            let mut at = 0usize;
            let noise = r.from_to(0, 2);
            (0..m).map(|_| { let x = near[at]; if at + 1 < m { at += r.below(3) as usize; at = at.min(m - 1) } in_limits(x as i64 + r.from_to(-noise, noise)) }).collect()
        }
    }
}

/// The threshold that takes in about half of the stretches.
pub fn middle(s: &[i32], q: &[i32], normal: bool, b: usize) -> u64 {
    let mut d: Vec<u64> = s.windows(q.len()).filter_map(|t| if !normal { Some(distance(t, q, b) as u64) } else { Some(distance(&normalised(t)?, &normalised(q)?, b) as u64) }).collect();
    d.sort();
    d.get(d.len() / 2).copied().unwrap_or(0).min(1_000_000_000_000)
}
