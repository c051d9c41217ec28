// A model of the texts: index texts, the series line and the search program's lines, written and read from the words of document 01 and from nothing else.
use crate::index::{AnyRow, Audited, Found, Index, Question, Refusal, audit, audit_refusal, build, extend, extend_refusal, program_refusal, search};

/// What the search program's lines say.
pub struct Call {
    pub window: i64, pub width: i64, pub merge: i64, pub series: Vec<i64>,
    pub normal: bool, pub band: i64, pub threshold: i64, pub scale: i64, pub shift: i64, pub query: Vec<i64>,
}

/// The text and the position in it. A step that fails leaves the position at the first byte that no text in the form could have there.
struct Reader<'a> { text: &'a [u8], at: usize }

/// No text in the form goes on so.
struct Bad;

impl Reader<'_> {
    fn next(&self) -> Option<u8> { self.text.get(self.at).copied() }

    fn word(&mut self, word: &str) -> Result<(), Bad> {
        for b in word.bytes() {
            if self.next() != Some(b) { return Err(Bad) }
            self.at += 1;
        }
        Ok(())
    }

    /// "Numbers in base ten of at most 18 digits without leading zeros or -0."
    fn number(&mut self) -> Result<i64, Bad> {
        let minus = self.next() == Some(b'-');
        if minus { self.at += 1 }
        let (mut n, mut digits) = (0i64, 0);
        while let Some(b @ b'0'..=b'9') = self.next() {
            if digits == 18 || (digits == 1 && n == 0) || (digits == 0 && minus && b == b'0') { return Err(Bad) }
            n = 10 * n + (b - b'0') as i64;
            digits += 1;
            self.at += 1;
        }
        if digits == 0 { Err(Bad) } else { Ok(if minus { -n } else { n }) }
    }

    /// The byte that tells whether a list goes on.
    fn goes_on(&self, with: u8) -> bool { self.next() == Some(with) }

    fn values(&mut self, head: &str) -> Result<Vec<i64>, Bad> {
        self.word(head)?;
        let mut values = vec![];
        while self.goes_on(b' ') {
            self.at += 1;
            values.push(self.number()?);
        }
        self.word(")")?;
        Ok(values)
    }

    fn named(&mut self, head: &str, tail: &str) -> Result<i64, Bad> {
        self.word(head)?;
        let n = self.number()?;
        self.word(tail)?;
        Ok(n)
    }

    fn index(&mut self) -> Result<Index, Bad> {
        let mut x = Index {
            window: self.named("(index (window ", ")")?,
            width: self.named(" (width ", ")")?,
            windows: self.named(" (windows ", ")\n")?,
            rows: vec![],
            runs: vec![],
        };
        while self.goes_on(b'(') {
            let low = self.named("(row ", " ")?;
            let up = self.number()?;
            let first = x.runs.len();
            while self.goes_on(b' ') {
                x.runs.push((self.named(" (", " ")?, self.named("", ")")?));
            }
            self.word(")\n")?;
            x.rows.push(AnyRow { low, up, first: first as i64, runs: (x.runs.len() - first) as i64 });
        }
        self.word(")\n")?;
        Ok(x)
    }

    fn series(&mut self) -> Result<Vec<i64>, Bad> {
        let s = self.values("(series")?;
        self.word("\n")?;
        Ok(s)
    }

    fn call(&mut self) -> Result<Call, Bad> {
        let window = self.named("(window ", ")\n")?;
        let width = self.named("(width ", ")\n")?;
        let merge = self.named("(merge ", ")\n")?;
        let series = self.series()?;
        self.word("(find ")?;
        let normal = self.goes_on(b'n');
        self.word(if normal { "normal " } else { "raw " })?;
        let (band, threshold, scale, shift) = (self.named("", " ")?, self.named("", " ")?, self.named("", " ")?, self.named("", " ")?);
        let query = self.values("(query")?;
        self.word(")\n")?;
        Ok(Call { window, width, merge, series, normal, band, threshold, scale, shift, query })
    }

    /// The text ends here, or what follows is one byte too many.
    fn end(&self) -> Result<(), Bad> { if self.at == self.text.len() { Ok(()) } else { Err(Bad) } }
}

/// What a text says, or its first bad line: 1 + the newlines before the first bad byte.
fn read<T>(text: &[u8], form: impl Fn(&mut Reader) -> Result<T, Bad>) -> Result<T, usize> {
    let mut r = Reader { text, at: 0 };
    match form(&mut r).and_then(|x| r.end().map(|_| x)) {
        Ok(x) => Ok(x),
        Err(Bad) => Err(1 + lines(&text[..r.at])),
    }
}

fn lines(text: &[u8]) -> usize { text.iter().filter(|&&b| b == b'\n').count() }

pub fn read_index(text: &[u8]) -> Result<Index, usize> { read(text, |r| r.index()) }

pub fn read_series(text: &[u8]) -> Result<Vec<i64>, usize> { read(text, |r| r.series()) }

pub fn read_call(text: &[u8]) -> Result<Call, usize> { read(text, |r| r.call()) }

pub fn write_index(x: &Index) -> String {
    let mut t = format!("(index (window {}) (width {}) (windows {})\n", x.window, x.width, x.windows);
    for r in &x.rows {
        t += &format!("(row {} {}", r.low, r.up);
        for (l, r) in &x.runs[r.first as usize..(r.first + r.runs) as usize] {
            t += &format!(" ({l} {r})");
        }
        t += ")\n";
    }
    t + ")\n"
}

fn refused((n, p): Refusal) -> String { format!("(refused {n} {p})\n") }

fn narrow(s: &[i64]) -> Vec<i32> { s.iter().map(|&v| v as i32).collect() }

/// The search program.
pub fn program(text: &[u8]) -> String {
    let c = match read(text, |r| r.call()) { Err(line) => return refused((12, line)), Ok(c) => c };
    if let Some(r) = program_refusal(&c) {
        return refused(r);
    }
    let (s, q) = (narrow(&c.series), narrow(&c.query));
    let x = build(&s, c.window as usize, c.width, c.merge);
    let Found { candidates, matches } = search(&x, &s, &Question { normal: c.normal, query: &q, band: c.band, threshold: c.threshold, scale: c.scale, shift: c.shift, closest: None });
    let list: String = matches.iter().map(|(j, d)| format!("(at {j} {d})\n")).collect();
    format!("{}(found {} (candidates {})\n{list})\n", write_index(&x), matches.len(), candidates.len())
}

/// The audit of two texts, as one line.
pub fn audit_texts(index: &[u8], series: &[u8]) -> String {
    let x = match read_index(index) { Err(line) => return refused((12, line)), Ok(x) => x };
    let s = match read(series, |r| r.series()) { Err(line) => return refused((12, lines(index) + line)), Ok(s) => s };
    if let Some(r) = audit_refusal(&x, &s, 4096) {
        return refused(r);
    }
    match audit(&x, &narrow(&s)) {
        Audited::Yes => "(yes)\n".into(),
        Audited::Wrong(row, offset) => format!("(wrong {row} {offset})\n"),
        Audited::Missing(n) => format!("(missing {n})\n"),
    }
}

/// An index text followed by a series line: the text of the extended index.
pub fn extend_texts(text: &[u8]) -> String {
    let both = read(text, |r| Ok((r.index()?, r.series()?)));
    let (x, s) = match both { Err(line) => return refused((12, line)), Ok(both) => both };
    // outside values stay outside
    let s: Vec<i32> = s.iter().map(|&v| v.clamp(-20_000, 20_000) as i32).collect();
    match extend_refusal(&x, &s, usize::MAX >> 1) { Some(r) => refused(r), None => write_index(&extend(&x, &s)) }
}
