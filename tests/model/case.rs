// Reads a file of calls: a line is a word and what belongs to it, one space between. tests/vectors/README.md has the format.

/// Why a line cannot be read; lines count from 1.
pub struct Bad { pub line: usize, pub why: String }

/// What a number may be.
#[derive(Clone, Copy, PartialEq)]
pub enum Type { Signed, Count, Large, Byte }

impl Type {
    fn holds(self, n: i128) -> bool {
        let (low, high) = match self {
            Type::Signed => (i32::MIN as i128, i32::MAX as i128),
            Type::Count => (0, i32::MAX as i128),
            Type::Large => (0, u64::MAX as i128),
            Type::Byte => (0, 255),
        };
        low <= n && n <= high
    }
}

/// The lines of a file, and which is next.
pub struct Lines<'a> { lines: Vec<&'a [u8]>, at: usize }

/// A line: its text, and the items that were not read yet.
pub struct Line<'a> { number: usize, text: &'a str, items: std::str::Split<'a, char> }

impl<'a> Line<'a> {
    pub fn bad<T>(&self, why: impl Into<String>) -> Result<T, Bad> { Err(Bad { line: self.number, why: why.into() }) }

    pub fn word(&mut self) -> Result<&'a str, Bad> {
        match self.items.next() { Some(word) => Ok(word), None => self.bad("items are missing") }
    }

    /// A number, written as it is here: no sign or zero too many.
    pub fn number(&mut self, a: Type) -> Result<i128, Bad> {
        let word = self.word()?;
        match word.parse::<i128>() {
            Ok(n) if n.to_string() == word && a.holds(n) => Ok(n),
            _ => self.bad(format!("`{}` is no number of its type", shown(word))),
        }
    }

    pub fn numbers(&mut self, types: &[Type]) -> Result<Vec<i128>, Bad> { types.iter().map(|&a| self.number(a)).collect() }

    /// How many entries there are, and these, one after another: an entry is a number of each type.
    pub fn list(&mut self, types: &[Type]) -> Result<Vec<i128>, Bad> {
        let mut list = vec![];
        for _ in 0..self.number(Type::Count)? { list.extend(self.numbers(types)?) }
        Ok(list)
    }

    /// Nothing follows; the whole line.
    pub fn end(mut self) -> Result<String, Bad> {
        match self.items.next() { None => Ok(self.text.into()), Some(word) => self.bad(format!("`{}` is an item too many", shown(word))) }
    }
}

impl<'a> Lines<'a> {
    pub fn of(file: &'a [u8]) -> Result<Lines<'a>, Bad> {
        let mut lines: Vec<&[u8]> = file.split(|&b| b == b'\n').collect();
        match lines.pop() {
            Some([]) => Ok(Lines { lines, at: 0 }),
            _ => Err(Bad { line: lines.len() + 1, why: "the last line has no newline".into() }),
        }
    }

    pub fn done(&self) -> bool { self.at == self.lines.len() }

    fn next_word(&self) -> &'a [u8] { self.lines.get(self.at).and_then(|l| l.split(|&b| b == b' ').next()).unwrap_or(b"") }

    pub fn next_is(&self, word: &str) -> bool { !self.done() && self.next_word() == word.as_bytes() }

    /// The next line, which begins with this word.
    pub fn line(&mut self, word: &str) -> Result<Line<'a>, Bad> {
        let number = self.at + 1;
        let bad = |why| Err(Bad { line: number, why });
        if self.done() { return bad(format!("`{word}` is missing: the file ends")) }
        if !self.next_is(word) { return bad(format!("`{word}` is missing: the line begins with `{}`", shown(&String::from_utf8_lossy(self.next_word())))) }
        self.at += 1;
        let Ok(text) = str::from_utf8(self.lines[number - 1]) else { return bad("a byte is no letter".into()) };
        let mut items = text.split(' ');
        items.next();
        Ok(Line { number, text, items })
    }

    /// The numbers of a line that has so many.
    pub fn numbers(&mut self, word: &str, types: &[Type]) -> Result<Vec<i128>, Bad> {
        let mut line = self.line(word)?;
        let numbers = line.numbers(types)?;
        line.end().map(|_| numbers)
    }

    pub fn count(&mut self, word: &str) -> Result<u32, Bad> { Ok(self.numbers(word, &[Type::Count])?[0] as u32) }

    /// The entries of a line that is a list.
    pub fn list(&mut self, word: &str, types: &[Type]) -> Result<Vec<i128>, Bad> {
        let mut line = self.line(word)?;
        let list = line.list(types)?;
        line.end().map(|_| list)
    }

    /// `text LINES` and that many lines, any bytes, each with a newline behind it.
    pub fn text(&mut self) -> Result<Vec<u8>, Bad> {
        let (line, count) = (self.at + 1, self.count("text")? as usize);
        let Some(lines) = self.lines.get(self.at..self.at + count) else { return Err(Bad { line, why: "lines of the text are missing: the file ends".into() }) };
        self.at += count;
        Ok(lines.iter().flat_map(|l| [l, &b"\n"[..]].concat()).collect())
    }

    /// A line that is skipped where it stands next.
    pub fn skip(&mut self, word: &str) { if self.next_is(word) { self.at += 1 } }

    /// To the next line that begins a case.
    pub fn skip_to(&mut self, word: &str) { while !self.done() && !self.next_is(word) { self.at += 1 } }
}

/// A word as it stands in a message.
pub fn shown(word: &str) -> String { cut(&word.escape_debug().to_string()) }

/// As much as a message needs.
pub fn cut(text: &str) -> String {
    if text.chars().count() <= 160 { text.into() } else { text.chars().take(160).chain("..".chars()).collect() }
}
