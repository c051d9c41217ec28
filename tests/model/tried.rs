// Writes what the program try_text must write of its standard input, by the model.
#![allow(dead_code)]
mod index;
mod model;
mod texts;
use std::io::Read;
use texts::{read_index, write_index};

/// What a text comes to where there is room for so many rows and runs.
fn come_to(text: &[u8], rows: usize, runs: usize) -> String {
    match read_index(text) {
        Err(line) => format!("(refused 12 {line})\n"),
        Ok(x) => match index::bad_row(&x) {
            Some(row) => format!("(refused 20 {row})\n"),
            None if rows < x.rows.len() || runs < x.runs.len() => "(refused 23 0)\n".into(),
            None => format!("(read {} {})\n", x.rows.len(), x.runs.len()),
        },
    }
}

fn main() {
    let mut all = vec![];
    std::io::stdin().read_to_end(&mut all).unwrap();
    for text in all.strip_suffix(b"#").unwrap_or(&all).split(|&b| b == b'#') {
        for k in 0..text.len() { print!("{}", come_to(&text[..k], 8, 16)) }
        print!("{}{}{}", come_to(text, 8, 16), come_to(text, 1, 16), come_to(text, 8, 2));
        if let Ok(x) = read_index(text) {
            if index::bad_row(&x).is_none() { print!("{}(refused 23 0)\n", write_index(&x)) }
        }
    }
}
