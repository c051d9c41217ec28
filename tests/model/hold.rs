// Holds the model to the vectors: hold FOLDER, which has program/, table/, audit/ and extend/, and may have requests/NAME/ with some of them. Writes a line for each difference and each missing file, then the counts.
#![allow(dead_code)]
mod index;
mod model;
mod texts;
use std::collections::BTreeSet;
use std::fs;
use std::path::{Path, PathBuf};

/// What stands in a folder.
fn inside(folder: &Path) -> Vec<PathBuf> {
    let files = fs::read_dir(folder).unwrap_or_else(|e| panic!("{}: {e}", folder.display()));
    files.map(|f| f.unwrap().path()).collect()
}

fn main() {
    let folder = PathBuf::from(std::env::args().nth(1).expect("a folder"));
    let requests = folder.join("requests");
    let requests = if requests.exists() { inside(&requests) } else { vec![] };
    let (mut tried, mut different) = (0, 0);
    for kind in ["program", "table", "audit", "extend"] {
        let endings: &[&str] = if kind == "audit" { &["index", "series", "out"] } else { &["in", "out"] };
        let requested = requests.iter().map(|r| r.join(kind)).filter(|f| f.exists());
        for folder in [folder.join(kind)].into_iter().chain(requested) {
            let vectors: BTreeSet<PathBuf> = inside(&folder).iter().map(|p| p.with_extension("")).collect();
            if vectors.is_empty() {
                different += 1;
                println!("{}: no vectors", folder.display());
            }
            for vector in vectors {
                let files: Vec<_> = endings.iter().map(|e| vector.with_extension(e)).collect();
                if let Some(file) = files.iter().find(|f| !f.is_file()) {
                    different += 1;
                    println!("missing: {}", file.display());
                    continue;
                }
                let text: Vec<_> = files.iter().map(|f| fs::read(f).unwrap()).collect();
                let said = match kind {
                    "audit" => texts::audit_texts(&text[0], &text[1]),
                    "extend" => texts::extend_texts(&text[0]),
                    _ => texts::program(&text[0]),
                };
                tried += 1;
                if said.as_bytes() != text[text.len() - 1] {
                    different += 1;
                    println!("{}: {}", files[0].display(), said.lines().next().unwrap_or(""));
                }
            }
        }
    }
    println!("{tried} vectors, {different} different");
    std::process::exit((different > 0 || tried == 0) as i32);
}
