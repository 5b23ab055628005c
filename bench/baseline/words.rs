//! Counts the words of a file, one in each line.
use std::collections::HashMap;
use std::io::{self, BufWriter, Write};

fn main() -> io::Result<()> {
    let path = std::env::args().nth(1).expect("a path");
    let text = std::fs::read_to_string(path)?;
    let mut counts: HashMap<&str, u64> = HashMap::new();
    for word in text.lines() {
        *counts.entry(word).or_default() += 1;
    }
    let mut rows: Vec<(&str, u64)> = counts.into_iter().collect();
    rows.sort_unstable();
    let mut out = BufWriter::new(io::stdout().lock());
    for (word, count) in rows {
        writeln!(out, "{word},{count}")?;
    }
    out.flush()
}
