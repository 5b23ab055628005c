//! Sorts the rows of a file of a long and a text.
use std::io::{self, BufWriter, Write};

fn main() -> io::Result<()> {
    let path = std::env::args().nth(1).expect("a path");
    let text = std::fs::read_to_string(path)?;
    let mut rows: Vec<(i64, &str)> = text.lines().map(row_of).collect();
    rows.sort_unstable();
    let mut out = BufWriter::new(io::stdout().lock());
    for (key, text) in rows {
        writeln!(out, "{key},{text}")?;
    }
    out.flush()
}

fn row_of(line: &str) -> (i64, &str) {
    let (key, text) = line.split_once(',').expect("two fields");
    (key.parse().expect("a long"), text)
}
