//! Sums the amounts of orders by the countries of their customers: two files, customers first.
use std::collections::HashMap;
use std::io::{self, BufWriter, Write};

fn main() -> io::Result<()> {
    let mut paths = std::env::args().skip(1);
    let customers = std::fs::read_to_string(paths.next().expect("customers"))?;
    let orders = std::fs::read_to_string(paths.next().expect("orders"))?;
    let mut country_of: HashMap<i64, &str> = HashMap::new();
    for line in customers.lines() {
        let (id, country) = line.split_once(',').expect("two fields");
        country_of.insert(id.parse().expect("a long"), country);
    }
    let mut sums: HashMap<&str, (i64, u64)> = HashMap::new();
    for line in orders.lines() {
        let mut longs = line.split(',').skip(1).map(|f| f.parse::<i64>().expect("a long"));
        let customer = longs.next().expect("a customer");
        let amount = longs.next().expect("an amount");
        if let Some(country) = country_of.get(&customer) {
            let sum = sums.entry(country).or_default();
            *sum = (sum.0.wrapping_add(amount), sum.1 + 1);
        }
    }
    let mut rows: Vec<_> = sums.into_iter().collect();
    rows.sort_unstable();
    let mut out = BufWriter::new(io::stdout().lock());
    for (country, (sum, count)) in rows {
        writeln!(out, "{country},{sum},{count}")?;
    }
    out.flush()
}
