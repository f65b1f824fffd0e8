//! Prints the first COUNT lines of a kind's call list: `generate KIND SEED COUNT`.

use compare::generate;
use std::io::{self, BufWriter, Write};
use std::process;

fn main() -> io::Result<()> {
    let words: Vec<String> = std::env::args().skip(1).collect();
    let Some((lines, count)) = request(&words) else {
        eprintln!("usage: generate KIND SEED COUNT");
        process::exit(2);
    };
    let mut output = BufWriter::new(io::stdout().lock());
    for line in lines.take(count) {
        writeln!(output, "{line}")?;
    }
    output.flush()
}

fn request(words: &[String]) -> Option<(generate::Lines, usize)> {
    let [kind, seed, count] = words else {
        return None;
    };
    let lines = generate::lines(kind, seed.parse().ok()?)?;
    Some((lines, count.parse().ok()?))
}
