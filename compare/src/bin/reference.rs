//! Reads a call list from standard input and prints the answers the original gives; `-n` puts the number of the
//! call's line and a tab before each.

use compare::session::Session;
use std::io::{self, BufRead, BufWriter, Write};

fn main() -> io::Result<()> {
    let numbered = std::env::args().nth(1).as_deref() == Some("-n");
    let mut input = io::stdin().lock();
    let mut output = BufWriter::new(io::stdout().lock());
    let mut session = Session::default();
    let mut line = Vec::new();
    for number in 1.. {
        line.clear();
        if input.read_until(b'\n', &mut line)? == 0 {
            break;
        }
        let call = line.strip_suffix(b"\n").unwrap_or(&line);
        // A line that is no text is no call either, and the empty line is none.
        let answer = session.answer(std::str::from_utf8(call).unwrap_or(""));
        if !answer.is_empty() {
            if numbered {
                write!(output, "{number}\t")?;
            }
            writeln!(output, "{answer}")?;
        }
    }
    output.flush()
}
