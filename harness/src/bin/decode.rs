//! Reads a table of messages and writes one line for each.

use harness::line::answer;
use std::io::{self, BufRead, BufWriter, Write};

fn main() -> io::Result<()> {
    let mut output = BufWriter::new(io::stdout().lock());
    for line in io::stdin().lock().split(b'\n') {
        if let Some(text) = answer(&line?) {
            writeln!(output, "{text}")?;
        }
    }
    output.flush()
}
