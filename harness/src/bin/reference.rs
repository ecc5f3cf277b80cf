//! Reads an event script and writes one answer for each event.

use harness::exchange::{next_line, Exchange, Outcome};
use std::io::{self, BufReader, BufWriter, Write};

fn main() -> io::Result<()> {
    let mut input = BufReader::new(io::stdin().lock());
    let mut output = BufWriter::new(io::stdout().lock());
    let mut exchange = Exchange::default();
    let mut line = Vec::new();
    while next_line(&mut input, &mut line)? {
        let outcome = exchange.take(&line);
        if outcome != Outcome::Skipped {
            writeln!(output, "{outcome}")?;
        }
        if input.buffer().is_empty() {
            output.flush()?;
        }
    }
    output.flush()
}
