//! Writes lines that ask whose number is shown: `numbers SEED COUNT`.

use harness::numbers::Numbers;
use std::io::{self, BufWriter, Write};

fn main() -> io::Result<()> {
    let number = |place| std::env::args().nth(place)?.parse::<u64>().ok();
    let (Some(seed), Some(count)) = (number(1), number(2)) else {
        eprintln!("usage: numbers SEED COUNT");
        std::process::exit(2);
    };
    let mut numbers = Numbers::new(seed);
    let mut output = BufWriter::new(io::stdout().lock());
    for _ in 0..count {
        writeln!(output, "{}", numbers.line())?;
    }
    output.flush()
}
