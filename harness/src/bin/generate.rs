//! Writes a script of events: `generate SEED EVENTS`.

use harness::exchange::Outcome;
use harness::generate::Generator;
use std::io::{self, BufWriter, Write};

fn main() -> io::Result<()> {
    let number = |place| std::env::args().nth(place)?.parse().ok();
    let (Some(seed), Some(events)) = (number(1), number(2)) else {
        eprintln!("usage: generate SEED EVENTS");
        std::process::exit(2);
    };
    write_script(seed, events)
}

/// Writes lines until so many of them are answered.
fn write_script(seed: u64, events: u64) -> io::Result<()> {
    let mut output = BufWriter::new(io::stdout().lock());
    let mut generator = Generator::new(seed);
    let mut answered = 0;
    while answered < events {
        let (line, outcome) = generator.line();
        output.write_all(&line)?;
        output.write_all(b"\n")?;
        answered += u64::from(outcome != Outcome::Skipped);
    }
    output.flush()
}
