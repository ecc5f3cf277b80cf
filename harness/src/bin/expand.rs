//! Reads a script with messages by name and writes it with their octets.

use harness::cases::expand;
use std::io::{self, BufRead, BufWriter, Write};
use std::process::ExitCode;

fn main() -> ExitCode {
    if std::env::args().len() > 1 {
        eprintln!("usage: expand <SCRIPT");
        return ExitCode::from(2);
    }
    match run() {
        Ok(()) => ExitCode::SUCCESS,
        Err(error) => {
            eprintln!("expand: {error}");
            ExitCode::FAILURE
        }
    }
}

/// Comments and lines without a bracket stay as they are.
fn run() -> Result<(), String> {
    let mut output = BufWriter::new(io::stdout().lock());
    for (number, line) in io::stdin().lock().lines().enumerate() {
        let line = line.map_err(|error| error.to_string())?;
        let plain = match line.starts_with('#') {
            true => Ok(line),
            false => expand(&line),
        };
        let plain = plain.map_err(|error| format!("line {}: {error}", number + 1))?;
        writeln!(output, "{plain}").map_err(|error| error.to_string())?;
    }
    output.flush().map_err(|error| error.to_string())
}
