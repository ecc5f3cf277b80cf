//! Reads an event script and writes how often it reaches each row. With `all`
//! behind it, writes only the rows that are not reached, and fails if there is
//! one.

use harness::coverage::Coverage;
use harness::exchange::next_line;
use std::io::{self, Write};
use std::process::ExitCode;

fn main() -> io::Result<ExitCode> {
    let words: Vec<String> = std::env::args().skip(1).collect();
    let is_all = words == ["all"];
    if !words.is_empty() && !is_all {
        eprintln!("usage: coverage [all]");
        return Ok(ExitCode::from(2));
    }
    let coverage = run()?;
    let (missed, summary) = (coverage.missed(), coverage.summary());
    let text = match is_all {
        true => format!("{missed}{summary}"),
        false => coverage.text(),
    };
    io::stdout().lock().write_all(text.as_bytes())?;
    Ok(ExitCode::from(u8::from(is_all && !missed.is_empty())))
}

fn run() -> io::Result<Coverage> {
    let mut input = io::stdin().lock();
    let mut coverage = Coverage::default();
    let mut line = Vec::new();
    while next_line(&mut input, &mut line)? {
        coverage.take(&line);
    }
    Ok(coverage)
}
