//! The generator, and how far its scripts reach.

use harness::coverage::Coverage;
use harness::exchange::Outcome;
use harness::generate::Generator;

/// So many answered lines of a script, with the skipped ones between.
fn lines(seed: u64, events: usize) -> Vec<Vec<u8>> {
    let mut generator = Generator::new(seed);
    let mut lines = Vec::new();
    let mut answered = 0;
    while answered < events {
        let (line, outcome) = generator.line();
        lines.push(line);
        answered += usize::from(outcome != Outcome::Skipped);
    }
    lines
}

#[test]
fn one_seed_one_script() {
    assert_eq!(lines(7, 3_000), lines(7, 3_000));
    assert_ne!(lines(7, 100), lines(8, 100));
}

#[test]
fn every_row_is_reached() {
    let mut coverage = Coverage::default();
    for line in lines(1, 200_000) {
        coverage.take(&line);
    }
    let text = coverage.text();
    let missed = text
        .lines()
        .filter(|line| line.trim_start().starts_with("0 "));
    assert_eq!(missed.collect::<Vec<_>>(), Vec::<&str>::new());
    assert!(text.ends_with(" rows, 0 not reached\n"));
}
