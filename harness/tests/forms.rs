//! Damaged forms, and what the reference does with them.

use harness::coverage::Coverage;
use harness::forms::Forms;

/// The lines of a script with so many damaged forms.
fn script(forms: &mut Forms, count: u64) -> Vec<Vec<u8>> {
    let mut lines = Vec::new();
    while forms.damaged < count {
        lines.extend(forms.table(count - forms.damaged));
    }
    lines
}

/// What keeps the rules is accepted and saved again as the same octets, and
/// nothing else is.
#[test]
fn accepted_and_refused() {
    let mut forms = Forms::new(1);
    script(&mut forms, 30_000);
    assert_eq!(forms.faults, Vec::<String>::new());
    assert_eq!(forms.damaged, 30_000);
    assert!((2_000..20_000).contains(&forms.taken), "{}", forms.taken);
}

#[test]
fn one_seed_one_script() {
    let lines = |seed| script(&mut Forms::new(seed), 500);
    assert_eq!(lines(7), lines(7));
    assert_ne!(lines(7), lines(8));
}

#[test]
fn every_reason_is_reached() {
    let mut coverage = Coverage::default();
    for line in script(&mut Forms::new(2), 40_000) {
        coverage.take(&line);
    }
    let text = coverage.text();
    let of_forms = |row: &&str| row.contains("  SV-") || row.contains("  RL-");
    let rows: Vec<&str> = text.lines().filter(of_forms).collect();
    let missed = rows.iter().filter(|row| row.trim_start().starts_with("0 "));
    assert_eq!(missed.collect::<Vec<_>>(), Vec::<&&str>::new());
    assert!(rows.len() > 60);
}
