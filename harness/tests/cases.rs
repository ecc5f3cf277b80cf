//! The case tables against the reference.

use harness::cases::Suite;
use harness::coverage::Coverage;
use harness::exchange::{Exchange, Outcome};
use std::collections::BTreeSet;
use std::path::Path;

/// All case files, in the order of their names.
fn suite() -> Suite {
    let folder = Path::new(env!("CARGO_MANIFEST_DIR")).join("cases");
    let files = std::fs::read_dir(folder).expect("the folder of cases");
    let mut paths: Vec<_> = files.map(|file| file.expect("a file").path()).collect();
    paths.sort();
    let mut suite = Suite::default();
    for path in paths {
        let text = std::fs::read_to_string(&path).expect("text");
        let file = path.display().to_string();
        suite.read(&file, &text).expect("a case file");
    }
    suite
}

/// The answers of the reference to a script.
fn answers(script: &str) -> String {
    let mut exchange = Exchange::default();
    let outcomes = script.lines().map(|line| exchange.take(line.as_bytes()));
    let answered = outcomes.filter(|outcome| *outcome != Outcome::Skipped);
    answered.map(|outcome| format!("{outcome}\n")).collect()
}

#[test]
fn reference_passes() {
    let suite = suite();
    let verdicts = suite.check(&answers(&suite.script()));
    assert_eq!(verdicts.failed(), 0, "{}", verdicts.tap());
}

#[test]
fn every_row_is_reached() {
    let reached = |script: &str| {
        let mut coverage = Coverage::default();
        for line in script.lines() {
            coverage.take(line.as_bytes());
        }
        coverage.missed()
    };
    assert_eq!(reached(&suite().script()), "");
    let mut suite = suite();
    suite.cases.retain(|case| case.name != "RS-42");
    assert!(reached(&suite.script()).contains("RS-10-5A"));
}

#[test]
fn many_and_named_apart() {
    let suite = suite();
    let names: BTreeSet<&str> = suite.cases.iter().map(|case| case.name.as_str()).collect();
    assert_eq!(names.len(), suite.cases.len());
    assert!(names.len() >= 300);
}

#[test]
fn a_wrong_answer_is_found() {
    let suite = suite();
    let right = suite.answers();
    let wrong = right.replacen("9 - 0 - 0", "0 - 0 - 0", 1);
    assert_eq!(suite.check(&wrong).failed(), 1);
    let short: String = right.lines().take(1).collect();
    assert!(suite.check(&short).failed() > 300);
    assert_eq!(suite.check(&format!("{right}0 - 0 - 0\n")).failed(), 1);
}

#[test]
fn every_case_begins_afresh() {
    for case in suite().cases {
        let (first, _) = &case.exchanged[0];
        // which number is shown needs no table
        let fresh = ["start ", "reload ", "shown"];
        assert!(
            fresh.iter().any(|word| first.starts_with(word)),
            "{}",
            case.name
        );
    }
}

#[test]
fn notation() {
    let mut suite = Suite::default();
    let text = "case A\npurpose words\npaper \"words\"\n\
        ! message 1 0 1024 SETUP 1/2 length=3 octet7=01 [5C 08(80 90) 42/17=9(AA*2) \"0102\"]\n\
        ? 0 - 0 - 0\n! offer 1 0 1024 []\n? 10 - 0 - 0\n\
        ! reload [02() 03=7(00*2) \"04 00\"]\n? 9 - 0 - 0\n\
        ! shown SETUP 0/1 octet7=00 [6C(91 35)] 4142\n? message 14 1 35\n";
    suite.read("a", text).expect("a case file");
    let script = "# A\nmessage 1 0 1024 0903800002050100035c8000020000\
        08800002809042170009aaaa0102\noffer 1 0 1024 -\n\
        reload 02000003000700000400\n\
        shown 0903000001050000066c8000029135 4142\n";
    assert_eq!(suite.script(), script);
}

const SMALL: &str = "case A-1\npurpose words\npaper \"words\"\n! tick 1 0 1024\n? no table\n";
const STEP: &str = "step S\n! tick 1 0 1024\n? no table\n";

/// Three cases in two files.
fn small() -> Suite {
    let mut suite = Suite::default();
    let second = SMALL.replace("A-1", "B-1");
    suite.read("a", SMALL).expect("a case file");
    suite.read("b", &second).expect("a case file");
    suite
        .read("b", &second.replace("B-1", "B-12"))
        .expect("a case file");
    suite
}

/// The names of the cases that a run takes.
fn selected(files: &[&str], patterns: &[&str]) -> Result<Vec<String>, String> {
    let owned = |words: &[&str]| {
        words
            .iter()
            .map(|word| word.to_string())
            .collect::<Vec<_>>()
    };
    let mut suite = small();
    suite.select(&owned(files), &owned(patterns))?;
    Ok(suite.cases.into_iter().map(|case| case.name).collect())
}

#[test]
fn cases_by_name() {
    let taken =
        |files: &[&str], patterns: &[&str]| selected(files, patterns).map(|names| names.join(" "));
    let right = |names: &str| Ok(names.to_string());
    assert_eq!(taken(&["a", "b"], &[]), right("A-1 B-1 B-12"));
    assert_eq!(taken(&["b"], &[]), right("B-1 B-12"));
    assert_eq!(taken(&["a", "b"], &["B-1"]), right("B-1"));
    assert_eq!(taken(&["a", "b"], &["B-1*"]), right("B-1 B-12"));
    assert_eq!(taken(&["a", "b"], &["*-1"]), right("A-1 B-1"));
    assert_eq!(taken(&["a", "b"], &["*2", "A-1"]), right("A-1 B-12"));
    assert!(taken(&["a", "b"], &["C-1"]).is_err());
    assert!(taken(&["a", "b"], &["B-1", "C-*"]).is_err());
    assert!(taken(&["a"], &["B-1"]).is_err());
    assert!(taken(&["c"], &[]).is_err());
}

#[test]
fn verdicts_as_tap() {
    let tap = |answers: &str| small().check(answers).tap();
    let passed = "1..3\nok 1 - A-1\nok 2 - B-1\nok 3 - B-12\n# 3 cases, 0 failed\n";
    assert_eq!(tap("no table\nno table\nno table\n"), passed);
    let failed = "1..3\nok 1 - A-1\nnot ok 2 - B-1\n#   words\n#   event 1 tick 1 0 1024\n\
        #   expected no table\n#   got      bad line\nok 3 - B-12\n# 3 cases, 1 failed\n";
    assert_eq!(tap("no table\nbad line\nno table\n"), failed);
    assert!(tap(&"no table\n".repeat(4)).contains("Bail out!"));
}

#[test]
fn damaged_files() {
    let head = "case A\npurpose words\npaper \"words\"\n";
    for text in [
        "! tick 1 0 1024\n".to_string(),
        "case A\n! tick 1 0 1024\n? 0\n".to_string(),
        format!("{head}! tick 1 0 1024\n"),
        format!("{head}? 0 - 0 - 0\n"),
        format!("{head}preamble B\n"),
        format!("{head}! message 1 0 1024 SETUP [59]\n? 0\n"),
        format!("{head}! message 1 0 1024 SETUP 0/1 [08]\n? 0\n"),
        format!("{head}! message 1 0 1024 SETUP 0/1 [08(8)]\n? 0\n"),
        format!("{head}! message 1 0 1024 SETUP 0/1 [08(80]\n? 0\n"),
        format!("{head}! shown SETUP 0/1 [6C(91 35)]\n? record 0 0 -\n"),
        format!("{head}hold\n"),
        format!("{SMALL}{SMALL}"),
        format!("{STEP}{STEP}"),
    ] {
        assert!(Suite::default().read("a", &text).is_err(), "{text}");
    }
}
