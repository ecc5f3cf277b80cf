//! Wrong programs: the page of them, those that went stale, and one applied.

use harness::wrong::{page, Wrong};
use std::fs;
use std::io::{self, Write};
use std::path::Path;
use std::process::ExitCode;

const USAGE: &str = "usage: wrong page REPOSITORY             docs/WRONG-ANSWERS.md
       wrong stale REPOSITORY            edits whose text or names are no longer there
       wrong list REPOSITORY [NAME ..]   the tried ones; a NAME is a crate or CRATE/NAME
       wrong apply REPOSITORY NAME       changes the files of a crate";

fn main() -> ExitCode {
    let arguments: Vec<String> = std::env::args().skip(1).collect();
    let done = match arguments.as_slice() {
        [word, root, names @ ..] => run(word, Path::new(root), names),
        _ => Err(USAGE.to_string()),
    };
    match done {
        Ok(code) => code,
        Err(error) => {
            eprintln!("wrong: {error}");
            ExitCode::from(2)
        }
    }
}

fn run(word: &str, root: &Path, names: &[String]) -> Result<ExitCode, String> {
    let wrong = Wrong::read(root)?;
    match (word, names) {
        ("page", []) => {
            let file = root.join("harness/wrong/page.md");
            let words = fs::read_to_string(file).map_err(|error| error.to_string())?;
            write(&page(&wrong, &words))?;
        }
        ("stale", []) => return stale(&wrong),
        ("list", names) => {
            let paths = wrong
                .tried(names)?
                .into_iter()
                .map(|edit| edit.path() + "\n");
            write(&paths.collect::<String>())?;
        }
        ("apply", [_]) => apply(&wrong, names)?,
        _ => return Err(USAGE.to_string()),
    }
    Ok(ExitCode::SUCCESS)
}

fn stale(wrong: &Wrong) -> Result<ExitCode, String> {
    let stale = wrong.stale();
    let lines: String = stale.iter().map(|line| format!("{line}\n")).collect();
    write(&lines)?;
    write(&format!(
        "{} wrong programs, {} stale\n",
        wrong.edits.len(),
        stale.len()
    ))?;
    Ok(ExitCode::from(u8::from(!stale.is_empty())))
}

fn apply(wrong: &Wrong, names: &[String]) -> Result<(), String> {
    for edit in wrong.tried(names)? {
        for (file, text) in wrong.apply(edit)? {
            fs::write(&file, text).map_err(|error| format!("{}: {error}", file.display()))?;
        }
    }
    Ok(())
}

fn write(text: &str) -> Result<(), String> {
    let written = io::stdout().lock().write_all(text.as_bytes());
    written.map_err(|error| error.to_string())
}
