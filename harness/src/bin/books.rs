//! Looks up what docs/PROMISES.md cites in the crates of a repository, and the
//! files that its books name.

use harness::books::Books;
use std::path::Path;
use std::process::ExitCode;

const USAGE: &str = "usage: books REPOSITORY";

fn main() -> ExitCode {
    let done = match std::env::args().nth(1) {
        Some(root) => look_up(Path::new(&root)),
        None => Err(USAGE.to_string()),
    };
    match done {
        Ok(code) => code,
        Err(error) => {
            eprintln!("{error}");
            ExitCode::from(2)
        }
    }
}

fn look_up(root: &Path) -> Result<ExitCode, String> {
    let mut books = Books::new(root);
    books.promises(&read(&root.join("docs/PROMISES.md"))?);
    for file in [
        "README.md",
        "CONTRIBUTING.md",
        "harness/README.md",
        "docs/FORMATS.md",
    ] {
        books.paths(&read(&root.join(file))?);
    }
    for name in &books.missing {
        println!("{name}");
    }
    println!(
        "{} names looked up, {} missing",
        books.looked_up,
        books.missing.len()
    );
    Ok(ExitCode::from(u8::from(!books.missing.is_empty())))
}

fn read(file: &Path) -> Result<String, String> {
    std::fs::read_to_string(file).map_err(|error| format!("{}: {error}", file.display()))
}
