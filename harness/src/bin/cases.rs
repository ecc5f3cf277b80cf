//! Turns case files into a script and its answers, or checks the answers that
//! a program gave to the script.

use harness::cases::Suite;
use std::fs;
use std::io::{self, Read, Write};
use std::path::{Path, PathBuf};
use std::process::ExitCode;

const USAGE: &str = "usage: cases script|answers|check FILE|FOLDER .. [NAME ..]
       a NAME may have a * for any characters; without one all cases are taken";

fn main() -> ExitCode {
    let arguments: Vec<String> = std::env::args().skip(1).collect();
    let done = match arguments.split_first() {
        Some((word, words)) if !words.is_empty() => run(word, words),
        _ => Err(USAGE.to_string()),
    };
    match done {
        Ok(code) => code,
        Err(error) => {
            eprintln!("cases: {error}");
            ExitCode::from(2)
        }
    }
}

fn run(word: &str, words: &[String]) -> Result<ExitCode, String> {
    let (paths, names): (Vec<String>, Vec<String>) = words
        .iter()
        .cloned()
        .partition(|word| Path::new(word).exists());
    let suite = read(&paths, &names)?;
    match word {
        "script" => write(&suite.script()),
        "answers" => write(&suite.answers()),
        "check" => return check(&suite),
        _ => Err(USAGE.to_string()),
    }?;
    Ok(ExitCode::SUCCESS)
}

/// The cases of some files or folders that have one of these names. Steps are
/// found in every file that stands in the same folder.
fn read(paths: &[String], names: &[String]) -> Result<Suite, String> {
    let mut folders: Vec<PathBuf> = paths.iter().map(|path| folder(Path::new(path))).collect();
    folders.dedup();
    let mut suite = Suite::default();
    for file in all_in(&folders)? {
        let text = fs::read_to_string(&file).map_err(|error| format!("{file}: {error}"))?;
        suite.read(&file, &text)?;
    }
    let mut files = Vec::new();
    for path in paths.iter().map(PathBuf::from) {
        match path.is_dir() {
            true => files.extend(all_in(&[path])?),
            false => files.push(in_folder(&path)),
        }
    }
    suite.select(&files, names)?;
    Ok(suite)
}

fn folder(path: &Path) -> PathBuf {
    match (path.is_dir(), path.parent()) {
        (true, _) => path.to_path_buf(),
        (false, Some(parent)) if parent != Path::new("") => parent.to_path_buf(),
        _ => PathBuf::from("."),
    }
}

/// The name of a file as `all_in` gives it.
fn in_folder(file: &Path) -> String {
    let name = file.file_name().unwrap_or_default();
    folder(file).join(name).display().to_string()
}

/// The case files of folders, in the order of their names.
fn all_in(folders: &[PathBuf]) -> Result<Vec<String>, String> {
    let mut files = Vec::new();
    for folder in folders {
        let entries = fs::read_dir(folder).map_err(|error| error.to_string())?;
        let mut paths: Vec<PathBuf> = entries.flatten().map(|entry| entry.path()).collect();
        paths.retain(|path| path.extension().is_some_and(|ending| ending == "txt"));
        paths.sort();
        files.extend(paths.iter().map(|path| path.display().to_string()));
    }
    Ok(files)
}

fn write(text: &str) -> Result<(), String> {
    let written = io::stdout().lock().write_all(text.as_bytes());
    written.map_err(|error| error.to_string())
}

/// Compares the standard input with the answers.
fn check(suite: &Suite) -> Result<ExitCode, String> {
    let mut answers = String::new();
    let read = io::stdin().lock().read_to_string(&mut answers);
    read.map_err(|error| error.to_string())?;
    let verdicts = suite.check(&answers);
    write(&verdicts.tap())?;
    Ok(ExitCode::from(u8::from(verdicts.failed() > 0)))
}
