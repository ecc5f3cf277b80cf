//! Names in code, definitions and proofs.

use std::fs;
use std::path::{Path, PathBuf};

/// Words that stand before the name of a definition.
const MARKS: [&str; 6] = ["abbrev", "unfoldable", "opaque", "pub", "record", "data"];

/// The function or definition that a place stands in.
pub fn enclosing(text: &str, at: usize) -> Option<String> {
    let end = text[at..].find('\n').map_or(text.len(), |line| at + line);
    let (mut name, mut kind) = (None, None);
    for line in text[..end].lines() {
        if let Some(rest) = line.strip_prefix("impl ") {
            kind = rest.split([' ', '{']).next();
        } else if line.starts_with('}') {
            kind = None;
        }
        if let Some(function) = function_of(line) {
            name = Some(match kind {
                Some(kind) => format!("{kind}::{function}"),
                None => function.to_string(),
            });
        }
    }
    name.or_else(|| definition(&text[..end]))
}

/// The function that a line begins.
fn function_of(line: &str) -> Option<&str> {
    let line = line.trim_start();
    let line = line.strip_prefix("pub ").unwrap_or(line);
    line.strip_prefix("fn ")?.split(['(', '<']).next()
}

/// The last definition that a text begins.
fn definition(text: &str) -> Option<String> {
    let is_head = |line: &&str| !line.is_empty() && !line.starts_with([' ', '-', '{']);
    let line = text.lines().rfind(is_head)?;
    let mut words = line
        .split_whitespace()
        .skip_while(|word| MARKS.contains(word));
    words.next().map(str::to_string)
}

/// The public functions of code, methods with their type.
pub fn public(code: &str) -> Vec<String> {
    let mut found = Vec::new();
    let mut at = 0;
    for line in code.split_inclusive('\n') {
        if line.trim_start().starts_with("pub fn ") {
            found.extend(enclosing(code, at));
        }
        at += line.len();
    }
    found
}

/// If a text declares the name: as a function, or as a definition or theorem.
pub fn declares(text: &str, name: &str) -> bool {
    text.lines().any(|line| {
        let mut words = line
            .split_whitespace()
            .skip_while(|word| MARKS.contains(word));
        function_of(line) == Some(name) || words.next() == Some(name)
    })
}

/// What stands between backticks.
pub fn quoted(text: &str) -> Vec<String> {
    let pieces = text.split('`').enumerate();
    let inner = pieces.filter(|(index, _)| index % 2 == 1);
    inner.map(|(_, piece)| piece.to_string()).collect()
}

/// The files of code and of definitions below some folders, one behind the
/// other.
pub fn texts(home: &Path, folders: &[&str]) -> String {
    let mut files = Vec::new();
    for folder in folders {
        collect(&home.join(folder), &mut files);
    }
    files.sort();
    files
        .iter()
        .filter_map(|file| fs::read_to_string(file).ok())
        .collect()
}

fn collect(folder: &Path, files: &mut Vec<PathBuf>) {
    for entry in fs::read_dir(folder).into_iter().flatten().flatten() {
        let path = entry.path();
        if path.is_dir() {
            collect(&path, files);
        } else if path
            .extension()
            .is_some_and(|ending| ending == "rt" || ending == "antt")
        {
            files.push(path);
        }
    }
}
