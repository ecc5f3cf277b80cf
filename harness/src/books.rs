//! Looks up the names that docs/PROMISES.md cites and the files that the books
//! name, so that one that moved or went is found.
//!
//! `crate/specs/File: \`name\`, \`other\`` cites declarations of a file of
//! definitions or proofs, `crate/src/lib.rt: \`Name\`` types and constants of
//! the code, and `crate::function`, `crate::Type::method` functions. A name
//! without a place before it belongs to the place cited last in its cell.

use std::collections::BTreeMap;
use std::path::{Path, PathBuf};

/// Words of the language that a cell may quote.
const KEYWORDS: [&str; 2] = ["requires", "ensures"];

/// The crates of a repository, read once for each file.
pub struct Books {
    root: PathBuf,
    crates: PathBuf,
    texts: BTreeMap<PathBuf, String>,
    pub looked_up: usize,
    pub missing: Vec<String>,
}

/// Where a name is looked up.
#[derive(Clone, Debug, PartialEq)]
enum Place {
    Nowhere,
    /// Declarations of a file of definitions or proofs.
    File(String),
    /// Types and constants of a crate's code.
    Types(String),
    /// Functions of a crate.
    Functions(String),
}

impl Books {
    pub fn new(root: &Path) -> Books {
        Books {
            root: root.to_path_buf(),
            crates: root.join("crates"),
            texts: BTreeMap::new(),
            looked_up: 0,
            missing: Vec::new(),
        }
    }

    /// The rows of docs/PROMISES.md: a sentence, then what it cites.
    pub fn promises(&mut self, text: &str) {
        for (number, cells) in rows(text) {
            for cell in &cells[1..] {
                self.found(!cell.trim().is_empty(), number, "a cell without a word");
                self.cell(cell, number);
            }
        }
    }

    /// The files and folders that a text names in backticks, as
    /// `crates/octets/src/lib.rt`. Words with a place to fill in are passed
    /// over, and so is what a build makes.
    pub fn paths(&mut self, text: &str) {
        const FOLDERS: [&str; 5] = ["crates/", "harness/", "docs/", "examples/", ".ci/"];
        for (index, line) in text.lines().enumerate() {
            for piece in line.split('`').skip(1).step_by(2) {
                let path = piece.split(' ').next().unwrap_or_default();
                let is_path = FOLDERS.iter().any(|folder| path.starts_with(folder));
                let is_open = path.contains("NAME") || path.contains("CRATE") || path.contains('*');
                if is_path && !is_open && !path.contains("/target/") && !path.contains("/out/") {
                    let is_there = self.root.join(path).exists();
                    self.found(is_there, index + 1, path);
                }
            }
        }
    }

    /// Looks up the names of a cell.
    fn cell(&mut self, cell: &str, number: usize) {
        let mut place = Place::Nowhere;
        for (index, piece) in cell.split('`').enumerate() {
            if index % 2 == 1 {
                self.name(piece, &mut place, number);
            } else if let Some(next) = place_in(piece) {
                place = next;
            }
        }
    }

    fn name(&mut self, name: &str, place: &mut Place, number: usize) {
        if KEYWORDS.contains(&name) {
            return;
        }
        let shown = format!("{place:?} {name}");
        if let Some((first, path)) = name.split_once("::") {
            let code = self.code(first);
            let is_there = path.split("::").all(|part| declares_item(&code, part));
            self.found(is_there, number, name);
            *place = Place::Functions(first.to_string());
            return;
        }
        let is_there = match place {
            Place::Nowhere => false,
            Place::File(file) => {
                let text = self.text(&format!("{file}.antt"));
                name.split('.').all(|part| declares(&text, part))
            }
            Place::Types(first) => declares_item(&self.code(first), name),
            Place::Functions(first) => declares_function(&self.code(first), name),
        };
        self.found(is_there, number, &shown);
    }

    fn found(&mut self, is_there: bool, number: usize, what: &str) {
        self.looked_up += 1;
        if !is_there {
            self.missing.push(format!("line {number}: {what}"));
        }
    }

    fn code(&mut self, name: &str) -> String {
        self.all_of(&format!("{name}/src"), "rt")
    }

    fn text(&mut self, file: &str) -> String {
        let path = self.crates.join(file);
        let read = || std::fs::read_to_string(&path).unwrap_or_default();
        self.texts.entry(path.clone()).or_insert_with(read).clone()
    }

    /// The files of a folder with an ending, one behind the other.
    fn all_of(&mut self, folder: &str, ending: &str) -> String {
        let mut files: Vec<PathBuf> = std::fs::read_dir(self.crates.join(folder))
            .map(|entries| entries.flatten().map(|entry| entry.path()).collect())
            .unwrap_or_default();
        files.retain(|file| file.extension().is_some_and(|e| e == ending));
        files.sort();
        let texts = files.iter().filter_map(|file| file.file_name()?.to_str());
        let names: Vec<String> = texts.map(|name| format!("{folder}/{name}")).collect();
        names.iter().map(|name| self.text(name)).collect()
    }
}

/// The rows of the tables of a text, with their line numbers: neither a head
/// nor the line under it.
fn rows(text: &str) -> Vec<(usize, Vec<String>)> {
    let lines: Vec<&str> = text.lines().collect();
    let is_rule = |line: &str| line.starts_with("|-");
    let mut rows = Vec::new();
    for (index, line) in lines.iter().enumerate() {
        let heads = lines.get(index + 1).is_some_and(|next| is_rule(next));
        if line.starts_with('|') && !is_rule(line) && !heads {
            let inner = line.trim_matches('|');
            rows.push((index + 1, inner.split(" | ").map(str::to_string).collect()));
        }
    }
    rows
}

/// The last place that a text cites before a name: `crate/specs/File: `.
fn place_in(text: &str) -> Option<Place> {
    let before = text.trim_end().strip_suffix(':')?;
    let word = before.rsplit([' ', '(', ';']).next()?;
    let (name, rest) = word.split_once('/')?;
    match rest.split_once('/')? {
        ("src", _) => Some(Place::Types(name.to_string())),
        ("specs" | "proofs", _) => Some(Place::File(word.to_string())),
        _ => None,
    }
}

/// If a line of a text declares the name: behind a mark, or, as a constructor
/// does, before its type.
fn declares(text: &str, name: &str) -> bool {
    const MARKS: [&str; 6] = ["abbrev", "unfoldable", "opaque", "pub", "record", "data"];
    text.lines().any(|line| {
        let words: Vec<&str> = line.split_whitespace().collect();
        let marks = words.iter().take_while(|word| MARKS.contains(word)).count();
        words.get(marks) == Some(&name) && (marks > 0 || words.get(1) == Some(&":"))
    })
}

fn declares_function(code: &str, name: &str) -> bool {
    // a lifetime may stand before the arguments
    code.contains(&format!("fn {name}(")) || code.contains(&format!("fn {name}<"))
}

/// If a function, a type or a constant is declared.
fn declares_item(code: &str, name: &str) -> bool {
    let heads = ["struct", "enum", "const"];
    declares_function(code, name)
        || heads.iter().any(|head| {
            [" ", ":", "("]
                .iter()
                .any(|end| code.contains(&format!("{head} {name}{end}")))
        })
}
