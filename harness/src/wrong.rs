//! Wrong programs: edits of a crate, each of which makes it answer something
//! else, so that the prover must refuse it.
//!
//! Those under `crates/NAME/must-fail/` are kept: the gate tries them. Those
//! under `harness/wrong/NAME/` were tried, and can be tried again.
//! An edit is a file of lines:
//!
//! ```text
//! # WORDS              what tells it from the right program
//! function: NAME       the public function that it makes wrong; none: the one that the text stands in
//! refused: WORDS       what the prover does not grant
//! file: src/lib.rt     the file for the changes behind this line
//! in: TEXT             the text stands behind this one, in the same function or definition (not in must-fail/)
//! old: TEXT            stands there once
//! new: TEXT            what it becomes
//! ```

mod names;
mod page;
mod place;

pub use page::page;
pub use place::changed;

use std::collections::BTreeMap;
use std::fs;
use std::path::{Path, PathBuf};

/// A text of a file, and what it becomes.
#[derive(Clone, Debug, Default, PartialEq, Eq)]
pub struct Change {
    pub file: String,
    pub within: Option<String>,
    pub old: String,
    pub new: String,
}

#[derive(Clone, Debug, Default, PartialEq, Eq)]
pub struct Edit {
    /// The crate.
    pub home: String,
    pub name: String,
    /// The gate tries it.
    pub is_kept: bool,
    pub words: String,
    pub function: Option<String>,
    pub refused: String,
    pub changes: Vec<Change>,
}

impl Edit {
    /// Reads the lines of an edit.
    pub fn read(text: &str) -> Result<Edit, String> {
        let mut edit = Edit::default();
        let mut change = Change::default();
        for line in text.lines() {
            let (word, rest) = line.split_once(' ').unwrap_or((line, ""));
            match word {
                "#" if edit.words.is_empty() => edit.words = rest.to_string(),
                "function:" => edit.function = Some(rest.to_string()),
                "refused:" => edit.refused = rest.to_string(),
                "file:" => change.file = rest.to_string(),
                "in:" => change.within = Some(rest.to_string()),
                "old:" => change.old = rest.to_string(),
                "new:" => {
                    change.new = rest.to_string();
                    edit.changes.push(change.clone());
                    change.within = None;
                    change.old.clear();
                }
                _ => {}
            }
        }
        let is_whole = |change: &Change| !change.file.is_empty() && !change.old.is_empty();
        if edit.changes.is_empty() || !edit.changes.iter().all(is_whole) {
            return Err(
                "an edit needs its file, what stands there and what it becomes".to_string(),
            );
        }
        Ok(edit)
    }

    /// CRATE/NAME.
    pub fn path(&self) -> String {
        format!("{}/{}", self.home, self.name)
    }
}

/// A repository with its wrong programs, crate by crate as crates.txt has
/// them.
pub struct Wrong {
    root: PathBuf,
    pub homes: Vec<String>,
    pub edits: Vec<Edit>,
}

impl Wrong {
    pub fn read(root: &Path) -> Result<Wrong, String> {
        let list = read(&root.join("crates.txt"))?;
        let names = list.lines().filter(|line| !line.starts_with('#'));
        let homes: Vec<String> = names
            .filter_map(|line| Some(line.split_once(':')?.0.trim().to_string()))
            .collect();
        let mut edits = Vec::new();
        for home in &homes {
            let kept = root.join("crates").join(home).join("must-fail");
            let tried = root.join("harness/wrong").join(home);
            edits.extend(edits_in(&kept, home, true)?);
            edits.extend(edits_in(&tried, home, false)?);
        }
        let root = root.to_path_buf();
        Ok(Wrong { root, homes, edits })
    }

    /// The tried edits that a pattern names: a crate, CRATE/NAME, or nothing
    /// for all.
    pub fn tried(&self, patterns: &[String]) -> Result<Vec<&Edit>, String> {
        let is_named =
            |edit: &Edit, pattern: &String| *pattern == edit.home || *pattern == edit.path();
        let tried = || self.edits.iter().filter(|edit| !edit.is_kept);
        for pattern in patterns {
            if !tried().any(|edit| is_named(edit, pattern)) {
                return Err(format!("no tried wrong program {pattern}"));
            }
        }
        let is_meant = |edit: &&Edit| {
            patterns.is_empty() || patterns.iter().any(|pattern| is_named(edit, pattern))
        };
        Ok(tried().filter(is_meant).collect())
    }

    /// The files of a crate that an edit changes, as they become.
    pub fn apply(&self, edit: &Edit) -> Result<BTreeMap<PathBuf, String>, String> {
        let mut files = BTreeMap::new();
        for change in &edit.changes {
            let path = self.file(&edit.home, &change.file);
            let text = match files.get(&path) {
                Some(text) => String::clone(text),
                None => read(&path)?,
            };
            files.insert(path, changed(&text, change)?);
        }
        Ok(files)
    }

    fn file(&self, home: &str, file: &str) -> PathBuf {
        self.root.join("crates").join(home).join(file)
    }

    /// The function that an edit makes wrong.
    pub fn function(&self, edit: &Edit) -> String {
        let stands_in = || {
            let change = edit.changes.first()?;
            let text = read(&self.file(&edit.home, &change.file)).ok()?;
            names::enclosing(&text, place::find(&text, change).ok()?)
        };
        edit.function.clone().or_else(stands_in).unwrap_or_default()
    }

    /// What went stale: a text that is not there, a name that is not declared,
    /// a crate that is not listed.
    pub fn stale(&self) -> Vec<String> {
        let mut stale: Vec<String> = self.strangers();
        for edit in &self.edits {
            let mut say = |what: String| stale.push(format!("{}: {what}", edit.path()));
            if let Err(error) = self.apply(edit) {
                say(error);
            }
            let all = self.all_of(&edit.home);
            for name in edit
                .function
                .iter()
                .cloned()
                .chain(names::quoted(&edit.refused))
            {
                let last = name.rsplit("::").next().unwrap_or(&name);
                if !names::declares(&all, last) {
                    say(format!("{name} is not declared"));
                }
            }
            if !edit.is_kept && (edit.words.is_empty() || edit.refused.is_empty()) {
                say("it lacks what tells it apart or what refuses it".to_string());
            }
        }
        stale
    }

    /// Folders of harness/wrong that no listed crate has.
    fn strangers(&self) -> Vec<String> {
        let entries = fs::read_dir(self.root.join("harness/wrong"));
        let paths = entries
            .into_iter()
            .flatten()
            .flatten()
            .map(|entry| entry.path());
        let folders = paths.filter(|path| path.is_dir());
        let names = folders.filter_map(|path| Some(path.file_name()?.to_str()?.to_string()));
        let strange = names.filter(|name| !self.homes.contains(name));
        strange
            .map(|name| format!("{name}: no such crate"))
            .collect()
    }

    /// Every file of a crate's code, definitions and proofs.
    fn all_of(&self, home: &str) -> String {
        names::texts(
            &self.root.join("crates").join(home),
            &["src", "specs", "proofs"],
        )
    }

    /// The public functions of a crate's code.
    fn public(&self, home: &str) -> Vec<String> {
        names::public(&names::texts(
            &self.root.join("crates").join(home),
            &["src"],
        ))
    }
}

fn edits_in(folder: &Path, home: &str, is_kept: bool) -> Result<Vec<Edit>, String> {
    let entries = fs::read_dir(folder).into_iter().flatten().flatten();
    let mut paths: Vec<PathBuf> = entries.map(|entry| entry.path()).collect();
    paths.retain(|path| path.extension().is_some_and(|ending| ending == "edit"));
    paths.sort();
    let mut edits = Vec::new();
    for path in paths {
        let edit =
            Edit::read(&read(&path)?).map_err(|error| format!("{}: {error}", path.display()))?;
        let name = path.file_stem().unwrap_or_default().to_string_lossy();
        edits.push(Edit {
            home: home.to_string(),
            name: name.into_owned(),
            is_kept,
            ..edit
        });
    }
    Ok(edits)
}

fn read(file: &Path) -> Result<String, String> {
    fs::read_to_string(file).map_err(|error| format!("{}: {error}", file.display()))
}
