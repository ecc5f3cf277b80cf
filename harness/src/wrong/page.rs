//! docs/WRONG-ANSWERS.md, from the edits.

use super::{Edit, Wrong};

/// Where the table and the count go in the words around them.
const TABLE: &str = "TABLE\n";
const COUNT: &str = "COUNT\n";

/// The words around it with the table of all edits, and the public functions
/// that have fewer than two.
pub fn page(wrong: &Wrong, words: &str) -> String {
    let table: String = wrong.edits.iter().map(|edit| row(wrong, edit)).collect();
    words.replace(TABLE, &table).replace(COUNT, &count(wrong))
}

fn row(wrong: &Wrong, edit: &Edit) -> String {
    let name = match edit.is_kept {
        true => format!("`{}`, kept", edit.name),
        false => format!("`{}`", edit.name),
    };
    let cells = [
        edit.home.clone(),
        format!("`{}`", wrong.function(edit)),
        name,
        change(edit),
        edit.words.clone(),
        edit.refused.clone(),
    ];
    let cells = cells.map(|cell| cell.replace('|', "\\|"));
    format!("| {} |\n", cells.join(" | "))
}

/// The first change; others are counted.
fn change(edit: &Edit) -> String {
    let first = &edit.changes[0];
    let shown = |text: &str| match text.trim() {
        "" => "nothing".to_string(),
        text => format!("`{text}`"),
    };
    let text = format!("{} \u{2192} {}", shown(&first.old), shown(&first.new));
    match edit.changes.len() {
        1 => text,
        number => format!("{text}, and {} more", number - 1),
    }
}

/// How many there are, and which public functions have fewer than two.
fn count(wrong: &Wrong) -> String {
    let kept = wrong.edits.iter().filter(|edit| edit.is_kept).count();
    let tried = wrong.edits.len() - kept;
    let mut text = format!("{kept} are kept, {tried} tried.");
    let few: Vec<String> = wrong
        .homes
        .iter()
        .filter_map(|home| few(wrong, home))
        .collect();
    if !few.is_empty() {
        text += &format!(" Public functions with fewer than two: {}.", few.join("; "));
    }
    text + "\n"
}

/// The public functions of a crate with fewer than two edits.
fn few(wrong: &Wrong, home: &str) -> Option<String> {
    let edits: Vec<&Edit> = wrong
        .edits
        .iter()
        .filter(|edit| edit.home == home)
        .collect();
    let functions: Vec<String> = edits.iter().map(|edit| wrong.function(edit)).collect();
    let times = |name: &String| {
        functions
            .iter()
            .filter(|function| *function == name)
            .count()
    };
    let names: Vec<String> = wrong.public(home);
    let few: Vec<String> = names
        .iter()
        .filter(|name| times(name) < 2)
        .cloned()
        .collect();
    let quoted: Vec<String> = few.iter().map(|name| format!("`{name}`")).collect();
    (!few.is_empty()).then(|| format!("{home} {}", quoted.join(", ")))
}
