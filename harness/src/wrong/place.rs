//! Where the text of an edit stands, and the file with it changed.

use super::Change;

/// The text with one change made.
pub fn changed(text: &str, change: &Change) -> Result<String, String> {
    let at = find(text, change)?;
    let behind = &text[at + change.old.len()..];
    Ok(format!("{}{}{behind}", &text[..at], change.new))
}

/// Where the old text stands, which must be once.
pub fn find(text: &str, change: &Change) -> Result<usize, String> {
    let (from, to) = match &change.within {
        None => (0, text.len()),
        Some(head) => scope(text, head)?,
    };
    let at =
        once(&text[from..to], &change.old).map_err(|error| format!("{}: {error}", change.file))?;
    Ok(from + at)
}

fn once(text: &str, part: &str) -> Result<usize, String> {
    let mut places = text.match_indices(part).map(|(at, _)| at);
    match (places.next(), places.next()) {
        (Some(at), None) => Ok(at),
        (None, _) => Err(format!("'{part}' is not there")),
        (Some(_), Some(_)) => Err(format!("'{part}' stands more than once")),
    }
}

/// From a text to the next function, or, in definitions, to the next empty
/// line.
fn scope(text: &str, head: &str) -> Result<(usize, usize), String> {
    let from = once(text, head)?;
    let mut to = from;
    for (number, line) in text[from..].split_inclusive('\n').enumerate() {
        let is_head = ["fn ", "pub fn ", "impl "]
            .iter()
            .any(|word| line.trim_start().starts_with(word));
        if number > 0 && (is_head || line.trim().is_empty() && !head.contains("fn ")) {
            break;
        }
        to += line.len();
    }
    Ok((from, to))
}
