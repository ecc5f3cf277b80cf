//! Tables of test cases as text.
//!
//! A file holds test steps and test cases, one item on a line:
//!
//! ```text
//! step NAME              a test step, to be attached by its name
//! case NAME              a test case
//! purpose WORDS          what the case is for
//! paper "WORDS"          the sentence of the paper that it tests
//! preamble NAME ..       test steps that come first, in this order
//! ! EVENT                an event
//! ? ANSWER               the answer that it gets
//! ```
//!
//! An event is a line of the protocol. Its octets may also be written as
//! `TYPE FLAG/VALUE [ELEMENTS]`, in an offer as `[ELEMENTS]`, in a reload as
//! `[FIELDS]`. Empty lines and lines that begin with `#` are skipped.

mod notation;

pub use notation::expand;

use std::collections::HashMap;

/// An event line and its answer.
pub type Exchanged = (String, String);

#[derive(Clone, Debug, Default, PartialEq, Eq)]
pub struct Case {
    pub name: String,
    /// The file that it stands in.
    pub file: String,
    pub purpose: String,
    pub paper: String,
    pub exchanged: Vec<Exchanged>,
}

/// The cases of some files; steps are shared.
#[derive(Clone, Debug, Default)]
pub struct Suite {
    steps: HashMap<String, Vec<Exchanged>>,
    pub cases: Vec<Case>,
}

impl Suite {
    /// Reads the text of a file behind those already read.
    pub fn read(&mut self, file: &str, text: &str) -> Result<(), String> {
        let mut reader = Reader {
            suite: self,
            file,
            block: None,
            is_step: false,
        };
        for (number, line) in text.lines().enumerate() {
            let read = reader.line(line);
            read.map_err(|error| format!("{file}, line {}: {error}", number + 1))?;
        }
        reader.close().map_err(|error| format!("{file}: {error}"))
    }

    /// Keeps the cases of these files whose name one of the patterns matches;
    /// no pattern matches all. A pattern that matches none is an error.
    pub fn select(&mut self, files: &[String], patterns: &[String]) -> Result<(), String> {
        self.cases.retain(|case| files.contains(&case.file));
        for pattern in patterns {
            let mut names = self.cases.iter().map(|case| &case.name);
            if !names.any(|name| matches(pattern, name)) {
                return Err(format!("no case {pattern}"));
            }
        }
        let is_meant = |name: &str| patterns.iter().any(|pattern| matches(pattern, name));
        self.cases
            .retain(|case| patterns.is_empty() || is_meant(&case.name));
        match self.cases.is_empty() {
            true => Err("no case".to_string()),
            false => Ok(()),
        }
    }

    /// The events as one script.
    pub fn script(&self) -> String {
        let mut text = String::new();
        for case in &self.cases {
            text += &format!("# {}\n", case.name);
            text.extend(case.exchanged.iter().map(|(event, _)| format!("{event}\n")));
        }
        text
    }

    /// The answers to the script.
    pub fn answers(&self) -> String {
        let exchanged = self.cases.iter().flat_map(|case| &case.exchanged);
        exchanged.map(|(_, answer)| format!("{answer}\n")).collect()
    }

    /// A verdict for each case on the answers that a program gave to the
    /// script.
    pub fn check(&self, answers: &str) -> Verdicts {
        let mut answers = answers.lines();
        let mut judge = |case: &Case| {
            let got: Vec<&str> = answers.by_ref().take(case.exchanged.len()).collect();
            case.difference(&got)
        };
        let differences: Vec<Option<String>> = self.cases.iter().map(&mut judge).collect();
        Verdicts {
            names: self.cases.iter().map(|case| case.name.clone()).collect(),
            differences,
            is_too_long: answers.next().is_some(),
        }
    }
}

/// What a program's answers came to.
#[derive(Clone, Debug, PartialEq, Eq)]
pub struct Verdicts {
    names: Vec<String>,
    /// For each case the first answer that differs.
    differences: Vec<Option<String>>,
    /// There are more answers than events.
    is_too_long: bool,
}

impl Verdicts {
    pub fn failed(&self) -> usize {
        self.differences.iter().flatten().count() + usize::from(self.is_too_long)
    }

    /// The verdicts as TAP, and a last line that counts them.
    pub fn tap(&self) -> String {
        let mut text = format!("1..{}\n", self.names.len());
        for (place, (name, difference)) in self.names.iter().zip(&self.differences).enumerate() {
            let number = place + 1;
            text += &match difference {
                None => format!("ok {number} - {name}\n"),
                Some(difference) => format!("not ok {number} - {name}\n{difference}"),
            };
        }
        if self.is_too_long {
            text += "Bail out! more answers than events\n";
        }
        text + &format!("# {} cases, {} failed\n", self.names.len(), self.failed())
    }
}

/// If a name is a pattern's, whose `*` stands for any characters.
fn matches(pattern: &str, name: &str) -> bool {
    match pattern.split_once('*') {
        None => pattern == name,
        Some((front, rest)) => name.strip_prefix(front).is_some_and(|name| {
            let mut ends = name.char_indices().map(|(at, _)| &name[at..]);
            rest.is_empty() || ends.any(|end| matches(rest, end))
        }),
    }
}

impl Case {
    /// The first answer that differs, as lines of comments.
    fn difference(&self, got: &[&str]) -> Option<String> {
        let place = |place: usize| got.get(place).copied().unwrap_or("nothing");
        let mut numbered = self.exchanged.iter().enumerate();
        let (number, (event, answer)) =
            numbered.find(|(number, (_, answer))| answer != place(*number))?;
        Some(format!(
            "#   {}\n#   event {} {event}\n#   expected {answer}\n#   got      {}\n",
            self.purpose,
            number + 1,
            place(number)
        ))
    }
}

/// Reads one file.
struct Reader<'a> {
    suite: &'a mut Suite,
    file: &'a str,
    /// The step or case being read.
    block: Option<Case>,
    is_step: bool,
}

impl Reader<'_> {
    fn line(&mut self, line: &str) -> Result<(), String> {
        if line.is_empty() || line.starts_with('#') {
            return Ok(());
        }
        let (word, rest) = line.split_once(' ').unwrap_or((line, ""));
        let rest = rest.trim();
        if let "step" | "case" = word {
            self.close()?;
            self.is_step = word == "step";
            let block = Case {
                name: rest.to_string(),
                file: self.file.to_string(),
                ..Case::default()
            };
            self.block = Some(block);
            return Ok(());
        }
        let block = self.block.as_mut().ok_or("no step or case before this")?;
        match word {
            "purpose" => block.purpose = rest.to_string(),
            "paper" => block.paper = quoted(rest)?,
            "preamble" => {
                for name in rest.split_whitespace() {
                    let step = self.suite.steps.get(name);
                    let step = step.ok_or(format!("no step {name}"))?;
                    block.exchanged.extend(step.iter().cloned());
                }
            }
            "!" => block.event(rest)?,
            "?" => block.answer(rest)?,
            _ => return Err(format!("unknown word {word}")),
        }
        Ok(())
    }

    /// Ends the step or case being read.
    fn close(&mut self) -> Result<(), String> {
        let Some(block) = self.block.take() else {
            return Ok(());
        };
        let name = &block.name;
        if block.waits() || block.exchanged.is_empty() {
            return Err(format!("{name} ends without an answer"));
        }
        if self.is_step {
            let before = self.suite.steps.insert(block.name.clone(), block.exchanged);
            return once(before.is_none(), &block.name);
        }
        if block.purpose.is_empty() || block.paper.is_empty() {
            return Err(format!("{name} lacks its purpose or its sentence"));
        }
        let mut names = self.suite.cases.iter().map(|case| &case.name);
        once(names.all(|name| *name != block.name), &block.name)?;
        self.suite.cases.push(block);
        Ok(())
    }
}

/// A name that stands twice would hide one of two.
fn once(is_new: bool, name: &str) -> Result<(), String> {
    match is_new {
        true => Ok(()),
        false => Err(format!("{name} stands twice")),
    }
}

impl Case {
    /// The last event has no answer yet.
    fn waits(&self) -> bool {
        self.exchanged.last().is_some_and(|last| last.1.is_empty())
    }

    fn event(&mut self, text: &str) -> Result<(), String> {
        if self.waits() {
            return Err("an event before the answer to the last".to_string());
        }
        let event = notation::expand(text)?;
        self.exchanged.push((event, String::new()));
        Ok(())
    }

    fn answer(&mut self, text: &str) -> Result<(), String> {
        match self.exchanged.last_mut() {
            Some((_, answer)) if answer.is_empty() => *answer = text.to_string(),
            _ => return Err("an answer without an event".to_string()),
        }
        Ok(())
    }
}

fn quoted(text: &str) -> Result<String, String> {
    let inner = text
        .strip_prefix('"')
        .and_then(|text| text.strip_suffix('"'));
    inner.map(str::to_string).ok_or("no quotation".to_string())
}
