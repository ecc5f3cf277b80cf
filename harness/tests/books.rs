//! Names that the books cite are looked up in a small repository.

use harness::books::Books;
use std::fs;
use std::path::PathBuf;

const CODE: &str = "pub struct Pair {\n    pub a: u8,\n}\nimpl Pair {\n    pub fn first(self) -> u8 {\n        self.a\n    }\n}\n";
const SPECS: &str = "abbrev pub twice : \u{2115} \u{2192} \u{2115}\ntwice n =\n    sum n n\npub record Even (n : \u{2115}) : Type 0 where\n  pub half : \u{2115}\n";

fn repository(name: &str) -> PathBuf {
    let root = std::env::temp_dir().join(format!("books-{name}-{}", std::process::id()));
    for (file, text) in [
        ("crates/pairs/src/lib.rt", CODE),
        ("crates/pairs/specs/Pairs.antt", SPECS),
    ] {
        let path = root.join(file);
        fs::create_dir_all(path.parent().expect("a folder")).expect("a folder is made");
        fs::write(path, text).expect("a file is written");
    }
    root
}

fn table(row: &str) -> String {
    format!("| head |\n|---|\n{row}\n")
}

/// What is missing of a row.
fn promised(name: &str, row: &str) -> Vec<String> {
    let root = repository(name);
    let mut books = Books::new(&root);
    books.promises(&table(row));
    fs::remove_dir_all(root).expect("the folder goes");
    books.missing
}

#[test]
fn names_that_are_there() {
    let row = "| said | pairs/specs/Pairs: `twice`, `Even.half`; pairs/src/lib.rt: `Pair` | `pairs::Pair::first`, `first`, no `requires` |";
    assert_eq!(promised("there", row), Vec::<String>::new());
}

#[test]
fn a_definition_that_went() {
    let row = "| said | pairs/specs/Pairs: `thrice` | `pairs::Pair::first` |";
    assert_eq!(promised("went", row).len(), 1);
}

#[test]
fn a_use_is_no_declaration() {
    let row = "| said | pairs/specs/Pairs: `sum` | nothing to hold |";
    assert_eq!(promised("use", row).len(), 1);
}

#[test]
fn a_file_and_a_function_that_went() {
    let row = "| said | pairs/specs/Other: `twice` | `pairs::Pair::second` |";
    assert_eq!(promised("file", row).len(), 2);
}

#[test]
fn an_empty_cell() {
    assert_eq!(promised("empty", "| said |  | nothing to hold |").len(), 1);
}

#[test]
fn files_that_the_books_name() {
    let root = repository("files");
    let mut books = Books::new(&root);
    books.paths("see `crates/pairs/src/lib.rt` and `crates/NAME/src`, `crates/pairs/src/`\n");
    books.paths("`crates/pairs/src/main.rt` and `target/bin/exchange`\n");
    books.paths("`crates/pairs/out/pairs` is what a build makes\n");
    fs::remove_dir_all(root).expect("the folder goes");
    assert_eq!(books.looked_up, 3);
    assert_eq!(books.missing, ["line 1: crates/pairs/src/main.rt"]);
}
