//! Wrong programs in a small repository: their page, and what went stale.

use harness::wrong::{changed, page, Change, Edit, Wrong};
use std::fs;
use std::path::PathBuf;

const CODE: &str = "impl Pair {\n    pub fn first(self) -> u8 {\n        self.a\n    }\n\n    pub fn both(self) -> u8 {\n        self.a\n    }\n}\n\nfn helper() -> u8 {\n    1\n}\n";
const SPECS: &str = "abbrev pub twice : \u{2115} \u{2192} \u{2115}\ntwice n =\n    sum n n\n";
const KEPT: &str =
    "# it is one more\nfunction: Pair::first\nfile: src/lib.rt\nold:     1\nnew:     2\n";
const TRIED: &str = "# a pair (1, 2): 0\nfunction: Pair::first\nrefused: the contract of `Pair::first`\nfile: src/lib.rt\nin: fn first(\nold: self.a\nnew: 0\n";

/// A repository with a kept edit and this tried one.
fn repository(name: &str, tried: &str) -> PathBuf {
    let root = std::env::temp_dir().join(format!("wrong-{name}-{}", std::process::id()));
    for (file, text) in [
        ("crates.txt", "# a list\npairs:\n"),
        ("crates/pairs/src/lib.rt", CODE),
        ("crates/pairs/specs/Pairs.antt", SPECS),
        ("crates/pairs/must-fail/one_more.edit", KEPT),
        ("harness/wrong/pairs/first.edit", tried),
    ] {
        let path = root.join(file);
        fs::create_dir_all(path.parent().expect("a folder")).expect("a folder is made");
        fs::write(path, text).expect("a file is written");
    }
    root
}

fn read(name: &str, tried: &str) -> (Wrong, PathBuf) {
    let root = repository(name, tried);
    (Wrong::read(&root).expect("a repository"), root)
}

/// What is stale in the repository with this tried edit.
fn stale(name: &str, tried: &str) -> Vec<String> {
    let (wrong, root) = read(name, tried);
    let stale = wrong.stale();
    fs::remove_dir_all(root).expect("the folder goes");
    stale
}

#[test]
fn nothing_is_stale() {
    assert_eq!(stale("fresh", TRIED), Vec::<String>::new());
}

#[test]
fn texts_and_names_that_went() {
    for (name, old, new) in [
        ("text", "old: self.a", "old: self.b"),
        ("head", "in: fn first(", "in: fn third("),
        ("function", "function: Pair::first", "function: Pair::third"),
        (
            "refused",
            "contract of `Pair::first`",
            "contract of `third`",
        ),
        ("file", "file: src/lib.rt", "file: src/other.rt"),
        ("twice", "in: fn first(\n", ""),
        ("words", "# a pair (1, 2): 0", "# "),
    ] {
        assert_eq!(stale(name, &TRIED.replace(old, new)).len(), 1, "{name}");
    }
}

#[test]
fn a_crate_that_went() {
    let (wrong, root) = read("crate", TRIED);
    fs::create_dir_all(root.join("harness/wrong/other")).expect("a folder is made");
    assert_eq!(wrong.stale(), ["other: no such crate"]);
    fs::remove_dir_all(root).expect("the folder goes");
}

#[test]
fn the_page() {
    let (wrong, root) = read("page", TRIED);
    let text = page(&wrong, "words\nCOUNT\n\nTABLE\nbehind\n");
    let right = "words\n1 are kept, 1 tried. Public functions with fewer than two: pairs `Pair::both`.\n\n\
        | pairs | `Pair::first` | `one_more`, kept | `1` \u{2192} `2` | it is one more |  |\n\
        | pairs | `Pair::first` | `first` | `self.a` \u{2192} `0` | a pair (1, 2): 0 | the contract of `Pair::first` |\n\
        behind\n";
    assert_eq!(text, right);
    fs::remove_dir_all(root).expect("the folder goes");
}

#[test]
fn one_is_applied() {
    let (wrong, root) = read("apply", TRIED);
    let named = |name: &str| wrong.tried(&[name.to_string()]).map(|edits| edits.len());
    assert_eq!(named("pairs"), Ok(1));
    assert_eq!(named("pairs/first"), Ok(1));
    assert!(named("pairs/one_more").is_err());
    let edits = wrong.tried(&[]).expect("all of them");
    let files = wrong.apply(edits[0]).expect("it is applied");
    let texts: Vec<String> = files.into_values().collect();
    assert_eq!(texts, [CODE.replacen("self.a", "0", 1)]);
    fs::remove_dir_all(root).expect("the folder goes");
}

#[test]
fn a_text_in_one_function() {
    let change = |within: &str| Change {
        file: String::new(),
        within: Some(within.to_string()),
        old: "self.a".to_string(),
        new: "0".to_string(),
    };
    let (front, end) = CODE.split_at(CODE.rfind("self.a").expect("it is there"));
    let second = format!("{front}{}", end.replacen("self.a", "0", 1));
    assert_eq!(changed(CODE, &change("fn both(")), Ok(second));
    assert!(changed(CODE, &change("fn helper(")).is_err());
}

#[test]
fn edits_that_are_none() {
    for text in [
        "",
        "file: src/lib.rt\n",
        "old: a\nnew: b\n",
        "file: src/lib.rt\nnew: b\n",
    ] {
        assert!(Edit::read(text).is_err(), "{text}");
    }
}
