//! `crates.txt` is the map of the house: it lists every crate once, from the bottom up, in layers that a line of comment tells apart, and an arrow from
//! one crate to another only where the first uses the second.

use std::collections::{BTreeMap, BTreeSet};
use std::fs;
use std::path::{Path, PathBuf};

/// A crate as it is listed: its name, and where its arrows lead.
struct Listed {
    name: String,
    arrows: Vec<String>,
}

/// A crate as its files have it.
#[derive(Default)]
struct Found {
    /// The names that its code and its definitions, laws and proofs lead to.
    named: BTreeSet<String>,
    /// The crates whose types are parts of its own public types: who takes such a type apart reaches them.
    reached: BTreeSet<String>,
}

fn listed(text: &str) -> Vec<Listed> {
    let line = |line: &str| {
        let (name, arrows) = line.split_once(':')?;
        // The word `staticlib` may stand after the name.
        let name = name.split_whitespace().next()?;
        Some(Listed {
            name: name.to_string(),
            arrows: arrows.split_whitespace().map(str::to_string).collect(),
        })
    };
    text.lines()
        .filter(|line| !line.starts_with('#'))
        .filter_map(line)
        .collect()
}

/// The names that stand before a mark, as `header` before the `::` of `header::fields::segment`.
fn names_before<'a>(text: &'a str, mark: &'a str) -> impl Iterator<Item = &'a str> {
    let is_part = |c: char| c.is_ascii_lowercase() || c.is_ascii_digit() || c == '_';
    text.match_indices(mark).map(move |(at, _)| {
        let before = &text[..at];
        let from = before
            .rfind(|c| !is_part(c))
            .map_or(0, |at| at + before[at..].chars().next().unwrap().len_utf8());
        let name = &before[from..];
        if before[..from].ends_with("::") {
            ""
        } else {
            name
        }
    })
}

/// The code of a file, without its comments.
fn without_comments(text: &str) -> String {
    let code = |line: &str| line.split("//").next().unwrap_or("").to_string() + "\n";
    text.lines().map(code).collect()
}

/// What a text of code leads to, and what its public types reach.
fn read_code(text: &str, found: &mut Found) {
    let code = without_comments(text);
    found
        .named
        .extend(names_before(&code, "::").map(str::to_string));
    let mut from: BTreeMap<&str, &str> = BTreeMap::new();
    let uses = |item: &str| item.find("\nuse ").map(|at| at + "\nuse ".len());
    for item in code.split_inclusive(';') {
        let path = match (item.strip_prefix("use "), uses(item)) {
            (Some(path), _) => path,
            (None, Some(at)) => &item[at..],
            (None, None) => continue,
        };
        let path = path.trim_end_matches(';');
        if let (Some((root, _)), Some((_, items))) = (path.split_once("::"), path.rsplit_once("::"))
        {
            let items = items.trim_matches(['{', '}']).split(',').map(str::trim);
            let items = items.filter(|item| !item.is_empty());
            from.extend(items.map(|item| (item, root)));
        }
    }
    let mut in_type = false;
    for line in code.lines() {
        in_type |= line.starts_with("pub struct ") || line.starts_with("pub enum ");
        if in_type {
            let words = line.split(|c: char| !(c.is_ascii_alphanumeric() || c == '_'));
            found.reached.extend(
                words
                    .filter_map(|word| from.get(word))
                    .map(|root| root.to_string()),
            );
        }
        in_type &= !line.starts_with('}') && !line.ends_with(';');
    }
}

/// What a text of definitions, laws or contracts leads to: `Rattle.NAME.`.
fn read_references(text: &str, found: &mut Found) {
    for part in text.split("Rattle.").skip(1) {
        if let Some((name, _)) = part.split_once('.') {
            found.named.insert(name.to_string());
        }
    }
}

fn files_below(folder: &Path, into: &mut Vec<PathBuf>) {
    for entry in fs::read_dir(folder).expect("a folder of a crate") {
        let path = entry.expect("an entry of a folder").path();
        if !path.is_dir() {
            into.push(path);
        } else if path
            .file_name()
            .is_some_and(|name| name != "must-fail" && name != "out")
        {
            files_below(&path, into);
        }
    }
}

fn found(folder: &Path) -> Found {
    let mut files = Vec::new();
    files_below(folder, &mut files);
    let mut found = Found::default();
    for path in files {
        let kind = path.extension().and_then(|kind| kind.to_str());
        if !matches!(kind, Some("rt" | "antt")) {
            continue;
        }
        let text = fs::read_to_string(&path).expect("a text");
        read_references(&text, &mut found);
        if kind == Some("rt") {
            read_code(&text, &mut found);
        }
    }
    found
}

/// What is wrong with the list, for crates that were found so.
fn faults(list: &[Listed], found: &BTreeMap<String, Found>) -> Vec<String> {
    let mut faults = Vec::new();
    let mut below: BTreeSet<&str> = BTreeSet::from(["io"]);
    for Listed { name, arrows } in list {
        let Some(own) = found.get(name) else {
            faults.push(format!("{name} is listed and has no folder"));
            continue;
        };
        let reached = |to: &String| {
            let through = |by: &String| found.get(by).is_some_and(|by| by.reached.contains(to));
            own.named.iter().any(through)
        };
        for to in arrows {
            if !below.contains(to.as_str()) {
                faults.push(format!(
                    "{name} leads to {to}, which does not stand above it"
                ));
            }
            if !own.named.contains(to) && !reached(to) {
                faults.push(format!("{name} does not use {to}"));
            }
        }
        for to in own
            .named
            .iter()
            .filter(|&to| to != name && found.contains_key(to))
        {
            if !arrows.contains(to) {
                faults.push(format!("{name} uses {to}, and no arrow leads there"));
            }
        }
        if !below.insert(name) {
            faults.push(format!("{name} is listed twice"));
        }
    }
    for name in found.keys().filter(|&name| !below.contains(name.as_str())) {
        faults.push(format!("{name} has a folder and is not listed"));
    }
    faults
}

fn root() -> PathBuf {
    Path::new(env!("CARGO_MANIFEST_DIR")).join("../..")
}

#[test]
fn every_arrow_is_used() {
    let text = fs::read_to_string(root().join("crates.txt")).expect("crates.txt");
    let mut crates = BTreeMap::new();
    for entry in fs::read_dir(root().join("crates")).expect("the crates") {
        let folder = entry.expect("a crate").path();
        let name = folder
            .file_name()
            .expect("a name")
            .to_string_lossy()
            .into_owned();
        crates.insert(name, found(&folder));
    }
    let list = listed(&text);
    assert!(list.len() >= 50, "{} crates are listed", list.len());
    let arrows: usize = list.iter().map(|listed| listed.arrows.len()).sum();
    assert!(arrows >= 300, "{arrows} arrows are listed");
    assert_eq!(faults(&list, &crates), Vec::<String>::new());
}

#[test]
fn each_layer_has_a_line() {
    let text = fs::read_to_string(root().join("crates.txt")).expect("crates.txt");
    let parts: Vec<&str> = text.split("\n\n").skip(1).collect();
    assert!(parts.len() >= 8, "{} layers", parts.len());
    for part in parts {
        let comments = part.lines().filter(|line| line.starts_with('#')).count();
        assert!(part.starts_with("# ") && comments == 1, "{part}");
    }
}

#[test]
fn a_wrong_list_is_seen() {
    let parts = [
        ("low", "", "pub struct Number(u32);"),
        (
            "middle",
            "use Rattle.low.specs.Low.{low}",
            "#![tactic(auto)]\n\nuse low::{Number, seen};\npub struct Pair {\n    pub first: Number,\n}",
        ),
        (
            "high",
            "",
            "// low::seen in a comment is not a use\nfn f() {\n    middle::pair();\n}",
        ),
    ];
    let crates: BTreeMap<String, Found> = parts
        .iter()
        .map(|(name, references, code)| {
            let mut found = Found::default();
            read_references(references, &mut found);
            read_code(code, &mut found);
            (name.to_string(), found)
        })
        .collect();
    let told = |text: &str| faults(&listed(text), &crates);
    let none: [&str; 0] = [];
    assert_eq!(told("low:\nmiddle: low\nhigh: middle\n"), none);
    assert_eq!(told("low:\nmiddle: low\nhigh staticlib: middle\n"), none);
    assert_eq!(
        told("low:\nmiddle: low\nhigh: low middle\n"),
        none,
        "a type of low is part of one of middle"
    );
    assert_eq!(
        told("low:\nmiddle: low io\nhigh: middle\n"),
        ["middle does not use io"]
    );
    assert_eq!(
        told("low:\nmiddle:\nhigh: middle\n"),
        ["middle uses low, and no arrow leads there"]
    );
    assert_eq!(
        told("low:\nmiddle: low\n"),
        ["high has a folder and is not listed"]
    );
    assert_eq!(
        told("middle: low\nlow:\nhigh: middle\n"),
        ["middle leads to low, which does not stand above it"]
    );
    assert_eq!(
        told("low:\nlow:\nmiddle: low\nhigh: middle\n"),
        ["low is listed twice"]
    );
    assert_eq!(
        told("low:\nlower:\nmiddle: low\nhigh: middle\n"),
        ["lower is listed and has no folder"]
    );
}
