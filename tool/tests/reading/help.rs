//! Help, of the tool and of each verb.

use crate::common::{run, Scratch};

/// Every verb, in the order of help.
const VERBS: [&str; 12] = [
    "judge",
    "audit",
    "ls",
    "map",
    "cat",
    "extract",
    "info",
    "create",
    "extend",
    "delete",
    "man",
    "completions",
];

/// What a run that asks for help writes.
fn help(line: &str) -> String {
    let scratch = Scratch::new("help");
    run(scratch.folder(), line).expect_done()
}

#[test]
fn help_lists_each_verb() {
    let text = help("--help");
    let (_, verbs) = text.split_once("\nVerbs:\n").expect("a list of verbs");
    let (verbs, after) = verbs.split_once("\n\n").expect("what follows it");
    let listed: Vec<(&str, &str)> = verbs
        .lines()
        .filter_map(|line| line.trim().split_once("  "))
        .collect();
    let names: Vec<&str> = listed.iter().map(|(name, _)| *name).collect();
    assert_eq!(names, VERBS);
    assert!(listed.iter().all(|(_, about)| about.trim().len() > 10));
    assert!(after.contains("\nExit status:\n  0  "), "{after}");
}

#[test]
fn help_of_a_verb_has_examples() {
    for verb in VERBS {
        let long = help(&format!("{verb} --help"));
        let (about, examples) = long.split_once("\nExamples:\n").expect("examples");
        assert!(about.contains(&format!("Usage: ods1 {verb} ")), "{about}");
        let first = examples.lines().next().expect("a line");
        assert!(first.starts_with(&format!("  ods1 {verb} ")), "{first}");
    }
}

#[test]
fn short_help_is_short() {
    for verb in VERBS {
        let (short, long) = (help(&format!("{verb} -h")), help(&format!("{verb} --help")));
        let usage = format!("Usage: ods1 {verb} ");
        assert!(short.contains(&usage) && long.contains(&usage));
        assert!(short.lines().count() < long.lines().count(), "{verb}");
        let first = short.lines().next().expect("a line");
        assert!(long.starts_with(&format!("{first}.\n\n")), "{verb}");
    }
}

#[test]
fn the_version() {
    assert_eq!(
        help("--version"),
        format!("ods1 {}\n", env!("CARGO_PKG_VERSION"))
    );
}
