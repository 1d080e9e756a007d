//! The man page ods1(1), made from the same words as help.

use clap::{Arg, ArgGroup, Command};

use crate::cli::{self, Verb};

/// What a man page says that help has no place for: of files that are written.
const FILES: &str = "A verb writes a file under a hidden name beside it, and gives it its own name once all \
                     of it is written. Where ods1 is killed meanwhile, the file is as it was before, and at \
                     most that hidden file is left; it can be deleted.";

/// Where the rules of the volumes are.
const SEE_ALSO: &str =
    "Files-11 On-Disk Structure Specification, Digital Equipment Corporation, 1986 (structure level 1, ODS-1)";

/// A text as the language of man pages, roff, has it: what it would read as its own is escaped.
fn escaped(text: &str) -> String {
    let mut roff = String::with_capacity(text.len() + 8);
    if text.starts_with('.') {
        roff += "\\&";
    }
    for character in text.chars() {
        match character {
            '\\' => roff += "\\e",
            '-' => roff += "\\-",
            '\'' => roff += "\\(aq",
            '"' => roff += "\\(dq",
            '`' => roff += "\\(ga",
            '^' => roff += "\\(ha",
            '~' => roff += "\\(ti",
            '\n' => roff.push(' '),
            other => roff.push(other),
        }
    }
    roff
}

/// A text that is typed as it stands.
fn bold(text: &str) -> String {
    format!("\\fB{}\\fR", escaped(text))
}

/// A text in whose place something else is typed.
fn italic(text: &str) -> String {
    format!("\\fI{}\\fR", escaped(text))
}

fn section(name: &str) -> String {
    format!(".SH {}\n", escaped(name))
}

fn paragraph(text: &str) -> String {
    format!(".PP\n{}\n", escaped(text))
}

/// A word or line, and indented below it what it means.
fn item(tag: &str, text: &str) -> String {
    format!(".TP\n{tag}\n{}\n", escaped(text))
}

/// The value that an option takes, after a space at which no line ends; nothing where it takes none.
fn value(option: &Arg) -> String {
    let names = option.get_value_names().unwrap_or_default();
    names
        .iter()
        .map(|name| format!("\\ {}", italic(name)))
        .collect()
}

/// The names of an option, the short one first.
fn names(option: &Arg) -> Vec<String> {
    let short = option.get_short().map(|short| format!("-{short}"));
    let long = option.get_long().map(|long| format!("--{long}"));
    short.into_iter().chain(long).collect()
}

/// An option as a synopsis shows it: by its shortest name.
fn in_synopsis(option: &Arg) -> String {
    let name = names(option).into_iter().next().unwrap_or_default();
    bold(&name) + &value(option)
}

/// What an option does, below all of its names.
fn option_item(option: &Arg) -> String {
    let names: Vec<String> = names(option).iter().map(|name| bold(name)).collect();
    let help = option.get_help().map(ToString::to_string);
    let tag = names.join(", ") + &value(option);
    item(&tag, &help.unwrap_or_default())
}

/// The arguments of a command that are no options, in their order.
fn positionals(command: &Command) -> impl Iterator<Item = &Arg> {
    command.get_arguments().filter(|arg| arg.is_positional())
}

fn options(command: &Command) -> impl Iterator<Item = &Arg> {
    command.get_arguments().filter(|arg| !arg.is_positional())
}

/// A group of options of which one must be given.
fn one_of(command: &Command, group: &ArgGroup) -> String {
    let ids: Vec<_> = group.get_args().collect();
    let members = options(command).filter(|option| ids.contains(&option.get_id()));
    let members: Vec<String> = members.map(in_synopsis).collect();
    format!(" {{{}}}", members.join(" | "))
}

/// How a verb is used, in a line.
fn synopsis(command: &Command) -> String {
    let mut line = bold(&format!("ods1 {}", command.get_name()));
    for group in command.get_groups() {
        line += &one_of(command, group);
    }
    let is_grouped = |option: &Arg| {
        let mut groups = command.get_groups();
        groups.any(|group| group.get_args().any(|id| id == option.get_id()))
    };
    for option in options(command).filter(|option| !is_grouped(option)) {
        line += &format!(" [{}]", in_synopsis(option));
    }
    for argument in positionals(command) {
        let name = italic(argument.get_id().as_str());
        line += &match argument.is_required_set() {
            true => format!(" {name}"),
            false => format!(" [{name}]"),
        };
    }
    line + "\n"
}

/// What the page says of a verb.
fn verb_text(verb: &Verb, command: &Command) -> String {
    let mut text = format!(".SS {}\n{}", escaped(verb.name), synopsis(command));
    text += &paragraph(&format!("{}. {}", verb.about, verb.more));
    for argument in positionals(command) {
        let help = argument.get_help().map(ToString::to_string);
        let name = italic(argument.get_id().as_str());
        text += &item(&name, &help.unwrap_or_default());
    }
    text.extend(options(command).map(option_item));
    text += ".PP\nExamples:\n.RS 4\n";
    for (line, about) in verb.examples {
        text += &item(&bold(line), about);
    }
    text + ".RE\n"
}

/// What the page says before the verbs. `built` is the command line with the options that it gets
/// of itself, as `--help`.
fn before_verbs(built: &Command) -> String {
    let about = built.get_about().map(ToString::to_string);
    let version = built.get_version().unwrap_or_default();
    let mut text = format!(
        ".TH ODS1 1 \"\" \"ods1 {}\" \"Disk images\"\n.nh\n.ad l\n",
        escaped(version)
    );
    text += &section("NAME");
    text += "ods1 \\- read, judge and change Files\\-11 ODS\\-1 disk images\n";
    text += &section("SYNOPSIS");
    text += "\\fBods1\\fR [\\fB\\-\\-json\\fR] \\fIVERB\\fR [\\fIARGUMENT\\fR]...\n";
    text += &section("DESCRIPTION");
    text += &format!("{}\n", escaped(&about.unwrap_or_default()));
    text += &section("OPTIONS");
    text.extend(options(built).map(option_item));
    text
}

/// What the page says after the verbs.
fn after_verbs() -> String {
    let mut text = section("ARGUMENTS");
    for (name, about) in cli::ARGUMENTS {
        text += &item(&italic(name), about);
    }
    text += &section("EXIT STATUS");
    for (status, about) in cli::STATUS {
        text += &item(&bold(status), about);
    }
    text += &format!("{}{}\n", section("FILES"), escaped(FILES));
    text + &format!("{}{}\n", section("SEE ALSO"), escaped(SEE_ALSO))
}

/// The man page.
pub fn page() -> String {
    let command = cli::command();
    let mut built = command.clone();
    built.build();
    let mut text = before_verbs(&built) + &section("VERBS");
    for verb in cli::VERBS {
        let command = command.find_subcommand(verb.name);
        text += &verb_text(verb, command.expect("each verb is a command"));
    }
    text + &after_verbs()
}

#[cfg(test)]
mod tests {
    use super::*;

    /// A page as its reader sees it, line by line.
    fn read(page: &str) -> String {
        let fonts = ["\\fB", "\\fI", "\\fR", "\\&"];
        let plain = fonts
            .iter()
            .fold(String::from(page), |page, font| page.replace(font, ""));
        let characters = [
            ("\\-", "-"),
            ("\\(aq", "'"),
            ("\\(dq", "\""),
            ("\\(ga", "`"),
            ("\\(ha", "^"),
            ("\\(ti", "~"),
            ("\\ ", " "),
            ("\\e", "\\"),
        ];
        characters
            .iter()
            .fold(plain, |page, (roff, shown)| page.replace(roff, shown))
    }

    /// What a page says of a verb.
    fn subsection<'a>(page: &'a str, verb: &str) -> &'a str {
        let start = page.find(&format!("\n.SS {verb}\n"));
        let rest = &page[start.expect("the verb has a subsection") + 1..];
        let ends = ["\n.SS ", "\n.SH "].map(|end| rest.find(end));
        let end = ends.into_iter().flatten().min();
        &rest[..end.expect("something follows the verbs")]
    }

    #[test]
    fn every_verb_with_its_words_and_examples() {
        let page = read(&page());
        for verb in cli::VERBS {
            let text = subsection(&page, verb.name);
            assert!(text.contains(&format!("{}. {}\n", verb.about, verb.more)));
            for (line, about) in verb.examples {
                assert!(text.contains(&format!(".TP\n{line}\n{about}\n")), "{line}");
            }
        }
    }

    #[test]
    fn every_option_and_argument_of_every_verb() {
        let page = read(&page());
        let command = cli::command();
        for verb in command.get_subcommands() {
            let text = subsection(&page, verb.get_name());
            for argument in verb.get_arguments() {
                let help = argument.get_help().expect("each has help").to_string();
                let id = argument.get_id().as_str();
                let tag = match argument.get_long() {
                    Some(long) => format!("--{long}"),
                    None => String::from(id),
                };
                let mut lines = text.lines().zip(text.lines().skip(1));
                let is_there = |(line, next): (&str, &str)| line.contains(&tag) && next == help;
                assert!(lines.any(is_there), "{} {id}", verb.get_name());
            }
        }
        for option in ["--json", "-h, --help", "-V, --version"] {
            assert!(page.contains(&format!(".TP\n{option}\n")), "{option}");
        }
    }

    #[test]
    fn shared_arguments_and_statuses() {
        let page = read(&page());
        for (name, about) in cli::ARGUMENTS.iter().chain(cli::STATUS) {
            assert!(page.contains(&format!(".TP\n{name}\n{about}\n")), "{name}");
        }
    }

    #[test]
    fn synopses() {
        let page = read(&page());
        for line in [
            "ods1 judge IMAGE",
            "ods1 ls IMAGE [DIRECTORY]",
            "ods1 map [--svg OUT] [--force] IMAGE FILE",
            "ods1 extend {-o NEW | --in-place} [--force] IMAGE FILE COUNT",
        ] {
            assert!(page.contains(&format!("\n{line}\n")), "{line}");
        }
    }

    #[test]
    fn what_roff_would_read_is_escaped() {
        assert_eq!(escaped(".dot and a.dot"), "\\&.dot and a.dot");
        assert_eq!(escaped("'quote' \\n -o"), "\\(aqquote\\(aq \\en \\-o");
        assert_eq!(escaped("two\n.lines"), "two .lines");
        let macros = [
            ".TH", ".SH", ".SS", ".PP", ".TP", ".RS", ".RE", ".nh", ".ad",
        ];
        for line in page().lines() {
            let first = line.split(' ').next().unwrap_or_default();
            let is_text = !line.starts_with(['.', '\'']);
            assert!(is_text || macros.contains(&first), "{line}");
            assert!(!line.is_empty() && line == line.trim_end());
            assert!(!line.replace("\\-", "").contains('-'), "{line}");
        }
    }
}
