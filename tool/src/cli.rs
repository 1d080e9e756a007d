//! The command line: the verbs, their arguments, and an example of each. Help, man page and shell
//! completions are made from this.

use std::path::PathBuf;

use clap::{Arg, ArgAction, ArgGroup, Command};

/// What a verb is for, in a paragraph, and examples of it with a line on each.
pub struct Verb {
    pub name: &'static str,
    pub about: &'static str,
    pub more: &'static str,
    pub examples: &'static [(&'static str, &'static str)],
}

/// The verbs, in the order in which help shows them.
pub const VERBS: &[Verb] = &[
    Verb {
        name: "judge",
        about: "Say whether a volume opens and is sound",
        more: "Prints the verdict as the judging program prints it: the number, name and place of the \
               answer, and where it is DONE the counts of blocks, covered blocks, free bits and file \
               numbers in use.",
        examples: &[
            ("ods1 judge station12.dsk", "the verdict on an image"),
            ("ods1 judge station12.dsk && ods1 audit station12.dsk", "look at the entries of an accepted image"),
        ],
    },
    Verb {
        name: "audit",
        about: "Show every directory entry and what opening its ID answers",
        more: "Walks the master file directory (4,4,0) and every directory file that it lists, and \
               theirs. A stale entry, whose ID is refused with SEQUENCE or NUMBER, names a file that is \
               no more; such entries stand out and are counted. Files that no entry names are listed \
               after them.",
        examples: &[
            ("ods1 audit station12.dsk", "every entry, with the stale ones marked"),
            ("ods1 audit --stale station12.dsk", "the stale entries alone, and the counts"),
        ],
    },
    Verb {
        name: "ls",
        about: "List a directory",
        more: "Lists the master file directory, or the one that is given, in the order of its records.",
        examples: &[
            ("ods1 ls station12.dsk", "the master file directory"),
            ("ods1 ls station12.dsk '[200,200]'", "a user file directory"),
        ],
    },
    Verb {
        name: "map",
        about: "Show where a file's blocks lie: VBN ranges and their LBN ranges",
        more: "Each line is an extent: blocks one after the other in the file that lie one after the \
               other on the volume.",
        examples: &[
            ("ods1 map station12.dsk 6,9,0", "the extents of the file with this ID"),
            ("ods1 map --svg v.svg station12.dsk '[200,200]READS.DAT;1'", "and a picture of the volume with the file marked"),
        ],
    },
    Verb {
        name: "cat",
        about: "Write a file's bytes to standard output",
        more: "The bytes up to the end of file where the file's attributes give one, else all of its \
               blocks. The bytes are the file's own: records are not taken apart.",
        examples: &[
            ("ods1 cat station12.dsk '[200,200]READS.DAT'", "the highest version of a file"),
            ("ods1 cat --blocks station12.dsk 6,9,0 | od -c", "all of its blocks"),
        ],
    },
    Verb {
        name: "extract",
        about: "Write a file's bytes to a new file",
        more: "As cat, into a file that does not exist yet; with --force one that does is replaced.",
        examples: &[("ods1 extract station12.dsk '[200,200]READS.DAT;1' reads.dat", "one file, to its end of file")],
    },
    Verb {
        name: "info",
        about: "Describe a volume: home block, geometry, counts, free runs",
        more: "Describes every volume that opens, and says what the verdict on it is.",
        examples: &[
            ("ods1 info station12.dsk", "label, geometry, verdict and the largest free runs"),
            ("ods1 info --svg volume.svg station12.dsk", "and a picture of the volume, block by block"),
        ],
    },
    Verb {
        name: "create",
        about: "Create a file of no blocks",
        more: "Judges the volume, and creates the file with the lowest free number. Prints its ID. No \
               directory lists the new file: keep the ID.",
        examples: &[
            ("ods1 create -o new.dsk station12.dsk 'READS.DAT;2'", "write the changed image to new.dsk"),
            ("ods1 create --in-place --owner '[200,200]' station12.dsk 'READS.DAT;2'", "change the image itself"),
        ],
    },
    Verb {
        name: "extend",
        about: "Give a file more blocks, in a row",
        more: "Judges the volume, and adds the lowest run of COUNT free blocks, 1 to 256, at the file's \
               end. Prints the first new LBN.",
        examples: &[("ods1 extend --in-place station12.dsk 7,1,0 16", "sixteen blocks more")],
    },
    Verb {
        name: "delete",
        about: "Delete a file: its numbers, headers and blocks",
        more: "Judges the volume, and gives the file up. A directory entry that names it stays as it is, \
               and is stale from then on; its ID is refused for ever.",
        examples: &[
            ("ods1 delete -o new.dsk station12.dsk 6,9,0", "write the changed image to new.dsk"),
            ("ods1 delete --in-place station12.dsk '[200,200]READS.DAT;1'", "change the image itself"),
        ],
    },
    Verb {
        name: "man",
        about: "Print the man page",
        more: "In the language of man pages, from the same source as help.",
        examples: &[("ods1 man > ods1.1", "the man page, as a file")],
    },
    Verb {
        name: "completions",
        about: "Print the completions of a shell",
        more: "From the same source as help.",
        examples: &[("ods1 completions bash > ods1.bash", "for bash; also zsh, fish, elvish and powershell")],
    },
];

/// What help and the man page say of the arguments that verbs share.
pub const ARGUMENTS: &[(&str, &str)] = &[
    ("IMAGE", "A disk image: 512 bytes for each block, 100 to 1,044,480 blocks. No verb changes it but create, extend and delete with --in-place."),
    ("FILE", "An ID, as 6,9,0 (number, sequence, relative volume), or a path, as [200,200]READS.DAT;1. Without a directory the file is looked up in the master file directory, without a version the highest is taken. Small letters count as capitals."),
    ("DIRECTORY", "A user file directory by its UIC in octal, as [200,200], which is 200200.DIR;1 in the master file directory; a directory by its name, as [STATIONS]; or a FILE. [0,0] is the master file directory."),
];

/// What help and the man page say of the exit status.
pub const STATUS: &[(&str, &str)] = &[
    ("0", "accepted, or done"),
    (
        "1",
        "refused: the answer's number, name and place are printed, and what they mean",
    ),
    ("2", "usage, or trouble with input or output"),
];

fn positional(name: &'static str, help: &'static str) -> Arg {
    Arg::new(name).value_name(name).required(true).help(help)
}

fn image() -> Arg {
    path(positional("IMAGE", "the disk image"))
}

fn file() -> Arg {
    positional(
        "FILE",
        "an ID, as 6,9,0, or a path, as [200,200]READS.DAT;1",
    )
}

fn flag(name: &'static str, help: &'static str) -> Arg {
    Arg::new(name)
        .long(name)
        .action(ArgAction::SetTrue)
        .help(help)
}

fn option(name: &'static str, value: &'static str, help: &'static str) -> Arg {
    Arg::new(name).long(name).value_name(value).help(help)
}

/// An argument that is a path of the system, of any bytes.
fn path(argument: Arg) -> Arg {
    argument.value_parser(clap::value_parser!(PathBuf))
}

fn svg() -> Arg {
    let help = "draw the volume, block by block, into this file";
    path(option("svg", "OUT", help))
}

fn force() -> Arg {
    flag("force", "replace a file that exists")
}

/// The arguments of a verb that changes the image: where the changed image goes.
fn changing(verb: Command) -> Command {
    let output = option("output", "NEW", "write the changed image to this file");
    verb.arg(path(output.short('o')))
        .arg(flag(
            "in-place",
            "change the image itself: the changed image takes its name in one step",
        ))
        .arg(force())
        .group(
            ArgGroup::new("where")
                .args(["output", "in-place"])
                .required(true),
        )
}

fn blocks() -> Arg {
    flag("blocks", "all mapped blocks, whatever the end of file")
}

fn count() -> Arg {
    positional("COUNT", "how many blocks").value_parser(clap::value_parser!(u32))
}

/// The arguments of `create`, beside those of every verb that changes the image.
fn creating(verb: Command) -> Command {
    let owner = "the owner, as [200,200] in octal; else the volume's owner";
    let protection = "the protection word in octal; else the volume's default";
    verb.arg(positional("NAME", "the name in the header, as READS.DAT;1"))
        .arg(option("owner", "UIC", owner))
        .arg(option("protection", "WORD", protection))
}

/// The arguments of each verb.
fn with_arguments(verb: Command, name: &str) -> Command {
    let directory = "the directory, as [200,200]; else the master file directory";
    match name {
        "judge" => verb.arg(image()),
        "audit" => verb
            .arg(image())
            .arg(flag("stale", "show the stale entries alone")),
        "ls" => verb
            .arg(image())
            .arg(positional("DIRECTORY", directory).required(false)),
        "map" => verb.arg(image()).arg(file()).arg(svg()).arg(force()),
        "cat" => verb.arg(image()).arg(file()).arg(blocks()),
        "extract" => verb
            .arg(image())
            .arg(file())
            .arg(path(positional("OUT", "the file to write")))
            .arg(blocks())
            .arg(force()),
        "info" => verb
            .arg(image())
            .arg(svg())
            .arg(force())
            .arg(flag("all", "show every free run")),
        "create" => changing(creating(verb.arg(image()))),
        "extend" => changing(verb.arg(image()).arg(file()).arg(count())),
        "delete" => changing(verb.arg(image()).arg(file())),
        "completions" => verb.arg(
            positional("SHELL", "the shell")
                .value_parser(clap::value_parser!(clap_complete::Shell)),
        ),
        _ => verb,
    }
}

/// The examples of a verb, as help shows them.
fn examples(verb: &Verb) -> String {
    let mut text = String::from("Examples:");
    for (line, about) in verb.examples {
        text += &format!("\n  {line}\n      {about}");
    }
    text
}

/// What help says after the list of verbs.
fn after() -> String {
    let mut text = String::from("Arguments that verbs share:");
    for (name, about) in ARGUMENTS {
        text += &format!("\n  {name}\n{}", wrapped(about, "      "));
    }
    text += "\n\nExit status:";
    for (status, about) in STATUS {
        text += &format!("\n  {status}  {about}");
    }
    text + "\n\nods1 VERB --help shows an example of each verb."
}

/// A text in lines of at most 80 characters, each after an indent.
fn wrapped(text: &str, indent: &str) -> String {
    let mut lines = vec![String::from(indent)];
    for word in text.split_whitespace() {
        let line = lines.last_mut().expect("there is a line");
        let is_empty = line.len() == indent.len();
        if !is_empty && line.len() + 1 + word.len() > 80 {
            lines.push(format!("{indent}{word}"));
            continue;
        }
        if !is_empty {
            line.push(' ');
        }
        line.push_str(word);
    }
    lines.join("\n")
}

/// The command line.
pub fn command() -> Command {
    let all = Command::new("ods1")
        .version(env!("CARGO_PKG_VERSION"))
        .about("Reads, judges and changes Files-11 ODS-1 disk images. Every answer about an image is a proved call's.")
        .after_help(after())
        .subcommand_required(true)
        .subcommand_value_name("VERB")
        .subcommand_help_heading("Verbs")
        .disable_help_subcommand(true)
        .arg(flag("json", "write one JSON object to standard output").global(true));
    VERBS.iter().fold(all, |all, verb| {
        let about = wrapped(verb.more, "");
        let each = Command::new(verb.name)
            .about(verb.about)
            .long_about(format!("{}.\n\n{about}", verb.about))
            .after_help(examples(verb));
        all.subcommand(with_arguments(each, verb.name))
    })
}

#[cfg(test)]
mod tests {
    use super::*;

    #[test]
    fn the_command_line_is_well_formed() {
        command().debug_assert();
    }

    #[test]
    fn every_example_is_a_command_line_of_its_verb() {
        for verb in VERBS {
            assert!(!verb.examples.is_empty(), "{} has no example", verb.name);
            for (line, _) in verb.examples {
                let first = line
                    .split(['|', '>', '&'])
                    .next()
                    .expect("a line has a first part");
                let words = first.split_whitespace().map(|word| word.trim_matches('\''));
                let matches = command().try_get_matches_from(words);
                let matches = matches.unwrap_or_else(|error| panic!("{line}: {error}"));
                assert_eq!(matches.subcommand_name(), Some(verb.name), "{line}");
            }
        }
    }

    #[test]
    fn lines_are_short() {
        for verb in VERBS {
            let help = command()
                .find_subcommand(verb.name)
                .expect("the verb")
                .clone()
                .render_long_help()
                .to_string();
            for line in help.lines() {
                assert!(line.chars().count() <= 100, "{}: {line}", verb.name);
            }
        }
    }
}
