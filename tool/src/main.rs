//! `ods1`: reads, judges and changes Files-11 ODS-1 disk images.
//!
//! A thin layer over the proved library: whatever an image means is a call's answer, and what is
//! decided here is how a person asks and is told.

mod cli;
mod failure;
mod image;
mod in_place;
mod man;
mod output;
mod paths;
mod picture;
mod progress;
mod refusals;
mod save;
mod verbs;

#[cfg(test)]
#[path = "../tests/common/scratch.rs"]
mod scratch;

use std::process::ExitCode;

use clap::ArgMatches;

use failure::Outcome;
use output::Report;

/// Runs a verb.
fn run(verb: &str, arguments: &ArgMatches) -> Outcome<Report> {
    match verb {
        "judge" => verbs::judge::run(arguments),
        "audit" => verbs::audit::run(arguments),
        "ls" => verbs::ls::run(arguments),
        "map" => verbs::map::run(arguments),
        "cat" => verbs::cat::run(arguments),
        "extract" => verbs::extract::run(arguments),
        "info" => verbs::info::run(arguments),
        "create" => verbs::change::create(arguments),
        "extend" => verbs::change::extend(arguments),
        "delete" => verbs::change::delete(arguments),
        "man" => Ok(verbs::man::run()),
        "completions" => Ok(verbs::completions::run(arguments)),
        _ => unreachable!("the command line has no other verb"),
    }
}

fn main() -> ExitCode {
    image::guard();
    let matches = match cli::command().try_get_matches() {
        Ok(matches) => matches,
        Err(error) => return output::tell_usage(&error),
    };
    let (verb, arguments) = matches.subcommand().expect("a verb is required");
    let form = output::Form::of(verb, arguments);
    let outcome = run(verb, arguments);
    form.tell(outcome)
}
