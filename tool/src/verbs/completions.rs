//! `completions`: what a shell completes.

use clap::ArgMatches;
use clap_complete::Shell;
use serde_json::json;

use crate::cli;
use crate::output::Report;

/// The completions of a shell.
fn completions(shell: Shell) -> String {
    let mut script = Vec::new();
    clap_complete::generate(shell, &mut cli::command(), "ods1", &mut script);
    String::from_utf8(script).expect("the words of the command line are text")
}

pub fn run(arguments: &ArgMatches) -> Report {
    let shell = arguments.get_one::<Shell>("SHELL");
    let script = completions(*shell.expect("the argument is required"));
    let members = json!({"completions": script});
    Report::new(script, members)
}

#[cfg(test)]
mod tests {
    use super::*;
    use clap::ValueEnum;

    #[test]
    fn every_shell_completes_every_verb() {
        for shell in Shell::value_variants() {
            let script = completions(*shell);
            for verb in cli::VERBS {
                assert!(script.contains(verb.name), "{shell}: {}", verb.name);
            }
            assert!(script.contains("in-place"), "{shell}");
        }
    }
}
