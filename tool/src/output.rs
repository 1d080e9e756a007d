//! What a verb tells, as text or as JSON, and the exit status that goes with it.

use std::io::{self, Write};
use std::path::PathBuf;
use std::process::ExitCode;

use clap::ArgMatches;
use ods1::Refused;
use serde_json::{json, Map, Value};

use crate::failure::{Failure, Outcome};
use crate::refusals::{explain, Holder};

/// What a verb that is done tells: text for a person, or the members of a JSON object.
#[derive(Debug, Default)]
pub struct Report {
    pub text: String,
    pub members: Map<String, Value>,
}

impl Report {
    /// A report with a text and the members of a JSON object.
    pub fn new(text: String, members: Value) -> Report {
        let Value::Object(members) = members else {
            unreachable!("the members of a report are given as an object");
        };
        Report { text, members }
    }

    /// A report of a verb that makes its text only where that is asked for.
    pub fn of_text(text: String) -> Report {
        Report::new(text, json!({}))
    }

    /// A report of a verb that makes the members of a JSON object only where they are asked for.
    pub fn of_members(members: Value) -> Report {
        Report::new(String::new(), members)
    }
}

/// An answer as JSON.
pub fn answer(refused: Option<Refused>) -> Value {
    match refused {
        None => json!({"number": 0, "name": "DONE", "place": 0}),
        Some(refused) => json!({
            "number": refused.refusal.number(),
            "name": refused.refusal.name(),
            "place": refused.place,
        }),
    }
}

/// How the outcome of a verb is told.
pub struct Form {
    verb: String,
    image: Option<String>,
    json: bool,
}

impl Form {
    /// How the command line asks for it.
    pub fn of(verb: &str, arguments: &ArgMatches) -> Form {
        let image = arguments.try_get_one::<PathBuf>("IMAGE").ok().flatten();
        Form {
            verb: verb.into(),
            image: image.map(|image| image.display().to_string()),
            json: arguments.get_flag("json"),
        }
    }

    /// Tells the outcome, and answers the exit status.
    pub fn tell(&self, outcome: Outcome<Report>) -> ExitCode {
        let (told, status) = match outcome {
            Ok(report) => (self.tell_report(report), 0),
            Err(Failure::Refused {
                doing,
                refused,
                now,
            }) => (self.tell_refusal(&doing, refused, now), 1),
            Err(Failure::Trouble(sentence)) => (self.tell_trouble(&sentence), 2),
            Err(Failure::Unread) => (Ok(()), 2),
        };
        let Err(error) = told else {
            return ExitCode::from(status);
        };
        if let Failure::Trouble(sentence) = Failure::with_output(error) {
            complain(&sentence);
        }
        ExitCode::from(2)
    }

    fn tell_report(&self, report: Report) -> io::Result<()> {
        if !self.json {
            return write(report.text.as_bytes());
        }
        let mut object = self.object();
        object.insert("answer".into(), answer(None));
        object.extend(report.members);
        write_json(object)
    }

    fn tell_refusal(&self, doing: &str, refused: Refused, now: Option<Holder>) -> io::Result<()> {
        let explained = explain(refused);
        if self.json {
            let mut object = self.object();
            object.insert("answer".into(), answer(Some(refused)));
            object.insert("while".into(), doing.into());
            object.insert("meaning".into(), explained.meaning.into());
            object.insert("advice".into(), explained.advice.into());
            object.extend(now.map(|now| (String::from("now"), now.json())));
            return write_json(object);
        }
        if self.verb == "judge" {
            write(format!("{refused}\n").as_bytes())?;
        } else {
            complain(&format!("{doing}: {refused}"));
        }
        let now = now.map_or_else(String::new, |now| format!(" The number is now {now}."));
        complain(&format!("{}.{now} {}", explained.meaning, explained.advice));
        Ok(())
    }

    fn tell_trouble(&self, sentence: &str) -> io::Result<()> {
        complain(sentence);
        if !self.json {
            return Ok(());
        }
        let mut object = self.object();
        object.insert("error".into(), sentence.into());
        write_json(object)
    }

    /// The members that every object begins with.
    fn object(&self) -> Map<String, Value> {
        let mut object = Map::new();
        object.insert("verb".into(), self.verb.clone().into());
        if let Some(image) = &self.image {
            object.insert("image".into(), image.clone().into());
        }
        object
    }
}

/// Tells what is wrong with a command line, or the help that it asks for, and answers the exit status.
pub fn tell_usage(error: &clap::Error) -> ExitCode {
    if !error.use_stderr() {
        return match write(error.to_string().as_bytes()) {
            Ok(()) => ExitCode::SUCCESS,
            Err(_) => ExitCode::from(2),
        };
    }
    // Where it cannot be written there is nobody to tell.
    let _ = error.print();
    if std::env::args_os().any(|argument| argument == "--json") {
        let sentence = error.to_string();
        let object = Map::from_iter([(String::from("error"), sentence.trim().into())]);
        let _ = write_json(object);
    }
    ExitCode::from(2)
}

/// Writes to standard output.
pub fn write(bytes: &[u8]) -> io::Result<()> {
    let mut out = io::stdout().lock();
    out.write_all(bytes)?;
    out.flush()
}

fn write_json(object: Map<String, Value>) -> io::Result<()> {
    let text = serde_json::to_string_pretty(&Value::Object(object));
    let text = text.expect("strings and numbers can be written");
    write(format!("{text}\n").as_bytes())
}

/// Says a sentence on standard error; where that cannot be written there is nobody to tell.
pub fn complain(sentence: &str) {
    let _ = writeln!(io::stderr(), "ods1: {sentence}");
}

/// A number and what it counts, as `1 block` or `3 blocks`.
pub fn counted(number: impl Into<u64>, what: &str) -> String {
    match number.into() {
        1 => format!("1 {what}"),
        number => format!("{number} {what}s"),
    }
}

/// A range, as `30-31`, or its one number.
pub fn range(first: u32, count: u32) -> String {
    match count {
        1 => first.to_string(),
        _ => format!("{first}-{}", u64::from(first) + u64::from(count) - 1),
    }
}
