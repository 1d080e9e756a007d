//! `ls`: the entries of one directory.

use clap::ArgMatches;
use ods1::FileId;
use serde_json::{json, Value};

use super::entries::Entry;
use crate::failure::{self, Outcome};
use crate::output::{counted, Report};
use crate::paths::Directory;

pub fn run(arguments: &ArgMatches) -> Outcome<Report> {
    let image = super::image(arguments)?;
    let directory = match super::optional(arguments, "DIRECTORY") {
        Some(text) => Directory::read_and_find(text, &image)?,
        None => FileId::MASTER,
    };
    failure::open(&image, directory, ods1::open_file)?;
    let records = ods1::records(&image, directory);
    let entries: Vec<Entry> = records.map(|record| Entry::of(&image, record)).collect();
    if arguments.get_flag("json") {
        let list: Vec<Value> = entries.iter().map(Entry::json).collect();
        let members = json!({"directory": directory.to_string(), "entries": list});
        return Ok(Report::of_members(members));
    }
    let mut text = String::new();
    for entry in &entries {
        entry.put_line(&mut text);
    }
    let count = counted(entries.len() as u64, "record");
    text += &format!("{count} in the directory {directory}\n");
    Ok(Report::of_text(text))
}
