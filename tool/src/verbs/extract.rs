//! `extract`: the bytes of a file, to a new file.

use clap::ArgMatches;
use serde_json::json;

use super::cat::parts;
use crate::failure::Outcome;
use crate::output::{counted, Report};
use crate::save;

pub fn run(arguments: &ArgMatches) -> Outcome<Report> {
    let image = super::image(arguments)?;
    let id = super::file(arguments)?.find(&image)?;
    let parts = parts(&image, id, arguments.get_flag("blocks"))?;
    let out = super::required_path(arguments, "OUT");
    let length: u64 = parts.iter().map(|part| part.len() as u64).sum();
    save::write_new(
        out,
        parts.into_iter(),
        arguments.get_flag("force"),
        super::image_path(arguments),
    )?;
    let out = out.display().to_string();
    let text = format!("{} of {id} to {out}\n", counted(length, "byte"));
    Ok(Report::new(
        text,
        json!({"id": id.to_string(), "bytes": length, "out": out}),
    ))
}
