//! `create`, `extend` and `delete`: the changed image goes to a new file, or in the image's place.

use std::path::Path;

use clap::ArgMatches;
use ods1::WorkAreas;
use serde_json::json;

use crate::failure::{Outcome, While};
use crate::image::{self, Copy};
use crate::in_place::Locked;
use crate::output::{counted, Report};
use crate::paths::{full_name, name_text, protection, uic, uic_text, FileName};
use crate::save;

/// An image that is being changed, in memory, until it is saved.
struct Change<'a> {
    image: &'a Path,
    output: Output<'a>,
    copy: Copy,
    areas: WorkAreas,
}

/// Where a changed image goes.
enum Output<'a> {
    New { path: &'a Path, force: bool },
    InPlace(Locked),
}

impl<'a> Change<'a> {
    /// Reads the image; locked before, if it is to be changed in place.
    fn open(arguments: &'a ArgMatches) -> Outcome<Change<'a>> {
        let image = super::image_path(arguments);
        let force = arguments.get_flag("force");
        let (output, copy) = match super::optional_path(arguments, "output") {
            Some(path) => {
                let file = image::open_file(image)?;
                (Output::New { path, force }, Copy::of(image, &file)?)
            }
            None => {
                let locked = Locked::open(image)?;
                let copy = Copy::of(image, &locked.file)?;
                (Output::InPlace(locked), copy)
            }
        };
        let areas = WorkAreas::for_length(copy.len());
        Ok(Change {
            image,
            output,
            copy,
            areas,
        })
    }

    /// Writes the changed image, and answers the name of its file.
    fn save(self) -> Outcome<String> {
        let Change {
            image,
            output,
            copy,
            ..
        } = self;
        let written = match output {
            Output::New { path, force } => {
                save::write_new(path, std::iter::once(&*copy), force, image)?;
                path
            }
            Output::InPlace(locked) => {
                save::write_in_place(&locked, &copy)?;
                image
            }
        };
        Ok(written.display().to_string())
    }
}

/// `create`: a new file of no blocks.
pub fn create(arguments: &ArgMatches) -> Outcome<Report> {
    let text = super::required(arguments, "NAME");
    let owner = super::optional(arguments, "owner").map(uic).transpose()?;
    let rights = super::optional(arguments, "protection");
    let rights = rights.map(protection).transpose()?;
    let mut change = Change::open(arguments)?;
    let label = ods1::label(&change.copy).while_doing("opening the volume")?;
    let name = full_name(text).while_doing(format!("reading the name {text}"))?;
    let owner = owner.unwrap_or(label.owner);
    let rights = rights.unwrap_or(label.default_protection);
    let Change { copy, areas, .. } = &mut change;
    let id = ods1::create(copy, name, owner, rights, areas);
    let id = id.while_doing(format!("creating {text}"))?;
    let name = name_text(name);
    let output = change.save()?;
    Ok(Report::new(
        format!("created {id} {name}\nno directory lists it: keep the ID\n"),
        json!({
            "id": id.to_string(),
            "name": name,
            "owner": uic_text(owner),
            "protection": rights,
            "output": output,
        }),
    ))
}

/// `extend`: more blocks for a file.
pub fn extend(arguments: &ArgMatches) -> Outcome<Report> {
    let count = *arguments
        .get_one::<u32>("COUNT")
        .expect("the argument is required");
    let file = super::file(arguments)?;
    let mut change = Change::open(arguments)?;
    let id = file.find(&change.copy)?;
    let Change { copy, areas, .. } = &mut change;
    let blocks = counted(count, "block");
    let lbn = ods1::extend(copy, id, count, areas);
    let lbn = lbn.while_doing(format!("extending {id} by {blocks}"))?;
    let output = change.save()?;
    Ok(Report::new(
        format!("extended {id} by {blocks} from LBN {lbn}\n"),
        json!({"id": id.to_string(), "lbn": lbn, "blocks": count, "output": output}),
    ))
}

/// `delete`: gives a file up.
pub fn delete(arguments: &ArgMatches) -> Outcome<Report> {
    let file = super::file(arguments)?;
    let mut change = Change::open(arguments)?;
    let id = file.find(&change.copy)?;
    let Change { copy, areas, .. } = &mut change;
    ods1::delete(copy, id, areas).while_doing(format!("deleting {id}"))?;
    let output = change.save()?;
    let mut text = format!("deleted {id}\n");
    let mut members = json!({"id": id.to_string(), "output": output});
    if matches!(file, FileName::Path(..)) {
        text += "the directory entry that names it stays, and is stale from now on\n";
        members["stale"] = super::required(arguments, "FILE").into();
    }
    Ok(Report::new(text, members))
}
