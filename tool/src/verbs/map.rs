//! `map`: the extents of a file.

use clap::ArgMatches;
use ods1::{Extent, FileId, WorkAreas};
use serde_json::{json, Value};

use crate::failure::{self, Outcome, While};
use crate::output::{counted, range, Report};

/// The extents of a file of so many blocks, each with the VBN that it begins at.
pub fn extents(image: &[u8], id: FileId, blocks: u32) -> Outcome<Vec<(u32, Extent)>> {
    let mut found = Vec::new();
    let mut vbn = 1;
    while vbn <= blocks {
        let extent =
            ods1::extent(image, id, vbn).while_doing(format!("mapping VBN {vbn} of {id}"))?;
        found.push((vbn, extent));
        vbn += extent.blocks;
    }
    Ok(found)
}

pub fn run(arguments: &ArgMatches) -> Outcome<Report> {
    let image = super::image(arguments)?;
    let id = super::file(arguments)?.find(&image)?;
    let blocks = failure::open(&image, id, ods1::open_file)?;
    let extents = extents(&image, id, blocks)?;
    let number = extents.len() as u64;
    let mut text = format!(
        "{id}: {} in {}\n",
        counted(blocks, "block"),
        counted(number, "extent")
    );
    let mut list = Vec::new();
    for (vbn, Extent { lbn, blocks }) in extents {
        let (vbns, lbns) = (range(vbn, blocks), range(lbn, blocks));
        text += &format!(
            "VBN {vbns:<15} LBN {lbns:<15} {}\n",
            counted(blocks, "block")
        );
        list.push(json!({"vbn": vbn, "lbn": lbn, "blocks": blocks}));
    }
    let members = json!({"id": id.to_string(), "blocks": blocks, "extents": Value::Array(list)});
    let mut report = Report::new(text, members);
    let verdict = || ods1::judge(&image, &mut WorkAreas::for_length(image.len()));
    super::svg::draw(arguments, &image, verdict, Some(id), &mut report)?;
    Ok(report)
}
