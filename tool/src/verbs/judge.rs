//! `judge`: the verdict.

use clap::ArgMatches;
use ods1::{Counts, WorkAreas};
use serde_json::json;

use crate::failure::{Outcome, While};
use crate::output::Report;

pub fn run(arguments: &ArgMatches) -> Outcome<Report> {
    let image = super::image(arguments)?;
    let mut areas = WorkAreas::for_length(image.len());
    let judged = ods1::judge(&image, &mut areas).while_doing("judging the volume")?;
    let Counts {
        blocks,
        claimed,
        free,
        headers,
    } = judged;
    let text = format!(
        "answer 0 DONE place 0\nblocks {blocks}\nclaimed {claimed}\nfree {free}\nheaders {headers}\n"
    );
    let members = json!({"blocks": blocks, "claimed": claimed, "free": free, "headers": headers});
    Ok(Report::new(text, members))
}
