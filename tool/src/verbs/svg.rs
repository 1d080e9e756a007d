//! `--svg OUT`: a picture of the volume beside what a verb tells.

use clap::ArgMatches;
use ods1::{Answer, Counts, FileId};

use crate::failure::Outcome;
use crate::output::Report;
use crate::{picture, save};

/// Draws the volume into the file that `--svg` names, if it names one, and tells so in the report.
/// The file of an ID stands out.
pub fn draw(
    arguments: &ArgMatches,
    image: &[u8],
    verdict: impl FnOnce() -> Answer<Counts>,
    chosen: Option<FileId>,
    report: &mut Report,
) -> Outcome<()> {
    let Some(out) = super::optional_path(arguments, "svg") else {
        return Ok(());
    };
    let svg = picture::draw(image, &verdict(), chosen)?;
    let parts = std::iter::once(svg.as_bytes());
    let force = arguments.get_flag("force");
    save::write_new(out, parts, force, super::image_path(arguments))?;
    let out = out.display().to_string();
    report.text += &format!("picture in {out}\n");
    report.members.insert("svg".into(), out.into());
    Ok(())
}
