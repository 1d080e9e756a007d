//! `info`: label, geometry, verdict, counts and free runs of a volume.

use clap::ArgMatches;
use ods1::{Answer, Counts, Extent, Geometry, Label, WorkAreas};
use serde_json::{json, Value};

use crate::failure::{Outcome, While};
use crate::output::{answer, counted, range, Report};
use crate::paths::{label_text, uic_text};
use crate::progress::Progress;

/// How many free runs are shown, the largest first, unless all are asked for.
const SHOWN: usize = 10;

fn volume_text(geometry: &Geometry, label: &Label) -> String {
    let Geometry {
        blocks,
        home,
        ibsz,
        iblb,
        fmax,
        slots,
        map,
        map_blocks,
        vlev,
        index_headers,
    } = geometry;
    let (owner, name) = (uic_text(label.owner), label_text(label));
    let (index, storage) = (range(*iblb, *ibsz), range(*map, *map_blocks));
    let file = counted(*index_headers, "header");
    format!(
        "volume {name:?} owner {owner} protection {:o} default {:o}\n\
         blocks {blocks}\n\
         home block LBN {home} level {vlev:o}\n\
         index map LBN {index} highest number {fmax} slots {slots}\n\
         index file {file}\n\
         storage map LBN {storage}\n",
        label.protection, label.default_protection
    )
}

fn verdict_text(verdict: &Answer<Counts>) -> String {
    match verdict {
        Ok(Counts {
            claimed,
            free,
            headers,
            ..
        }) => {
            format!("verdict answer 0 DONE place 0\nclaimed {claimed}\nfree {free}\nheaders {headers}\n")
        }
        Err(refused) => format!("verdict {refused}\n"),
    }
}

/// The free runs, the largest first, and those of one size by their LBN.
fn runs_text(runs: &[Extent], all: bool) -> String {
    let free: u64 = runs.iter().map(|run| u64::from(run.blocks)).sum();
    let number = runs.len() as u64;
    let mut text = format!(
        "{} in {}\n",
        counted(free, "free block"),
        counted(number, "run")
    );
    let mut sorted = runs.to_vec();
    sorted.sort_by_key(|run| (std::cmp::Reverse(run.blocks), run.lbn));
    let shown = if all { sorted.len() } else { SHOWN };
    for run in sorted.iter().take(shown) {
        let lbns = range(run.lbn, run.blocks);
        text += &format!("  LBN {lbns:<15} {}\n", counted(run.blocks, "block"));
    }
    if shown < sorted.len() {
        text += &format!("  and {} more, which --all shows\n", sorted.len() - shown);
    }
    text
}

/// The free runs of a volume of so many blocks, in order.
fn free_runs(image: &[u8], blocks: u32) -> Vec<Extent> {
    let mut progress = Progress::new("reading the storage map", blocks.into());
    let mut seen = 0;
    let runs = ods1::free_runs(image).inspect(|run| {
        let end = run.lbn + run.blocks;
        progress.step(u64::from(end - seen));
        seen = end;
    });
    runs.collect()
}

fn members(geometry: &Geometry, label: &Label, verdict: &Answer<Counts>, runs: &[Extent]) -> Value {
    let runs = runs
        .iter()
        .map(|run| json!({"lbn": run.lbn, "blocks": run.blocks}));
    let mut members = json!({
        "label": {
            "name": label_text(label),
            "owner": uic_text(label.owner),
            "protection": label.protection,
            "characteristics": label.characteristics,
            "default_protection": label.default_protection,
        },
        "blocks": geometry.blocks,
        "home": geometry.home,
        "level": geometry.vlev,
        "index_map": {"lbn": geometry.iblb, "blocks": geometry.ibsz},
        "highest_number": geometry.fmax,
        "slots": geometry.slots,
        "index_headers": geometry.index_headers,
        "storage_map": {"lbn": geometry.map, "blocks": geometry.map_blocks},
        "verdict": answer(verdict.as_ref().err().copied()),
        "free_runs": runs.collect::<Vec<_>>(),
    });
    if let Ok(Counts {
        claimed,
        free,
        headers,
        ..
    }) = verdict
    {
        members["counts"] = json!({"claimed": claimed, "free": free, "headers": headers});
    }
    members
}

pub fn run(arguments: &ArgMatches) -> Outcome<Report> {
    let image = super::image(arguments)?;
    let geometry = ods1::geometry(&image).while_doing("opening the volume")?;
    let label = ods1::label(&image).while_doing("opening the volume")?;
    let mut areas = WorkAreas::for_length(image.len());
    let verdict = ods1::judge(&image, &mut areas);
    let runs = free_runs(&image, geometry.blocks);
    let all = arguments.get_flag("all");
    let text = volume_text(&geometry, &label) + &verdict_text(&verdict) + &runs_text(&runs, all);
    let mut report = Report::new(text, members(&geometry, &label, &verdict, &runs));
    super::svg::draw(arguments, &image, || verdict, None, &mut report)?;
    Ok(report)
}
