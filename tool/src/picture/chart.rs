//! The blocks of a picture: runs of blocks as shapes with titles, grouped by looks and files.

use std::collections::BTreeMap;

use ods1::FileId;

use super::looks::{self, Kind, Look, LOOKS};
use super::scale::Scale;
use super::survey::{Held, Holder, Part, Run, State, Survey};
use super::{escaped, MUTED};
use crate::output::{counted, range};
use crate::paths::name_text;

/// Above this many runs, those of a file are one shape with one title, so that the picture stays small.
const MOST_TITLES: usize = 100_000;

/// The runs that look the same, by their holder where they are held.
type Groups = BTreeMap<Option<usize>, Vec<Run>>;

/// The blocks of a volume as a picture shows them.
pub struct Chart {
    pub survey: Survey,
    pub scale: Scale,
    /// The file that stands out.
    pub chosen: Option<FileId>,
    /// By the places of the looks.
    groups: Vec<Groups>,
    /// Whether each run has a title of its own.
    is_detailed: bool,
}

/// The ID and name of a holder, and what is to be said of it.
fn holder_text(holder: &Holder) -> String {
    let text = format!("{} {}", holder.id, name_text(holder.name));
    match holder.refusal {
        _ if !holder.is_file => format!("{text} (an extension header of no file)"),
        Some(refusal) => format!("{text} ({})", refusal.name()),
        None => text,
    }
}

/// How many blocks some runs have.
fn tally<'a>(runs: impl Iterator<Item = &'a Run>) -> String {
    let add = |(blocks, number), run: &Run| (blocks + u64::from(run.blocks), number + 1);
    match runs.fold((0_u64, 0_u64), add) {
        (_, 0) => String::from("none"),
        (blocks, 1) => counted(blocks, "block"),
        (blocks, number) => {
            let (blocks, runs) = (counted(blocks, "block"), counted(number, "run"));
            format!("{blocks} in {runs}")
        }
    }
}

/// A shape with a title, which a browser shows where the mouse is.
fn shape(outline: &str, title: &str) -> String {
    let title = escaped(title);
    format!("<path d=\"{outline}\"><title>{title}</title></path>\n")
}

impl Chart {
    /// A chart of a survey.
    pub fn new(survey: Survey, scale: Scale, chosen: Option<FileId>) -> Chart {
        let runs = survey.runs();
        let mut chart = Chart {
            survey,
            scale,
            chosen,
            groups: vec![Groups::new(); LOOKS.len()],
            is_detailed: runs.len() <= MOST_TITLES,
        };
        for run in runs {
            let place = looks::place_of(chart.kind(run.state));
            let holder = match run.state {
                State::Held { held } => Some(chart.held(held).0.holder),
                _ => None,
            };
            chart.groups[place].entry(holder).or_default().push(run);
        }
        chart
    }

    /// What is held at a place, and whose it is.
    fn held(&self, place: usize) -> (&Held, &Holder) {
        let held = &self.survey.held[place];
        (held, &self.survey.holders[held.holder])
    }

    fn kind(&self, state: State) -> Kind {
        match state {
            State::Free => Kind::Free,
            State::Lost => Kind::Lost,
            State::HeldYetFree { .. } => Kind::HeldYetFree,
            State::Twice { .. } => Kind::Twice,
            State::Held { held } => match self.held(held) {
                (_, holder) if Some(holder.id) == self.chosen => Kind::Chosen,
                (held, _) => Kind::Held(held.part),
            },
        }
    }

    /// What a run is, in a line.
    fn title(&self, run: &Run) -> String {
        let lbns = range(run.lbn, run.blocks);
        match run.state {
            State::Free => format!("free, LBN {lbns}"),
            State::Lost => format!("lost, LBN {lbns}"),
            State::Held { held } => self.held_title(run, held),
            State::HeldYetFree { held } => format!("{}, yet free", self.held_title(run, held)),
            State::Twice { first, last, times } => {
                let [first, last] = [first, last].map(|place| holder_text(self.held(place).1));
                let others = if times > 2 { ", among others" } else { "" };
                format!("LBN {lbns}, covered {times} times: by {first} and by {last}{others}")
            }
        }
    }

    /// Whose a run is that is held, and which of its blocks.
    fn held_title(&self, run: &Run, place: usize) -> String {
        let (held, holder) = self.held(place);
        let mut title = match held.part {
            Part::File => String::new(),
            part => format!("{}, ", LOOKS[looks::place_of(Kind::Held(part))].words),
        };
        title += &holder_text(holder);
        if holder.is_file {
            let vbns = range(held.vbn + (run.lbn - held.lbn), run.blocks);
            title += &format!(", VBN {vbns}");
        }
        title + &format!(", LBN {}", range(run.lbn, run.blocks))
    }

    /// The shapes of runs: one of each with its title, or one of all.
    fn shapes(&self, runs: &[Run], words: &str) -> String {
        let outline = |run: &Run| self.scale.outline(run.lbn, run.blocks);
        if !self.is_detailed {
            let all: String = runs.iter().map(outline).collect();
            return shape(&all, &format!("{words}: {}", tally(runs.iter())));
        }
        let shapes = runs
            .iter()
            .map(|run| shape(&outline(run), &self.title(run)));
        shapes.collect()
    }

    /// The blocks of a look.
    fn blocks_of(&self, look: &Look, groups: &Groups) -> String {
        let (stroke, width) = look.line(self.scale);
        let mut svg = String::new();
        for (holder, runs) in groups {
            let holder = holder.map(|place| &self.survey.holders[place]);
            let fill = look.fill_of(holder.map_or(0, |holder| holder.id.number));
            let words = holder.map_or(String::from(look.words), holder_text);
            svg += &format!(
                "<g fill=\"{fill}\" stroke=\"{stroke}\" stroke-width=\"{width}\">\n{}</g>\n",
                self.shapes(runs, &words)
            );
        }
        svg
    }

    /// All blocks: first those that are muted where one file stands out, then the others.
    pub fn blocks(&self) -> String {
        let opacity = if self.chosen.is_some() { MUTED } else { "1" };
        let layers = [(true, opacity), (false, "1")].map(|(is_muted, opacity)| {
            let looks = LOOKS.iter().zip(&self.groups);
            let looks = looks.filter(|(look, _)| look.is_muted() == is_muted);
            let blocks: String = looks
                .map(|(look, groups)| self.blocks_of(look, groups))
                .collect();
            format!("<g class=\"blocks\" opacity=\"{opacity}\">\n{blocks}</g>\n")
        });
        layers.concat()
    }

    /// The ID and name of the file that stands out.
    pub fn chosen_text(&self) -> Option<String> {
        let mut holders = self.survey.holders.iter();
        let holder = holders.find(|holder| Some(holder.id) == self.chosen);
        holder.map(holder_text)
    }

    /// The lines of the legend: each look that the picture can have, and what it says of it. The
    /// file that stands out comes first.
    pub fn legend(&self) -> Vec<(&'static Look, String)> {
        let looks = LOOKS.iter().zip(&self.groups);
        let shown = looks.filter(|(look, _)| self.chosen.is_some() || look.kind != Kind::Chosen);
        let lines = shown.map(|(look, groups)| {
            let runs = groups.values().flatten();
            (look, format!("{}: {}", look.words, tally(runs)))
        });
        let mut lines: Vec<_> = lines.collect();
        lines.sort_by_key(|(look, _)| look.kind != Kind::Chosen);
        lines
    }
}

#[cfg(test)]
mod tests {
    use super::*;
    use volumes::volume_v::volume_v;

    #[test]
    fn of_very_many_runs_those_of_a_file_are_one_shape() {
        let image = volume_v().image;
        let geometry = ods1::geometry(&image).expect("Volume V opens");
        let scale = Scale::for_blocks(geometry.blocks);
        let mut chart = Chart::new(Survey::of(&image, &geometry), scale, None);
        assert!(chart.is_detailed);
        chart.is_detailed = false;
        let svg = chart.blocks();
        let both = "M200 40h40v40h-40zM400 40h80v40h-80z";
        let title = "6,9,0 (no name): 3 blocks in 2 runs";
        assert!(svg.contains(&shape(both, title)), "{svg}");
        assert!(svg.contains("<title>free: 74 blocks in 3 runs</title>"));
        assert!(!svg.contains("VBN"));
    }
}
