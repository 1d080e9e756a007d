//! How blocks look on a picture: colours, patterns, and the words of the legend.

use super::scale::Scale;
use super::survey::Part;

/// What a block is drawn as.
#[derive(Clone, Copy, Debug, PartialEq, Eq)]
pub enum Kind {
    Free,
    Held(Part),
    /// Of the file that is to stand out.
    Chosen,
    Lost,
    HeldYetFree,
    Twice,
}

/// How a kind looks, and what the legend calls it.
pub struct Look {
    pub kind: Kind,
    pub words: &'static str,
    pub fill: &'static str,
    stroke: &'static str,
}

/// The looks, in the order of the legend, in which they are drawn too: what must be seen comes last.
/// What belongs to the volume itself is dark and files are light; what is wrong has a pattern or is
/// red, so that it stands out for every kind of sight.
#[rustfmt::skip]
pub const LOOKS: [Look; 13] = [
    look(Kind::Free, "free", "#fff", "none"),
    look(Kind::Held(Part::Boot), "boot block", "#8a8a8a", THIN),
    look(Kind::Held(Part::Home), "home block", "#000", THIN),
    look(Kind::Held(Part::IndexMap), "index map", "#332288", THIN),
    look(Kind::Held(Part::Headers), "file headers", "#7d6fc0", THIN),
    look(Kind::Held(Part::StorageMap), "storage map file", "#117733", THIN),
    look(Kind::Held(Part::BadBlocks), "bad block file", "#5c4033", THIN),
    look(Kind::Held(Part::Master), "master file directory", "#006d7a", THIN),
    look(Kind::Held(Part::File), "other files", "url(#files)", THIN),
    look(Kind::Chosen, "this file", "#004488", "#004488"),
    look(Kind::Lost, "lost: in no file, and not free", "url(#lost)", "#e08600"),
    look(Kind::HeldYetFree, "in a file, yet marked free", "url(#yet-free)", "#d00000"),
    look(Kind::Twice, "covered more than once", "#d00000", "#d00000"),
];

/// The line round blocks that nothing is wrong with.
const THIN: &str = "#444";

const fn look(kind: Kind, words: &'static str, fill: &'static str, stroke: &'static str) -> Look {
    Look {
        kind,
        words,
        fill,
        stroke,
    }
}

/// The colours of files, by their numbers: light ones that differ for every kind of sight.
const PALETTE: [&str; 6] = [
    "#77aadd", "#eedd88", "#44bb99", "#ffaabb", "#bbcc33", "#99ddff",
];

/// Below this many pixels a block is too small for a line round it, unless that must be seen.
const SMALL: u32 = 5;

/// The place of a kind among the looks.
pub fn place_of(kind: Kind) -> usize {
    let mut looks = LOOKS.iter();
    let place = looks.position(|look| look.kind == kind);
    place.expect("each kind has a look")
}

impl Look {
    /// The fill of the blocks of a file number.
    pub fn fill_of(&self, number: u16) -> &'static str {
        match self.kind {
            Kind::Held(Part::File) => PALETTE[usize::from(number) % PALETTE.len()],
            _ => self.fill,
        }
    }

    /// The line round blocks: its colour, and how many pixels wide it is.
    pub fn line(&self, scale: Scale) -> (&'static str, &'static str) {
        let is_small = scale.cell < SMALL;
        match self.kind {
            Kind::Free | Kind::Held(_) if is_small => ("none", "0"),
            Kind::Free | Kind::Held(_) => (self.stroke, "0.5"),
            _ if is_small => (self.stroke, "2"),
            _ => (self.stroke, "1.2"),
        }
    }

    /// Whether a picture of one file mutes it.
    pub fn is_muted(&self) -> bool {
        matches!(self.kind, Kind::Free | Kind::Held(_))
    }
}

/// The colours of all files side by side, for the legend.
fn all_files() -> String {
    let mut stops = String::new();
    for (place, colour) in PALETTE.iter().enumerate() {
        for edge in [place, place + 1] {
            let offset = edge as f64 / PALETTE.len() as f64;
            stops += &format!("<stop offset=\"{offset:.3}\" stop-color=\"{colour}\"/>");
        }
    }
    format!("<linearGradient id=\"files\">{stops}</linearGradient>\n")
}

/// Stripes of a colour, half as wide as they are apart.
fn stripes(id: &str, apart: u32, degrees: u32, colour: &str, ground: &str) -> String {
    let wide = apart / 2;
    format!(
        "<pattern id=\"{id}\" width=\"{apart}\" height=\"{apart}\" patternUnits=\"userSpaceOnUse\" \
         patternTransform=\"rotate({degrees})\">\
         <path d=\"M0 0h{apart}v{apart}h-{apart}z\" fill=\"{ground}\"/>\
         <path d=\"M0 0h{wide}v{apart}h-{wide}z\" fill=\"{colour}\"/></pattern>\n"
    )
}

/// Lines at the left and the top of squares.
fn lines(id: &str, width: u32, height: u32, opacity: &str) -> String {
    format!(
        "<pattern id=\"{id}\" width=\"{width}\" height=\"{height}\" patternUnits=\"userSpaceOnUse\">\
         <path d=\"M{width} 0H0V{height}\" fill=\"none\" stroke=\"#000\" stroke-opacity=\"{opacity}\"/></pattern>\n"
    )
}

/// The patterns that the looks refer to, and those of the grids: `blocks` has a line between blocks,
/// `ticks` between those that have numbers.
pub fn patterns(scale: Scale) -> String {
    let Scale { cell, tick, .. } = scale;
    let apart = if cell < 10 { 4 } else { 8 };
    let blocks_opacity = if cell < SMALL { "0" } else { "0.12" };
    all_files()
        + &stripes("lost", apart, 45, "#e08600", "#fff1d0")
        + &stripes("yet-free", apart, 90, "#d00000", "#fff")
        + &lines("blocks", cell, cell, blocks_opacity)
        + &lines(
            "ticks",
            tick * cell,
            scale.rows_between_numbers() * cell,
            "0.25",
        )
}
