//! A picture of a volume, block by block, as SVG: whose each block is, and what is wrong.

mod chart;
mod looks;
mod scale;
mod survey;

use ods1::{Answer, Counts, FileId, Label};

use crate::failure::{Outcome, While};
use crate::output::counted;
use crate::paths::label_text;
use chart::Chart;
use scale::Scale;
use survey::Survey;

/// Pixels: left of the blocks, right of them, and above them.
const LEFT: u32 = 76;
const RIGHT: u32 = 30;
const TOP: u32 = 92;

/// Pixels between the blocks and the legend, and below it.
const BETWEEN: u32 = 24;

/// Pixels: a line of the legend, and the least that a column of it is wide.
const LEGEND_LINE: u32 = 24;
const LEGEND_COLUMN: u32 = 400;

/// How opaque is what is muted.
const MUTED: &str = "0.28";

/// How many numbers of damaged headers are told.
const MOST_NUMBERS: usize = 8;

/// What a browser does where the mouse is: it draws a line round all blocks of that file.
const STYLE: &str = "<style>.blocks g:hover{stroke:#000;stroke-width:2}</style>\n";

/// A text as XML has it.
fn escaped(text: &str) -> String {
    let mut xml = String::with_capacity(text.len());
    for character in text.chars() {
        match character {
            '&' => xml += "&amp;",
            '<' => xml += "&lt;",
            '>' => xml += "&gt;",
            '"' => xml += "&quot;",
            other => xml.push(other),
        }
    }
    xml
}

/// The lines between blocks and round all of them.
fn grid(scale: Scale, blocks: u32) -> String {
    let all = scale.outline(0, blocks);
    format!(
        "<g pointer-events=\"none\"><path d=\"{all}\" fill=\"url(#blocks)\"/>\
         <path d=\"{all}\" fill=\"url(#ticks)\" stroke=\"#222\"/></g>\n"
    )
}

/// The numbers above the columns, and beside the rows the LBNs of their first blocks.
fn numbers(scale: Scale, blocks: u32) -> String {
    let Scale { row, cell, tick } = scale;
    let mut svg = String::from("<g font-size=\"11\" fill=\"#333\" text-anchor=\"end\">\n");
    svg += "<text x=\"-8\" y=\"-8\">LBN</text>\n";
    for column in (0..row).step_by(tick as usize) {
        let x = column * cell;
        svg += &format!("<text x=\"{x}\" y=\"-8\" text-anchor=\"start\">+{column}</text>\n");
    }
    let step = row * scale.rows_between_numbers();
    for lbn in (0..blocks).step_by(step as usize) {
        let y = lbn / row * cell + cell / 2 + 4;
        svg += &format!("<text x=\"-8\" y=\"{y}\">{lbn}</text>\n");
    }
    svg + "</g>\n"
}

/// The legend, and how many pixels high it is.
fn legend(chart: &Chart) -> (String, u32) {
    let lines = chart.legend();
    let width = chart.scale.width();
    let columns = (width / LEGEND_COLUMN).max(1);
    let rows = (lines.len() as u32).div_ceil(columns);
    let mut svg = String::from("<g font-size=\"13\">\n");
    for (place, (look, text)) in (0..).zip(lines) {
        let (x, y) = (place / rows * (width / columns), place % rows * LEGEND_LINE);
        let is_muted = chart.chosen.is_some() && look.is_muted();
        let opacity = if is_muted { MUTED } else { "1" };
        svg += &format!(
            "<rect x=\"{x}\" y=\"{y}\" width=\"28\" height=\"14\" fill=\"{}\" stroke=\"#444\" opacity=\"{opacity}\"/>\
             <text x=\"{}\" y=\"{}\">{}</text>\n",
            look.fill,
            x + 36,
            y + 12,
            escaped(&text)
        );
    }
    (svg + "</g>\n", rows * LEGEND_LINE)
}

/// What is said of headers that are damaged, after the verdict.
fn damage_text(damaged: &[u16]) -> String {
    if damaged.is_empty() {
        return String::new();
    }
    let told: Vec<String> = damaged
        .iter()
        .take(MOST_NUMBERS)
        .map(ToString::to_string)
        .collect();
    let more = if damaged.len() > MOST_NUMBERS {
        " and more"
    } else {
        ""
    };
    let count = counted(damaged.len() as u64, "damaged header");
    format!("; {count}: {}{more}", told.join(", "))
}

/// What stands above the blocks: the file that stands out, the volume, and the verdict.
fn caption(chart: &Chart, label: &Label, blocks: u32, verdict: &Answer<Counts>) -> String {
    let file = chart.chosen_text();
    let file = file.map_or(String::new(), |text| format!("{text} on "));
    let volume = match label_text(label).as_str() {
        "" => String::from("volume without a name"),
        name => format!("volume {name:?}"),
    };
    let title = escaped(&format!("{file}{volume}, {blocks} blocks"));
    let verdict = match verdict {
        Ok(_) => String::from("answer 0 DONE place 0"),
        Err(refused) => refused.to_string(),
    };
    let damage = damage_text(&chart.survey.damaged);
    format!(
        "<text x=\"{LEFT}\" y=\"32\" font-size=\"19\" font-weight=\"bold\">{title}</text>\n\
         <text x=\"{LEFT}\" y=\"56\" font-size=\"14\">verdict {verdict}{damage}</text>\n"
    )
}

/// Draws a volume that opens, on which this is the verdict, with the file of an ID standing out.
pub fn draw(image: &[u8], verdict: &Answer<Counts>, chosen: Option<FileId>) -> Outcome<String> {
    let geometry = ods1::geometry(image).while_doing("opening the volume")?;
    let label = ods1::label(image).while_doing("opening the volume")?;
    let blocks = geometry.blocks;
    let scale = Scale::for_blocks(blocks);
    let chart = Chart::new(Survey::of(image, &geometry), scale, chosen);
    let (legend, legend_height) = legend(&chart);
    let legend_top = TOP + scale.height(blocks) + BETWEEN;
    let width = LEFT + scale.width() + RIGHT;
    let height = legend_top + legend_height + BETWEEN;
    let caption = caption(&chart, &label, blocks, verdict);
    let shapes = chart.blocks() + &grid(scale, blocks) + &numbers(scale, blocks);
    let patterns = looks::patterns(scale);
    Ok(format!(
        "<svg xmlns=\"http://www.w3.org/2000/svg\" width=\"{width}\" height=\"{height}\" \
         viewBox=\"0 0 {width} {height}\" font-family=\"Helvetica, Arial, sans-serif\">\n\
         {STYLE}<defs>\n{patterns}</defs>\n\
         <rect width=\"{width}\" height=\"{height}\" fill=\"#fff\"/>\n{caption}\
         <g transform=\"translate({LEFT} {TOP})\">\n{shapes}</g>\n\
         <g transform=\"translate({LEFT} {legend_top})\">\n{legend}</g>\n</svg>\n"
    ))
}

#[cfg(test)]
mod tests {
    use super::*;
    use ods1::WorkAreas;
    use volumes::block::seal_home;
    use volumes::header::Pointer;
    use volumes::volume::put_bit;
    use volumes::volume_v::volume_v;

    fn judged(image: &[u8]) -> Answer<Counts> {
        ods1::judge(image, &mut WorkAreas::for_length(image.len()))
    }

    fn picture(image: &[u8], chosen: Option<FileId>) -> String {
        let svg = draw(image, &judged(image), chosen).expect("the volume opens");
        expect_well_formed(&svg);
        svg
    }

    /// Sees that every tag is closed, and that nothing else looks like one.
    fn expect_well_formed(svg: &str) {
        let mut open = Vec::new();
        for part in svg.split('<').skip(1) {
            let (tag, text) = part.split_once('>').expect("a tag has an end");
            let name = tag.split([' ', '/']).next().expect("a tag has a name");
            if let Some(name) = tag.strip_prefix('/') {
                assert_eq!(open.pop(), Some(name), "{part}");
            } else if !tag.ends_with('/') {
                open.push(name);
            }
            assert_eq!(tag.matches('"').count() % 2, 0, "{part}");
            assert!(!text.contains('>'), "{part}");
            for named in part.split('&').skip(1) {
                let names = ["amp;", "lt;", "gt;", "quot;"];
                assert!(names.iter().any(|name| named.starts_with(name)), "{part}");
            }
        }
        assert!(open.is_empty(), "{open:?} are not closed");
    }

    /// What follows a text up to a quote or tag.
    fn after<'a>(line: &'a str, text: &str) -> Option<&'a str> {
        let (_, rest) = line.split_once(text)?;
        rest.split(['"', '<']).next()
    }

    /// The shapes that have a title: fill, outline and title.
    fn shapes(svg: &str) -> Vec<(&str, &str, &str)> {
        let mut fill = "";
        let mut shapes = Vec::new();
        for line in svg.lines() {
            fill = after(line, "<g fill=\"").unwrap_or(fill);
            if let Some(title) = after(line, "<title>") {
                let outline = after(line, "<path d=\"").expect("a shape has an outline");
                shapes.push((fill, outline, title));
            }
        }
        shapes
    }

    /// The lines of the legend.
    fn legend_lines(svg: &str) -> Vec<&str> {
        let lines = svg.lines().filter(|line| line.starts_with("<rect x="));
        lines
            .filter_map(|line| line.split('>').nth(2)?.split('<').next())
            .collect()
    }

    #[rustfmt::skip]
    const SHAPES_OF_V: [(&str, &str, &str); 12] = [
        ("#fff", "M80 40h120v40h-120z", "free, LBN 22-24"),
        ("#fff", "M240 40h160v40h-160z", "free, LBN 26-29"),
        ("#fff", "M480 40H800V160H760v40H0V80H480z", "free, LBN 32-98"),
        ("#8a8a8a", "M0 0h40v40h-40z", "boot block, 1,1,0 (no name), VBN 1, LBN 0"),
        ("#000", "M40 0h40v40h-40z", "home block, 1,1,0 (no name), VBN 2, LBN 1"),
        ("#332288", "M80 0h40v40h-40z", "index map, 1,1,0 (no name), VBN 3, LBN 2"),
        ("#7d6fc0", "M120 0h640v40h-640z", "file headers, 1,1,0 (no name), VBN 4-19, LBN 3-18"),
        ("#117733", "M760 0h40v40h-40zM0 40h40v40h-40z", "storage map file, 2,2,0 (no name), VBN 1-2, LBN 19-20"),
        ("#5c4033", "M760 160h40v40h-40z", "bad block file, 3,3,0 (no name), VBN 1, LBN 99"),
        ("#006d7a", "M40 40h40v40h-40z", "master file directory, 4,4,0 (no name), VBN 1, LBN 21"),
        ("#77aadd", "M200 40h40v40h-40z", "6,9,0 (no name), VBN 3, LBN 25"),
        ("#77aadd", "M400 40h80v40h-80z", "6,9,0 (no name), VBN 1-2, LBN 30-31"),
    ];

    const LEGEND_OF_V: [&str; 12] = [
        "free: 74 blocks in 3 runs",
        "boot block: 1 block",
        "home block: 1 block",
        "index map: 1 block",
        "file headers: 16 blocks",
        "storage map file: 2 blocks",
        "bad block file: 1 block",
        "master file directory: 1 block",
        "other files: 3 blocks in 2 runs",
        "lost: in no file, and not free: none",
        "in a file, yet marked free: none",
        "covered more than once: none",
    ];

    #[test]
    fn volume_v_block_by_block() {
        let svg = picture(&volume_v().image, None);
        assert!(svg.contains(">volume without a name, 100 blocks<"));
        assert!(svg.contains(">verdict answer 0 DONE place 0<"));
        assert_eq!(shapes(&svg), SHAPES_OF_V);
        assert_eq!(legend_lines(&svg), LEGEND_OF_V);
    }

    #[test]
    fn the_chosen_file_stands_out() {
        let mut image = volume_v().image;
        let mut areas = WorkAreas::for_length(image.len());
        let name = ods1::text_to_name("NEW.DAT;3").expect("a name");
        let id = ods1::create(&mut image, name, 0, 0, &mut areas).expect("a new file");
        ods1::extend(&mut image, id, 4, &mut areas).expect("four blocks");
        let svg = picture(&image, Some(id));
        assert!(svg.contains(">7,1,0 NEW.DAT;3 on volume without a name, 100 blocks<"));
        let chosen = shapes(&svg)
            .into_iter()
            .filter(|shape| shape.0 == "#004488");
        let title = "7,1,0 NEW.DAT;3, VBN 1-4, LBN 26-29";
        assert_eq!(
            chosen.collect::<Vec<_>>(),
            [("#004488", "M240 40h160v40h-160z", title)]
        );
        assert_eq!(legend_lines(&svg)[0], "this file: 4 blocks");
        let (muted, others) = svg
            .split_once("<g class=\"blocks\" opacity=\"1\">")
            .expect("two layers");
        assert!(muted.contains("6,9,0") && !muted.contains("VBN 1-4, LBN 26-29"));
        assert!(others.contains(title) && !others.contains("6,9,0"));
        assert!(muted.contains(&format!("<g class=\"blocks\" opacity=\"{MUTED}\">")));
    }

    #[test]
    fn damage_is_shown_and_counted() {
        let mut volume = volume_v();
        for (bit, is_free) in [(25, true), (40, false), (41, false), (60, false)] {
            put_bit(volume.storage_map_mut(), bit, is_free);
        }
        volume.edit_header(4, |header| {
            header.pointers.push(Pointer { lbn: 31, blocks: 1 })
        });
        let svg = picture(&volume.image, Some(FileId::of(6, 9, 0)));
        assert!(svg.contains(">verdict answer 19 TWICE place 31<"));
        let shapes = shapes(&svg);
        let [.., lost, lost_too, yet_free, twice] = shapes[..] else {
            panic!("{shapes:?}");
        };
        assert_eq!(lost, ("url(#lost)", "M0 80h80v40h-80z", "lost, LBN 40-41"));
        assert_eq!(
            lost_too,
            ("url(#lost)", "M0 120h40v40h-40z", "lost, LBN 60")
        );
        let title = "6,9,0 (no name), VBN 3, LBN 25, yet free";
        assert_eq!(yet_free, ("url(#yet-free)", "M200 40h40v40h-40z", title));
        let title = "LBN 31, covered 2 times: by 4,4,0 (no name) and by 6,9,0 (no name)";
        assert_eq!(twice, ("#d00000", "M440 40h40v40h-40z", title));
        let legend = legend_lines(&svg);
        assert_eq!(
            legend[10],
            "lost: in no file, and not free: 3 blocks in 2 runs"
        );
        assert_eq!(
            legend[11..],
            [
                "in a file, yet marked free: 1 block",
                "covered more than once: 1 block"
            ]
        );
    }

    #[test]
    fn what_xml_would_read_is_escaped() {
        let mut volume = volume_v();
        let home = volume.block_mut(1);
        home[14..22].copy_from_slice(b"A<&>\"B'\x01");
        seal_home(home);
        let svg = picture(&volume.image, None);
        assert!(svg.contains(">volume &quot;A&lt;&amp;&gt;\\&quot;B'?&quot;, 100 blocks<"));
    }

    #[test]
    fn damaged_headers_are_told() {
        let mut volume = volume_v();
        let lbn = volume.slot_of(6);
        volume.block_mut(lbn)[0] ^= 1;
        let svg = picture(&volume.image, None);
        assert!(svg.contains(">verdict answer 17 FILES place 6; 1 damaged header: 6<"));
        assert_eq!(damage_text(&[]), "");
        let many: Vec<u16> = (11..31).collect();
        let text = "; 20 damaged headers: 11, 12, 13, 14, 15, 16, 17, 18 and more";
        assert_eq!(damage_text(&many), text);
    }

    #[test]
    fn what_does_not_open_is_refused() {
        let image = vec![0; 51_200];
        assert!(draw(&image, &judged(&image), None).is_err());
    }
}
