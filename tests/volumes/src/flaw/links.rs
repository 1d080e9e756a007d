//! Flaws of LINKS: "n in use with a bad link, or linked by others a number of times that is not 0
//! (segment 0) or 1 (above 0)".
//!
//! A link to a number without slot, or to a header that is not whole, is not among them: that number
//! is in use, so that FILES has refused it.

use super::{add_header, still_sound, Flaw, Offenders};
use crate::header::Header;
use crate::volume::Volume;
use model::Number;

/// A flaw of LINKS. The edit gets the headers of the chained file, of which there are three or more.
fn flaw(
    name: impl Into<String>,
    edit: impl Fn(&mut Volume, &[Header]) -> Option<Vec<u16>> + 'static,
) -> Flaw {
    Flaw::new(Number::Links, name, move |volume| {
        let chain = volume.file(volume.roles.chained).headers.clone();
        let offenders: Offenders = edit(volume, &chain)?.into_iter().map(u32::from).collect();
        if offenders.is_empty() {
            return still_sound(volume);
        }
        Some(offenders)
    })
}

/// All flaws of LINKS.
pub fn flaws() -> Vec<Flaw> {
    let mut all = numbers();
    all.extend(sequences_and_segments());
    all.extend(times());
    all.extend(loops());
    all.extend(good());
    all
}

/// Links a header to a number and sequence.
fn link(volume: &mut Volume, from: u16, number: u16, sequence: u16) {
    volume.edit_header(from, |header| header.link = (number, sequence));
}

/// Links a header to a header.
fn link_to(volume: &mut Volume, from: u16, to: &Header) {
    link(volume, from, to.number, to.sequence);
}

/// The last header of a chain.
fn last(chain: &[Header]) -> &Header {
    &chain[chain.len() - 1]
}

/// Links to numbers that are not in use.
fn numbers() -> Vec<Flaw> {
    vec![
        flaw("to a number not in use", |volume, chain| {
            let number = volume.unused_number()?;
            let from = last(chain).number;
            link(volume, from, number, 1);
            Some(vec![from])
        }),
        flaw("to a whole header not in use", |volume, chain| {
            let segment = last(chain).segment.checked_add(1)?;
            let number = volume.unused_number()?;
            volume.put_header(&Header {
                segment,
                ..Header::new(number, 5, Vec::new())
            });
            let from = last(chain).number;
            link(volume, from, number, 5);
            Some(vec![from])
        }),
        flaw("to the first number above H.FMAX", |volume, chain| {
            let number = volume.plan.h_fmax.checked_add(1)?;
            let from = last(chain).number;
            link(volume, from, number, 1);
            Some(vec![from])
        }),
        flaw(
            "above H.FMAX, to a whole header with bit",
            |volume, chain| {
                let segment = last(chain).segment.checked_add(1)?;
                let number = volume.plan.h_fmax.checked_add(1)?;
                let lbn = volume.slot(number)?;
                let added = Header {
                    segment,
                    ..Header::new(number, 3, Vec::new())
                };
                added.put(volume.block_mut(lbn));
                volume.put_in_use_if_mapped(number);
                let from = last(chain).number;
                link(volume, from, number, 3);
                Some(vec![from])
            },
        ),
        flaw("to 65,535", |volume, chain| {
            let from = last(chain).number;
            link(volume, from, 65_535, 1);
            Some(vec![from])
        }),
        flaw("from a file of one header, to none in use", |volume, _| {
            let number = volume.unused_number()?;
            let from = volume.roles.plain;
            link(volume, from, number, 0);
            Some(vec![from])
        }),
        flaw("from file 3, to none in use", |volume, _| {
            let before = volume.header(3).link.0;
            let number = volume.unused_number()?;
            link(volume, 3, number, 1);
            Some(vec![3, before].into_iter().filter(|&n| n > 0).collect())
        }),
        flaw("from file 5, to 65,535", |volume, _| {
            link(volume, 5, 65_535, 65_535);
            Some(vec![5])
        }),
        flaw("the second header not in use", |volume, chain| {
            // The header after it is then linked by none.
            volume.put_in_use(chain[1].number, false);
            Some(vec![chain[0].number, chain[2].number])
        }),
        flaw("the last header not in use", |volume, chain| {
            volume.put_in_use(last(chain).number, false);
            Some(vec![chain[chain.len() - 2].number])
        }),
        flaw("the first header not in use", |volume, chain| {
            volume.put_in_use(chain[0].number, false);
            Some(vec![chain[1].number])
        }),
    ]
}

/// Links whose sequence or segment is not that of the header.
fn sequences_and_segments() -> Vec<Flaw> {
    let mut all = Vec::new();
    for more in [1, 65_535, 256] {
        all.push(flaw(
            format!("M.EFSQ of the first {more} more"),
            move |volume, chain| {
                let (number, sequence) = chain[0].link;
                let from = chain[0].number;
                link(volume, from, number, sequence.wrapping_add(more));
                Some(vec![from])
            },
        ));
        all.push(flaw(
            format!("H.FSEQ of the last {more} more"),
            move |volume, chain| {
                let number = last(chain).number;
                volume.edit_header(number, |header| {
                    header.sequence = header.sequence.wrapping_add(more);
                });
                Some(vec![chain[chain.len() - 2].number])
            },
        ));
    }
    all.extend([
        flaw("segment of the second one more", |volume, chain| {
            volume.edit_header(chain[1].number, |header| header.segment = 2);
            Some(vec![chain[0].number, chain[1].number])
        }),
        flaw("segment of the second 0", |volume, chain| {
            volume.edit_header(chain[1].number, |header| header.segment = 0);
            Some(vec![chain[0].number, chain[1].number])
        }),
        flaw("segment of the last one more", |volume, chain| {
            let segment = last(chain).segment.checked_add(1)?;
            volume.edit_header(last(chain).number, |header| header.segment = segment);
            Some(vec![chain[chain.len() - 2].number])
        }),
        flaw("segment of the last one less", |volume, chain| {
            let segment = last(chain).segment.checked_sub(1)?;
            volume.edit_header(last(chain).number, |header| header.segment = segment);
            Some(vec![chain[chain.len() - 2].number])
        }),
        flaw("segment of the last 0", |volume, chain| {
            volume.edit_header(last(chain).number, |header| header.segment = 0);
            Some(vec![chain[chain.len() - 2].number, last(chain).number])
        }),
        flaw("segment of the first 1", |volume, chain| {
            volume.edit_header(chain[0].number, |header| header.segment = 1);
            // It is linked by none, and its link is bad.
            Some(vec![chain[0].number])
        }),
        flaw("every segment one more", |volume, chain| {
            if chain.iter().any(|header| header.segment == 255) {
                return None;
            }
            for header in chain {
                volume.edit_header(header.number, |header| header.segment += 1);
            }
            // Every link is good, and the first is linked by none.
            Some(vec![chain[0].number])
        }),
        flaw("segment of a file of one header 1", |volume, _| {
            let number = volume.roles.plain;
            volume.edit_header(number, |header| header.segment = 1);
            Some(vec![number])
        }),
        flaw("segment of a file of one header 255", |volume, _| {
            let number = volume.roles.empty;
            volume.edit_header(number, |header| header.segment = 255);
            Some(vec![number])
        }),
        flaw("segment 255 goes on to segment 0", |volume, chain| {
            if last(chain).segment != 255 {
                return None;
            }
            let number = add_header(volume, 5, 0)?;
            link(volume, last(chain).number, number, 5);
            Some(vec![last(chain).number, number])
        }),
        flaw("segment 255 goes on to segment 255", |volume, chain| {
            if last(chain).segment != 255 {
                return None;
            }
            let number = add_header(volume, 5, 255)?;
            link(volume, last(chain).number, number, 5);
            Some(vec![last(chain).number])
        }),
    ]);
    all
}

/// Numbers that are linked too often, or not.
fn times() -> Vec<Flaw> {
    vec![
        flaw("a chain ends at its first header", |volume, chain| {
            link(volume, chain[0].number, 0, 0);
            Some(vec![chain[1].number])
        }),
        flaw("a chain ends before its last header", |volume, chain| {
            link(volume, chain[chain.len() - 2].number, 0, 0);
            Some(vec![last(chain).number])
        }),
        flaw("a chain leaves out its second header", |volume, chain| {
            // The first has a bad link, by its segment; the second is linked by none; the third is
            // linked twice.
            link_to(volume, chain[0].number, &chain[2]);
            Some(vec![chain[0].number, chain[1].number, chain[2].number])
        }),
        flaw("an extension header that nobody links to", |volume, _| {
            let number = add_header(volume, 9, 1)?;
            Some(vec![number])
        }),
        flaw("two extension headers that nobody links to", |volume, _| {
            let first = add_header(volume, 9, 255)?;
            let second = add_header(volume, 9, 1)?;
            Some(vec![second, first])
        }),
        flaw("two chains share their headers", |volume, chain| {
            // Both links are good.
            link_to(volume, volume.roles.plain, &chain[1]);
            Some(vec![chain[1].number])
        }),
        flaw("three chains share their headers", |volume, chain| {
            link_to(volume, volume.roles.plain, &chain[1]);
            link_to(volume, volume.roles.empty, &chain[1]);
            Some(vec![chain[1].number])
        }),
        flaw(
            "a file links to the third header of another",
            |volume, chain| {
                let from = volume.roles.plain;
                link_to(volume, from, &chain[2]);
                Some(vec![from, chain[2].number])
            },
        ),
        flaw("a chain goes on to another file", |volume, chain| {
            let plain = volume.header(volume.roles.plain).clone();
            link_to(volume, last(chain).number, &plain);
            Some(vec![last(chain).number, plain.number])
        }),
        flaw("two files link to a third", |volume, chain| {
            let empty = volume.header(volume.roles.empty).clone();
            let plain = volume.roles.plain;
            link_to(volume, last(chain).number, &empty);
            link_to(volume, plain, &empty);
            Some(vec![last(chain).number, plain, empty.number])
        }),
        flaw("a chain goes on to file 1", |volume, chain| {
            link(volume, last(chain).number, 1, 1);
            Some(vec![last(chain).number, 1])
        }),
        flaw("a chain goes on to file 5", |volume, chain| {
            link(volume, last(chain).number, 5, 5);
            Some(vec![last(chain).number, 5])
        }),
        flaw(
            "file 4 links to the second header of another",
            |volume, chain| {
                link_to(volume, 4, &chain[1]);
                Some(vec![chain[1].number])
            },
        ),
        flaw(
            "every link of a chain with a wrong sequence",
            |volume, chain| {
                let linking = &chain[..chain.len() - 1];
                for header in linking {
                    let (number, sequence) = header.link;
                    link(volume, header.number, number, sequence ^ 1);
                }
                Some(linking.iter().map(|header| header.number).collect())
            },
        ),
    ]
}

/// Headers that link to themselves or back.
fn loops() -> Vec<Flaw> {
    vec![
        flaw("a file of one header links to itself", |volume, _| {
            let plain = volume.header(volume.roles.plain).clone();
            link_to(volume, plain.number, &plain);
            Some(vec![plain.number])
        }),
        flaw("the first header links to itself", |volume, chain| {
            link_to(volume, chain[0].number, &chain[0]);
            Some(vec![chain[0].number, chain[1].number])
        }),
        flaw("the second header links to itself", |volume, chain| {
            link_to(volume, chain[1].number, &chain[1]);
            Some(vec![chain[1].number, chain[2].number])
        }),
        flaw("the last header links to itself", |volume, chain| {
            link_to(volume, last(chain).number, last(chain));
            Some(vec![last(chain).number])
        }),
        flaw(
            "an extension header that only links to itself",
            |volume, _| {
                let number = add_header(volume, 9, 1)?;
                link(volume, number, number, 9);
                Some(vec![number])
            },
        ),
        flaw("the last header links to the first", |volume, chain| {
            link_to(volume, last(chain).number, &chain[0]);
            Some(vec![last(chain).number, chain[0].number])
        }),
        flaw("the last header links to the second", |volume, chain| {
            link_to(volume, last(chain).number, &chain[1]);
            Some(vec![last(chain).number, chain[1].number])
        }),
        flaw("the second header links to the first", |volume, chain| {
            link_to(volume, chain[1].number, &chain[0]);
            Some(vec![chain[0].number, chain[1].number, chain[2].number])
        }),
        flaw("two extension headers link to each other", |volume, _| {
            let first = add_header(volume, 9, 1)?;
            let second = add_header(volume, 9, 2)?;
            link(volume, first, second, 9);
            link(volume, second, first, 9);
            // The second's link is bad, by the segment; each is linked once.
            Some(vec![second])
        }),
    ]
}

/// Links that are good.
fn good() -> Vec<Flaw> {
    let mut all = Vec::new();
    for (name, sequence, flags) in [
        ("a good link more", 5, 0),
        ("a good link more, with sequence 0", 0, 0),
        ("a good link more, to a locked header", 65_535, 0xff),
    ] {
        all.push(flaw(name, move |volume, chain| {
            let segment = last(chain).segment.checked_add(1)?;
            let number = add_header(volume, sequence, segment)?;
            volume.edit_header(number, |header| {
                header.user_flags = flags;
                header.system_flags = flags;
            });
            link(volume, last(chain).number, number, sequence);
            Some(vec![])
        }));
    }
    all.extend([
        flaw("another file has the rest of a chain", |volume, chain| {
            link(volume, chain[0].number, 0, 0);
            link_to(volume, volume.roles.plain, &chain[1]);
            Some(vec![])
        }),
        flaw("file 4 has the rest of a chain", |volume, chain| {
            link(volume, chain[0].number, 0, 0);
            link_to(volume, 4, &chain[1]);
            Some(vec![])
        }),
        flaw("a chain the other way round", |volume, chain| {
            // The same numbers, with segments and links reversed.
            for (segment, header) in (0..=255).zip(chain.iter().rev()) {
                let number = header.number;
                volume.edit_header(number, |header| header.segment = segment);
            }
            for pair in chain.windows(2) {
                link_to(volume, pair[1].number, &pair[0]);
            }
            link(volume, chain[0].number, 0, 0);
            Some(vec![])
        }),
    ]);
    all
}
