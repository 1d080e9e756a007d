//! Flaws of BADHOME: "a home position below the home, not covered by a header of file 3".

use super::{add_pointer, free_lbns, last_index_header, still_sound, Flaw, Offenders, Which};
use crate::header::{pointers_of, Areas, Header};
use crate::shapes::passed_over;
use crate::volume::{File, Volume};
use model::Number;

/// A flaw of BADHOME, on a volume with home positions passed over. The edit gets them, and gives the
/// offenders; the storage map is put right.
fn flaw(
    name: impl Into<String>,
    edit: impl Fn(&mut Volume, &[u32]) -> Option<Offenders> + 'static,
) -> Flaw {
    Flaw::new(Number::Badhome, name, move |volume| {
        let passed = passed_over(volume.plan.blocks, volume.plan.home);
        if passed.is_empty() {
            return None;
        }
        let offenders = edit(volume, &passed)?;
        volume.put_storage_map();
        Some(offenders)
    })
}

/// Puts file 3 anew, with these blocks in each of its headers. Its old extension headers are no more
/// in use.
fn put_bad_blocks(volume: &mut Volume, shares: &[Vec<u32>]) -> Option<()> {
    let place = volume.files.iter().position(|file| file.number() == 3)?;
    for header in volume.files.remove(place).headers {
        volume.put_in_use(header.number, false);
    }
    let mut headers: Vec<Header> = Vec::new();
    for (place, lbns) in (0..).zip(shares) {
        let (number, sequence) = match place {
            0 => (3, 3),
            _ => (unused_number(volume, &headers)?, 40 + place),
        };
        headers.push(Header {
            areas: Areas::LARGEST,
            ..Header::new(number, sequence, pointers_of(lbns))
        });
    }
    volume.add(File::chain(headers));
    Some(())
}

/// The lowest number that neither a file nor one of these headers has.
fn unused_number(volume: &Volume, headers: &[Header]) -> Option<u16> {
    let last = volume.last_number();
    let is_used = |number| {
        let mut all = volume.headers().chain(headers);
        all.any(|header| header.number == number)
    };
    (6..=last).find(|&number| !is_used(number))
}

/// File 3 without some of the positions, and otherwise as it was, in one header.
fn leave_out(volume: &mut Volume, without: &[u32]) -> Option<()> {
    let mut lbns = volume.file(3).lbns();
    lbns.retain(|lbn| !without.contains(lbn));
    put_bad_blocks(volume, &[lbns])
}

/// All flaws of BADHOME.
pub fn flaws() -> Vec<Flaw> {
    let mut all = missing();
    all.extend(of_other_files());
    all.extend(covered());
    all.extend(nothing_passed_over());
    all
}

/// Positions that nobody covers.
fn missing() -> Vec<Flaw> {
    let one = |name: &str, place: fn(usize) -> usize| {
        let left_out = flaw(format!("the {name} one missing"), move |volume, passed| {
            let position = passed[place(passed.len())];
            leave_out(volume, &[position])?;
            Some(vec![position])
        });
        let name = format!("the {name} one missing, and the map as it was");
        // MAP comes after BADHOME.
        let map_left = Flaw::new(Number::Badhome, name, move |volume| {
            let passed = passed_over(volume.plan.blocks, volume.plan.home);
            let position = *passed.get(place(passed.len().max(1)))?;
            leave_out(volume, &[position])?;
            Some(vec![position])
        });
        [left_out, map_left]
    };
    let mut all = Vec::new();
    all.extend(one("first", |_| 0));
    all.extend(one("last", |count| count - 1));
    all.extend(one("middle", |count| count / 2));
    all.extend([
        flaw("every one missing", |volume, passed| {
            leave_out(volume, passed)?;
            Some(passed.to_vec())
        }),
        flaw("a file 3 without blocks", |volume, passed| {
            put_bad_blocks(volume, &[vec![]])?;
            Some(passed.to_vec())
        }),
        flaw("only the first there", |volume, passed| {
            let [first, rest @ ..] = passed else {
                return None;
            };
            put_bad_blocks(volume, &[vec![*first]])?;
            Some(rest.to_vec()).filter(|rest| !rest.is_empty())
        }),
        flaw("only the last there", |volume, passed| {
            let [rest @ .., last] = passed else {
                return None;
            };
            put_bad_blocks(volume, &[vec![*last]])?;
            Some(rest.to_vec()).filter(|rest| !rest.is_empty())
        }),
        flaw("the first and the last missing", |volume, passed| {
            let [first, .., last] = passed else {
                return None;
            };
            leave_out(volume, &[*first, *last])?;
            Some(vec![*first, *last])
        }),
        flaw("the block after it, and not the first", |volume, passed| {
            let after = passed[0] + 1;
            if volume.covered()[after as usize] {
                return None;
            }
            let mut lbns = volume.file(3).lbns();
            lbns.retain(|&lbn| lbn != passed[0]);
            lbns.push(after);
            put_bad_blocks(volume, &[lbns])?;
            Some(vec![passed[0]])
        }),
        flaw("the block before it, and not the last", |volume, passed| {
            let last = *passed.last()?;
            if volume.covered()[last as usize - 1] {
                return None;
            }
            let mut lbns = volume.file(3).lbns();
            lbns.retain(|&lbn| lbn != last);
            lbns.push(last - 1);
            put_bad_blocks(volume, &[lbns])?;
            Some(vec![last])
        }),
    ]);
    all
}

/// Positions that another file covers.
fn of_other_files() -> Vec<Flaw> {
    let mut all = Vec::new();
    let others: [(&str, Which); 6] = [
        ("file 1", last_index_header),
        ("file 4", |_| 4),
        ("file 5", |_| 5),
        ("a file of one header", |volume| volume.roles.plain),
        ("the first header of a chain", |volume| volume.roles.chained),
        ("an extension header of another file", |volume| {
            volume.file(volume.roles.chained).headers[1].number
        }),
    ];
    for (name, other) in others {
        all.push(flaw(
            format!("the last one covered by {name}"),
            move |volume, passed| {
                let last = *passed.last()?;
                leave_out(volume, &[last])?;
                add_pointer(volume, other(volume), last, 1)?;
                Some(vec![last])
            },
        ));
        all.push(flaw(
            format!("every one covered by {name}"),
            move |volume, passed| {
                leave_out(volume, passed)?;
                for &position in passed {
                    add_pointer(volume, other(volume), position, 1)?;
                }
                Some(passed.to_vec())
            },
        ));
    }
    all.push(flaw(
        "every one covered by a header that was one of file 3",
        |volume, passed| {
            // The extension header is a file of its own now.
            let blocks = passed.to_vec();
            put_bad_blocks(volume, &[vec![], blocks])?;
            let number = volume.header(3).link.0;
            volume.edit_header(3, |header| header.link = (0, 0));
            volume.edit_header(number, |header| header.segment = 0);
            Some(passed.to_vec())
        },
    ));
    all
}

/// Positions that file 3 covers, in whatever header and pointer.
fn covered() -> Vec<Flaw> {
    vec![
        flaw("covered by an extension header of file 3", |volume, _| {
            let lbns = volume.file(3).lbns();
            put_bad_blocks(volume, &[vec![], lbns])?;
            Some(vec![])
        }),
        flaw("covered by the third header of file 3", |volume, _| {
            let lbns = volume.file(3).lbns();
            put_bad_blocks(volume, &[vec![], vec![], lbns])?;
            Some(vec![])
        }),
        flaw(
            "the last one alone in an extension header",
            |volume, passed| {
                let last = *passed.last()?;
                let mut lbns = volume.file(3).lbns();
                lbns.retain(|&lbn| lbn != last);
                put_bad_blocks(volume, &[lbns, vec![last]])?;
                Some(vec![])
            },
        ),
        flaw("each covered by a header of its own", |volume, passed| {
            let shares: Vec<Vec<u32>> = passed.iter().map(|&lbn| vec![lbn]).collect();
            put_bad_blocks(volume, &shares)?;
            Some(vec![])
        }),
        flaw("in falling order", |volume, passed| {
            let falling: Vec<u32> = passed.iter().rev().copied().collect();
            put_bad_blocks(volume, &[falling])?;
            Some(vec![])
        }),
        flaw("the last block of a longer pointer", |volume, passed| {
            let last = *passed.last()?;
            if volume.covered()[last as usize - 1] {
                return None;
            }
            leave_out(volume, &[last])?;
            add_pointer(volume, 3, last - 1, 2)?;
            Some(vec![])
        }),
        flaw("the first block of a longer pointer", |volume, passed| {
            let first = passed[0];
            if volume.covered()[first as usize + 1] {
                return None;
            }
            leave_out(volume, &[first])?;
            add_pointer(volume, 3, first, 2)?;
            Some(vec![])
        }),
        flaw("one missing in an extension header", |volume, passed| {
            let last = *passed.last()?;
            let lbns = passed[..passed.len() - 1].to_vec();
            put_bad_blocks(volume, &[vec![], lbns])?;
            Some(vec![last])
        }),
    ]
}

/// Volumes whose home is at the first position: file 3 may have anything, or nothing.
fn nothing_passed_over() -> Vec<Flaw> {
    let first_home = |name: &str, edit: fn(&mut Volume) -> Option<()>| {
        Flaw::new(Number::Badhome, name, move |volume| {
            if volume.plan.home != 1 {
                return None;
            }
            edit(volume)?;
            still_sound(volume)
        })
    };
    vec![
        first_home("home 1, and file 3 without blocks", |volume| {
            put_bad_blocks(volume, &[vec![]])
        }),
        first_home("home 1, and file 3 with an extension header", |volume| {
            let lbn = *free_lbns(volume).last()?;
            put_bad_blocks(volume, &[vec![], vec![lbn]])
        }),
        first_home("home 1, and another file at position 256", |volume| {
            let covered = volume.covered();
            if *covered.get(256)? {
                return None;
            }
            add_pointer(volume, volume.roles.plain, 256, 1)
        }),
    ]
}
