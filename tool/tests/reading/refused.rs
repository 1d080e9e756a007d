//! Volumes that are damaged, cut short, or none at all: each is refused as its maker says, and no verb
//! ends otherwise than it should.

use std::fs;
use std::path::Path;

use serde_json::Value;
use volumes::accident::{random_changes, random_flaws, random_image, random_length};
use volumes::damage::{damages, volumes_to_damage, Checksums, Damage, Expected};
use volumes::flaw::{flaws, volumes_to_judge, Flaw, Judged};
use volumes::shapes::{random_volume, Size};
use volumes::station::{station_of, Wanted};
use volumes::{Random, Volume};

use crate::asked::{answer_text, bytes, expect_explained, expect_refused, run_json, text};
use crate::common::{large_image, run, tool, Scratch, VOLUME_V};
use crate::listing::id_text;

/// Puts an image into a folder as `v.dsk`.
fn put(scratch: &Scratch, image: &[u8]) {
    fs::write(scratch.path("v.dsk"), image).expect("an image can be written");
}

/// Sees that judge gives an answer, and says what it means.
#[track_caller]
fn expect_judged(folder: &Path, answer: &str) -> String {
    let ended = run(folder, "judge v.dsk");
    assert_eq!((ended.status, ended.out), (Some(1), format!("{answer}\n")));
    let meaning = ended.err.strip_prefix("ods1: ").expect("the tool's name");
    let meaning = meaning.strip_suffix('\n').expect("a line");
    assert!(!meaning.contains('\n'), "{meaning}");
    let (ended, object) = run_json(folder, "judge v.dsk");
    assert_eq!((ended.status, &*ended.err), (Some(1), ""));
    assert_eq!(answer_text(&object["answer"]), answer);
    expect_explained(&object, meaning);
    meaning.into()
}

/// Sees what the verbs say of a volume that does not open.
#[track_caller]
fn expect_closed(folder: &Path, answer: &str) {
    expect_judged(folder, answer);
    for (line, doing) in [
        ("audit v.dsk", "opening 4,4,0"),
        ("ls v.dsk", "opening 4,4,0"),
        ("cat v.dsk 6,9,0", "opening 6,9,0"),
        ("map v.dsk 1,1,0", "opening 1,1,0"),
        ("extract v.dsk 6,9,0 out", "opening 6,9,0"),
        ("info v.dsk", "opening the volume"),
        (
            "cat v.dsk [1,2]A",
            "looking up 001002.DIR;1 in the directory 4,4,0",
        ),
    ] {
        expect_refused(folder, line, doing, answer);
    }
}

/// Sees what a verb says of the file that a damaged volume has under an ID.
#[track_caller]
fn expect_opened(folder: &Path, id: [u16; 3], answer: &str) {
    let (id, line) = (id_text(id), format!("cat v.dsk {}", id_text(id)));
    if answer == "answer 0 DONE place 0" {
        bytes(folder, &line);
    } else {
        expect_refused(folder, &line, &format!("opening {id}"), answer);
    }
}

/// The first volume that a damage applies to, damaged, and what is then expected.
fn damaged(damage: &Damage, volumes: &[Volume], sums: Checksums) -> Option<(Volume, Expected)> {
    volumes.iter().find_map(|sound| {
        let mut volume = sound.clone();
        let expected = damage.apply(&mut volume, sums)?;
        Some((volume, expected))
    })
}

/// Makes every damage, and sees what the verbs say then; `closed` sees it where the volume does not open.
/// Answers how many volumes there were, and how many did not open.
fn expect_damages(sums: Checksums, closed: fn(&Path, &str)) -> (u32, u32) {
    let volumes = volumes_to_damage(3, 12);
    let scratch = Scratch::new("damages");
    let (mut all, mut not_opened) = (0, 0);
    for damage in damages() {
        let Some((volume, expected)) = damaged(&damage, &volumes, sums) else {
            continue;
        };
        put(&scratch, &volume.image);
        let number = expected.number();
        let answer = format!("answer {} {} place 0", number.number(), number.name());
        all += 1;
        if matches!(expected, Expected::Volume(_)) && number.number() > 0 {
            closed(scratch.folder(), &answer);
            not_opened += 1;
            continue;
        }
        let info = text(scratch.folder(), "info v.dsk");
        assert!(info.contains("\nverdict answer "), "{info}");
        if let Expected::File(id, _) = expected {
            expect_opened(scratch.folder(), id.words(), &answer);
        }
    }
    (all, not_opened)
}

#[test]
fn damages_with_checksums_put_right() {
    let (all, not_opened) = expect_damages(Checksums::PutRight, expect_closed);
    assert!(all > 300 && not_opened > 100, "{all}, {not_opened}");
}

#[test]
fn damages_with_checksums_left() {
    let (all, not_opened) = expect_damages(Checksums::Left, |folder, answer| {
        expect_judged(folder, answer);
    });
    assert!(all > 300 && not_opened > 100, "{all}, {not_opened}");
}

/// The first volume that a flaw applies to, changed, and what the verdict then is.
fn flawed(flaw: &Flaw, volumes: &[Volume]) -> (Volume, Judged) {
    let found = volumes.iter().find_map(|sound| {
        let mut volume = sound.clone();
        let judged = flaw.apply(&mut volume)?;
        Some((volume, judged))
    });
    found.unwrap_or_else(|| panic!("{} does not apply", flaw.name))
}

#[test]
fn every_flaw_is_judged_as_its_maker_says() {
    let volumes = volumes_to_judge(5, 16);
    let scratch = Scratch::new("flaws");
    let mut refused = 0;
    for flaw in flaws() {
        let (volume, judged) = flawed(&flaw, &volumes);
        put(&scratch, &volume.image);
        let verdict = match judged {
            Judged::Accepted => {
                let out = text(scratch.folder(), "judge v.dsk");
                out.lines().next().expect("a line").to_string()
            }
            Judged::Refused(number, place) => {
                refused += 1;
                let (name, number) = (number.name(), number.number());
                let answer = format!("answer {number} {name} place {place}");
                let meaning = expect_judged(scratch.folder(), &answer);
                assert!(meaning.contains(&format!(" {place} ")), "{meaning}");
                answer
            }
        };
        let info = text(scratch.folder(), "info v.dsk");
        assert!(info.contains(&format!("\nverdict {verdict}\n")), "{info}");
        let (_, object) = run_json(scratch.folder(), "info v.dsk");
        assert_eq!(answer_text(&object["verdict"]), verdict);
        let is_counted = object.get("counts").is_some();
        assert_eq!(is_counted, judged == Judged::Accepted);
    }
    assert!(refused > 300, "{refused} refused volumes");
}

/// Each reading verb, with what a volume may have or not.
const LINES: [&str; 14] = [
    "judge v.dsk",
    "audit v.dsk",
    "audit --stale v.dsk",
    "ls v.dsk",
    "ls v.dsk [1,1]",
    "ls v.dsk 1,1,0",
    "map v.dsk 1,1,0",
    "map v.dsk 6,9,0",
    "cat v.dsk 4,4,0",
    "cat v.dsk READS.DAT",
    "cat --blocks v.dsk 2,2,0",
    "extract --force v.dsk 3,3,0 out",
    "info v.dsk",
    "info --all v.dsk",
];

/// Sees that a run ends with an exit status of the tool's own, and says why where that is not 0.
#[track_caller]
fn expect_ends(folder: &Path, line: &str, about: &str) {
    let output = tool(folder, line).output().expect("the tool can be run");
    let status = output.status;
    let err = String::from_utf8(output.stderr).expect("what is said is text");
    assert!(!err.contains("panicked"), "{line}, {about}: {err}");
    let is_json = line.starts_with("--json");
    match status.code() {
        Some(0) => assert_eq!(err, "", "{line}, {about}"),
        Some(1) => assert_eq!(err.is_empty(), is_json, "{line}, {about}"),
        _ => panic!("{line}, {about}: {status}, {err}"),
    }
    if is_json {
        let object: Value = serde_json::from_slice(&output.stdout).expect("a JSON object");
        let number = object["answer"]["number"].as_u64();
        assert_eq!(
            number.map(|number| number > 0),
            status.code().map(|it| it > 0)
        );
    }
}

/// Runs every verb on an image.
fn expect_all_end(scratch: &Scratch, image: &[u8], about: &str) {
    put(scratch, image);
    for line in LINES {
        expect_ends(scratch.folder(), line, about);
        expect_ends(scratch.folder(), &format!("--json {line}"), about);
    }
}

#[test]
fn every_verb_ends_on_random_bytes() {
    let scratch = Scratch::new("random");
    for case in 0..20 {
        let mut random = Random::of_case(1, "random bytes", case);
        let image = random_image(&mut random);
        expect_all_end(&scratch, &image, &format!("case {case}"));
    }
}

#[test]
fn every_verb_ends_on_changed_volumes() {
    let scratch = Scratch::new("changed");
    for case in 0..40 {
        let mut random = Random::of_case(1, "changed volumes", case);
        let mut volume = random_volume(&mut random, Size::Small);
        let changes = if case % 2 == 0 {
            random_changes(&mut random, &mut volume)
        } else {
            random_flaws(&mut random, &mut volume)
        };
        expect_all_end(&scratch, &volume.image, &format!("case {case}: {changes}"));
    }
}

#[test]
fn every_verb_ends_on_images_of_other_lengths() {
    let scratch = Scratch::new("lengths");
    for case in 0..15 {
        let mut random = Random::of_case(1, "lengths", case);
        let mut image = random_volume(&mut random, Size::Small).image;
        let change = random_length(&mut random, &mut image);
        expect_all_end(&scratch, &image, &format!("case {case}: {change}"));
    }
    expect_all_end(&scratch, &large_image(), "whole");
}

#[test]
fn every_verb_ends_on_truncated_disks() {
    let scratch = Scratch::new("truncated");
    let disk = station_of(2, Wanted::SMALL);
    let mut random = Random::new(3);
    let known = [0, 1, 511, 512, 1_024, 51_199, 51_200, 409_599];
    let any: Vec<usize> = (0..12).map(|_| 512 * random.between(100, 799)).collect();
    for length in known.into_iter().chain(any) {
        expect_all_end(
            &scratch,
            &disk.image()[..length],
            &format!("{length} bytes"),
        );
    }
}

#[test]
fn an_image_that_is_cut_is_refused() {
    let scratch = Scratch::new("cut");
    for (length, answer) in [
        (0, "answer 1 SIZE place 0"),
        (51_199, "answer 1 SIZE place 0"),
        (99 * 512, "answer 1 SIZE place 0"),
    ] {
        put(&scratch, &VOLUME_V[..length]);
        expect_closed(scratch.folder(), answer);
    }
    let disk = station_of(2, Wanted::SMALL);
    // The index file lies in the middle of the disk: without its second half it is not all there, and
    // without more of it not even the first headers are.
    put(&scratch, &disk.image()[..400 * 512]);
    expect_closed(scratch.folder(), "answer 4 INDEX place 0");
    put(&scratch, &disk.image()[..350 * 512]);
    expect_closed(scratch.folder(), "answer 3 GEOMETRY place 0");
    put(&scratch, &[0; 51_200]);
    expect_closed(scratch.folder(), "answer 2 HOME place 0");
    let meaning = expect_judged(scratch.folder(), "answer 2 HOME place 0");
    assert!(meaning.contains("no ODS-1 volume"), "{meaning}");
}
