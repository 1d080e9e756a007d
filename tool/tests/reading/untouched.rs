//! What reading leaves alone: the image, and standard error.

use std::fs::{self, File, Permissions};
use std::os::unix::fs::PermissionsExt;
use std::path::Path;
use std::process::{Command, Stdio};
use std::time::{Duration, SystemTime};

use volumes::station::{station_of, Wanted};

use crate::asked::bytes;
use crate::common::{contents, folder_with, run, Scratch, VOLUME_V};

/// Each reading verb; extract writes to OUT.
const LINES: [&str; 12] = [
    "judge v.dsk",
    "audit v.dsk",
    "audit --stale v.dsk",
    "ls v.dsk",
    "ls v.dsk 4,4,0",
    "map v.dsk 1,1,0",
    "cat v.dsk 4,4,0",
    "cat --blocks v.dsk 4,4,0",
    "extract v.dsk 4,4,0 OUT",
    "extract --blocks v.dsk 4,4,0 OUT",
    "info v.dsk",
    "info --all v.dsk",
];

/// The lines with OUT in another folder, without --json and with it.
fn lines(out: &Scratch) -> impl Iterator<Item = String> + '_ {
    let both = LINES
        .iter()
        .flat_map(|line| ["", "--json "].map(|json| format!("{json}{line}")));
    both.enumerate().map(|(place, line)| {
        let out = out.path(&format!("out-{place}"));
        line.replace("OUT", out.to_str().expect("a path of text"))
    })
}

/// A time long ago, which no file gets by chance.
fn long_ago() -> SystemTime {
    SystemTime::UNIX_EPOCH + Duration::from_secs(500_000_000)
}

fn modified(path: &Path) -> SystemTime {
    let about = fs::metadata(path).expect("the image is there");
    about.modified().expect("the time is known")
}

fn set_mode(path: &Path, mode: u32) {
    fs::set_permissions(path, Permissions::from_mode(mode)).expect("permissions can be set");
}

#[test]
fn no_verb_changes_its_image() {
    let station = station_of(1, Wanted::SMALL);
    for image in [VOLUME_V, station.image()] {
        let (scratch, out) = (folder_with("untouched", image), Scratch::new("out"));
        let path = scratch.path("v.dsk");
        let file = File::options().write(true).open(&path).expect("the image");
        file.set_modified(long_ago()).expect("the time can be set");
        for line in lines(&out) {
            bytes(scratch.folder(), &line);
            assert!(modified(&path) == long_ago(), "{line}");
            let files = contents(scratch.folder());
            assert!(files.len() == 1 && files["v.dsk"] == image, "{line}");
        }
        assert_eq!(contents(out.folder()).len(), 4);
    }
}

#[test]
fn an_image_that_nobody_may_write() {
    let (scratch, out) = (folder_with("read-only", VOLUME_V), Scratch::new("out"));
    set_mode(&scratch.path("v.dsk"), 0o444);
    set_mode(scratch.folder(), 0o555);
    for line in lines(&out) {
        bytes(scratch.folder(), &line);
    }
    set_mode(scratch.folder(), 0o755);
    assert!(contents(scratch.folder())["v.dsk"] == VOLUME_V);
}

/// On a terminal too, nothing is drawn for work that takes less than a second.
#[test]
fn a_terminal_shows_the_text_alone() {
    let station = station_of(1, Wanted::SMALL);
    let scratch = folder_with("terminal", station.image());
    for line in ["judge v.dsk", "audit v.dsk", "ls v.dsk", "info v.dsk"] {
        let command = format!("{} {line}", env!("CARGO_BIN_EXE_ods1"));
        let output = Command::new("script")
            .args(["-qec", &command, "/dev/null"])
            .current_dir(scratch.folder())
            .stdin(Stdio::null())
            .output()
            .expect("script of util-linux can be run");
        let shown = String::from_utf8(output.stdout).expect("text");
        let text = run(scratch.folder(), line).expect_done();
        assert_eq!(shown, text.replace('\n', "\r\n"), "{line}");
    }
}
