//! Trouble with usage, input and output: exit status 2, a sentence that says what is wrong, and no file
//! that is written in part or changed.

mod common;

use std::ffi::OsStr;
use std::fs::{self, OpenOptions};
use std::io::{self, Read};
use std::os::unix::ffi::OsStrExt;
use std::os::unix::fs::{symlink, PermissionsExt};
use std::path::{Path, PathBuf};
use std::process::{Command, Stdio};

use common::{contents, folder_with, large_image, run, tool, Ended, VOLUME_V};

#[test]
fn images_that_cannot_be_read() {
    let scratch = folder_with("input", VOLUME_V);
    let folder = scratch.folder();
    fs::create_dir(scratch.path("folder")).expect("a folder can be made");
    let made = Command::new("mkfifo").arg(scratch.path("pipe")).status();
    assert!(made.is_ok_and(|status| status.success()), "mkfifo");
    let before = contents(folder);
    let cases = [
        ("missing.dsk", "cannot be opened: No such file or directory"),
        ("v.dsk/x", "cannot be opened: Not a directory"),
        ("folder", "is a directory, and not an image"),
        (
            "pipe",
            "is not an ordinary file, and images are read from such",
        ),
        (
            "/dev/null",
            "is not an ordinary file, and images are read from such",
        ),
    ];
    for (image, sentence) in cases {
        for line in [
            format!("judge {image}"),
            format!("create -o new.dsk {image} A.DAT;1"),
            format!("create --in-place {image} A.DAT;1"),
        ] {
            run(folder, &line).expect_trouble(&format!("{image} {sentence}"));
        }
    }
    assert!(contents(folder) == before);
}

#[test]
fn an_empty_image_is_refused() {
    let scratch = folder_with("empty", &[]);
    let ended = run(scratch.folder(), "judge v.dsk");
    assert_eq!(ended.status, Some(1));
    assert_eq!(ended.out, "answer 1 SIZE place 0\n");
    for output in ["-o new.dsk", "--in-place"] {
        let line = format!("create {output} v.dsk A.DAT;1");
        let ended = run(scratch.folder(), &line);
        assert_eq!(ended.status, Some(1));
        let first = ended.err.lines().next();
        assert_eq!(
            first,
            Some("ods1: opening the volume: answer 1 SIZE place 0")
        );
    }
    assert_eq!(contents(scratch.folder()).len(), 1);
}

#[test]
fn a_read_only_image_is_not_changed_in_place() {
    let scratch = folder_with("read-only", VOLUME_V);
    let permissions = fs::Permissions::from_mode(0o444);
    fs::set_permissions(scratch.path("v.dsk"), permissions).expect("permissions can be set");
    let before = contents(scratch.folder());
    for force in ["", "--force"] {
        run(
            scratch.folder(),
            &format!("delete --in-place {force} v.dsk 6,9,0"),
        )
        .expect_trouble("v.dsk is read-only: make it writable, or write to another file with -o");
    }
    assert!(contents(scratch.folder()) == before);
    run(scratch.folder(), "delete -o new.dsk v.dsk 6,9,0").expect_done();
}

#[test]
fn outputs_that_cannot_be_written() {
    let scratch = folder_with("output", VOLUME_V);
    let folder = scratch.folder();
    fs::create_dir(scratch.path("folder")).expect("a folder can be made");
    fs::write(scratch.path("there"), "old").expect("a file can be written");
    symlink("nowhere", scratch.path("dangling")).expect("a link can be made");
    let before = contents(folder);
    let exists = "exists: give another name, or --force to replace it";
    let cases = [
        (
            "missing/new",
            "cannot be written: its folder does not exist",
        ),
        ("there/new", "cannot be written: Not a directory"),
        ("folder", "is a directory, and not a file to write"),
        ("..", "is a directory, and not a file to write"),
        (
            "/dev/null",
            "is not an ordinary file, and only such are replaced",
        ),
        ("there", exists),
        ("dangling", exists),
    ];
    for (output, sentence) in cases {
        for line in [
            format!("delete -o {output} v.dsk 6,9,0"),
            format!("extract v.dsk 6,9,0 {output}"),
        ] {
            let expected = format!("{output} {sentence}");
            run(folder, &line).expect_trouble(&expected);
            if sentence != exists {
                run(folder, &format!("{line} --force")).expect_trouble(&expected);
            }
        }
    }
    assert!(contents(folder) == before);
}

#[test]
fn the_image_itself_is_no_output() {
    let scratch = folder_with("itself", VOLUME_V);
    let folder = scratch.folder();
    let image = scratch.path("v.dsk");
    fs::hard_link(&image, scratch.path("hard")).expect("a hard link can be made");
    symlink("v.dsk", scratch.path("soft")).expect("a link can be made");
    let before = contents(folder);
    let absolute = image.to_str().expect("the path is text");
    for output in ["v.dsk", "./v.dsk", absolute, "hard", "soft"] {
        let sentence = format!(
            "{output} is the image itself. No verb changes its input image without --in-place"
        );
        for force in ["", "--force"] {
            for line in [
                format!("create {force} -o {output} v.dsk A.DAT;1"),
                format!("create {force} -o {output} soft A.DAT;1"),
                format!("extract {force} v.dsk 6,9,0 {output}"),
            ] {
                run(folder, &line).expect_trouble(&sentence);
            }
        }
    }
    assert!(contents(folder) == before);
}

#[test]
fn arguments_that_are_not_what_they_should_be() {
    let scratch = folder_with("arguments", VOLUME_V);
    let cases = [
        (
            "delete -o new v.dsk 6,9",
            "6,9 is not an ID, as 6,9,0: three numbers up to 65535",
        ),
        (
            "extend -o new v.dsk 6,9,65536 1",
            "6,9,65536 is not an ID, as 6,9,0: three numbers up to 65535",
        ),
        (
            "create -o new --owner [8,1] v.dsk A.DAT;1",
            "[8,1] is not a UIC, as [200,200]: two octal numbers up to 377",
        ),
        (
            "create -o new --owner [1,400] v.dsk A.DAT;1",
            "[1,400] is not a UIC, as [200,200]: two octal numbers up to 377",
        ),
        (
            "create -o new --protection 200000 v.dsk A.DAT;1",
            "200000 is not a protection word, as 164000: an octal number up to 177777",
        ),
        (
            "delete -o new v.dsk [1,2]",
            "[1,2] names no file, as [200,200]READS.DAT;1 does",
        ),
    ];
    for (line, sentence) in cases {
        run(scratch.folder(), line).expect_trouble(sentence);
    }
    assert_eq!(contents(scratch.folder()).len(), 1);
}

#[test]
fn command_lines_that_are_not_understood() {
    let scratch = folder_with("usage", VOLUME_V);
    let cases = [
        (
            "delete v.dsk 6,9,0",
            "error: The following required arguments were not provided:",
        ),
        (
            "delete -o new --in-place v.dsk 6,9,0",
            "error: The argument '--output <NEW>' cannot be used with '--in-place'",
        ),
        (
            "extend -o new v.dsk 6,9,0 many",
            "error: Invalid value 'many' for '<COUNT>': invalid digit found in string",
        ),
        (
            "extend -o new v.dsk 6,9,0 4294967296",
            "error: Invalid value '4294967296' for '<COUNT>': 4294967296 is not in 0..=4294967295",
        ),
    ];
    for (line, sentence) in cases {
        let ended = run(scratch.folder(), line);
        assert_eq!((ended.status, ended.out.as_str()), (Some(2), ""), "{line}");
        assert_eq!(ended.err.lines().next(), Some(sentence));
    }
    assert_eq!(contents(scratch.folder()).len(), 1);
}

/// A file system of 64 KiB in memory, until it is dropped.
struct Small(PathBuf);

impl Small {
    /// Mounts one over a new folder; none where that may not be done.
    fn mount(folder: PathBuf) -> Option<Small> {
        fs::create_dir(&folder).expect("a folder can be made");
        let small = Small(folder);
        small.mount_with("size=64k").then_some(small)
    }

    fn mount_with(&self, options: &str) -> bool {
        let mut mount = Command::new("mount");
        mount.args(["-t", "tmpfs", "-o", options, "tmpfs"]);
        let ended = mount.arg(&self.0).stderr(Stdio::null()).status();
        ended.is_ok_and(|status| status.success())
    }
}

impl Drop for Small {
    fn drop(&mut self) {
        let _ = Command::new("umount")
            .arg(&self.0)
            .stderr(Stdio::null())
            .status();
    }
}

#[test]
fn a_path_that_is_not_text_is_a_path() {
    let scratch = folder_with("bytes", VOLUME_V);
    let [image, changed] = [&b"v\xff.dsk"[..], b"\xfe.dsk"].map(OsStr::from_bytes);
    fs::rename(scratch.path("v.dsk"), scratch.folder().join(image)).expect("it can be renamed");
    let mut create = tool(scratch.folder(), "create -o");
    let ended = create.arg(changed).arg(image).arg("B.DAT;1").output();
    Ended::from(ended.expect("the tool can be run")).expect_done();
    let mut judge = tool(scratch.folder(), "judge");
    let ended = judge.arg(changed).output();
    let told = Ended::from(ended.expect("the tool can be run")).expect_done();
    assert!(told.starts_with("answer 0 DONE place 0\n"), "{told}");
}

#[test]
fn a_full_or_read_only_disk() {
    let scratch = folder_with("disk", &large_image());
    let folder = scratch.folder();
    let Some(small) = Small::mount(scratch.path("small")) else {
        eprintln!("left out: a file system of 64 KiB cannot be mounted here");
        return;
    };
    fs::write(small.0.join("v.dsk"), VOLUME_V).expect("Volume V fits");
    let before = contents(&small.0);
    let cases = [
        ("create -o small/new.dsk v.dsk A.DAT;1", "small/new.dsk"),
        ("create --force -o small/v.dsk v.dsk A.DAT;1", "small/v.dsk"),
        ("create --in-place small/v.dsk A.DAT;1", "small/v.dsk"),
        ("extract --blocks v.dsk 1,1,0 small/index", "small/index"),
    ];
    for (line, name) in cases {
        let full = format!("{name} cannot be written: No space left on device");
        run(folder, line).expect_trouble(&full);
        assert!(contents(&small.0) == before, "{line}");
    }
    assert!(small.mount_with("remount,ro"), "a remount");
    for (line, name) in cases {
        let doing = if line.contains("--in-place") {
            "opened to be changed"
        } else {
            "written"
        };
        let read_only = format!("{name} cannot be {doing}: Read-only file system");
        run(folder, line).expect_trouble(&read_only);
        assert!(contents(&small.0) == before, "{line}");
    }
}

/// Each verb that reads Volume V, in a way that writes to standard output.
const READING: &[&str] = &[
    "judge v.dsk",
    "audit v.dsk",
    "ls v.dsk",
    "map v.dsk 6,9,0",
    "info v.dsk",
    "cat v.dsk 6,9,0",
    "--json cat v.dsk 6,9,0",
];

#[test]
fn a_full_standard_output() {
    let scratch = folder_with("full", VOLUME_V);
    for line in READING {
        let full = OpenOptions::new().write(true).open("/dev/full");
        let full = full.expect("/dev/full can be opened");
        let output = tool(scratch.folder(), line).stdout(full).output();
        let ended = Ended::from(output.expect("the tool can be run"));
        ended.expect_trouble("standard output cannot be written: No space left on device");
    }
}

#[test]
fn a_standard_output_that_nobody_reads() {
    let scratch = folder_with("unread", VOLUME_V);
    let change = "create --in-place v.dsk A.DAT;1";
    for line in READING.iter().chain([&change]) {
        let (reader, writer) = io::pipe().expect("a pipe can be made");
        drop(reader);
        let output = tool(scratch.folder(), line).stdout(writer).output();
        let ended = Ended::from(output.expect("the tool can be run"));
        assert_eq!((ended.status, ended.err.as_str()), (Some(2), ""), "{line}");
    }
    let image = fs::read(scratch.path("v.dsk")).expect("the image");
    assert!(ods1::header(&image, 7).is_ok(), "the change is made");
}

/// Gives an image a file of 128 KiB in a row, and answers its ID.
fn add_large_file(folder: &Path) -> String {
    let out = run(folder, "create --in-place v.dsk LARGE.DAT;1").expect_done();
    let id = out.split_whitespace().nth(1).expect("an ID").to_string();
    run(folder, &format!("extend --in-place v.dsk {id} 256")).expect_done();
    id
}

#[test]
fn an_image_that_is_cut_short_while_it_is_written_out() {
    let scratch = folder_with("cut", &large_image());
    let id = add_large_file(scratch.folder());
    let mut run = tool(scratch.folder(), &format!("cat --blocks v.dsk {id}"));
    run.stdout(Stdio::piped()).stderr(Stdio::piped());
    let mut child = run.spawn().expect("the tool can be run");
    let out = child.stdout.as_mut().expect("standard output is a pipe");
    // A pipe holds less than the file: once a byte came, the run waits with the rest.
    out.read_exact(&mut [0]).expect("a byte of the file");
    let image = OpenOptions::new().write(true).open(scratch.path("v.dsk"));
    image
        .and_then(|image| image.set_len(0))
        .expect("the image can be cut");
    let mut rest = Vec::new();
    out.read_to_end(&mut rest).expect("what the pipe holds");
    assert!(rest.len() < 256 * 512 - 1, "{} bytes", rest.len());
    let ended = Ended::from(child.wait_with_output().expect("the run ends"));
    ended.expect_trouble(
        "standard output cannot be written: the image was cut short meanwhile, or its disk failed",
    );
}
