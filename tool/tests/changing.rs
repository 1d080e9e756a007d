//! Create, extend and delete: the worked examples of the rules, and that a changed image is written
//! whole or not at all.

mod common;

use std::collections::BTreeMap;
use std::fs;
use std::os::unix::fs::{symlink, PermissionsExt};
use std::path::Path;
use std::process::{Child, Stdio};
use std::thread::sleep;
use std::time::{Duration, Instant};

use common::{contents, folder_with, large_image, run, tool, Ended, VOLUME_V};
use ods1::FileId;
use volumes::block::{put_word, seal_home};
use volumes::Random;

/// Changes an image, with its verb and the arguments after the image, into a new file and in place. Sees
/// that both changed images are one and accepted, and that the first way leaves the image as it was.
/// Answers the changed image, and what was written.
fn change(image: &[u8], verb: &str, arguments: &str) -> (Vec<u8>, String) {
    let scratch = folder_with("change", image);
    let folder = scratch.folder();
    let out = run(folder, &format!("{verb} -o new.dsk v.dsk {arguments}")).expect_done();
    let mut files = contents(folder);
    let changed = files.remove("new.dsk").expect("the new image");
    let untouched = BTreeMap::from([(String::from("v.dsk"), image.to_vec())]);
    assert!(files == untouched, "the image changed, or more was written");
    let judged = run(folder, "judge new.dsk").expect_done();
    assert!(judged.starts_with("answer 0 DONE place 0\n"), "{judged}");
    let there = run(folder, &format!("{verb} --in-place v.dsk {arguments}")).expect_done();
    assert_eq!(there, out);
    let both = ["new.dsk", "v.dsk"].map(|name| (String::from(name), changed.clone()));
    assert!(contents(folder) == BTreeMap::from(both));
    (changed, out)
}

/// What a change of Volume V writes.
fn change_of_v(verb: &str, arguments: &str) -> String {
    change(VOLUME_V, verb, arguments).1
}

#[test]
fn the_worked_examples_of_volume_v() {
    assert_eq!(
        change_of_v("create", "READS.DAT;2"),
        "created 7,1,0 READS.DAT;2\nno directory lists it: keep the ID\n"
    );
    assert_eq!(
        change_of_v("extend", "6,9,0 4"),
        "extended 6,9,0 by 4 blocks from LBN 26\n"
    );
    assert_eq!(
        change_of_v("extend", "6,9,0 67"),
        "extended 6,9,0 by 67 blocks from LBN 32\n"
    );
    assert_eq!(
        change_of_v("extend", "READS.DAT;1 1"),
        "extended 6,9,0 by 1 block from LBN 22\n"
    );
    assert_eq!(change_of_v("delete", "6,9,0"), "deleted 6,9,0\n");
    assert_eq!(
        change_of_v("delete", "reads.dat"),
        "deleted 6,9,0\nthe directory entry that names it stays, and is stale from now on\n"
    );
}

#[test]
fn a_deleted_file_is_refused_for_ever() {
    let (deleted, _) = change(VOLUME_V, "delete", "6,9,0");
    let (created, out) = change(&deleted, "create", "READS.DAT;1");
    assert!(out.starts_with("created 6,10,0 READS.DAT;1\n"), "{out}");
    let scratch = folder_with("refused", &created);
    let ended = run(scratch.folder(), "cat v.dsk READS.DAT;1");
    assert_eq!((ended.status, ended.out.as_str()), (Some(1), ""));
    let first = ended.err.lines().next();
    assert_eq!(
        first,
        Some("ods1: opening 6,9,0: answer 9 SEQUENCE place 0")
    );
}

/// Each change that Volume V refuses, with what the first line says.
const REFUSED: &[(&str, &str, &str)] = &[
    (
        "extend",
        "6,9,0 68",
        "extending 6,9,0 by 68 blocks: answer 26 RUN place 0",
    ),
    (
        "extend",
        "6,9,0 0",
        "extending 6,9,0 by 0 blocks: answer 24 COUNT place 0",
    ),
    (
        "extend",
        "6,9,0 257",
        "extending 6,9,0 by 257 blocks: answer 24 COUNT place 0",
    ),
    (
        "extend",
        "1,1,0 1",
        "extending 1,1,0 by 1 block: answer 22 KNOWN place 0",
    ),
    ("delete", "4,4,0", "deleting 4,4,0: answer 22 KNOWN place 0"),
    (
        "delete",
        "6,8,0",
        "deleting 6,8,0: answer 9 SEQUENCE place 0",
    ),
    ("delete", "6,9,1", "deleting 6,9,1: answer 6 RELVOL place 0"),
    ("delete", "7,1,0", "deleting 7,1,0: answer 7 NUMBER place 0"),
    (
        "delete",
        "READS.DAT;2",
        "looking up READS.DAT;2 in the directory 4,4,0: answer 15 ABSENT place 0",
    ),
    (
        "create",
        "READS.DAT",
        "reading the name READS.DAT: answer 14 NAME place 0",
    ),
    (
        "create",
        "READS.DAT;0",
        "reading the name READS.DAT;0: answer 14 NAME place 0",
    ),
];

#[test]
fn a_refused_change_writes_nothing() {
    let scratch = folder_with("refusals", VOLUME_V);
    let before = contents(scratch.folder());
    for (verb, arguments, first) in REFUSED {
        for output in ["-o new.dsk", "--in-place"] {
            let ended = run(
                scratch.folder(),
                &format!("{verb} {output} v.dsk {arguments}"),
            );
            assert_eq!((ended.status, ended.out.as_str()), (Some(1), ""));
            let line = ended.err.lines().next().expect("a line");
            assert_eq!(line, format!("ods1: {first}"));
            assert!(
                contents(scratch.folder()) == before,
                "{first}: a file changed"
            );
        }
    }
}

#[test]
fn a_volume_that_is_not_sound_is_not_changed() {
    let mut image = VOLUME_V.to_vec();
    // The first bit of the storage map: block 0, which the index file has, is marked free.
    image[512 * 20] |= 1;
    let scratch = folder_with("unsound", &image);
    for change in [
        "create --in-place v.dsk A.DAT;1",
        "extend --in-place v.dsk 6,9,0 1",
        "delete --in-place v.dsk 6,9,0",
    ] {
        let ended = run(scratch.folder(), change);
        assert_eq!(ended.status, Some(1), "{change}");
        assert!(ended.err.contains("answer 21 MAP place 0"), "{}", ended.err);
        assert!(fs::read(scratch.path("v.dsk")).expect("the image") == image);
    }
}

#[test]
fn owner_and_protection_are_the_given_ones_or_the_volume_s() {
    let mut image = VOLUME_V.to_vec();
    let home = &mut image[512..1024];
    // H.VOWN and H.DFPR (000, 5.1.2.9 and 5.1.2.12).
    put_word(home, 30, 0o1_007);
    put_word(home, 36, 0o164_000);
    seal_home(home);
    let cases = [
        ("", 0o1_007, 0o164_000),
        ("--owner [200,7]", 0o100_007, 0o164_000),
        ("--protection 7", 0o1_007, 7),
        ("--owner 377,377 --protection 177777", 0xffff, 0xffff),
    ];
    for (options, owner, protection) in cases {
        let (changed, _) = change(&image, "create", &format!("NEW.DAT;1 {options}"));
        let attributes = ods1::attributes(&changed, FileId::of(7, 1, 0)).expect("the file opens");
        assert_eq!(
            (attributes.owner, attributes.protection),
            (owner, protection)
        );
    }
}

#[test]
fn a_change_as_json() {
    let json = |verb: &str, arguments: &str| {
        let scratch = folder_with("json", VOLUME_V);
        let line = format!("--json {verb} -o new.dsk v.dsk {arguments}");
        let text = run(scratch.folder(), &line).expect_done();
        serde_json::from_str::<serde_json::Value>(&text).expect("a JSON object")
    };
    let answer = serde_json::json!({"number": 0, "name": "DONE", "place": 0});
    let common = |verb: &str, id: &str| serde_json::json!({"verb": verb, "image": "v.dsk", "answer": answer, "id": id, "output": "new.dsk"});
    let mut created = common("create", "7,1,0");
    created["name"] = "A.DAT;3".into();
    created["owner"] = "[1,2]".into();
    created["protection"] = 8.into();
    let given = "--owner [1,2] --protection 10 a.dat;3";
    assert_eq!(json("create", given), created);
    let mut extended = common("extend", "6,9,0");
    extended["lbn"] = 26.into();
    extended["blocks"] = 4.into();
    assert_eq!(json("extend", "6,9,0 4"), extended);
    assert_eq!(json("delete", "6,9,0"), common("delete", "6,9,0"));
    let mut deleted = common("delete", "6,9,0");
    deleted["stale"] = "READS.DAT;1".into();
    assert_eq!(json("delete", "READS.DAT;1"), deleted);
}

fn mode(path: &Path) -> u32 {
    let about = fs::metadata(path).expect("the file is there");
    about.permissions().mode() & 0o7777
}

fn set_mode(path: &Path, mode: u32) {
    let permissions = fs::Permissions::from_mode(mode);
    fs::set_permissions(path, permissions).expect("permissions can be set");
}

#[test]
fn in_place_the_file_keeps_its_permissions_and_a_link_stays_a_link() {
    let scratch = folder_with("links", VOLUME_V);
    let (image, link, other) = (
        scratch.path("v.dsk"),
        scratch.path("link.dsk"),
        scratch.path("other.dsk"),
    );
    set_mode(&image, 0o640);
    symlink("v.dsk", &link).expect("a link can be made");
    fs::hard_link(&image, &other).expect("a hard link can be made");
    let (changed, _) = change(VOLUME_V, "delete", "6,9,0");
    run(scratch.folder(), "delete --in-place --force link.dsk 6,9,0").expect_done();
    let target = fs::read_link(&link).expect("the link is a link");
    assert_eq!(target, Path::new("v.dsk"));
    assert!(fs::read(&image).expect("the image") == changed);
    assert_eq!(mode(&image), 0o640);
    assert!(fs::read(&other).expect("the other name") == VOLUME_V);
}

#[test]
fn a_file_that_is_replaced_lends_its_permissions() {
    let scratch = folder_with("replaced", VOLUME_V);
    let (new, link) = (scratch.path("new.dsk"), scratch.path("link.dsk"));
    fs::write(&new, "old").expect("a file can be written");
    set_mode(&new, 0o600);
    symlink("new.dsk", &link).expect("a link can be made");
    let (changed, _) = change(VOLUME_V, "delete", "6,9,0");
    run(scratch.folder(), "delete --force -o link.dsk v.dsk 6,9,0").expect_done();
    assert!(fs::symlink_metadata(&link).expect("the link").is_symlink());
    assert!(fs::read(&new).expect("the new image") == changed);
    assert_eq!(mode(&new), 0o600);
    run(scratch.folder(), "delete --force -o free.dsk v.dsk 6,9,0").expect_done();
    assert_eq!(
        mode(&scratch.path("free.dsk")),
        mode(&scratch.path("v.dsk"))
    );
}

#[test]
fn an_extracted_file_is_written_as_images_are() {
    let scratch = folder_with("extract", VOLUME_V);
    let folder = scratch.folder();
    run(folder, "extract v.dsk READS.DAT;1 reads.dat").expect_done();
    let bytes = [30, 31, 25].map(|byte| [byte; 512]).concat();
    let mut expected = BTreeMap::from([
        (String::from("reads.dat"), bytes.clone()),
        (String::from("v.dsk"), VOLUME_V.to_vec()),
    ]);
    assert!(contents(folder) == expected);
    run(folder, "extract v.dsk 4,4,0 reads.dat")
        .expect_trouble("reads.dat exists: give another name, or --force to replace it");
    assert!(contents(folder) == expected);
    run(folder, "extract --force v.dsk 4,4,0 reads.dat").expect_done();
    expected.insert("reads.dat".into(), VOLUME_V[512 * 21..][..16].to_vec());
    assert!(contents(folder) == expected);
}

/// Random delays below a limit, which follows what they lead to.
struct Delays {
    random: Random,
    limit: Duration,
}

impl Delays {
    fn new(seed: u64, limit: Duration) -> Delays {
        Delays {
            random: Random::new(seed),
            limit,
        }
    }

    fn next(&mut self) -> Duration {
        let most = self.limit.as_micros().max(1) as u64;
        Duration::from_micros(self.random.below(most))
    }

    fn scale_limit(&mut self, by: f64) {
        self.limit = self.limit.mul_f64(by);
    }
}

/// How long an undisturbed run takes.
fn time_of(folder: &Path, arguments: &str) -> Duration {
    let started = Instant::now();
    run(folder, arguments).expect_done();
    started.elapsed()
}

/// What a run that may be killed came to.
#[derive(Debug, Default)]
struct Runs {
    killed: u32,
    completed: u32,
    /// Killed while the hidden file was there.
    while_writing: u32,
}

impl Runs {
    /// Whether there were enough of each kind.
    fn are_enough(&self) -> bool {
        self.killed >= 120 && self.completed >= 10 && self.while_writing >= 20
    }
}

/// Removes the hidden file of a run that was killed, and answers whether there was one. Nothing else
/// may be there but the image.
fn remove_hidden(folder: &Path) -> bool {
    let entries = fs::read_dir(folder).expect("the folder can be read");
    let mut names: Vec<_> = entries
        .map(|entry| entry.expect("an entry").file_name())
        .collect();
    names.retain(|name| name != "v.dsk");
    for name in &names {
        let text = name.to_str().expect("names are text");
        assert!(
            text.starts_with(".v.dsk.") && text.ends_with(".part"),
            "{text}"
        );
        fs::remove_file(folder.join(name)).expect("the hidden file can be removed");
    }
    assert!(names.len() <= 1, "{names:?}");
    names.len() == 1
}

/// Runs the tool, kills it after a delay, and answers whether it ended well before that.
fn run_and_kill(folder: &Path, line: &str, delay: Duration) -> bool {
    let mut child = tool(folder, line)
        .stdout(Stdio::null())
        .spawn()
        .expect("the tool can be run");
    sleep(delay);
    child.kill().expect("the run can be killed");
    child.wait().expect("the run ends").success()
}

#[test]
fn a_kill_leaves_the_old_image_or_the_new_one() {
    let old = large_image();
    let (new, _) = change(&old, "create", "NEW.DAT;1");
    let scratch = folder_with("kill", &old);
    let (folder, image) = (scratch.folder(), scratch.path("v.dsk"));
    let line = "create --in-place v.dsk NEW.DAT;1";
    let mut delays = Delays::new(2_024, time_of(folder, line));
    let mut runs = Runs::default();
    while !runs.are_enough() {
        assert!(runs.killed + runs.completed < 2_000, "too few of one kind");
        fs::write(&image, &old).expect("an image can be written");
        let is_completed = run_and_kill(folder, line, delays.next());
        let found = fs::read(&image).expect("the image is there");
        let is_hidden_there = remove_hidden(folder);
        assert!(found == old || found == new, "an image of another kind");
        if is_completed {
            assert!(found == new && !is_hidden_there);
            runs.completed += 1;
            delays.scale_limit(0.95);
        } else {
            assert!(found == old || !is_hidden_there);
            runs.killed += 1;
            runs.while_writing += u32::from(is_hidden_there);
            delays.scale_limit(1.01);
        }
    }
    println!("{runs:?}");
}

/// The images that two changes at once may leave: one change alone, or both.
struct Outcomes {
    alone: [Vec<u8>; 2],
    both: [Vec<u8>; 2],
}

/// Sees that of two runs both changed the image, or that one did and the other was told why not. Answers
/// whether both did.
fn both_changed(ended: &[Ended; 2], image: &[u8], outcomes: &Outcomes) -> bool {
    for (loser, winner) in [(0, 1), (1, 0)] {
        if ended[loser].status != Some(0) {
            ended[loser].expect_trouble("another program is changing v.dsk");
            assert_eq!(ended[winner].status, Some(0));
            assert!(image == outcomes.alone[winner], "not the one change");
            return false;
        }
    }
    let is_one = outcomes.both.iter().any(|both| image == both);
    assert!(is_one, "a change is lost: {ended:?}");
    true
}

/// Starts the tool, and waits for nothing.
fn start(folder: &Path, line: &str) -> Child {
    let mut run = tool(folder, line);
    run.stdout(Stdio::piped()).stderr(Stdio::piped());
    run.spawn().expect("the tool can be run")
}

#[test]
fn of_two_changes_at_once_none_is_lost() {
    let lines = ["A.DAT;1", "B.DAT;1"].map(|name| format!("create --in-place v.dsk {name}"));
    let created = |image: &[u8], name| change(image, "create", name).0;
    let (a, b) = (created(VOLUME_V, "A.DAT;1"), created(VOLUME_V, "B.DAT;1"));
    let outcomes = Outcomes {
        both: [created(&a, "B.DAT;1"), created(&b, "A.DAT;1")],
        alone: [a, b],
    };
    let scratch = folder_with("twice", VOLUME_V);
    let (folder, image) = (scratch.folder(), scratch.path("v.dsk"));
    let mut delays = Delays::new(7, time_of(folder, &lines[0]));
    let (mut rounds, mut both, mut one) = (0, 0, 0);
    while rounds < 100 || both < 10 || one < 10 {
        assert!(rounds < 2_000, "too few of one kind: {both}, {one}");
        fs::write(&image, VOLUME_V).expect("an image can be written");
        let first = start(folder, &lines[0]);
        sleep(delays.next());
        let second = start(folder, &lines[1]);
        let ended =
            [first, second].map(|child| child.wait_with_output().expect("the run ends").into());
        let files = contents(folder);
        assert_eq!(files.len(), 1, "{:?}", files.keys());
        rounds += 1;
        if both_changed(&ended, &files["v.dsk"], &outcomes) {
            both += 1;
            delays.scale_limit(0.9);
        } else {
            one += 1;
            delays.scale_limit(1.1);
        }
    }
    println!("{both} rounds with both changes, {one} with one");
}

#[test]
fn an_image_that_is_locked_is_not_changed() {
    let scratch = folder_with("locked", VOLUME_V);
    let image = fs::File::open(scratch.path("v.dsk")).expect("the image");
    image.lock().expect("the image can be locked");
    let line = "create --in-place v.dsk A.DAT;1";
    run(scratch.folder(), line).expect_trouble("another program is changing v.dsk");
    let files = contents(scratch.folder());
    assert!(files == BTreeMap::from([(String::from("v.dsk"), VOLUME_V.to_vec())]));
    run(scratch.folder(), "create -o new.dsk v.dsk A.DAT;1").expect_done();
    image.unlock().expect("the image can be unlocked");
    run(scratch.folder(), line).expect_done();
}
