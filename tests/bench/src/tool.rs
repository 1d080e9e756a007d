//! Measures the tool against the library calls that it makes.
//!
//! Processes take turns: the tool; this program, as one that maps the same image and makes the same calls
//! and nothing else; and this program, as one that maps the image and makes no call. Each is timed from its
//! start to its end, with the image in the page cache. The second also tells how long its calls took,
//! from the first to the last.

use std::collections::{HashSet, VecDeque};
use std::fs::{self, File};
use std::hint::black_box;
use std::path::{Path, PathBuf};
use std::process::Command;
use std::time::{Duration, Instant};

use memmap2::Mmap;
use ods1::{FileId, Refusal, WorkAreas};
use volumes::hub::{hub, Hub};
use volumes::large::{large_volume, largest_plan};
use volumes::station::station;

use crate::folder::Folder;
use crate::{ext2, volumes_to_judge};

/// How often each process is run.
pub const RUNS: usize = 41;

/// The system flag of a directory, in the word of both flags.
const DIRECTORY_FLAG: u16 = 32 << 8;

/// The calls of `ods1 audit`, in its order.
fn audit(image: &[u8]) -> u64 {
    let master = FileId::MASTER;
    let mut sum = u64::from(ods1::open_file(image, master).is_ok());
    let geometry = ods1::geometry(image).expect("the volume opens");
    let mut met = HashSet::from([master]);
    let mut ahead = VecDeque::from([master]);
    while let Some(directory) = ahead.pop_front() {
        for record in ods1::records(image, directory) {
            let opened = ods1::attributes(image, record.id);
            let is_directory = |flags: u16| flags & DIRECTORY_FLAG != 0;
            if opened.is_ok_and(|it| is_directory(it.flags)) && met.insert(record.id) {
                ahead.push_back(record.id);
            }
            if opened.is_err_and(|it| it.refusal == Refusal::Sequence) {
                sum += u64::from(ods1::header(image, record.id.number).is_ok());
            }
            sum += u64::from(ods1::name_to_text(record.name).is_ok());
        }
    }
    let last = geometry.fmax.min(geometry.slots) as u16;
    let headers = (6..=last).filter(|&number| ods1::header(image, number).is_ok());
    sum + headers.count() as u64
}

/// The call of `ods1 judge`.
fn judge(image: &[u8]) -> u64 {
    let mut areas = WorkAreas::for_length(image.len());
    let counts = ods1::judge(image, &mut areas);
    counts.expect("the volume is accepted").free
}

/// Maps an image, makes the calls of a verb or none, and writes how many nanoseconds they took.
pub fn make_calls(verb: &str, image: &str) {
    let file = File::open(image).expect("the image can be opened");
    let image = map(&file);
    let started = Instant::now();
    let calls = match verb {
        "audit" => audit,
        "judge" => judge,
        _ => |_: &[u8]| 0,
    };
    black_box(calls(black_box(&image)));
    println!("{}", started.elapsed().as_nanos());
}

#[allow(unsafe_code)]
fn map(file: &File) -> Mmap {
    // SAFETY: nobody changes the image while it is measured.
    unsafe { Mmap::map(file) }.expect("the image can be mapped")
}

/// The shortest and the median time.
pub struct Times {
    least: Duration,
    median: Duration,
}

impl Times {
    pub fn of(mut times: Vec<Duration>) -> Times {
        times.sort_unstable();
        Times {
            least: times[0],
            median: times[times.len() / 2],
        }
    }

    /// Both in milliseconds.
    pub fn text(&self) -> String {
        let milliseconds = |time: Duration| time.as_secs_f64() * 1e3;
        let (least, median) = (milliseconds(self.least), milliseconds(self.median));
        format!("{least:>9.2} {median:>7.2}")
    }

    /// How many times the others both are.
    pub fn ratios(&self, other: &Times) -> String {
        let ratio = |time: Duration, other: Duration| time.as_secs_f64() / other.as_secs_f64();
        let least = ratio(self.least, other.least);
        let median = ratio(self.median, other.median);
        format!("{least:>9.2} {median:>7.2}")
    }
}

/// Runs a process to its end, which is good, with its standard output into a file. Answers how long it took.
pub fn time(command: &mut Command, out: &Path) -> Duration {
    let file = File::create(out).expect("a file can be written");
    command.stdout(file);
    let started = Instant::now();
    let status = command.status();
    let taken = started.elapsed();
    let status = status.expect("the process can be run");
    assert!(status.success(), "{command:?}: {status}");
    taken
}

/// Measures a verb on an image, and prints the line.
fn measure(name: &str, verb: &str, image: &Path) {
    let this = std::env::current_exe().expect("this program has a path");
    let out = image.with_extension("out");
    let (mut whole, mut calling, mut starting, mut calls) = (vec![], vec![], vec![], vec![]);
    for _ in 0..RUNS {
        whole.push(time(Command::new(tool()).arg(verb).arg(image), &out));
        let mut command = Command::new(&this);
        calling.push(time(command.args(["calls", verb]).arg(image), &out));
        let told = fs::read_to_string(&out).expect("what the process told");
        let nanoseconds = told.trim().parse().expect("a number of nanoseconds");
        calls.push(Duration::from_nanos(nanoseconds));
        let mut command = Command::new(&this);
        starting.push(time(command.args(["calls", "none"]).arg(image), &out));
    }
    let whole = Times::of(whole);
    let calling = Times::of(calling);
    println!(
        "{name:<52}{}{}{}{}{}",
        whole.text(),
        calling.text(),
        whole.ratios(&calling),
        Times::of(starting).text(),
        Times::of(calls).text()
    );
}

/// The tool, which lies beside this program where make bench has built it.
pub fn tool() -> PathBuf {
    let this = std::env::current_exe().expect("this program has a path");
    let tool = this.with_file_name("ods1");
    assert!(tool.is_file(), "the tool is not built: run make bench");
    tool
}

/// A line: what it is called, the verb, and who makes the image.
type Line = (&'static str, &'static str, fn() -> Vec<u8>);

const LINES: [Line; 5] = [
    ("audit, RL02, 2,000 files, 50 directories", "audit", rl02),
    ("judge, RL02, 2,000 files, 50 directories", "judge", rl02),
    (
        "judge, 1,044,480 blocks, 4,079 homes passed over",
        "judge",
        || large_volume(largest_plan()).image,
    ),
    ("judge, 1,044,480 blocks, 28,910 headers", "judge", || {
        volumes_to_judge::largest().image
    }),
    ("judge, full hub, 65,535 headers", "judge", full_hub),
];

/// A station's disk.
fn rl02() -> Vec<u8> {
    station(1).volume.image
}

/// The largest disk with all numbers in use.
fn full_hub() -> Vec<u8> {
    hub(&Hub::FULL).image
}

/// Measures the lines whose name has a word.
pub fn run(word: &str) {
    let folder = Folder::new("images");
    let lines = LINES.iter().filter(|(name, ..)| name.contains(word));
    for (place, (name, verb, make)) in lines.enumerate() {
        if place == 0 {
            print_head(&["tool", "its calls", "ratio", "no call", "calls alone"]);
        }
        measure(name, verb, &folder.put("volume.dsk", &make()));
    }
    if ext2::NAME.contains(word) {
        print_head(&["tool, judge", "e2fsck -fn", "ratio"]);
        ext2::measure(&folder, &folder.put("volume.dsk", &full_hub()));
    }
}

/// Prints what stands above lines.
fn print_head(columns: &[&str]) {
    let name = format!("processes: shortest and median of {RUNS} runs, ms");
    let columns: String = columns.iter().map(|it| format!("{it:>17}")).collect();
    println!("\n{name:<52}{columns}");
}
