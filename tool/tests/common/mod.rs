//! What the tests of the tool share: a folder for each, runs of the tool in it, and what is then there.

use std::collections::BTreeMap;
use std::fs;
use std::path::Path;
use std::process::{Command, Output};

mod scratch;

pub use scratch::Scratch;
use volumes::shapes::Size;
use volumes::writable::random_volume_to_write;
use volumes::Random;

/// Volume V of the repository's samples.
pub const VOLUME_V: &[u8] = include_bytes!("../../../samples/volume-v.dsk");

/// An image of some MiB that is accepted, with files, and with free runs of every length.
pub fn large_image() -> Vec<u8> {
    random_volume_to_write(&mut Random::new(4), Size::Blocks(8_192)).image
}

/// A folder with an image in it, `v.dsk`.
pub fn folder_with(test: &str, image: &[u8]) -> Scratch {
    let scratch = Scratch::new(test);
    fs::write(scratch.path("v.dsk"), image).expect("an image can be written");
    scratch
}

/// A run of the tool that ended.
#[derive(Debug)]
pub struct Ended {
    /// The exit status; none where a signal ended the run.
    pub status: Option<i32>,
    pub out: String,
    pub err: String,
}

impl From<Output> for Ended {
    fn from(output: Output) -> Ended {
        let text = |bytes: Vec<u8>| String::from_utf8(bytes).expect("what is written is text");
        Ended {
            status: output.status.code(),
            out: text(output.stdout),
            err: text(output.stderr),
        }
    }
}

impl Ended {
    /// Sees that the run ended with trouble, and that it said just this sentence.
    #[track_caller]
    pub fn expect_trouble(&self, sentence: &str) {
        assert_eq!(self.err, format!("ods1: {sentence}\n"));
        assert_eq!((self.status, self.out.as_str()), (Some(2), ""));
    }

    /// Sees that the run ended well, and answers what it wrote.
    #[track_caller]
    pub fn expect_done(self) -> String {
        assert_eq!((self.status, self.err.as_str()), (Some(0), ""));
        self.out
    }
}

/// The tool with arguments, which blanks part, in a folder.
pub fn tool(folder: &Path, arguments: &str) -> Command {
    let mut command = Command::new(env!("CARGO_BIN_EXE_ods1"));
    command.current_dir(folder);
    command.args(arguments.split_whitespace());
    command
}

/// Runs the tool with arguments, which blanks part, in a folder.
pub fn run(folder: &Path, arguments: &str) -> Ended {
    let output = tool(folder, arguments).output();
    output.expect("the tool can be run").into()
}

/// The names in a folder, hidden ones too, with the bytes of files.
pub fn contents(folder: &Path) -> BTreeMap<String, Vec<u8>> {
    let entries = fs::read_dir(folder).expect("the folder can be read");
    let named = entries.map(|entry| {
        let entry = entry.expect("the folder can be read");
        let name = entry.file_name().into_string().expect("names are text");
        let is_file = entry.file_type().expect("the entry is there").is_file();
        let bytes = is_file.then(|| fs::read(entry.path()).expect("the file can be read"));
        (name, bytes.unwrap_or_default())
    });
    named.collect()
}
