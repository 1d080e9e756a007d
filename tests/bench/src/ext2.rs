//! The tool's verdict against `e2fsck -fn` on an ext2 image of the same size.
//!
//! The image has as many inodes as a volume can have headers, all of them in use, and files as long as
//! those of the full hub. What the two programs test is not the same: e2fsck reads the directories too,
//! which the verdict does not, and an inode has no checksum here.

use crate::folder::Folder;
use crate::tool::{time, tool, Times, RUNS};
use std::fs;
use std::path::{Path, PathBuf};
use std::process::{Command, Stdio};

/// What the line is called.
pub const NAME: &str = "full hub, 65,535 headers; ext2, 65,536 inodes";

/// The blocks of the image, of 1,024 bytes, and its inodes.
const BLOCKS: u32 = 522_240;
const INODES: u32 = 65_536;

/// The inodes that are in use before there are files: ten that ext2 keeps, and `lost+found`.
const FIRST_INODES: u32 = 11;

/// The directories that the files are in.
const DIRECTORIES: u32 = 256;

/// A program of e2fsprogs, if it is installed. Where it is, is not always on the path.
fn program(name: &str) -> Option<PathBuf> {
    let path = std::env::var_os("PATH").unwrap_or_default();
    let folders = std::env::split_paths(&path);
    let folders = folders.chain(["/usr/sbin", "/sbin"].map(PathBuf::from));
    folders.map(|it| it.join(name)).find(|it| it.is_file())
}

/// Makes the image, and answers where it is, if mke2fs can make one of a folder's files.
fn make_image(mke2fs: &Path, folder: &Folder) -> Option<PathBuf> {
    let files = folder.path("files");
    let directory = |number: u32| files.join(format!("D{:03}", number % DIRECTORIES));
    for number in 0..DIRECTORIES {
        fs::create_dir_all(directory(number)).expect("a folder can be made");
    }
    for number in 0..INODES - FIRST_INODES - DIRECTORIES {
        let bytes = vec![b'0'; 512 * (number as usize % 4)];
        let path = directory(number).join(format!("F{number:05}.DAT"));
        fs::write(path, bytes).expect("a file can be written");
    }
    let image = folder.path("ext2.img");
    let mut make = Command::new(mke2fs);
    make.args(["-q", "-t", "ext2", "-b", "1024", "-m", "0"]);
    make.args(["-N", &INODES.to_string(), "-d"]).arg(&files);
    make.arg(&image).arg(BLOCKS.to_string());
    let status = make.stdout(Stdio::null()).status();
    let status = status.expect("mke2fs can be run");
    fs::remove_dir_all(files).expect("the files can be removed");
    status.success().then_some(image)
}

/// Measures both on their images, and prints the line.
pub fn measure(folder: &Folder, volume: &Path) {
    let (Some(e2fsck), Some(mke2fs)) = (program("e2fsck"), program("mke2fs")) else {
        println!("{NAME:<52} e2fsck is not here");
        return;
    };
    let Some(image) = make_image(&mke2fs, folder) else {
        println!("{NAME:<52} mke2fs does not make the image");
        return;
    };
    let out = folder.path("out");
    let (mut judging, mut checking) = (vec![], vec![]);
    for _ in 0..RUNS {
        judging.push(time(Command::new(tool()).arg("judge").arg(volume), &out));
        let mut command = Command::new(&e2fsck);
        let command = command.arg("-fn").arg(&image).stderr(Stdio::null());
        checking.push(time(command, &out));
    }
    let (judging, checking) = (Times::of(judging), Times::of(checking));
    println!(
        "{NAME:<52}{}{}{}",
        judging.text(),
        checking.text(),
        judging.ratios(&checking)
    );
}
