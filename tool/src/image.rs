//! Images as they are read: mapped, and never written to.

use std::fs::{File, Metadata};
use std::ops::{Deref, DerefMut};
use std::path::Path;

use memmap2::{Mmap, MmapMut, MmapOptions};

use crate::failure::{Failure, Outcome};

/// An image to read.
pub struct Image(Option<Mmap>);

/// An image to change: a copy in memory, of which the file knows nothing.
pub struct Copy(Option<MmapMut>);

/// Sees that a path names an ordinary file, as images are, and answers what the system says of it.
pub fn see_it_is_ordinary(path: &Path) -> Outcome<Metadata> {
    let about =
        std::fs::metadata(path).map_err(|error| Failure::with_file(path, "opened", error))?;
    if about.is_dir() {
        return Err(Failure::Trouble(format!(
            "{} is a directory, and not an image",
            path.display()
        )));
    }
    if !about.is_file() {
        return Err(Failure::Trouble(format!(
            "{} is not an ordinary file, and images are read from such",
            path.display()
        )));
    }
    Ok(about)
}

/// Opens a file that can be an image, to read it.
pub fn open_file(path: &Path) -> Outcome<File> {
    see_it_is_ordinary(path)?;
    File::open(path).map_err(|error| Failure::with_file(path, "opened", error))
}

/// The length of a file, to be mapped.
fn length(path: &Path, file: &File) -> Outcome<usize> {
    let about = file
        .metadata()
        .map_err(|error| Failure::with_file(path, "read", error))?;
    usize::try_from(about.len())
        .map_err(|_| Failure::Trouble(format!("{} is too long to be an image", path.display())))
}

impl Image {
    /// Maps an image.
    pub fn open(path: &Path) -> Outcome<Image> {
        let file = open_file(path)?;
        let length = length(path, &file)?;
        if length == 0 {
            return Ok(Image(None));
        }
        // SAFETY: the bytes are read as they stand in the file. Whoever changes the file meanwhile
        // changes what is read; a file that is cut short meanwhile ends the program (`guard`).
        let map = unsafe { MmapOptions::new().len(length).map(&file) };
        let map = map.map_err(|error| Failure::with_file(path, "read", error))?;
        Ok(Image(Some(map)))
    }
}

impl Deref for Image {
    type Target = [u8];

    fn deref(&self) -> &[u8] {
        self.0.as_deref().unwrap_or(&[])
    }
}

impl Copy {
    /// Maps a file for changes that stay in memory.
    pub fn of(path: &Path, file: &File) -> Outcome<Copy> {
        let length = length(path, file)?;
        if length == 0 {
            return Ok(Copy(None));
        }
        // SAFETY: as above; what is written goes to pages of the program's own.
        let map = unsafe { MmapOptions::new().len(length).map_copy(file) };
        let map = map.map_err(|error| Failure::with_file(path, "read", error))?;
        Ok(Copy(Some(map)))
    }
}

impl Deref for Copy {
    type Target = [u8];

    fn deref(&self) -> &[u8] {
        self.0.as_deref().unwrap_or(&[])
    }
}

impl DerefMut for Copy {
    fn deref_mut(&mut self) -> &mut [u8] {
        self.0.as_deref_mut().unwrap_or(&mut [])
    }
}

/// What is said where the image cannot be read any more.
const LOST: &[u8] = b"ods1: the image could not be read to its end: it was cut short meanwhile, or its disk failed\n";

/// Ends the program with status 2 where a mapped image cannot be read: its file was cut short, or its
/// disk failed.
pub fn guard() {
    extern "C" fn lost(_: libc::c_int) {
        // SAFETY: both calls may be made from a handler, and the bytes are those of a constant.
        unsafe {
            libc::write(2, LOST.as_ptr().cast(), LOST.len());
            libc::_exit(2);
        }
    }
    let handler: extern "C" fn(libc::c_int) = lost;
    // SAFETY: the handler makes only calls that a handler may make.
    unsafe { libc::signal(libc::SIGBUS, handler as libc::sighandler_t) };
}

#[cfg(test)]
mod tests {
    use super::*;
    use crate::scratch::Scratch;
    use std::io::{pipe, Read};
    use std::os::fd::AsRawFd;

    #[test]
    fn an_image_that_is_cut_short_ends_the_program() {
        let scratch = Scratch::new("guard");
        let path = scratch.path("image");
        std::fs::write(&path, [1; 512]).expect("an image can be written");
        let image = Image::open(&path).expect("the image is read");
        let file = File::options().write(true).open(&path);
        file.and_then(|file| file.set_len(0))
            .expect("the image can be cut");
        let (mut reader, writer) = pipe().expect("a pipe can be made");
        // SAFETY: the new process makes only calls that a handler may make, and reads one byte.
        let child = unsafe { libc::fork() };
        if child == 0 {
            guard();
            // SAFETY: as above; the byte's page is mapped, and its file has it no more.
            unsafe {
                libc::dup2(writer.as_raw_fd(), 2);
                libc::_exit(image.as_ptr().read_volatile().into());
            }
        }
        drop(writer);
        let mut told = Vec::new();
        reader.read_to_end(&mut told).expect("the pipe can be read");
        let mut status = 0;
        // SAFETY: the status outlives the call.
        let ended = unsafe { libc::waitpid(child, &mut status, 0) };
        assert_eq!(ended, child);
        assert!(libc::WIFEXITED(status) && libc::WEXITSTATUS(status) == 2);
        assert_eq!(told, LOST);
    }
}
