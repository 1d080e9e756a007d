//! Files that are written: whole, or not at all.
//!
//! What is written goes to a hidden file in the target's folder, is brought to disk, and then takes
//! the target's name in one step. Whatever fails before that step, the target is as it was and the
//! hidden file is removed. Signals keep their default behaviour: a program that is killed leaves the
//! target as it was or as it is to be, and at most the hidden file, `.NAME.PROCESS.NUMBER.part`,
//! which nothing reads and anybody may delete.

use std::ffi::{CString, OsString};
use std::fs::{self, File, Metadata, OpenOptions};
use std::io::{self, ErrorKind, Write};
use std::os::unix::ffi::{OsStrExt, OsStringExt};
use std::os::unix::fs::{fchown, MetadataExt, OpenOptionsExt};
use std::path::{Path, PathBuf};

use crate::failure::{Failure, Outcome};
use crate::in_place::Locked;
use crate::progress::Progress;

/// How many bytes are written between two steps of the progress.
const PIECE: usize = 4 << 20;

/// How many bytes of the target's name the hidden name has: a name has at most 255.
const KEPT: usize = 200;

/// The permissions that a file has while it is written in another's place, and those that a new one
/// is made with, less the user's mask.
const PRIVATE: u32 = 0o600;
const USUAL: u32 = 0o666;

/// Writes the parts to a file, one after the other. A file that exists is replaced only if `force`
/// says so, and then lends its owner and permissions; where it is a link, the file that it leads to is
/// replaced. The image that was read never is.
pub fn write_new<'a>(
    path: &Path,
    parts: impl Iterator<Item = &'a [u8]> + Clone,
    force: bool,
    image: &Path,
) -> Outcome<()> {
    let trouble = |error| failure(path, error);
    let replaced = replaced(path, force, image)?;
    let target = match replaced {
        Some(_) => fs::canonicalize(path).map_err(trouble)?,
        None => path.to_path_buf(),
    };
    let hidden = Hidden::written(&target, parts, replaced.as_ref()).map_err(trouble)?;
    let renamed = if force {
        hidden.replace_target()
    } else {
        hidden.take_free_name()
    };
    renamed.map_err(trouble)?;
    sync_folder(&target)
}

/// Writes the changed bytes of an image in the image's place. A link to the image stays a link; another
/// name of its file, a hard link, keeps the bytes as they were.
pub fn write_in_place(image: &Locked, bytes: &[u8]) -> Outcome<()> {
    let trouble = |error| failure(&image.given, error);
    let about = image.file.metadata().map_err(trouble)?;
    let hidden = Hidden::written(&image.path, std::iter::once(bytes), Some(&about));
    let hidden = hidden.map_err(trouble)?;
    image.see_it_is_current()?;
    hidden.replace_target().map_err(trouble)?;
    sync_folder(&image.path)
}

/// What the system says of the file that is to be replaced, where there is one. Trouble where there
/// is something that may not be replaced.
fn replaced(path: &Path, force: bool, image: &Path) -> Outcome<Option<Metadata>> {
    let Ok(about) = fs::metadata(path) else {
        let is_free = force || fs::symlink_metadata(path).is_err();
        return if is_free { Ok(None) } else { Err(exists(path)) };
    };
    let shown = path.display();
    if fs::metadata(image).is_ok_and(|image| is_same_file(&image, &about)) {
        return Err(Failure::Trouble(format!(
            "{shown} is the image itself. No verb changes its input image without --in-place"
        )));
    }
    if about.is_dir() {
        return Err(Failure::Trouble(format!(
            "{shown} is a directory, and not a file to write"
        )));
    }
    if !about.is_file() {
        return Err(Failure::Trouble(format!(
            "{shown} is not an ordinary file, and only such are replaced"
        )));
    }
    if !force {
        return Err(exists(path));
    }
    Ok(Some(about))
}

/// Whether two files are one, whatever their names.
pub fn is_same_file(one: &Metadata, other: &Metadata) -> bool {
    (one.dev(), one.ino()) == (other.dev(), other.ino())
}

fn exists(path: &Path) -> Failure {
    Failure::Trouble(format!(
        "{} exists: give another name, or --force to replace it",
        path.display()
    ))
}

/// Trouble with writing a file.
fn failure(path: &Path, error: io::Error) -> Failure {
    match error.kind() {
        ErrorKind::AlreadyExists => exists(path),
        ErrorKind::NotFound => Failure::Trouble(format!(
            "{} cannot be written: its folder does not exist",
            path.display()
        )),
        _ => Failure::with_file(path, "written", error),
    }
}

/// A file under a hidden name, in the folder of the target whose name it is to take. It is removed
/// unless it took that name.
struct Hidden<'a> {
    path: PathBuf,
    target: &'a Path,
    file: File,
    is_there: bool,
}

impl Hidden<'_> {
    /// One with these parts, and with the owner and permissions of the file that it is to replace,
    /// brought to disk.
    fn written<'a, 'b>(
        target: &'a Path,
        parts: impl Iterator<Item = &'b [u8]> + Clone,
        replaced: Option<&Metadata>,
    ) -> io::Result<Hidden<'a>> {
        let hidden = Hidden::beside(target, replaced.map_or(USUAL, |_| PRIVATE))?;
        hidden.fill(parts)?;
        if let Some(replaced) = replaced {
            hidden.dress_as(replaced)?;
        }
        hidden.file.sync_all()?;
        Ok(hidden)
    }

    /// A new one that is empty, with these permissions.
    fn beside(target: &Path, mode: u32) -> io::Result<Hidden<'_>> {
        let mut options = OpenOptions::new();
        options.write(true).create_new(true).mode(mode);
        let mut number = 0;
        loop {
            let path = hidden_path(target, number)?;
            match options.open(&path) {
                Err(error) if error.kind() == ErrorKind::AlreadyExists => number += 1,
                Err(error) => return Err(error),
                Ok(file) => {
                    return Ok(Hidden {
                        path,
                        target,
                        file,
                        is_there: true,
                    })
                }
            }
        }
    }

    /// Writes the parts, and shows how far that is. The system takes the bytes from where they are, so
    /// that an image that is cut short meanwhile is an error of the write, and ends nothing.
    fn fill<'a>(&self, parts: impl Iterator<Item = &'a [u8]> + Clone) -> io::Result<()> {
        let total = parts.clone().map(|part| part.len() as u64).sum();
        let mut progress = Progress::new("writing", total);
        let mut out = &self.file;
        for piece in parts.flat_map(|part| part.chunks(PIECE)) {
            out.write_all(piece)?;
            progress.step(piece.len() as u64);
        }
        Ok(())
    }

    /// Gives it the permissions of another file, and its owner and group, or its group alone, where
    /// the user may give files away.
    fn dress_as(&self, other: &Metadata) -> io::Result<()> {
        let group = Some(other.gid());
        let _ = fchown(&self.file, Some(other.uid()), group)
            .or_else(|_| fchown(&self.file, None, group));
        self.file.set_permissions(other.permissions())
    }

    /// Takes the target's name, whatever has it.
    fn replace_target(mut self) -> io::Result<()> {
        fs::rename(&self.path, self.target)?;
        self.is_there = false;
        Ok(())
    }

    /// Takes the target's name if nothing has it.
    fn take_free_name(mut self) -> io::Result<()> {
        rename_to_free_name(&self.path, self.target)?;
        self.is_there = false;
        Ok(())
    }
}

impl Drop for Hidden<'_> {
    fn drop(&mut self) {
        if self.is_there {
            // There is nobody to tell, and what went wrong before is told.
            let _ = fs::remove_file(&self.path);
        }
    }
}

/// The hidden path beside a target, of this process and with this number.
fn hidden_path(target: &Path, number: u32) -> io::Result<PathBuf> {
    let no_name = || io::Error::new(ErrorKind::InvalidInput, "this names no file");
    let name = target.file_name().ok_or_else(no_name)?.as_bytes();
    let mut hidden = vec![b'.'];
    hidden.extend_from_slice(&name[..name.len().min(KEPT)]);
    hidden.extend_from_slice(format!(".{}.{number}.part", std::process::id()).as_bytes());
    Ok(target.with_file_name(OsString::from_vec(hidden)))
}

/// Renames a file in one step, if nothing has the new name.
fn rename_to_free_name(from: &Path, to: &Path) -> io::Result<()> {
    let c_string = |path: &Path| CString::new(path.as_os_str().as_bytes());
    let (old, new) = (c_string(from)?, c_string(to)?);
    let (here, flags) = (libc::AT_FDCWD, libc::RENAME_NOREPLACE);
    // SAFETY: both names end with a zero byte, and outlive the call.
    let status = unsafe { libc::renameat2(here, old.as_ptr(), here, new.as_ptr(), flags) };
    if status == 0 {
        return Ok(());
    }
    let error = io::Error::last_os_error();
    match error.raw_os_error() {
        Some(libc::EINVAL | libc::ENOSYS) => rename_after_check(from, to),
        _ => Err(error),
    }
}

/// Renames a file if nothing has the new name, where the file system cannot do both in one step.
fn rename_after_check(from: &Path, to: &Path) -> io::Result<()> {
    if fs::symlink_metadata(to).is_ok() {
        return Err(ErrorKind::AlreadyExists.into());
    }
    fs::rename(from, to)
}

/// Brings the names in a file's folder to disk, where the folder may be read and its file system can.
fn sync_folder(path: &Path) -> Outcome<()> {
    use ErrorKind::{InvalidInput, PermissionDenied, Unsupported};
    let folder = match path.parent() {
        Some(parent) if parent != Path::new("") => parent,
        _ => Path::new("."),
    };
    let synced = File::open(folder).and_then(|folder| folder.sync_all());
    synced.or_else(|error| match error.kind() {
        InvalidInput | PermissionDenied | Unsupported => Ok(()),
        _ => Err(Failure::with_file(
            folder,
            "brought to disk, though the new file is in it",
            error,
        )),
    })
}

#[cfg(test)]
mod tests {
    use super::*;
    use crate::scratch::Scratch;

    /// The names in a folder, hidden ones too.
    fn names(scratch: &Scratch) -> Vec<OsString> {
        let entries = fs::read_dir(scratch.folder()).expect("the folder can be read");
        let mut names: Vec<OsString> = entries
            .map(|entry| entry.expect("an entry").file_name())
            .collect();
        names.sort();
        names
    }

    #[test]
    fn both_ways_to_rename_leave_what_is_there() {
        for rename in [rename_to_free_name, rename_after_check] {
            let scratch = Scratch::new("rename");
            let [from, to] = ["from", "to"].map(|name| scratch.path(name));
            fs::write(&from, "new").expect("a file can be written");
            fs::write(&to, "old").expect("a file can be written");
            let refused = rename(&from, &to).expect_err("the name is taken");
            assert_eq!(refused.kind(), ErrorKind::AlreadyExists);
            assert_eq!(fs::read(&to).expect("the file is there"), b"old");
            fs::remove_file(&to).expect("the file can be removed");
            rename(&from, &to).expect("the name is free");
            assert_eq!(fs::read(&to).expect("the file is there"), b"new");
            assert_eq!(names(&scratch), ["to"]);
        }
    }

    #[test]
    fn a_target_that_appears_meanwhile_stays() {
        let scratch = Scratch::new("meanwhile");
        let target = scratch.path("target");
        let parts = [b"new".as_slice()];
        let hidden = Hidden::written(&target, parts.into_iter(), None).expect("it can be written");
        assert_eq!(names(&scratch).len(), 1);
        fs::write(&target, "another's").expect("a file can be written");
        let refused = hidden.take_free_name().expect_err("the name is taken");
        assert_eq!(refused.kind(), ErrorKind::AlreadyExists);
        assert_eq!(fs::read(&target).expect("the file is there"), b"another's");
        assert_eq!(names(&scratch), ["target"]);
    }

    #[test]
    fn a_hidden_file_that_was_left_is_no_obstacle() {
        let scratch = Scratch::new("left");
        let target = scratch.path(&"n".repeat(255));
        let left = hidden_path(&target, 0).expect("the target has a name");
        fs::write(&left, "left").expect("a file can be written");
        let parts = [b"new".as_slice(), b"er"];
        let image = scratch.path("image");
        write_new(&target, parts.into_iter(), false, &image).expect("it can be written");
        assert_eq!(fs::read(&target).expect("the file is there"), b"newer");
        assert_eq!(fs::read(&left).expect("the file is there"), b"left");
        assert_eq!(names(&scratch).len(), 2);
    }
}
