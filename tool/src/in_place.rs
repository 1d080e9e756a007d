//! Images that are changed in place: locked meanwhile, so that of two changes at once none is lost.

use std::fs::{self, File, OpenOptions, TryLockError};
use std::path::{Path, PathBuf};

use crate::failure::{Failure, Outcome};
use crate::image;
use crate::save::is_same_file;

/// An image that no other program that asks for the lock changes until this is dropped.
pub struct Locked {
    /// The path that the user gave.
    pub given: PathBuf,
    /// The image's own path, which no link is.
    pub path: PathBuf,
    /// Its file, open to be read.
    pub file: File,
}

impl Locked {
    /// Locks an image that may be written, before anything of it is read.
    pub fn open(given: &Path) -> Outcome<Locked> {
        let about = image::see_it_is_ordinary(given)?;
        if about.permissions().readonly() {
            return Err(Failure::Trouble(format!(
                "{} is read-only: make it writable, or write to another file with -o",
                given.display()
            )));
        }
        Locked::unlocked(given)?.lock()
    }

    /// Opens an image to be changed.
    fn unlocked(given: &Path) -> Outcome<Locked> {
        let trouble = |error| Failure::with_file(given, "opened to be changed", error);
        let path = fs::canonicalize(given).map_err(trouble)?;
        let file = OpenOptions::new().read(true).write(true).open(&path);
        Ok(Locked {
            given: given.into(),
            path,
            file: file.map_err(trouble)?,
        })
    }

    /// Takes the lock. Whoever opened the image just before another program put a changed one in its
    /// place gets the lock of the old one: hence the look at the name after it.
    fn lock(self) -> Outcome<Locked> {
        match self.file.try_lock() {
            Ok(()) => self.see_it_is_current()?,
            Err(TryLockError::WouldBlock) => return Err(self.taken()),
            Err(TryLockError::Error(error)) => {
                return Err(Failure::with_file(&self.given, "locked", error))
            }
        }
        Ok(self)
    }

    /// Trouble where the path names another file than the locked one.
    pub fn see_it_is_current(&self) -> Outcome<()> {
        let named = fs::metadata(&self.path);
        let locked = self
            .file
            .metadata()
            .map_err(|error| Failure::with_file(&self.given, "read", error))?;
        if named.is_ok_and(|named| is_same_file(&named, &locked)) {
            return Ok(());
        }
        Err(self.taken())
    }

    fn taken(&self) -> Failure {
        Failure::Trouble(format!(
            "another program is changing {}",
            self.given.display()
        ))
    }
}

#[cfg(test)]
mod tests {
    use super::*;
    use crate::save::write_in_place;
    use crate::scratch::Scratch;

    /// Puts another file in an image's place, as a program that does not ask for the lock may.
    fn put_another(scratch: &Scratch) {
        let other = scratch.path("other");
        fs::write(&other, "another's").expect("a file can be written");
        fs::rename(other, scratch.path("image")).expect("a file can be renamed");
    }

    fn expect_taken<Value>(outcome: Outcome<Value>, image: &Path) {
        let sentence = format!("another program is changing {}", image.display());
        assert!(matches!(outcome, Err(Failure::Trouble(told)) if told == sentence));
        assert_eq!(fs::read(image).expect("the image is there"), b"another's");
    }

    #[test]
    fn an_image_that_was_replaced_before_the_lock() {
        let scratch = Scratch::new("before");
        let image = scratch.path("image");
        fs::write(&image, "old").expect("an image can be written");
        let unlocked = Locked::unlocked(&image).expect("the image opens");
        put_another(&scratch);
        expect_taken(unlocked.lock(), &image);
    }

    #[test]
    fn an_image_that_was_replaced_after_the_lock() {
        let scratch = Scratch::new("after");
        let image = scratch.path("image");
        fs::write(&image, "old").expect("an image can be written");
        let locked = Locked::open(&image).expect("the image opens");
        put_another(&scratch);
        expect_taken(write_in_place(&locked, b"new"), &image);
        let entries = fs::read_dir(scratch.folder()).expect("the folder can be read");
        assert_eq!(entries.count(), 1);
    }
}
