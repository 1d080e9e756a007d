//! A folder for what a run makes.

use std::fs;
use std::path::{Path, PathBuf};
use std::process::id;

/// A folder among the temporary files, removed when this is dropped.
pub struct Folder(PathBuf);

impl Folder {
    /// A folder for some purpose, of which there is one at a time.
    pub fn new(purpose: &str) -> Folder {
        let path = std::env::temp_dir().join(format!("ods1-bench-{purpose}-{}", id()));
        fs::create_dir(&path).expect("a folder can be made");
        Folder(path)
    }

    /// The path of a name in it.
    pub fn path(&self, name: impl AsRef<Path>) -> PathBuf {
        self.0.join(name)
    }

    /// Writes an image.
    pub fn put(&self, name: &str, image: &[u8]) -> PathBuf {
        let path = self.path(name);
        fs::write(&path, image).expect("an image can be written");
        path
    }
}

impl Drop for Folder {
    fn drop(&mut self) {
        // What stays is in the folder of temporary files.
        let _ = fs::remove_dir_all(&self.0);
    }
}
