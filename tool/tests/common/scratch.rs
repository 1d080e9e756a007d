//! A folder for one test, removed with all that is in it when the test ends.

use std::fs;
use std::path::{Path, PathBuf};
use std::sync::atomic::{AtomicU32, Ordering};

static MADE: AtomicU32 = AtomicU32::new(0);

pub struct Scratch(PathBuf);

impl Scratch {
    /// A new folder that is empty.
    pub fn new(test: &str) -> Scratch {
        let number = MADE.fetch_add(1, Ordering::Relaxed);
        let name = format!("ods1-{test}-{}-{number}", std::process::id());
        let path = std::env::temp_dir().join(name);
        fs::create_dir(&path).expect("a folder can be made");
        Scratch(path)
    }

    /// The folder.
    pub fn folder(&self) -> &Path {
        &self.0
    }

    /// The path of a name in the folder.
    pub fn path(&self, name: &str) -> PathBuf {
        self.0.join(name)
    }
}

impl Drop for Scratch {
    fn drop(&mut self) {
        // A test that failed has said so; what stays is in the folder of temporary files.
        let _ = fs::remove_dir_all(&self.0);
    }
}
