//! Why a verb does not end well: a call was refused, or there is trouble with usage, input or output.

use std::fmt::Display;
use std::io;
use std::path::Path;

use ods1::{FileId, Refused};

use crate::refusals::Holder;

/// Why a verb does not end well.
#[derive(Debug)]
pub enum Failure {
    /// A call was refused while the verb was doing this; and whose the number that was asked for is
    /// now, where that is why.
    Refused {
        doing: String,
        refused: Refused,
        now: Option<Holder>,
    },
    /// A sentence on what is wrong.
    Trouble(String),
    /// Whoever read standard output has gone; there is nobody to tell.
    Unread,
}

impl Failure {
    /// Trouble with a file.
    pub fn with_file(path: &Path, doing: &str, error: io::Error) -> Failure {
        Failure::Trouble(format!(
            "{} cannot be {doing}: {}",
            path.display(),
            sentence(&error)
        ))
    }

    /// Trouble with standard output.
    pub fn with_output(error: io::Error) -> Failure {
        if error.kind() == io::ErrorKind::BrokenPipe {
            return Failure::Unread;
        }
        Failure::Trouble(format!(
            "standard output cannot be written: {}",
            sentence(&error)
        ))
    }
}

/// An error of the system without its number. What is written is mostly bytes of a mapped image: where
/// the system cannot read them, the trouble is with the image.
fn sentence(error: &io::Error) -> String {
    if error.raw_os_error() == Some(libc::EFAULT) {
        return "the image was cut short meanwhile, or its disk failed".into();
    }
    let text = error.to_string();
    match text.split_once(" (os error") {
        Some((words, _)) => String::from(words),
        None => text,
    }
}

/// What a verb comes to.
pub type Outcome<Value> = Result<Value, Failure>;

/// Says what was being done where a call is refused.
pub trait While<Value> {
    fn while_doing(self, doing: impl Display) -> Outcome<Value>;
}

impl<Value> While<Value> for ods1::Answer<Value> {
    fn while_doing(self, doing: impl Display) -> Outcome<Value> {
        self.map_err(|refused| Failure::Refused {
            doing: doing.to_string(),
            refused,
            now: None,
        })
    }
}

/// Opens a file with one of the calls that do, and says whose the number is now where that refuses it.
pub fn open<Value>(
    image: &[u8],
    id: FileId,
    call: impl FnOnce(&[u8], FileId) -> ods1::Answer<Value>,
) -> Outcome<Value> {
    call(image, id).map_err(|refused| Failure::Refused {
        doing: format!("opening {id}"),
        refused,
        now: Holder::after(image, id, refused),
    })
}
