//! Safe calls of `libods1.a`, the proved library for Files-11 ODS-1 disk images.
//!
//! An image is a slice of bytes, 512 for each block. A call answers its value, or [`Refused`] with
//! the number, name and place of the rules' table of answers; a refused call changes no byte.
//!
//! ```
//! # fn main() -> Result<(), Box<dyn std::error::Error>> {
//! let image = std::fs::read("../../samples/volume-v.dsk")?;
//! let name = ods1::text_to_name("READS.DAT;1")?;
//! let id = ods1::look_up(&image, ods1::FileId::MASTER, name)?;
//! assert_eq!(id, ods1::FileId::of(6, 9, 0));
//! assert_eq!(ods1::open_file(&image, id)?, 3);
//! assert_eq!(ods1::map(&image, id, 2)?, 31);
//! # Ok(())
//! # }
//! ```
//!
//! [`words`] has the same calls with the answer's twelve words as the library writes them.

mod answer;
mod calls;
mod exported;
#[doc(hidden)]
pub mod kinds;
mod types;
pub mod words;

pub use answer::{Answer, Refusal, Refused};
pub use calls::{
    attributes, block, create, delete, extend, extent, free_run, free_runs, geometry, header,
    judge, label, look_up, map, name_to_text, next_record, open_file, open_volume, pointer,
    records, text_to_name,
};
pub use types::{
    Attributes, Counts, Extent, FileId, Geometry, Header, Label, Name, NotAnId, Record, WorkAreas,
    BLOCK, MOST_NUMBERS,
};
