//! What a list of create, extend and delete calls leaves of a file that it does not name, and of the
//! slots.

use crate::file::Id;
use crate::header::{Header, Pointer};
use crate::image::{FileNumber, Lbn};
use crate::volume::{self, Volume};

/// A file as it is at the start of a list: its number and its H.FSEQ.
#[derive(Clone, Copy, Debug, PartialEq, Eq)]
pub struct File {
    pub number: FileNumber,
    pub sequence: u64,
}

impl File {
    /// Paper 01, "Demand 3, its words and its list": "A call names a file where its ID has the number
    /// and the H.FSEQ that the file had at the start."
    pub fn is_named_by(&self, id: Id) -> bool {
        self.number.0 == u64::from(id.number) && self.sequence == u64::from(id.sequence)
    }
}

/// The headers in use with their numbers. Paper 01, "Demand 3, its words and its list": "A header in
/// use is that of a number in use."
fn headers_in_use<'a>(volume: &Volume<'a>) -> Vec<(FileNumber, Header<'a>)> {
    let numbers = (1..=volume.h_fmax()).map(FileNumber);
    let in_use = numbers.filter(|&n| volume.in_use(n));
    in_use.filter_map(|n| Some((n, volume.slot(n)?))).collect()
}

/// The files that a list is to keep, but for those that it names. Paper 00, demand 3: "Every file
/// numbered above 5 that was in use at the start with a header of segment 0".
pub fn files(bytes: &[u8]) -> Vec<File> {
    let volume = volume::open(bytes).expect("an accepted image opens");
    let mut headers = headers_in_use(&volume);
    headers.retain(|(n, header)| n.0 > 5 && header.segment() == 0);
    headers
        .into_iter()
        .map(|(number, header)| File {
            number,
            sequence: header.h_fseq(),
        })
        .collect()
}

/// The blocks of a file that is in use, in order: LBN and bytes. Paper 01, "Demand 3, its words and
/// its list": "A file's blocks are the LBNs of its VBNs, from 1 to the last". Paper 01, "The header":
/// "VBNs run through its pointers in order." A flag that refuses access changes no block.
pub fn blocks<'a>(volume: &Volume<'a>, file: File) -> Option<Vec<(Lbn, &'a [u8])>> {
    let first = volume.slot(file.number)?;
    let is_it = volume.in_use(file.number) && first.h_fseq() == file.sequence;
    if !is_it || first.segment() != 0 || !first.is_whole(file.number, volume.image().blocks()) {
        return None;
    }
    let chain = volume.chain(first).ok()?;
    let pointers: Vec<Pointer> = chain.iter().flat_map(Header::pointers).collect();
    let lbns = pointers.iter().flat_map(Pointer::lbns);
    Some(lbns.map(|lbn| (lbn, volume.image().block(lbn))).collect())
}

/// Whether a file is kept. Paper 00, demand 3: "is in use after it and maps the same blocks in the
/// same order with the same bytes." Paper 01, "Demand 3, its words and its list": "they and their
/// bytes are the same before the list and after it."
pub fn is_kept(before: &[u8], after: &[u8], file: File) -> bool {
    not_kept(before, after, &[file]).is_none()
}

/// The first of some files that is not kept.
pub fn not_kept(before: &[u8], after: &[u8], files: &[File]) -> Option<File> {
    let before = volume::open(before).expect("an accepted image opens");
    let after = volume::open(after);
    let is_kept = |file: &File| {
        let was = blocks(&before, *file);
        let is = after.as_ref().ok().and_then(|after| blocks(after, *file));
        was.is_some() && is == was
    };
    files.iter().find(|file| !is_kept(file)).copied()
}

/// The word at byte 4 of each slot of a number up to H.FMAX, number 1 first. Paper 01, "The verdict":
/// "word at byte 4 of the slot", "its slots 0 but for the sequence word". No call makes one lower.
pub fn slot_words(bytes: &[u8]) -> Vec<u64> {
    let volume = volume::open(bytes).expect("an accepted image opens");
    let numbers = (1..=volume.h_fmax()).map(FileNumber);
    numbers
        .map_while(|n| volume.slot(n))
        .map(|slot| slot.h_fseq())
        .collect()
}
