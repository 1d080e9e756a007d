//! The calls, with what they answer read from the twelve words.

use crate::answer::{values, Answer};
use crate::types::{
    Attributes, Counts, Extent, FileId, Geometry, Header, Label, Name, Record, WorkAreas,
};
use crate::words::{self, Words, ANSWER_WORDS};

/// The room that every name's text fits in.
const TEXT: usize = 19;

/// Makes a call, and reads its answer.
fn answer_of(call: impl FnOnce(&mut Words)) -> Answer<[u64; 10]> {
    let mut answer = [0; ANSWER_WORDS];
    call(&mut answer);
    values(answer)
}

/// A value word as a 16-bit word; the library's contracts say which value words are.
fn word(value: u64) -> u16 {
    value.try_into().expect("the value is a word")
}

/// A value word as a 32-bit number.
fn long(value: u64) -> u32 {
    value.try_into().expect("the value has 32 bits")
}

fn id_of(value: &[u64]) -> FileId {
    FileId::of(word(value[0]), word(value[1]), word(value[2]))
}

fn name_of(value: &[u64]) -> Name {
    Name([0, 1, 2, 3, 4].map(|place: usize| word(value[place])))
}

fn extent_of(value: [u64; 10]) -> Extent {
    Extent {
        lbn: long(value[0]),
        blocks: long(value[1]),
    }
}

/// The name of a text `NAME.TYP;V`.
pub fn text_to_name(text: &str) -> Answer<Name> {
    let value = answer_of(|answer| words::text_to_name(text.as_bytes(), answer))?;
    Ok(name_of(&value))
}

/// The text of a name.
pub fn name_to_text(name: Name) -> Answer<String> {
    let mut text = [0; TEXT];
    let [length, ..] = answer_of(|answer| words::name_to_text(name.0, &mut text, answer))?;
    let text = &text[..long(length) as usize];
    Ok(
        String::from_utf8(text.to_vec())
            .expect("a name's text is of capitals, digits, `.` and `;`"),
    )
}

/// The LBN of a volume's home.
pub fn open_volume(image: &[u8]) -> Answer<u32> {
    let [home, ..] = answer_of(|answer| words::open_volume(image, answer))?;
    Ok(long(home))
}

/// How many blocks a file has.
pub fn open_file(image: &[u8], id: FileId) -> Answer<u32> {
    let [blocks, ..] = answer_of(|answer| words::open_file(image, id.words(), answer))?;
    Ok(long(blocks))
}

/// The LBN of a file's VBN.
pub fn map(image: &[u8], id: FileId, vbn: u32) -> Answer<u32> {
    let [lbn, ..] = answer_of(|answer| words::map(image, id.words(), vbn, answer))?;
    Ok(long(lbn))
}

/// The block of a file's VBN: the image's own bytes.
pub fn block(image: &[u8], id: FileId, vbn: u32) -> Answer<&[u8]> {
    let [start, length, ..] = answer_of(|answer| words::block(image, id.words(), vbn, answer))?;
    let start = usize::try_from(start).expect("the block lies in the image");
    Ok(&image[start..start + long(length) as usize])
}

/// The ID that a directory has under a name, as it is stored.
pub fn look_up(image: &[u8], directory: FileId, name: Name) -> Answer<FileId> {
    let value = answer_of(|answer| words::look_up(image, directory.words(), name.0, answer))?;
    Ok(id_of(&value))
}

/// The first record of a directory that is not empty, from a place on, and the place to go on from.
pub fn next_record(image: &[u8], directory: FileId, place: u32) -> Answer<(Record, u32)> {
    let value = answer_of(|answer| words::next_record(image, directory.words(), place, answer))?;
    let record = Record {
        id: id_of(&value),
        name: name_of(&value[3..]),
    };
    Ok((record, long(value[8])))
}

/// The records of a directory that are not empty, in order; none where it does not open.
pub fn records(image: &[u8], directory: FileId) -> impl Iterator<Item = Record> + '_ {
    let mut place = 0;
    std::iter::from_fn(move || {
        let (record, next) = next_record(image, directory, place).ok()?;
        place = next;
        Some(record)
    })
}

/// The verdict.
pub fn judge(image: &[u8], areas: &mut WorkAreas) -> Answer<Counts> {
    let WorkAreas { blocks, headers } = areas;
    let value = answer_of(|answer| words::judge(image, blocks, headers, answer))?;
    let [blocks, claimed, free, headers, ..] = value;
    Ok(Counts {
        blocks,
        claimed,
        free,
        headers,
    })
}

/// A new file of no blocks.
pub fn create(
    image: &mut [u8],
    name: Name,
    owner: u16,
    protection: u16,
    areas: &mut WorkAreas,
) -> Answer<FileId> {
    let WorkAreas { blocks, headers } = areas;
    let rights = (owner, protection);
    let value = answer_of(|answer| words::create(image, name.0, rights, blocks, headers, answer))?;
    Ok(id_of(&value))
}

/// So many blocks more, in a row, for a file: the LBN of the first.
pub fn extend(image: &mut [u8], id: FileId, count: u32, areas: &mut WorkAreas) -> Answer<u32> {
    let WorkAreas { blocks, headers } = areas;
    let [lbn, ..] =
        answer_of(|answer| words::extend(image, id.words(), count, blocks, headers, answer))?;
    Ok(long(lbn))
}

/// Gives a file up.
pub fn delete(image: &mut [u8], id: FileId, areas: &mut WorkAreas) -> Answer<()> {
    let WorkAreas { blocks, headers } = areas;
    answer_of(|answer| words::delete(image, id.words(), blocks, headers, answer))?;
    Ok(())
}

/// Where the parts of a volume lie.
pub fn geometry(image: &[u8]) -> Answer<Geometry> {
    let value = answer_of(|answer| words::geometry(image, answer))?;
    let [blocks, home, ibsz, iblb, fmax, slots, map, map_blocks, vlev, index_headers] = value;
    Ok(Geometry {
        blocks: long(blocks),
        home: long(home),
        ibsz: long(ibsz),
        iblb: long(iblb),
        fmax: long(fmax),
        slots: long(slots),
        map: long(map),
        map_blocks: long(map_blocks),
        vlev: word(vlev),
        index_headers: long(index_headers),
    })
}

/// A volume's label.
pub fn label(image: &[u8]) -> Answer<Label> {
    let value = answer_of(|answer| words::label(image, answer))?;
    let mut name = [0; 12];
    for (pair, &value) in name.chunks_exact_mut(2).zip(&value) {
        pair.copy_from_slice(&word(value).to_le_bytes());
    }
    let [.., owner, protection, characteristics, default_protection] = value.map(word);
    Ok(Label {
        name,
        owner,
        protection,
        characteristics,
        default_protection,
    })
}

/// What the header of a file number in use says.
pub fn header(image: &[u8], number: u16) -> Answer<Header> {
    let value = answer_of(|answer| words::header(image, number, answer))?;
    Ok(Header {
        sequence: word(value[0]),
        segment: value[1].try_into().expect("the segment number is a byte"),
        next: word(value[2]),
        next_sequence: word(value[3]),
        pointers: long(value[4]),
        name: name_of(&value[5..]),
    })
}

/// The blocks that a retrieval pointer, from 0, of the header of a file number in use covers.
pub fn pointer(image: &[u8], number: u16, place: u32) -> Answer<Extent> {
    answer_of(|answer| words::pointer(image, number, place, answer)).map(extent_of)
}

/// What a file says of itself.
pub fn attributes(image: &[u8], id: FileId) -> Answer<Attributes> {
    let value = answer_of(|answer| words::attributes(image, id.words(), answer))?;
    let [record_type, record_attributes] = word(value[5]).to_le_bytes();
    Ok(Attributes {
        blocks: long(value[0]),
        end: value[1],
        owner: word(value[2]),
        protection: word(value[3]),
        flags: word(value[4]),
        record_type,
        record_attributes,
        record_size: word(value[6]),
        highest: long(value[7]),
        end_block: long(value[8]),
        first_free: word(value[9]),
    })
}

/// The LBN of a file's VBN, and how many blocks from there on lie in a row.
pub fn extent(image: &[u8], id: FileId, vbn: u32) -> Answer<Extent> {
    answer_of(|answer| words::extent(image, id.words(), vbn, answer)).map(extent_of)
}

/// The first run of free blocks from an LBN on.
pub fn free_run(image: &[u8], from: u32) -> Answer<Extent> {
    answer_of(|answer| words::free_run(image, from, answer)).map(extent_of)
}

/// The runs of free blocks of a volume, in order; none where it does not open.
pub fn free_runs(image: &[u8]) -> impl Iterator<Item = Extent> + '_ {
    let mut from = 0;
    std::iter::from_fn(move || {
        let run = free_run(image, from).ok()?;
        from = run.lbn + run.blocks;
        Some(run)
    })
}

#[cfg(test)]
mod tests {
    use super::*;
    use crate::Refusal;

    #[test]
    fn a_slice_of_no_bytes_is_refused() {
        let mut areas = WorkAreas::for_length(0);
        assert_eq!(open_volume(&[]).unwrap_err().refusal, Refusal::Size);
        assert_eq!(judge(&[], &mut areas).unwrap_err().refusal, Refusal::Size);
        assert_eq!(areas.blocks.len(), 0);
        assert_eq!(records(&[], FileId::MASTER).count(), 0);
        assert_eq!(free_runs(&[0; crate::BLOCK]).count(), 0);
    }

    #[test]
    fn names_are_read_as_they_are_written() {
        let name = text_to_name("READS.DAT;1").unwrap();
        assert_eq!(name, Name([29001, 7160, 0, 6460, 1]));
        assert_eq!(name_to_text(name).unwrap(), "READS.DAT;1");
        assert_eq!(
            text_to_name("reads.dat;1").unwrap_err().refusal,
            Refusal::Name
        );
    }
}
