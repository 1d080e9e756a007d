//! Volumes: an image, and the knowledge of what was put where.

use crate::block::{put_long, put_word, put_words, seal_home, BLOCK_BYTES};
use crate::facts::Label;
use crate::header::{pointers_of, Areas, Header, Pointer};
use model::Id;

/// The bits of a block of a map.
pub const MAP_BITS: u32 = 4096;

/// The headers that follow the index map.
pub const FIRST_HEADERS: u32 = 16;

/// Where things are in a home block.
pub mod in_home {
    pub const H_IBSZ: usize = 0;
    pub const H_IBLB: usize = 2;
    pub const H_FMAX: usize = 6;
    pub const H_SBCL: usize = 8;
    pub const H_VLEV: usize = 12;
    pub const H_VNAM: usize = 14;
    pub const H_VOWN: usize = 30;
    pub const H_VPRO: usize = 32;
    pub const H_VCHA: usize = 34;
    pub const H_DFPR: usize = 36;
    pub const H_INDF: usize = 496;
}

/// What H.INDF holds.
pub const FORMAT: &[u8; 12] = b"DECFILE11A  ";

/// What a volume's home block, index file and storage map file are to be.
#[derive(Clone, Debug)]
pub struct Plan {
    /// N.
    pub blocks: u32,
    /// The LBN of the home block.
    pub home: u32,
    pub h_vlev: u16,
    pub h_fmax: u16,
    /// The LBN of the index map; the first 16 slots follow it.
    pub h_iblb: u32,
    /// The LBNs of the slots from 17 on.
    pub more_slots: Vec<u32>,
    /// The LBN of the storage map file's first block.
    pub control: u32,
    /// The LBN of the first block of bits.
    pub storage_map: u32,
}

impl Plan {
    /// m, the blocks of the index map.
    pub fn index_map_blocks(&self) -> u32 {
        u32::from(self.h_fmax).div_ceil(MAP_BITS)
    }

    /// q, the blocks of bits of the storage map file.
    pub fn storage_map_blocks(&self) -> u32 {
        self.blocks.div_ceil(MAP_BITS)
    }

    /// The LBN of each VBN of the index file: the boot block, the home block, the index map, and
    /// the slots.
    pub fn index_lbns(&self) -> Vec<u32> {
        let first = self.h_iblb..self.h_iblb + self.index_map_blocks() + FIRST_HEADERS;
        let mut lbns = vec![0, self.home];
        lbns.extend(first);
        lbns.extend(&self.more_slots);
        lbns
    }

    /// The LBN of each VBN of the storage map file: the control block, and the bits.
    pub fn storage_lbns(&self) -> Vec<u32> {
        let bits = self.storage_map..self.storage_map + self.storage_map_blocks();
        std::iter::once(self.control).chain(bits).collect()
    }
}

/// A file: its headers in the order of its chain, of which there is at least one.
#[derive(Clone, Debug)]
pub struct File {
    pub headers: Vec<Header>,
}

impl File {
    /// A file of one header, which stays as it is.
    pub fn of(header: Header) -> File {
        File {
            headers: vec![header],
        }
    }

    /// A file of headers in this order: each gets the segment of its place and a link to the next.
    pub fn chain(headers: impl IntoIterator<Item = Header>) -> File {
        let mut headers: Vec<Header> = headers.into_iter().collect();
        let names = headers
            .iter()
            .map(|header| (header.number, header.sequence));
        let links: Vec<(u16, u16)> = names.skip(1).chain([(0, 0)]).collect();
        for (place, (header, link)) in headers.iter_mut().zip(links).enumerate() {
            header.segment = u8::try_from(place).expect("at most 256 headers");
            header.link = link;
        }
        File { headers }
    }

    /// The number of its first header.
    pub fn number(&self) -> u16 {
        self.headers[0].number
    }

    /// The ID that opens it.
    pub fn id(&self) -> Id {
        let first = &self.headers[0];
        Id::from_words([first.number, first.sequence, 0])
    }

    /// Whether a flag of its first header refuses access.
    pub fn is_locked(&self) -> bool {
        let first = &self.headers[0];
        first.user_flags & crate::header::DEACCESS_LOCKED != 0
            || first.system_flags & crate::header::MARKED_FOR_DELETE != 0
    }

    /// All its pointers, in order.
    pub fn pointers(&self) -> impl Iterator<Item = Pointer> + '_ {
        let headers = self.headers.iter();
        headers.flat_map(|header| header.pointers.iter().copied())
    }

    /// The LBN of each of its VBNs, in order.
    pub fn lbns(&self) -> Vec<u32> {
        self.pointers().flat_map(Pointer::lbns).collect()
    }

    /// How many blocks it has.
    pub fn blocks(&self) -> u32 {
        self.pointers().map(|pointer| pointer.blocks).sum()
    }
}

/// A directory record: ID and name as words.
#[derive(Clone, Copy, Debug, PartialEq, Eq)]
pub struct Record {
    pub id: [u16; 3],
    pub name: [u16; 5],
}

/// The bytes of a directory record.
pub const RECORD_BYTES: usize = 16;

/// The records of a block.
pub const BLOCK_RECORDS: u32 = 32;

/// A record, and where it was put.
#[derive(Clone, Copy, Debug)]
pub struct Placed {
    /// The file number of the directory.
    pub directory: u16,
    /// The record's place in the directory, from 0.
    pub place: u32,
    pub record: Record,
}

impl Placed {
    /// Puts the record into the block that has its place.
    pub fn put(&self, block: &mut [u8]) {
        let start = (self.place % BLOCK_RECORDS) as usize * RECORD_BYTES;
        put_words(block, start, &self.record.id);
        put_words(block, start + 6, &self.record.name);
    }
}

/// The numbers of the files that every random volume has, for damages to aim at.
#[derive(Clone, Copy, Debug, Default)]
pub struct Roles {
    /// A file of one header, with blocks.
    pub plain: u16,
    /// A file of three headers or more, with a pointer in each.
    pub chained: u16,
    /// A directory with records.
    pub directory: u16,
    /// A file without blocks.
    pub empty: u16,
    /// A deaccess-locked file.
    pub locked: u16,
    /// A file that is marked for delete.
    pub marked: u16,
}

/// A volume: its image, and what was put where.
#[derive(Clone, Debug)]
pub struct Volume {
    pub image: Vec<u8>,
    pub plan: Plan,
    /// The LBN of each VBN of the index file.
    pub index: Vec<u32>,
    pub files: Vec<File>,
    pub records: Vec<Placed>,
    pub roles: Roles,
    /// What the home block says of the volume, if it says anything.
    pub label: Option<Label>,
}

impl Volume {
    /// A volume over an image of N blocks: the home block, an index map with no number in use, and
    /// the control block are put. Bytes that the rules say nothing of stay as the image has them.
    pub fn new(plan: Plan, image: Vec<u8>) -> Volume {
        assert!(image.len() == plan.blocks as usize * BLOCK_BYTES);
        let mut volume = Volume {
            index: plan.index_lbns(),
            image,
            plan,
            files: Vec::new(),
            records: Vec::new(),
            roles: Roles::default(),
            label: None,
        };
        volume.put_home(volume.plan.home);
        for number in 1..=volume.plan.h_fmax {
            volume.put_in_use(number, false);
        }
        let q = volume.plan.storage_map_blocks();
        volume.block_mut(volume.plan.control)[3] = u8::try_from(q).expect("at most 255");
        volume
    }

    /// The bytes of a block.
    pub fn block(&self, lbn: u32) -> &[u8] {
        let start = lbn as usize * BLOCK_BYTES;
        &self.image[start..start + BLOCK_BYTES]
    }

    /// The bytes of a block, to change.
    pub fn block_mut(&mut self, lbn: u32) -> &mut [u8] {
        let start = lbn as usize * BLOCK_BYTES;
        &mut self.image[start..start + BLOCK_BYTES]
    }

    /// Puts the home block at a position.
    pub fn put_home(&mut self, lbn: u32) {
        let (plan, label) = (self.plan.clone(), self.label);
        let block = self.block_mut(lbn);
        put_word(block, in_home::H_IBSZ, plan.index_map_blocks() as u16);
        put_long(block, in_home::H_IBLB, plan.h_iblb);
        put_word(block, in_home::H_FMAX, plan.h_fmax);
        put_word(block, in_home::H_SBCL, 1);
        put_word(block, in_home::H_VLEV, plan.h_vlev);
        block[in_home::H_INDF..in_home::H_INDF + 12].copy_from_slice(FORMAT);
        if let Some(label) = label {
            label.put(block);
        }
        seal_home(block);
    }

    /// Gives the volume a label, in its home block.
    pub fn put_label(&mut self, label: Label) {
        self.label = Some(label);
        self.put_home(self.plan.home);
    }

    /// Whether a number has a slot, and where.
    pub fn slot(&self, number: u16) -> Option<u32> {
        let vbn = 2 + self.plan.index_map_blocks() + u32::from(number);
        self.index.get(vbn as usize - 1).copied()
    }

    /// The LBN of a number's slot, which it has.
    pub fn slot_of(&self, number: u16) -> u32 {
        self.slot(number).expect("a number with a slot")
    }

    /// The highest number with a slot.
    pub fn last_slot(&self) -> u32 {
        self.index.len() as u32 - 2 - self.plan.index_map_blocks()
    }

    /// The highest number with a slot that is not above H.FMAX.
    pub fn last_number(&self) -> u16 {
        self.last_slot().min(u32::from(self.plan.h_fmax)) as u16
    }

    /// The numbers from 6 on, rising, that have a slot and that no header of a file has.
    pub fn unused_numbers(&self) -> impl Iterator<Item = u16> {
        let last = self.last_number();
        let mut is_used = vec![false; 65_536];
        for header in self.headers() {
            is_used[usize::from(header.number)] = true;
        }
        (6..=last).filter(move |&number| !is_used[usize::from(number)])
    }

    /// The lowest number from 6 on that has a slot and that no header of a file has.
    pub fn unused_number(&self) -> Option<u16> {
        self.unused_numbers().next()
    }

    /// The lowest number that has no slot, if it is not above H.FMAX.
    pub fn number_without_slot(&self) -> Option<u16> {
        let number = u16::try_from(self.last_slot() + 1).ok()?;
        Some(number).filter(|&number| number <= self.plan.h_fmax)
    }

    /// Puts every byte of the index map.
    pub fn fill_index_map(&mut self, byte: u8) {
        let first = self.plan.h_iblb;
        for lbn in first..first + self.plan.index_map_blocks() {
            self.block_mut(lbn).fill(byte);
        }
    }

    /// Puts a number in use, if the index map has a bit for it.
    pub fn put_in_use_if_mapped(&mut self, number: u16) {
        if u32::from(number) <= MAP_BITS * self.plan.index_map_blocks() {
            self.put_in_use(number, true);
        }
    }

    /// Puts a number's bit of the index map.
    pub fn put_in_use(&mut self, number: u16, in_use: bool) {
        let bit = u32::from(number) - 1;
        let start = self.plan.h_iblb as usize * BLOCK_BYTES;
        put_bit(&mut self.image[start..], bit, in_use);
    }

    /// Puts a header into its slot.
    pub fn put_header(&mut self, header: &Header) {
        let lbn = self.slot_of(header.number);
        header.put(self.block_mut(lbn));
    }

    /// Puts a file: each header into its slot, and its number in use.
    pub fn add(&mut self, file: File) {
        for header in &file.headers {
            self.put_header(header);
            self.put_in_use(header.number, true);
        }
        self.files.push(file);
    }

    /// Puts files 1 to 5, of one header each: the index file, with these areas, and the storage map file
    /// where the plan has them, the bad block file and the directory with these pointers, and the last
    /// without blocks.
    pub fn add_known(&mut self, areas: Areas, bad_blocks: Vec<Pointer>, directory: Vec<Pointer>) {
        let index = pointers_of(&self.plan.index_lbns());
        let storage = pointers_of(&self.plan.storage_lbns());
        let index = Header {
            areas,
            ..Header::new(1, 1, index)
        };
        self.add(File::of(index));
        let others = [storage, bad_blocks, directory, Vec::new()];
        for (number, pointers) in (2..).zip(others) {
            self.add(File::of(Header::new(number, number, pointers)));
        }
    }

    /// All headers of files.
    pub fn headers(&self) -> impl Iterator<Item = &Header> {
        self.files.iter().flat_map(|file| &file.headers)
    }

    /// The header of a number that a file has.
    pub fn header(&self, number: u16) -> &Header {
        let header = self.headers().find(|header| header.number == number);
        header.expect("a header of a file")
    }

    /// Changes the header of a number that a file has, and puts it into its slot.
    pub fn edit_header(&mut self, number: u16, edit: impl FnOnce(&mut Header)) {
        let mut headers = self.files.iter_mut().flat_map(|file| &mut file.headers);
        let header = headers.find(|header| header.number == number);
        let header = header.expect("a header of a file");
        edit(header);
        let header = header.clone();
        self.put_header(&header);
    }

    /// The file whose first header has this number.
    pub fn file(&self, number: u16) -> &File {
        let mut files = self.files.iter();
        let file = files.find(|file| file.number() == number);
        file.expect("a file of the volume")
    }

    /// Puts a record into a directory, at a place from 0.
    pub fn put_record(&mut self, directory: u16, place: u32, record: Record) {
        let lbns = self.file(directory).lbns();
        let placed = Placed {
            directory,
            place,
            record,
        };
        placed.put(self.block_mut(lbns[(place / BLOCK_RECORDS) as usize]));
        self.records.push(placed);
    }

    /// Which blocks a pointer of a file covers.
    pub fn covered(&self) -> Vec<bool> {
        let mut covered = vec![false; self.plan.blocks as usize];
        for file in &self.files {
            for lbn in file.pointers().flat_map(Pointer::lbns) {
                covered[lbn as usize] = true;
            }
        }
        covered
    }

    /// The bits of the storage map, to change.
    pub fn storage_map_mut(&mut self) -> &mut [u8] {
        let bits = self.plan.storage_map_blocks() as usize;
        let start = self.plan.storage_map as usize * BLOCK_BYTES;
        &mut self.image[start..start + bits * BLOCK_BYTES]
    }

    /// Puts the storage map: set means free, and bits from N on are clear.
    pub fn put_storage_map(&mut self) {
        let covered = self.covered();
        let map = self.storage_map_mut();
        map.fill(0);
        for (bit, covered) in covered.into_iter().enumerate() {
            if !covered {
                put_bit(map, bit as u32, true);
            }
        }
    }

    /// What a report says of the volume.
    pub fn describe(&self) -> String {
        let plan = &self.plan;
        format!(
            "N {} home {} H.VLEV {} H.FMAX {} H.IBLB {} slots {} storage {} and {} files {}",
            plan.blocks,
            plan.home,
            plan.h_vlev,
            plan.h_fmax,
            plan.h_iblb,
            self.last_slot(),
            plan.control,
            plan.storage_map,
            self.files.len()
        )
    }
}

/// Puts a bit of a map.
pub fn put_bit(map: &mut [u8], bit: u32, set: bool) {
    let byte = &mut map[(bit / 8) as usize];
    let mask = 1 << (bit % 8);
    if set {
        *byte |= mask;
    } else {
        *byte &= !mask;
    }
}
