//! A disk as a metering station has it: the known files, user file directories named after UICs, files
//! with proper names in several versions, some of them fragmented, and a few entries left behind that
//! name a file that is no more.

use crate::block::{put_word, BLOCK_BYTES};
use crate::directory::name_words;
use crate::facts::{End, Facts, Label};
use crate::header::{at, cut, pointers_of, Areas, Header, Pointer, DIRECTORY};
use crate::random::Random;
use crate::shapes::RL02_BLOCKS;
use crate::space::Space;
use crate::volume::{File, Plan, Record, Volume, BLOCK_RECORDS, FIRST_HEADERS};
use model::Id;

/// What a station's disk is to hold.
#[derive(Clone, Copy, Debug, PartialEq, Eq)]
pub struct Wanted {
    /// N.
    pub blocks: u32,
    /// How many user file directories, at least 1.
    pub directories: usize,
    /// How many files are listed in them, at least 1.
    pub files: usize,
    /// How many entries have the number of a file and an older sequence.
    pub old_sequences: usize,
    /// How many entries have a number that is not in use.
    pub not_in_use: usize,
}

impl Wanted {
    /// An RL02 disk: 50 directories, 2,000 files, and 21 entries left behind.
    pub const RL02: Wanted = Wanted {
        blocks: RL02_BLOCKS,
        directories: 50,
        files: 2_000,
        old_sequences: 12,
        not_in_use: 9,
    };

    /// A disk of 800 blocks, for tests that make many.
    pub const SMALL: Wanted = Wanted {
        blocks: 800,
        directories: 3,
        files: 40,
        old_sequences: 3,
        not_in_use: 2,
    };
}

/// The names of the known files in the master directory, number 1 first.
pub const KNOWN_FILES: [&str; 5] = [
    "INDEXF.SYS;1",
    "BITMAP.SYS;1",
    "BADBLK.SYS;1",
    "000000.DIR;1",
    "CORIMG.SYS;1",
];

/// The label of a station's disk.
pub const LABEL: Label = Label {
    name: *b"STATION07\0\0\0",
    owner: SYSTEM_UIC,
    protection: 0,
    characteristics: 0,
    file_protection: NO_WORLD_CHANGES,
};

/// The owner of the known files: [1,1].
const SYSTEM_UIC: u16 = 0x0101;

/// The protection of the files: the world may read, and not write, extend or delete.
const NO_WORLD_CHANGES: u16 = 0xe000;

/// Types of records, and the attribute of lines of text.
const FIXED: u8 = 1;
const VARIABLE: u8 = 2;
const CARRIAGE_RETURN: u8 = 2;

/// The bytes of a record of readings.
const READING_BYTES: u16 = 32;

/// A user file directory.
#[derive(Clone, Debug, PartialEq, Eq)]
pub struct Directory {
    /// As the master directory lists it, such as `001013.DIR;1`.
    pub name: String,
    pub id: Id,
    /// The owner's UIC.
    pub uic: u16,
}

/// An entry of a user file directory.
#[derive(Clone, Debug, PartialEq, Eq)]
pub struct Entry {
    /// The place of the directory in `Station::directories`.
    pub directory: usize,
    /// Such as `TOLL01.LST;3`.
    pub name: String,
    pub id: Id,
}

/// A file that is listed.
#[derive(Clone, Debug, PartialEq, Eq)]
pub struct Listed {
    pub entry: Entry,
    pub blocks: u32,
    /// Its bytes before the end of file.
    pub content: Vec<u8>,
    /// In how many pieces its blocks lie: blocks in a row are one, however many pointers cover them.
    pub extents: usize,
    /// How many headers it has.
    pub headers: usize,
}

/// A station's disk: the volume, and everything that is listed on it.
#[derive(Clone, Debug)]
pub struct Station {
    /// The image, and what was put where.
    pub volume: Volume,
    pub directories: Vec<Directory>,
    pub files: Vec<Listed>,
    /// Entries that have the number of a file and an older sequence: opening one is SEQUENCE.
    pub old_sequences: Vec<Entry>,
    /// Entries whose number is not in use: opening one is NUMBER.
    pub not_in_use: Vec<Entry>,
}

impl Station {
    /// The image.
    pub fn image(&self) -> &[u8] {
        &self.volume.image
    }

    /// How many files lie in more than one piece.
    pub fn fragmented(&self) -> usize {
        let files = self.files.iter();
        files.filter(|file| file.extents > 1).count()
    }

    /// How many files have more than one header.
    pub fn chained(&self) -> usize {
        let files = self.files.iter();
        files.filter(|file| file.headers > 1).count()
    }

    /// How many files end before the last byte of their blocks.
    pub fn ended_inside(&self) -> usize {
        let files = self.files.iter();
        let inside = files.filter(|it| it.content.len() < it.blocks as usize * BLOCK_BYTES);
        inside.count()
    }

    /// How many entries all directories have: the master directory's for the known files and the
    /// directories, and those of the directories.
    pub fn entries(&self) -> usize {
        let stale = self.old_sequences.len() + self.not_in_use.len();
        KNOWN_FILES.len() + self.directories.len() + self.files.len() + stale
    }
}

/// A station's RL02 disk. Another seed gives other names, sizes and places, and as many of each.
pub fn station(seed: u64) -> Station {
    station_of(seed, Wanted::RL02)
}

/// A station's disk that holds what is wanted.
pub fn station_of(seed: u64, wanted: Wanted) -> Station {
    assert!(wanted.directories > 0 && wanted.files > 0);
    let mut random = Random::of_case(seed, "station", 0);
    let drawers = plan_entries(&mut random, &wanted);
    let (plan, space) = plan_volume(&wanted);
    let mut maker = Maker::new(random, plan, space, &wanted);
    maker.add_known_files(wanted.directories);
    maker.add_directories(&drawers);
    maker.add_files(&drawers);
    maker.leave_entries_behind(&drawers);
    maker.list_all();
    maker.station.volume.put_storage_map();
    maker.station
}

/// The names of a directory's entries, planned before anything is put.
#[derive(Clone, Debug, Default)]
struct Drawer {
    files: Vec<String>,
    old_sequences: Vec<String>,
    not_in_use: Vec<String>,
}

impl Drawer {
    /// How many entries there will be.
    fn entries(&self) -> usize {
        self.files.len() + self.old_sequences.len() + self.not_in_use.len()
    }
}

/// What is in the files of a station: name and type. A number follows the name.
const KINDS: [(&str, &str); 6] = [
    ("READS", "DAT"),
    ("TOLL", "LST"),
    ("METER", "DAT"),
    ("DAY", "LOG"),
    ("RATIO", "CFG"),
    ("SHIP", "TXT"),
];

/// Makes the names of a directory, no two of them equal.
struct Names {
    /// The name and type that versions are made of, and how many are left.
    stem: String,
    version: u16,
    left: u64,
    /// How many stems there were.
    stems: u32,
}

impl Names {
    fn new() -> Names {
        Names {
            stem: String::new(),
            version: 0,
            left: 0,
            stems: 0,
        }
    }

    /// The next name: another version of the last one, or a new one. The first is of READS.DAT.
    fn next(&mut self, random: &mut Random) -> String {
        if self.left == 0 {
            self.stem = match self.stems {
                0 => "READS.DAT".to_string(),
                stems => {
                    let (name, typ) = random.pick(&KINDS);
                    format!("{name}{stems:02}.{typ}")
                }
            };
            self.stems += 1;
            self.version = *random.pick(&[0, 0, 0, 2, 7, 98]);
            self.left = *random.pick(&[1, 1, 1, 2, 3, 5]);
        }
        self.version += 1;
        self.left -= 1;
        format!("{};{}", self.stem, self.version)
    }
}

/// The names of every directory's entries.
fn plan_entries(random: &mut Random, wanted: &Wanted) -> Vec<Drawer> {
    let mut names: Vec<Names> = (0..wanted.directories).map(|_| Names::new()).collect();
    let mut drawers = vec![Drawer::default(); wanted.directories];
    let mut spread =
        |random: &mut Random, count: usize, list: fn(&mut Drawer) -> &mut Vec<String>| {
            for _ in 0..count {
                let place = random.between(0, names.len() - 1);
                let name = names[place].next(random);
                list(&mut drawers[place]).push(name);
            }
        };
    spread(random, wanted.files, |drawer| &mut drawer.files);
    spread(random, wanted.old_sequences, |drawer| {
        &mut drawer.old_sequences
    });
    spread(random, wanted.not_in_use, |drawer| &mut drawer.not_in_use);
    drawers
}

/// How many numbers stay unused beside those that entries left behind have.
const SPARE_NUMBERS: usize = 12;

/// One file in so many has three headers.
const CHAINED: usize = 200;

/// Where the home block, the index file and the storage map file are: the home block second, and the
/// others in the middle of the disk. H.FMAX is more than there are slots.
fn plan_volume(wanted: &Wanted) -> (Plan, Space) {
    let extensions = 2 * wanted.files.div_ceil(CHAINED);
    let numbers = 5 + wanted.directories + wanted.files + extensions + wanted.not_in_use;
    let slots = (numbers + SPARE_NUMBERS).max(FIRST_HEADERS as usize) as u32;
    let mut plan = Plan {
        blocks: wanted.blocks,
        home: 1,
        h_vlev: 257,
        h_fmax: u16::try_from(slots + 64).expect("file numbers for all"),
        h_iblb: 0,
        more_slots: Vec::new(),
        control: 0,
        storage_map: 0,
    };
    let mut space = Space::new(wanted.blocks);
    space.take(0);
    space.take(plan.home);
    let first = plan.index_map_blocks() + slots;
    plan.h_iblb = space.take_run_from((wanted.blocks - first) / 2, first);
    let after = plan.h_iblb + first;
    plan.more_slots = (plan.h_iblb + plan.index_map_blocks() + FIRST_HEADERS..after).collect();
    plan.control = space.take_run_from(after, 1 + plan.storage_map_blocks());
    plan.storage_map = plan.control + 1;
    (plan, space)
}

/// A station's disk that is being made.
struct Maker {
    random: Random,
    space: Space,
    /// The numbers that are still to be given, the next one last.
    numbers: Vec<u16>,
    /// The numbers that stay unused.
    unused: Vec<u16>,
    /// The blocks of a file on average.
    usual_blocks: u32,
    station: Station,
}

impl Maker {
    /// An empty disk.
    fn new(mut random: Random, plan: Plan, space: Space, wanted: &Wanted) -> Maker {
        let image = vec![0; plan.blocks as usize * BLOCK_BYTES];
        let mut volume = Volume::new(plan, image);
        volume.put_label(LABEL);
        let mut numbers: Vec<u16> = (6..=volume.last_slot() as u16).rev().collect();
        let mut unused = Vec::new();
        for _ in 0..wanted.not_in_use + SPARE_NUMBERS {
            let place = random.between(0, numbers.len() - 1);
            unused.push(numbers.remove(place));
        }
        let files = wanted.files as u32;
        Maker {
            random,
            usual_blocks: (space.free() * 4 / 5 / files).max(1),
            space,
            numbers,
            unused,
            station: Station {
                volume,
                directories: Vec::new(),
                files: Vec::new(),
                old_sequences: Vec::new(),
                not_in_use: Vec::new(),
            },
        }
    }

    /// Puts files 1 to 5. The bad block file has the last block, as a new disk has it, and the core
    /// image file has none.
    fn add_known_files(&mut self, directories: usize) {
        let plan = &self.station.volume.plan;
        let last = plan.blocks - 1;
        let index = pointers_of(&plan.index_lbns());
        let storage = pointers_of(&plan.storage_lbns());
        self.space.take(last);
        let bad_blocks = pointers_of(&[last]);
        let master = self.take_in_a_row(directory_blocks(KNOWN_FILES.len() + directories));
        let all = [index, storage, bad_blocks, pointers_of(&master), Vec::new()];
        for ((number, name), pointers) in (1..).zip(KNOWN_FILES).zip(all) {
            let mut header = Header::new(number, number, pointers);
            let facts = block_facts(SYSTEM_UIC, header.blocks(), name);
            header.facts = Some(facts);
            if number == 4 {
                header = directory_header(header);
            }
            self.station.volume.add(File::of(header));
        }
    }

    /// Puts the user file directories, with room for their entries.
    fn add_directories(&mut self, drawers: &[Drawer]) {
        for (place, drawer) in drawers.iter().enumerate() {
            let (project, programmer) = (1 + place / 12, 1 + 5 * (place % 12));
            let project = u8::try_from(project).expect("a project number for all");
            let name = format!("{project:03o}{programmer:03o}.DIR;1");
            let uic = u16::from_be_bytes([project, programmer as u8]);
            let lbns = self.take_in_a_row(directory_blocks(drawer.entries()));
            let mut header = self.next_header(pointers_of(&lbns));
            header.facts = Some(block_facts(uic, header.blocks(), &name));
            let file = File::of(directory_header(header));
            self.station.directories.push(Directory {
                name,
                id: file.id(),
                uic,
            });
            self.station.volume.add(file);
        }
    }

    /// Puts the files of all directories.
    fn add_files(&mut self, drawers: &[Drawer]) {
        for (directory, drawer) in drawers.iter().enumerate() {
            for name in &drawer.files {
                self.add_file(directory, name);
            }
        }
    }

    /// Puts a file with its content.
    fn add_file(&mut self, directory: usize, name: &str) {
        let pointers = self.take_for_a_file();
        let lbns: Vec<u32> = pointers.iter().flat_map(|it| it.lbns()).collect();
        let mut file = self.file_of(pointers);
        let uic = self.station.directories[directory].uic;
        let (facts, content) = self.write(uic, lbns.len() as u32, name);
        file.headers[0].facts = Some(facts);
        self.put_content(&lbns, &content);
        self.station.files.push(Listed {
            entry: Entry {
                directory,
                name: name.to_string(),
                id: file.id(),
            },
            blocks: lbns.len() as u32,
            content,
            extents: extents_of(&lbns),
            headers: file.headers.len(),
        });
        self.station.volume.add(file);
    }

    /// Takes blocks in a row, or else in the fewest pieces that are found.
    fn take_in_a_row(&mut self, count: u32) -> Vec<u32> {
        match self.space.take_run(&mut self.random, count) {
            Some(start) => (start..start + count).collect(),
            None => self.space.take_blocks(&mut self.random, count, count),
        }
    }

    /// Takes the blocks of a file: few, now and then many or none, and every fourth time in pieces, of
    /// which there are no more than a header holds.
    fn take_for_a_file(&mut self) -> Vec<Pointer> {
        let usual = self.random.long_between(1, 2 * self.usual_blocks - 1);
        let count = match self.random.below(50) {
            0 => 8 * usual,
            1 | 2 => 0,
            _ => usual,
        };
        let lbns = if self.random.once_in(4) {
            let longest = 3 + count / 40;
            self.space.take_blocks(&mut self.random, count, longest)
        } else {
            self.take_in_a_row(count)
        };
        let mut pointers = pointers_of(&lbns);
        pointers.truncate(usize::from(Areas::USUAL.m_max / 2));
        pointers
    }

    /// A header for the next number. Every number was used before.
    fn next_header(&mut self, pointers: Vec<Pointer>) -> Header {
        let number = self.numbers.pop().expect("a number for each header");
        let sequence = self.random.between(2, 14) as u16;
        Header::new(number, sequence, pointers)
    }

    /// A file of one header, and every 200th of three, with a pointer in each if it has as many blocks.
    fn file_of(&mut self, mut pointers: Vec<Pointer>) -> File {
        let count = if self.station.files.len() % CHAINED == 0 {
            3
        } else {
            1
        };
        cut(&mut self.random, &mut pointers, count);
        let share = pointers.len().div_ceil(count).max(1);
        let shares = (0..count).map(|place| pointers.chunks(share).nth(place).unwrap_or(&[]));
        File::chain(shares.map(|it| self.next_header(it.to_vec())))
    }

    /// What a header says of a file, and what is in the file: readings of one length, or lines of text.
    /// Now and then nothing is said of its end.
    fn write(&mut self, uic: u16, blocks: u32, name: &str) -> (Facts, Vec<u8>) {
        let is_readings = name.contains(".DAT;");
        let all = blocks as usize * BLOCK_BYTES;
        let unused = match self.random.below(4) {
            0 => 0,
            _ if blocks == 0 => 0,
            _ => self.random.between(0, 15) * usize::from(READING_BYTES),
        };
        let content = if is_readings {
            readings(&mut self.random, all - unused)
        } else {
            lines(&mut self.random, all - unused)
        };
        let (record_type, record_attributes, record_size) = if is_readings {
            (FIXED, 0, READING_BYTES)
        } else {
            (VARIABLE, CARRIAGE_RETURN, 80)
        };
        let facts = Facts {
            record_type,
            record_attributes,
            record_size,
            end: self.end_of(blocks, content.len() as u64),
            ..block_facts(uic, blocks, name)
        };
        (facts, content)
    }

    /// How an end after so many bytes is said, where it may be said in several ways.
    fn end_of(&mut self, blocks: u32, bytes: u64) -> End {
        let at_the_end = bytes == u64::from(blocks) * BLOCK_BYTES as u64;
        match self.random.below(3) {
            0 if at_the_end => End::none(blocks, 0),
            1 if at_the_end && blocks > 0 => End::of_full(blocks),
            _ => End::after(bytes),
        }
    }

    /// Puts bytes into blocks. What is left of the last is as an older file left it.
    fn put_content(&mut self, lbns: &[u32], content: &[u8]) {
        let mut pieces = content.chunks(BLOCK_BYTES);
        for &lbn in lbns {
            let block = self.station.volume.block_mut(lbn);
            block.fill(0xe5);
            let piece = pieces.next().unwrap_or(&[]);
            block[..piece.len()].copy_from_slice(piece);
        }
    }

    /// Makes the entries that name files that are no more, and leaves the sequences of the numbers that
    /// are not in use.
    fn leave_entries_behind(&mut self, drawers: &[Drawer]) {
        let mut unused = self.unused.clone().into_iter();
        for (directory, drawer) in drawers.iter().enumerate() {
            for name in &drawer.old_sequences {
                let now = self.random.pick(&self.station.files).entry.id;
                let sequence = self.random.between(1, usize::from(now.sequence) - 1);
                let id = Id::from_words([now.number, sequence as u16, 0]);
                let entry = entry(directory, name, id);
                self.station.old_sequences.push(entry);
            }
            for name in &drawer.not_in_use {
                let number = unused.next().expect("a number for each entry");
                let sequence = self.random.between(1, 9) as u16;
                let lbn = self.station.volume.slot_of(number);
                put_word(self.station.volume.block_mut(lbn), at::H_FSEQ, sequence);
                let id = Id::from_words([number, sequence, 0]);
                self.station.not_in_use.push(entry(directory, name, id));
            }
        }
    }

    /// Puts the records of all directories.
    fn list_all(&mut self) {
        let known = (1..).zip(KNOWN_FILES);
        let known = known.map(|(n, name)| (Id::from_words([n, n, 0]), name.to_string()));
        let directories = self.station.directories.iter();
        let directories = directories.map(|it| (it.id, it.name.clone()));
        let mut lists = vec![(4, known.chain(directories).collect())];
        for (place, directory) in self.station.directories.iter().enumerate() {
            let entries = self.entries_of(place);
            lists.push((directory.id.number, entries));
        }
        for (number, entries) in lists {
            self.list(number, entries);
        }
    }

    /// The entries of a user file directory: those of files, then those left behind.
    fn entries_of(&self, directory: usize) -> Vec<(Id, String)> {
        let files = self.station.files.iter().map(|file| &file.entry);
        let behind = self.station.old_sequences.iter();
        let all = files.chain(behind).chain(&self.station.not_in_use);
        let own = all.filter(|entry| entry.directory == directory);
        own.map(|entry| (entry.id, entry.name.clone())).collect()
    }

    /// Puts the records of a directory, in any order, and in every ninth place one that is empty.
    fn list(&mut self, directory: u16, mut entries: Vec<(Id, String)>) {
        for place in (1..entries.len()).rev() {
            entries.swap(place, self.random.between(0, place));
        }
        for (place, (id, name)) in (0..).zip(entries) {
            let record = Record {
                id: id.words(),
                name: name_words(&name),
            };
            let volume = &mut self.station.volume;
            volume.put_record(directory, place_of(place), record);
            if place % 8 == 7 {
                let empty = Record {
                    id: [0; 3],
                    ..record
                };
                volume.put_record(directory, place_of(place) + 1, empty);
            }
        }
    }
}

/// The place of an entry among the records of its directory.
fn place_of(entry: u32) -> u32 {
    entry + entry / 8
}

/// The blocks of a directory with room for so many entries, and for the empty ones between them.
fn directory_blocks(entries: usize) -> u32 {
    let places = place_of(entries as u32);
    places / BLOCK_RECORDS + 1
}

/// In how many pieces blocks lie.
fn extents_of(lbns: &[u32]) -> usize {
    let breaks = lbns.windows(2).filter(|two| two[1] != two[0] + 1);
    breaks.count() + usize::from(!lbns.is_empty())
}

/// An entry.
fn entry(directory: usize, name: &str, id: Id) -> Entry {
    Entry {
        directory,
        name: name.to_string(),
        id,
    }
}

/// The header of a directory: fixed records of 16 bytes.
fn directory_header(header: Header) -> Header {
    let facts = header.facts.map(|facts| Facts {
        record_type: FIXED,
        record_size: 16,
        ..facts
    });
    Header {
        system_flags: DIRECTORY,
        facts,
        ..header
    }
}

/// What a header says of a file of whole blocks.
fn block_facts(owner: u16, blocks: u32, name: &str) -> Facts {
    Facts {
        owner,
        protection: NO_WORLD_CHANGES,
        record_type: 0,
        record_attributes: 0,
        record_size: 0,
        highest: blocks,
        end: End::after(u64::from(blocks) * BLOCK_BYTES as u64),
        name: name_words(name),
    }
}

/// Readings: any bytes.
fn readings(random: &mut Random, bytes: usize) -> Vec<u8> {
    let mut content = vec![0; bytes];
    random.fill(&mut content);
    content
}

/// Lines of text as records: two bytes of length, and a byte more where the length is odd. The last
/// line is cut so that all are so many bytes, which is an even number.
fn lines(random: &mut Random, bytes: usize) -> Vec<u8> {
    let mut content = Vec::with_capacity(bytes);
    while content.len() < bytes {
        let (meter, count) = (random.below(40), random.below(10_000_000));
        let line = format!("METER {meter:02} READS {count} CUBIC METRES");
        let length = line.len().min(bytes - content.len() - 2);
        content.extend((length as u16).to_le_bytes());
        content.extend(&line.as_bytes()[..length]);
        content.resize(content.len().next_multiple_of(2), 0);
    }
    content
}

#[cfg(test)]
mod tests {
    use super::*;
    use model::{attributes, directory, facts, file, names, runs, verdict, Answer, Number};
    use std::collections::BTreeSet;

    /// Sees that a disk is accepted, with the counts that the builder knows.
    fn expect_accepted(station: &Station) {
        let volume = &station.volume;
        let blocks = u64::from(volume.plan.blocks);
        let claimed = volume.files.iter().map(|it| u64::from(it.blocks())).sum();
        let headers = volume.headers().count() as u64;
        let mut marks = vec![0; volume.plan.blocks as usize];
        let mut links = vec![0; usize::from(volume.plan.h_fmax)];
        let answer = verdict::judge(station.image(), &mut marks, &mut links);
        let counts = [blocks, claimed, blocks - claimed, headers];
        assert_eq!(answer, Answer::done(&counts));
    }

    /// All entries of a directory: name and ID, as the model walks it.
    fn walked(station: &Station, id: Id) -> BTreeSet<(String, [u16; 3])> {
        let opened = file::open(station.image(), id);
        let mut found = BTreeSet::new();
        let mut place = 0;
        loop {
            let answer = directory::answer_next_record(&opened, place);
            if answer.number == Number::Absent {
                return found;
            }
            let words = answer.value.map(|word| word as u16);
            let name = names::Name::from_words([words[3], words[4], words[5], words[6], words[7]]);
            let text = names::text_of(&name).expect("a proper name");
            assert!(
                found.insert((text, [words[0], words[1], words[2]])),
                "twice"
            );
            place = answer.value[8];
        }
    }

    /// Sees that the directories list just what the builder says.
    fn expect_listed(station: &Station) {
        let known = (1..).zip(KNOWN_FILES);
        let mut master: BTreeSet<_> = known.map(|(n, it)| (it.to_string(), [n, n, 0])).collect();
        master.extend(
            station
                .directories
                .iter()
                .map(|it| (it.name.clone(), it.id.words())),
        );
        assert_eq!(walked(station, Id::from_words([4, 4, 0])), master);
        let mut count = master.len();
        for (place, directory) in station.directories.iter().enumerate() {
            let files = station.files.iter().map(|file| &file.entry);
            let behind = station.old_sequences.iter().chain(&station.not_in_use);
            let own = files.chain(behind).filter(|it| it.directory == place);
            let own: BTreeSet<_> = own.map(|it| (it.name.clone(), it.id.words())).collect();
            assert_eq!(walked(station, directory.id), own, "{}", directory.name);
            count += own.len();
        }
        assert_eq!(count, station.entries());
    }

    /// Sees that each file opens with its blocks, its end and its content.
    fn expect_files(station: &Station) {
        for listed in &station.files {
            let opened = file::open(station.image(), listed.entry.id);
            let opened = opened.expect("a file that is listed opens");
            assert_eq!(opened.blocks(), u64::from(listed.blocks));
            assert_eq!(runs::row_starts(&opened).len(), listed.extents);
            let answer = attributes::attributes(station.image(), listed.entry.id);
            assert_eq!(answer.value[1], listed.content.len() as u64);
            let mut bytes: Vec<u8> = opened.blocks_in_order().flatten().copied().collect();
            bytes.truncate(listed.content.len());
            assert!(bytes == listed.content, "{:?}", listed.entry);
        }
    }

    /// Sees that no entry that was left behind opens.
    fn expect_left_behind(station: &Station) {
        let opening = |entry: &Entry| file::open(station.image(), entry.id).err();
        for entry in &station.old_sequences {
            assert_eq!(opening(entry), Some(Number::Sequence), "{entry:?}");
        }
        for entry in &station.not_in_use {
            assert_eq!(opening(entry), Some(Number::Number), "{entry:?}");
        }
    }

    #[test]
    fn an_rl02_disk() {
        let station = station(1);
        expect_accepted(&station);
        expect_listed(&station);
        expect_files(&station);
        expect_left_behind(&station);
        assert_eq!(station.image().len(), 20_480 * 512);
        assert_eq!(station.directories.len(), 50);
        assert_eq!(station.files.len(), 2_000);
        assert_eq!(station.old_sequences.len(), 12);
        assert_eq!(station.not_in_use.len(), 9);
        assert_eq!(station.chained(), 10);
        assert!((300..1_500).contains(&station.fragmented()));
        assert!((500..1_900).contains(&station.ended_inside()));
        assert_eq!(station.directories[13].name, "002006.DIR;1");
        assert_eq!(station.directories[13].uic, 0x0206);
        let label = facts::label(station.image());
        assert_eq!(label.value[0], u64::from(u16::from_le_bytes(*b"ST")));
        assert_eq!(label.value[6..], [0x0101, 0, 0, 0xe000]);
    }

    #[test]
    fn sizes_and_versions_vary() {
        let station = station(2);
        let sizes: BTreeSet<u32> = station.files.iter().map(|it| it.blocks).collect();
        assert!(sizes.len() > 20 && sizes.contains(&0) && sizes.contains(&1));
        let stems = station.files.iter().map(|it| {
            let (stem, _) = it.entry.name.split_once(';').expect("a version");
            (it.entry.directory, stem)
        });
        let stems: BTreeSet<(usize, &str)> = stems.collect();
        assert!(stems.len() < 1_500 && stems.len() > 500);
    }

    #[test]
    fn directories_have_the_flag_of_one() {
        let station = station_of(3, Wanted::SMALL);
        let directories = station.directories.iter().map(|it| it.id);
        for id in directories.chain([Id::from_words([4, 4, 0])]) {
            let answer = attributes::attributes(station.image(), id);
            assert_eq!(answer.value[4], 256 * 32);
            assert_eq!(answer.value[5..7], [1, 16]);
        }
    }

    #[test]
    fn disks_of_other_sizes() {
        let one = Wanted {
            blocks: 100,
            directories: 1,
            files: 1,
            old_sequences: 0,
            not_in_use: 0,
        };
        let crowded = Wanted {
            blocks: 400,
            directories: 20,
            files: 100,
            old_sequences: 30,
            not_in_use: 30,
        };
        let large = Wanted {
            blocks: 40_000,
            directories: 300,
            files: 4_500,
            ..Wanted::RL02
        };
        for (wanted, seeds) in [(one, 20), (crowded, 20), (Wanted::SMALL, 40), (large, 1)] {
            for seed in 0..seeds {
                let station = station_of(seed, wanted);
                expect_accepted(&station);
                expect_listed(&station);
                expect_files(&station);
                expect_left_behind(&station);
                assert_eq!(station.files.len(), wanted.files);
                assert_eq!(station.old_sequences.len(), wanted.old_sequences);
                assert_eq!(station.not_in_use.len(), wanted.not_in_use);
            }
        }
    }

    #[test]
    fn a_seed_is_one_disk() {
        let image = |seed| station_of(seed, Wanted::SMALL).volume.image;
        assert!(image(7) == image(7));
        assert!(image(7) != image(8));
    }
}
