//! The old directory entry: it names a file number that another file has taken since. Paper 00: "A
//! reader must check the sequence number the entry was made with."

use differential::images::{Asked, Call, Subject};
use differential::judging::Desk;
use differential::writing::{Change, Changing};
use differential::{Random, Run};
use library::Lender;
use model::{Id, Number};
use volumes::block::{put_word, seal_header};
use volumes::directory::name_words;
use volumes::header::at;
use volumes::shapes::{random_volume, Size};
use volumes::volume::Record;
use volumes::volume_v::{volume_v, READS};
use volumes::writable::{random_volume_to_write, unused_numbers};
use volumes::Volume;

/// Volume V after the readings file was deleted and another took number 6: the header has sequence
/// 10, and the entry still names 6,9.
#[test]
fn the_readings_file_was_deleted() {
    let test = "the_readings_file_was_deleted";
    Run::of(module_path!(), test, 1, |run| {
        if !run.next_case() {
            return;
        }
        let mut volume = volume_v();
        let header = volume.block_mut(8);
        put_word(header, at::H_FSEQ, 10);
        seal_header(header);
        let mut lender = Lender::new();
        let image = lender.lend(&volume.image);
        let subject = Subject { image, story: &[] };
        let directory = Id::from_words([4, 4, 0]);
        let old = Id::from_words([6, 9, 0]);
        let new = Id::from_words([6, 10, 0]);
        subject.expect_words(run, Call::LookUp(directory, READS), &[6, 9, 0]);
        expect_old(run, &subject, old, READS);
        subject.expect_words(run, Call::OpenFile(new), &[3]);
        subject.expect_words(run, Call::Map(new, 1), &[30]);
    });
}

/// Sees that an ID with a wrong sequence opens nothing, whatever the call.
fn expect_old(run: &mut Run, subject: &Subject, old: Id, name: [u16; 5]) {
    subject.expect(run, Call::OpenFile(old), Number::Sequence);
    subject.expect(run, Call::Map(old, 1), Number::Sequence);
    subject.expect(run, Call::Block(old, 1), Number::Sequence);
    subject.expect(run, Call::Extent(old, 1), Number::Sequence);
    subject.expect(run, Call::Attributes(old), Number::Sequence);
    subject.expect(run, Call::LookUp(old, name), Number::Sequence);
    subject.expect(run, Call::NextRecord(old, 0), Number::Absent);
}

/// The same on random volumes: an entry with any sequence but the header's is answered as it is
/// stored, and opens nothing.
#[test]
fn old_entries_of_random_volumes() {
    let test = "old_entries_of_random_volumes";
    Run::of(module_path!(), test, 2_000, |run| {
        let mut lender = Lender::new();
        let name = name_words("OLD.DAT;77");
        run.random_cases(2_000, |run, random| {
            let mut volume = random_volume(random, Size::Small);
            let roles = volume.roles;
            let numbers = [roles.plain, roles.chained, roles.locked, roles.directory];
            let [number, sequence, _] = volume.file(*random.pick(&numbers)).id().words();
            let off = *random.pick(&[1, 2, 256, 32_768, 65_535]);
            let old = [number, sequence.wrapping_add(off), 0];
            volume.put_record(roles.directory, 0, Record { id: old, name });
            let directory = volume.file(roles.directory).id();
            let subject = Subject {
                image: lender.lend(&volume.image),
                story: &[("volume", volume.describe())],
            };
            subject.expect_words(run, Call::LookUp(directory, name), &old.map(u64::from));
            let id = Id::from_words(old);
            expect_old(run, &subject, id, name);
            let asked = Asked {
                id,
                vbns: vec![0, 1],
                names: vec![name],
                places: vec![0],
            };
            subject.compare_file(run, &asked);
        });
        run.expect_met("open_file", [9], 2_000);
    });
}

/// Creates files until one takes a number, and answers its ID; none where no more can be created.
fn create_until(
    run: &mut Run,
    random: &mut Random,
    desk: &mut Desk,
    changing: &mut Changing,
    number: u16,
) -> Option<Id> {
    loop {
        let call = Change::Create(name_words("NEW.DAT;1"), (random.word(), random.word()));
        let answer = changing.compare_enough(run, random, desk, call);
        if answer[0] != 0 {
            return None;
        }
        if answer[2] == u64::from(number) {
            return Some(Id::from_words([number, answer[3] as u16, answer[4] as u16]));
        }
    }
}

/// The directory that has the old entry, which every volume has and no call may delete.
const DIRECTORY: u16 = 4;

/// The user's story by the calls themselves: a readings file is deleted, the next file takes its
/// number, and the old directory entry still names the first. Its ID opens, reads and changes
/// nothing.
fn tell_the_story(run: &mut Run, random: &mut Random, desk: &mut Desk, built: &Volume, old: Id) {
    let name = name_words("OLD.DAT;77");
    let story = [("volume", built.describe()), ("old", format!("{old:?}"))];
    let directory = built.file(DIRECTORY).id();
    let mut changing = Changing::new(&built.image, &story);
    changing.expect(run, random, desk, Change::Delete(old), Ok(&[0]));
    let new = create_until(run, random, desk, &mut changing, old.number);
    let refusal = match new {
        Some(_) => Number::Sequence,
        None => Number::Number,
    };
    // Only the last sequence of all is never followed by another.
    let is_last = old.sequence == 65_535;
    assert_eq!(new.is_none(), is_last, "{story:?}: {new:?}");
    if let Some(new) = new {
        assert_eq!(new.words(), [old.number, old.sequence + 1, 0]);
    }
    for call in [Change::Extend(old, 1), Change::Delete(old)] {
        changing.expect(run, random, desk, call, Err(refusal));
    }
    let subject = Subject {
        image: &changing.image,
        story: &story,
    };
    let stored = old.words().map(u64::from);
    subject.expect_words(run, Call::LookUp(directory, name), &stored);
    for call in [
        Call::OpenFile(old),
        Call::Map(old, 1),
        Call::Block(old, 1),
        Call::LookUp(old, name),
    ] {
        subject.expect(run, call, refusal);
    }
    subject.expect(run, Call::NextRecord(old, 0), Number::Absent);
    run.meet("story", refusal.number());
    if let Some(new) = new {
        subject.expect_words(run, Call::OpenFile(new), &[0]);
        changing.expect(run, random, desk, Change::Delete(new), Ok(&[0]));
    }
}

/// The story on Volume V and on random volumes.
#[test]
fn the_number_is_taken_by_another_file() {
    let test = "the_number_is_taken_by_another_file";
    Run::of(module_path!(), test, 150, |run| {
        let mut desk = Desk::default();
        let name = name_words("OLD.DAT;77");
        run.random_cases(150, |run, random| {
            let mut built = match random.below(8) {
                0 => volume_v(),
                _ => random_volume_to_write(random, Size::Small),
            };
            let files = built.files.iter();
            let mut files = files.filter(|file| file.number() > 5 && !file.is_locked());
            // Where many numbers are free, creating goes on for long.
            let few = unused_numbers(&built).len() < 30;
            let Some(mut old) = files.next().map(|file| file.id()).filter(|_| few) else {
                run.meet("no story", 1);
                return;
            };
            if random.once_in(8) {
                old.sequence = 65_535;
                built.edit_header(old.number, |header| header.sequence = 65_535);
            }
            let record = Record {
                id: old.words(),
                name,
            };
            built.put_record(DIRECTORY, 0, record);
            tell_the_story(run, random, &mut desk, &built, old);
        });
        run.expect_met("story", [Number::Sequence.number()], 50);
        run.expect_met("story", [Number::Number.number()], 5);
    });
}
