//! The comparisons of the calls on images.

use crate::run::{first_difference, show_answer, Line, Run};
use library::Words;
use model::file::{self, Opened};
use model::volume::{self, BadIndex, BadLink};
use model::{attributes, directory, facts, runs};
use model::{FileNumber, Id, Lbn, Name, Number, Vbn};

/// A call on an image, with its arguments.
#[derive(Clone, Copy, Debug, PartialEq, Eq)]
pub enum Call {
    OpenVolume,
    OpenFile(Id),
    Map(Id, u32),
    Block(Id, u32),
    LookUp(Id, [u16; 5]),
    NextRecord(Id, u32),
    Geometry,
    Label,
    Header(u16),
    Pointer(u16, u32),
    Attributes(Id),
    Extent(Id, u32),
    FreeRun(u32),
}

impl Call {
    /// Its name, as `run` counts what is met.
    fn name(self) -> &'static str {
        match self {
            Call::OpenVolume => "open_volume",
            Call::OpenFile(_) => "open_file",
            Call::Map(..) => "map",
            Call::Block(..) => "block",
            Call::LookUp(..) => "look_up",
            Call::NextRecord(..) => "next_record",
            Call::Geometry => "geometry",
            Call::Label => "label",
            Call::Header(_) => "header",
            Call::Pointer(..) => "pointer",
            Call::Attributes(_) => "attributes",
            Call::Extent(..) => "extent",
            Call::FreeRun(_) => "free_run",
        }
    }

    /// What the library answers.
    pub fn by_library(self, image: &[u8]) -> Words {
        match self {
            Call::OpenVolume => library::open_volume(image),
            Call::OpenFile(id) => library::open_file(image, id.words()),
            Call::Map(id, vbn) => library::map(image, id.words(), vbn),
            Call::Block(id, vbn) => library::block(image, id.words(), vbn),
            Call::LookUp(id, name) => library::look_up(image, id.words(), name),
            Call::NextRecord(id, place) => library::next_record(image, id.words(), place),
            Call::Geometry => library::geometry(image),
            Call::Label => library::label(image),
            Call::Header(number) => library::header(image, number),
            Call::Pointer(number, place) => library::pointer(image, number, place),
            Call::Attributes(id) => library::attributes(image, id.words()),
            Call::Extent(id, vbn) => library::extent(image, id.words(), vbn),
            Call::FreeRun(from) => library::free_run(image, from),
        }
    }

    /// What the model answers. The volume, and the file of the call's ID, are opened already.
    fn by_model(self, volume: &volume::Opened, file: &Opened) -> Words {
        let answer = match self {
            Call::OpenVolume => volume::answer_open(volume),
            Call::OpenFile(_) => file::answer_open(file),
            Call::Map(_, vbn) => file::answer_map(file, Vbn(vbn.into())),
            Call::Block(_, vbn) => file::answer_block(file, Vbn(vbn.into())),
            Call::LookUp(_, name) => directory::answer_look_up(file, &Name::from_words(name)),
            Call::NextRecord(_, place) => directory::answer_next_record(file, place.into()),
            Call::Geometry => facts::answer_geometry(volume),
            Call::Label => facts::answer_label(volume),
            Call::Header(number) => facts::answer_header(volume, FileNumber(number.into())),
            Call::Pointer(number, place) => {
                facts::answer_pointer(volume, FileNumber(number.into()), place.into())
            }
            Call::Attributes(id) => attributes::answer_attributes(volume, id),
            Call::Extent(_, vbn) => runs::answer_extent(file, Vbn(vbn.into())),
            Call::FreeRun(from) => runs::answer_free_run(volume, Lbn(from.into())),
        };
        answer.words()
    }
}

/// What is asked of one file: its ID, and the arguments of the calls on it.
#[derive(Clone, Debug)]
pub struct Asked {
    pub id: Id,
    pub vbns: Vec<u32>,
    pub names: Vec<[u16; 5]>,
    pub places: Vec<u32>,
}

/// An image that is lent to the library, and what a report says of it.
pub struct Subject<'a> {
    pub image: &'a [u8],
    pub story: &'a [Line],
}

impl Subject<'_> {
    /// Compares one call of library and model: all words of the answer. The volume, and the file of the
    /// call's ID, are opened already.
    pub(crate) fn compare(
        &self,
        run: &mut Run,
        call: Call,
        (volume, file): (&volume::Opened, &Opened),
    ) {
        let answer = call.by_library(self.image);
        let expected = call.by_model(volume, file);
        run.meet(call.name(), expected[0]);
        if answer != expected {
            self.fail(run, call, &answer, &expected, "model");
        }
    }

    /// Sees that a call of the library answers a number that was expected without the model.
    pub fn expect(&self, run: &mut Run, call: Call, expected: Number) {
        let answer = call.by_library(self.image);
        if answer[0] != expected.number() {
            let mut words = [0; 12];
            words[0] = expected.number();
            self.fail(run, call, &answer, &words, "the paper");
        }
    }

    /// Sees that a call of the library answers words that were expected without the model.
    pub fn expect_words(&self, run: &mut Run, call: Call, value: &[u64]) {
        let answer = call.by_library(self.image);
        let mut words = [0; 12];
        words[2..2 + value.len()].copy_from_slice(value);
        if answer != words {
            self.fail(run, call, &answer, &words, "the builder");
        }
    }

    /// Sees that the library answers the cases of a paper, each a case of the run: values, then refusals.
    pub fn expect_cases(&self, run: &mut Run, done: &[(Call, &[u64])], refused: &[(Call, Number)]) {
        for &(call, value) in done {
            if run.next_case() {
                self.expect_words(run, call, value);
            }
        }
        for &(call, number) in refused {
            if run.next_case() {
                self.expect(run, call, number);
            }
        }
    }

    /// Reports a call that is answered wrongly.
    fn fail(&self, run: &Run, call: Call, answer: &Words, expected: &Words, by: &'static str) -> ! {
        let mut lines = self.story.to_vec();
        lines.extend([
            ("image", format!("{} bytes", self.image.len())),
            ("call", format!("{call:?}")),
            ("differs first", first_difference(answer, expected)),
            ("library", show_answer(answer)),
            (by, show_answer(expected)),
        ]);
        run.fail("the library answers otherwise", &lines);
    }

    /// Compares a call that is not on a file.
    pub(crate) fn compare_alone(&self, run: &mut Run, call: Call, volume: &volume::Opened) {
        let no_file = Err(Number::Number);
        self.compare(run, call, (volume, &no_file));
    }

    /// Compares opening the volume, and counts what was wrong with its index file.
    pub fn compare_volume(&self, run: &mut Run) {
        let volume = volume::open(self.image);
        self.compare_alone(run, Call::OpenVolume, &volume);
        if let Some(index) = volume::bad_index(self.image) {
            run.meet(BAD_INDEX, index_number(index));
        }
    }

    /// Compares all that is asked of one file.
    pub fn compare_file(&self, run: &mut Run, asked: &Asked) {
        let id = asked.id;
        let volume = volume::open(self.image);
        let file = file::open_in(&volume, id);
        let opened = (&volume, &file);
        self.meet_cause(run, id, &file);
        self.compare(run, Call::OpenFile(id), opened);
        for &vbn in &asked.vbns {
            self.compare(run, Call::Map(id, vbn), opened);
            self.compare(run, Call::Block(id, vbn), opened);
        }
        for &name in &asked.names {
            self.compare(run, Call::LookUp(id, name), opened);
        }
        for &place in &asked.places {
            self.compare(run, Call::NextRecord(id, place), opened);
        }
    }

    /// Counts which of the header's tests was not met, or what was wrong with a link.
    fn meet_cause(&self, run: &mut Run, id: Id, opened: &Opened) {
        match opened {
            Err(Number::Header) => {
                let test = file::unmet_test(self.image, id).expect("a test that is not met");
                run.meet(UNMET_TEST, test as u64);
            }
            Err(Number::Chain) => {
                let link = file::bad_link(self.image, id).expect("a bad link");
                run.meet(BAD_LINK, link_number(link));
            }
            _ => (),
        }
    }
}

/// The kind of what is met where a header is not whole: the test, 1 to 12.
pub const UNMET_TEST: &str = "unmet test of a header";

/// The kind of what is met where a link is bad: see `link_number`.
pub const BAD_LINK: &str = "bad link";

/// The kind of what is met where an index file is bad: as for a link, or see below.
pub const BAD_INDEX: &str = "bad index file";

/// The numbers of a header 1 that is not one, and of one that maps not what it must.
pub const BAD_HEADER_1: u64 = 17;
pub const BAD_FIRST_BLOCKS: u64 = 18;

/// A number for what is wrong with an index file.
fn index_number(index: BadIndex) -> u64 {
    match index {
        BadIndex::Link(link) => link_number(link),
        BadIndex::Header1 => BAD_HEADER_1,
        BadIndex::FirstBlocks => BAD_FIRST_BLOCKS,
    }
}

/// A number for what is wrong with a link: 1 to 12 for a test of a whole header, then 13 to 16.
fn link_number(link: BadLink) -> u64 {
    match link {
        BadLink::NotWhole(test) => test as u64,
        BadLink::NotInUse => 13,
        BadLink::NoSlot => 14,
        BadLink::Sequence => 15,
        BadLink::Segment => 16,
    }
}

/// A number that changes with the bytes of an image: one that is too large to be lent by copy is
/// lent as it is, and its number is the same before and after.
pub fn digest(image: &[u8]) -> u64 {
    let words = image.chunks_exact(8);
    words.fold(1, |digest: u64, eight| {
        let word = u64::from_le_bytes(eight.try_into().expect("eight bytes"));
        digest.rotate_left(5) ^ word.wrapping_mul(0x9e37_79b9_7f4a_7c15)
    })
}
