//! The comparisons of the calls that change an image: every word of the answer, every byte of the
//! image, and every byte of both work areas.

use crate::judging::{first_byte, Areas, Desk};
use crate::run::{first_difference, show_answer, Line, Run};
use library::Words;
use model::{writing, Answer, Id, Name, Number};
use volumes::Random;

/// A call that changes an image, with its arguments but the work areas.
#[derive(Clone, Copy, Debug, PartialEq, Eq)]
pub enum Change {
    /// Name, owner and protection.
    Create([u16; 5], (u16, u16)),
    Extend(Id, u32),
    Delete(Id),
}

impl Change {
    /// Its name, as `run` counts what is met.
    pub fn name(self) -> &'static str {
        match self {
            Change::Create(..) => "create",
            Change::Extend(..) => "extend",
            Change::Delete(_) => "delete",
        }
    }

    /// The ID that an extend or delete has.
    pub fn id(self) -> Option<Id> {
        match self {
            Change::Create(..) => None,
            Change::Extend(id, _) | Change::Delete(id) => Some(id),
        }
    }

    /// What the library answers and leaves in an image and work areas that are lent as they are.
    pub fn by_library(self, image: &mut [u8], blocks: &mut [u8], headers: &mut [u8]) -> Words {
        match self {
            Change::Create(name, words) => library::create(image, name, words, blocks, headers),
            Change::Extend(id, count) => library::extend(image, id.words(), count, blocks, headers),
            Change::Delete(id) => library::delete(image, id.words(), blocks, headers),
        }
    }

    /// What the model answers and leaves.
    pub fn by_model(self, image: &mut [u8], areas: &mut Areas) -> Words {
        let Areas { blocks, headers } = areas;
        let answer = match self {
            Change::Create(name, words) => {
                writing::create(image, &Name::from_words(name), words, blocks, headers)
            }
            Change::Extend(id, count) => writing::extend(image, id, count.into(), blocks, headers),
            Change::Delete(id) => writing::delete(image, id, blocks, headers),
        };
        answer.words()
    }
}

/// An image that calls change one after the other.
pub struct Changing<'a> {
    pub image: Vec<u8>,
    pub story: &'a [Line],
    /// The calls so far, with the numbers that they were answered.
    pub calls: Vec<(Change, u64)>,
}

impl<'a> Changing<'a> {
    /// An image that no call has changed yet.
    pub fn new(image: &[u8], story: &'a [Line]) -> Changing<'a> {
        Changing {
            image: image.to_vec(),
            story,
            calls: Vec::new(),
        }
    }

    /// Compares one call of library and model, with these work areas: all words of the answer, all
    /// bytes that are then in the image, and all bytes that are then in the areas. A refused call
    /// changes no byte of the image.
    pub fn compare(
        &mut self,
        run: &mut Run,
        desk: &mut Desk,
        call: Change,
        areas: &Areas,
    ) -> Words {
        let mut library = (self.image.clone(), areas.clone());
        let answer = desk.lend_all(&mut library.0, &mut library.1, |image, blocks, headers| {
            call.by_library(image, blocks, headers)
        });
        let mut model = (self.image.clone(), areas.clone());
        let expected = call.by_model(&mut model.0, &mut model.1);
        run.meet(call.name(), expected[0]);
        if answer != expected {
            let lines = vec![
                ("differs first", first_difference(&answer, &expected)),
                ("library", show_answer(&answer)),
                ("model", show_answer(&expected)),
            ];
            self.fail(run, call, areas, lines);
        }
        let answered = ("both answer", show_answer(&answer));
        if let Some(differs) = areas.difference(&library.1, &model.1) {
            self.fail(run, call, areas, vec![answered, differs]);
        }
        if let Some(place) = first_byte(&library.0, &model.0) {
            let differs = self.show_byte(place, library.0[place], model.0[place]);
            self.fail(run, call, areas, vec![answered, differs]);
        }
        if answer[0] != 0 && library.0 != self.image {
            let lines = vec![answered, ("refused", "the image is changed".to_string())];
            self.fail(run, call, areas, lines);
        }
        self.image = library.0;
        self.calls.push((call, answer[0]));
        answer
    }

    /// Compares one call with work areas that are enough, whatever they hold.
    pub fn compare_enough(
        &mut self,
        run: &mut Run,
        random: &mut Random,
        desk: &mut Desk,
        call: Change,
    ) -> Words {
        let areas = Areas::enough_for(random, &self.image);
        self.compare(run, desk, call, &areas)
    }

    /// Compares one call, and sees that it is answered as was expected without the model.
    pub fn expect(
        &mut self,
        run: &mut Run,
        random: &mut Random,
        desk: &mut Desk,
        call: Change,
        expected: Result<&[u64], Number>,
    ) {
        let areas = Areas::enough_for(random, &self.image);
        let answer = self.compare(run, desk, call, &areas);
        let words = match expected {
            Ok(value) => Answer::done(value).words(),
            Err(number) => Answer::refused(number).words(),
        };
        if answer != words {
            let lines = vec![
                ("both answer", show_answer(&answer)),
                ("the paper", show_answer(&words)),
            ];
            self.fail(run, call, &areas, lines);
        }
    }

    /// What a report says of a byte of the image that differs.
    fn show_byte(&self, place: usize, library: u8, model: u8) -> Line {
        let before = self.image[place];
        let (lbn, at) = (place / 512, place % 512);
        let told =
            format!("LBN {lbn} byte {at}: library {library}, model {model}, before {before}");
        ("image", told)
    }

    /// Reports a call that does otherwise.
    fn fail(&self, run: &Run, call: Change, areas: &Areas, lines: Vec<Line>) -> ! {
        let mut all = self.lines();
        all.extend([
            ("call", format!("{call:?}")),
            ("block area", format!("{} bytes", areas.blocks.len())),
            ("header area", format!("{} bytes", areas.headers.len())),
        ]);
        all.extend(lines);
        run.fail("the library changes an image otherwise", &all);
    }

    /// What a report says of the image and of the calls so far.
    pub fn lines(&self) -> Vec<Line> {
        let mut lines = self.story.to_vec();
        lines.push(("image", format!("{} bytes", self.image.len())));
        let calls = self.calls.iter();
        lines.extend(calls.map(|(call, number)| {
            let name = Number::from_number(*number).map_or("?", Number::name);
            ("call before", format!("{call:?}: {name}"))
        }));
        lines
    }
}
