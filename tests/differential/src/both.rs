//! Create, extend and delete on volumes that are too large to be lent by copy.

use crate::judging::{first_byte, needed, Areas, Desk};
use crate::run::{show_answer, Run};
use crate::writing::Change;
use model::{Answer, Number};
use volumes::{Random, Volume};

/// A volume that is too large to be lent by copy: one for the library, and the same for the model.
pub struct Both<'r> {
    pub run: &'r mut Run,
    desk: Desk,
    random: Random,
    pub library: Volume,
    model: Volume,
}

impl<'r> Both<'r> {
    /// A volume that can be made twice.
    pub fn new(run: &'r mut Run, make: impl Fn() -> Volume) -> Both<'r> {
        Both {
            random: Random::new(run.seed()),
            run,
            desk: Desk::default(),
            library: make(),
            model: make(),
        }
    }

    /// Makes a call, and sees that both answer what is expected and leave the same; the library then
    /// accepts the image.
    pub fn expect(&mut self, call: Change, expected: Result<&[u64], Number>) {
        if !self.run.next_case() {
            return;
        }
        let (n, h_fmax) = needed(&self.library.image);
        let areas = Areas::random(&mut self.random, n, h_fmax);
        let mut by_library = areas.clone();
        let image = &mut self.library.image;
        let answer = self.desk.lend_areas(&mut by_library, |blocks, headers| {
            call.by_library(image, blocks, headers)
        });
        let mut by_model = areas.clone();
        let words = call.by_model(&mut self.model.image, &mut by_model);
        let paper = match expected {
            Ok(value) => Answer::done(value).words(),
            Err(number) => Answer::refused(number).words(),
        };
        self.run.meet(call.name(), paper[0]);
        let told = format!("{call:?} on {}", self.library.describe());
        let show = show_answer;
        assert!(
            answer == paper,
            "{told}: {} not {}",
            show(&answer),
            show(&paper)
        );
        assert!(words == paper, "{told}: model {}", show(&words));
        let differs = areas.difference(&by_library, &by_model);
        assert!(differs.is_none(), "{told}: {differs:?}");
        let place = first_byte(&self.library.image, &self.model.image);
        assert!(place.is_none(), "{told}: byte {place:?} of the image");
        let judged = self.desk.lend_areas(&mut by_library, |blocks, headers| {
            library::judge(&self.library.image, blocks, headers)
        });
        assert!(judged[0] == 0, "{told}: {}", show(&judged));
    }
}
