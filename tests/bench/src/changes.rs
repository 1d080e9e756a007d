//! A mix of create, extend and delete on a volume. There is an image for each side, which goes on from
//! call to call and from round to round, and all images are always the same: in each turn every side
//! makes the same call, on another image each. A round leaves the free blocks and numbers as it found
//! them, and the slots with higher sequences. Images, marks and answers of all sides are compared.

use crate::calls::{answer_of, Calls};
use crate::plain::Answer;
use crate::table::Line;
use crate::turns::{measure, Side, Turn, Worker, BUDGET};
use std::cell::RefCell;
use volumes::volume_v::READS;
use volumes::Volume;

/// A call that changes an image: it creates, extends by a count or deletes the first, second or third
/// file of a round.
#[derive(Clone, Copy)]
enum Call {
    Create(usize),
    Extend(usize, u32),
    Delete(usize),
}

/// The calls of a round.
const CALLS: [Call; 10] = [
    Call::Create(0),
    Call::Create(1),
    Call::Extend(0, 1),
    Call::Extend(1, 256),
    Call::Extend(0, 100),
    Call::Delete(0),
    Call::Create(2),
    Call::Extend(2, 2),
    Call::Delete(1),
    Call::Delete(2),
];

/// Owner and protection of the files that are created.
const WORDS: (u16, u16) = (0x0101, 0xe000);

/// What a side works on, and a number that depends on all answers so far.
#[derive(PartialEq, Eq)]
struct Desk {
    image: Vec<u8>,
    blocks: Vec<u8>,
    headers: Vec<u8>,
    /// The IDs of the three files of a round.
    ids: [[u16; 3]; 3],
    sum: u64,
}

/// A number that depends on all words of an answer.
fn mix(sum: u64, answer: &Answer) -> u64 {
    answer
        .iter()
        .fold(sum, |sum, &word| sum.rotate_left(7).wrapping_add(word))
}

impl Desk {
    fn of(volume: Volume) -> Desk {
        Desk {
            blocks: vec![0; volume.plan.blocks as usize],
            headers: vec![0; volume.plan.h_fmax.into()],
            image: volume.image,
            ids: [[0; 3]; 3],
            sum: 0,
        }
    }

    /// Makes a call, which is not refused.
    fn make(&mut self, side: &dyn Calls, call: Call) {
        let Desk {
            image,
            blocks,
            headers,
            ids,
            ..
        } = self;
        let answer = answer_of(|answer| match call {
            Call::Create(_) => side.create(image, READS, WORDS, blocks, headers, answer),
            Call::Extend(file, count) => {
                side.extend(image, ids[file], count, blocks, headers, answer);
            }
            Call::Delete(file) => side.delete(image, ids[file], blocks, headers, answer),
        });
        assert!(answer[0] == 0, "the call is refused: {}", answer[0]);
        if let Call::Create(file) = call {
            ids[file] = [answer[2], answer[3], answer[4]].map(|word| word as u16);
        }
        self.sum = mix(self.sum, &answer);
    }
}

impl Line<'_> {
    /// Measures rounds on the volume that `make` makes. It is made for each side: a copy of a large one
    /// would take more memory.
    pub fn change(&self, make: impl Fn() -> Volume) {
        let first = Desk::of(make());
        let sides = self.run.sides_of(&first.image);
        let others = sides.iter().skip(1).map(|_| Desk::of(make()));
        let desks: Vec<RefCell<Desk>> = std::iter::once(first)
            .chain(others)
            .map(RefCell::new)
            .collect();
        let make_call = |side: &Side, turn: Turn| {
            let call = CALLS[turn.number % CALLS.len()];
            let mut desk = desks[turn.desk].borrow_mut();
            desk.make(side.calls(turn), call);
            1
        };
        let make_call = &make_call;
        let workers = sides.into_iter().map(|side| Worker {
            role: side.role(),
            work: Box::new(move |turn| make_call(side, turn)),
        });
        let times = measure(workers.collect(), CALLS.len(), BUDGET);
        let equal = desks.iter().all(|desk| desk == &desks[0]);
        assert!(equal, "{}: images, marks or answers differ", self.name);
        self.run.print(self.name, CALLS.len(), &times);
    }
}
