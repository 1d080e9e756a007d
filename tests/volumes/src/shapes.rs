//! Sound volumes of every shape, at random.

use crate::block::{put_word, BLOCK_BYTES};
use crate::directory::put_directories;
use crate::facts::put_facts;
use crate::header::{
    at, cut, pointers_of, Areas, Header, Pointer, DEACCESS_LOCKED, MARKED_FOR_DELETE, MOST_POINTERS,
};
use crate::random::Random;
use crate::space::Space;
use crate::volume::{File, Plan, Roles, Volume, FIRST_HEADERS};

/// How large a random volume is to be.
#[derive(Clone, Copy, Debug, PartialEq, Eq)]
pub enum Size {
    /// 100 to 400 blocks.
    Small,
    /// 400 to 6,000 blocks, and often where the storage map grows by a block.
    Medium,
    /// An RL02 disk: 20,480 blocks.
    Rl02,
    /// This many.
    Blocks(u32),
}

/// The blocks of an RL02 disk.
pub const RL02_BLOCKS: u32 = 20_480;

/// The most blocks of a volume.
pub const MOST_BLOCKS: u32 = 1_044_480;

/// A random N.
pub(crate) fn random_blocks(random: &mut Random, size: Size) -> u32 {
    match size {
        Size::Small => match random.below(4) {
            0 => *random.pick(&[100, 101, 128, 255, 256, 257, 258, 400]),
            _ => random.long_between(100, 400),
        },
        Size::Medium => match random.below(4) {
            0 => *random.pick(&[512, 513, 769, 4_095, 4_096, 4_097, 4_100]),
            1 => random.long_between(2_000, 6_000),
            _ => random.long_between(400, 2_000),
        },
        Size::Rl02 => RL02_BLOCKS,
        Size::Blocks(blocks) => blocks,
    }
}

/// A random H.FMAX: mostly small, often at a bound of the index map.
fn random_h_fmax(random: &mut Random, blocks: u32) -> u16 {
    let bounds = [
        16, 17, 24, 32, 33, 4_095, 4_096, 4_097, 8_192, 8_193, 65_535,
    ];
    match random.below(4) {
        0 => *random.pick(&bounds),
        1 => random.long_between(16, 64) as u16,
        _ => random.long_between(16, (blocks / 4).clamp(16, 6_000)) as u16,
    }
}

/// The positions of a home block below N.
pub fn home_positions(blocks: u32) -> Vec<u32> {
    let after = (1..).map(|number| 256 * number);
    let all = std::iter::once(1).chain(after);
    all.take_while(|&position| position < blocks).collect()
}

/// A random home position: the first as often as another.
pub(crate) fn random_home(random: &mut Random, blocks: u32) -> u32 {
    let positions = home_positions(blocks);
    match random.below(4) {
        0 | 1 => positions[0],
        // Among the first few: the positions passed over are to fit the bad block file.
        _ => *random.pick(&positions[..positions.len().min(5)]),
    }
}

/// How many slots there are to be past the first 16: none, as many as H.FMAX asks for, one fewer or
/// more, or any number, as far as there is space and the index file's header can map them.
fn random_more_slots(random: &mut Random, h_fmax: u16, space: &Space) -> u32 {
    let asked = u32::from(h_fmax) - FIRST_HEADERS;
    let most = (space.free() / 3).min(20_000);
    let wanted = match random.below(6) {
        0 => 0,
        1 => asked,
        2 => asked.saturating_sub(1),
        3 => asked + random.long_between(1, 40),
        _ => random.long_between(0, asked.min(most)),
    };
    wanted.min(most)
}

/// A random plan, and the space that it leaves.
fn random_plan(random: &mut Random, size: Size) -> (Plan, Space) {
    let blocks = random_blocks(random, size);
    let home = random_home(random, blocks);
    let h_fmax = random_h_fmax(random, blocks);
    let (mut plan, mut space) = plan_of_16_slots(random, (blocks, home), h_fmax);
    let count = random_more_slots(random, h_fmax, &space);
    // The runs are long enough for one header to map them all.
    let longest = 8 + count / 40;
    plan.more_slots = space.take_blocks(random, count, longest);
    while pointers_of(&plan.index_lbns()).len() > MOST_POINTERS {
        plan.more_slots.pop();
    }
    (plan, space)
}

/// A random plan whose index file has 16 slots, with N, the home and H.FMAX given, and the space that
/// it leaves.
pub(crate) fn plan_of_16_slots(
    random: &mut Random,
    (blocks, home): (u32, u32),
    h_fmax: u16,
) -> (Plan, Space) {
    let mut space = Space::new(blocks);
    space.take(0);
    for position in passed_over(blocks, home) {
        space.take(position);
    }
    space.take(home);
    let mut plan = Plan {
        blocks,
        home,
        h_vlev: *random.pick(&[257, 258]),
        h_fmax,
        h_iblb: 0,
        more_slots: Vec::new(),
        control: 0,
        storage_map: 0,
    };
    let first = plan.index_map_blocks() + FIRST_HEADERS;
    plan.h_iblb = if home == 1 && random.once_in(4) {
        // Boot block, home block, index map and slots are one run.
        space.take_run_from(2, first)
    } else {
        run(&mut space, random, first)
    };
    let q = plan.storage_map_blocks();
    if random.once_in(2) {
        plan.control = run(&mut space, random, 1 + q);
        plan.storage_map = plan.control + 1;
    } else {
        plan.storage_map = run(&mut space, random, q);
        plan.control = run(&mut space, random, 1);
    }
    (plan, space)
}

/// The home positions below the home.
pub fn passed_over(blocks: u32, home: u32) -> Vec<u32> {
    let positions = home_positions(blocks);
    let passed = positions.into_iter().filter(|&position| position < home);
    passed.collect()
}

/// The pointers of each header of file 3, which covers the home positions passed over: as many headers
/// as they need, and one where there are none.
pub(crate) fn bad_block_shares(plan: &Plan) -> Vec<Vec<Pointer>> {
    let positions = passed_over(plan.blocks, plan.home);
    let shares = positions.chunks(MOST_POINTERS).map(pointers_of);
    let mut shares: Vec<Vec<Pointer>> = shares.collect();
    shares.resize(shares.len().max(1), Vec::new());
    shares
}

/// Takes blocks in a row, which there are: the volume is almost empty yet.
fn run(space: &mut Space, random: &mut Random, count: u32) -> u32 {
    let start = space.take_run(random, count);
    start.expect("a volume of 100 blocks has room for its files 1 and 2")
}

/// Cuts some pointers further, but to no more than a header holds.
pub(crate) fn cut_some(random: &mut Random, pointers: &mut Vec<Pointer>) {
    if random.once_in(2) {
        let most = random.between(pointers.len(), MOST_POINTERS);
        let count = most.min(pointers.len() + random.between(0, 6));
        cut(random, pointers, count);
    }
}

/// The only header of a known file, with areas anywhere.
fn known_header(random: &mut Random, number: u16, pointers: Vec<Pointer>) -> Header {
    Header {
        areas: Areas::random(random, pointers.len()),
        ..Header::new(number, number, pointers)
    }
}

/// File 1, of one header.
fn index_file(random: &mut Random, plan: &Plan) -> File {
    let mut pointers = pointers_of(&plan.index_lbns());
    cut_some(random, &mut pointers);
    File::of(known_header(random, 1, pointers))
}

/// The header of file 2: one pointer, or two of which the first maps one block.
fn storage_header(random: &mut Random, plan: &Plan) -> Header {
    let mut pointers = pointers_of(&plan.storage_lbns());
    if pointers.len() == 1 && random.once_in(2) {
        let control = Pointer {
            lbn: plan.control,
            blocks: 1,
        };
        let bits = Pointer {
            lbn: plan.storage_map,
            blocks: plan.storage_map_blocks(),
        };
        pointers = vec![control, bits];
    }
    known_header(random, 2, pointers)
}

/// File 3: the home positions passed over, and a block or two. Some of its headers may be extension
/// headers.
fn bad_block_file(
    random: &mut Random,
    space: &mut Space,
    numbers: &mut Vec<u16>,
    plan: &Plan,
) -> File {
    let mut lbns = passed_over(plan.blocks, plan.home);
    let more = random.long_between(0, 2);
    lbns.extend(space.take_blocks(random, more, 1));
    // Eight numbers are left to the files that every volume has.
    let most = (numbers.len() - 8).min(3);
    let more = if random.once_in(3) {
        random.between(0, most)
    } else {
        0
    };
    chain_of(random, numbers, (3, 3), pointers_of(&lbns), 1 + more)
}

/// What a file that is to be made needs.
struct Wanted {
    headers: usize,
    blocks: u32,
    longest: u32,
}

/// Numbers from 6 on that are free, in a random order, so that chains jump to and fro.
fn free_numbers(random: &mut Random, volume: &Volume) -> Vec<u16> {
    let last = volume.last_number();
    let mut numbers: Vec<u16> = (6..=last).collect();
    for header in volume.headers() {
        numbers.retain(|&number| number != header.number);
    }
    let last = *numbers.last().expect("eleven numbers");
    for place in (1..numbers.len()).rev() {
        numbers.swap(place, random.between(0, place));
    }
    // The last number of all is worth a file more often than by chance.
    if random.once_in(2) {
        numbers.retain(|&number| number != last);
        numbers.push(last);
    }
    numbers
}

/// A random sequence: mostly small, sometimes 0 or the last.
pub(crate) fn random_sequence(random: &mut Random) -> u16 {
    match random.below(8) {
        0 => *random.pick(&[0, 1, 255, 256, 32_768, 65_534, 65_535]),
        1 => random.word(),
        _ => 1 + random.below(40) as u16,
    }
}

/// Flags that refuse nothing, in any mix.
fn harmless_flags(random: &mut Random) -> (u8, u8) {
    if random.once_in(2) {
        return (0, 0);
    }
    let user = random.byte() & !DEACCESS_LOCKED;
    let system = random.byte() & !MARKED_FOR_DELETE;
    (user, system)
}

/// A file of known number and sequence, with its blocks shared out to its headers.
fn make_file(
    random: &mut Random,
    space: &mut Space,
    numbers: &mut Vec<u16>,
    first: (u16, u16),
    wanted: &Wanted,
) -> File {
    let mut pointers = pointers_of(&space.take_blocks(random, wanted.blocks, wanted.longest));
    pointers.truncate(wanted.headers * MOST_POINTERS);
    let count = wanted.headers.max(pointers.len().div_ceil(MOST_POINTERS));
    if pointers.len() < count {
        cut(random, &mut pointers, count);
    }
    chain_of(random, numbers, first, pointers, count)
}

/// A file of known number and sequence, with its pointers shared out to so many headers.
fn chain_of(
    random: &mut Random,
    numbers: &mut Vec<u16>,
    first: (u16, u16),
    pointers: Vec<Pointer>,
    count: usize,
) -> File {
    let mut names = vec![first];
    while names.len() < count {
        let number = numbers.pop().expect("a number for each header");
        names.push((number, random_sequence(random)));
    }
    let shares = share_out(random, pointers, count);
    File::chain(names.into_iter().zip(shares).map(|(name, pointers)| {
        let (user_flags, system_flags) = harmless_flags(random);
        Header {
            user_flags,
            system_flags,
            areas: Areas::random(random, pointers.len()),
            ..Header::new(name.0, name.1, pointers)
        }
    }))
}

/// Shares pointers out to headers in order: evenly, so that each has one if there are enough.
fn share_out(random: &mut Random, pointers: Vec<Pointer>, count: usize) -> Vec<Vec<Pointer>> {
    let mut shares = Vec::new();
    let mut left = &pointers[..];
    for headers in (1..=count).rev() {
        let even = left.len().div_ceil(headers);
        // Sometimes a header is left empty, if those after it can hold all.
        let some = if random.once_in(12) && left.len() <= (headers - 1) * MOST_POINTERS {
            0
        } else {
            even
        };
        let (share, rest) = left.split_at(some);
        shares.push(share.to_vec());
        left = rest;
    }
    shares
}

/// A random sound volume, with a file for each role.
pub fn random_volume(random: &mut Random, size: Size) -> Volume {
    let (plan, space) = random_plan(random, size);
    volume_of(random, plan, space, index_file)
}

/// A random sound volume of a plan, with its index file and the space that is left.
pub(crate) fn volume_of(
    random: &mut Random,
    plan: Plan,
    mut space: Space,
    index_file: impl FnOnce(&mut Random, &Plan) -> File,
) -> Volume {
    let noisy = random.once_in(2);
    let mut image = vec![0; plan.blocks as usize * BLOCK_BYTES];
    if noisy {
        random.fill(&mut image);
    }
    let mut volume = Volume::new(plan, image);
    let index = index_file(random, &volume.plan);
    let storage = storage_header(random, &volume.plan);
    volume.add(index);
    volume.add(File::of(storage));
    let mut numbers = free_numbers(random, &volume);
    volume.add(bad_block_file(
        random,
        &mut space,
        &mut numbers,
        &volume.plan,
    ));
    add_files(random, &mut space, &mut numbers, &mut volume);
    leave_old_headers(random, &numbers, &mut volume);
    put_directories(random, &mut volume);
    volume.put_storage_map();
    // From numbers of their own, so that what a test draws next does not hang on them.
    put_facts(&mut Random::new(!random.clone().number()), &mut volume);
    volume
}

/// Adds files 4 and 5, and one for each role; and more while there are numbers and space.
fn add_files(random: &mut Random, space: &mut Space, numbers: &mut Vec<u16>, volume: &mut Volume) {
    let small = |headers, blocks| Wanted {
        headers,
        blocks,
        longest: 3,
    };
    let mut nobody = Vec::new();
    let blocks = random.long_between(1, 3);
    volume.add(make_file(
        random,
        space,
        &mut nobody,
        (4, 4),
        &small(1, blocks),
    ));
    volume.add(make_file(random, space, &mut nobody, (5, 5), &small(1, 0)));

    let chained = random_chain(random, space, numbers);
    let mut add = |random: &mut Random, wanted: &Wanted, user: u8, system: u8| {
        let first = (
            numbers.pop().expect("eleven numbers"),
            random_sequence(random),
        );
        let mut file = make_file(random, space, numbers, first, wanted);
        file.headers[0].user_flags |= user;
        file.headers[0].system_flags |= system;
        volume.add(file);
        first.0
    };
    let roles = Roles {
        chained: add(random, &chained, 0, 0),
        plain: add(random, &small(1, 5), 0, 0),
        directory: add(random, &small(1, 2), 0, 0),
        empty: add(random, &small(1, 0), 0, 0),
        locked: add(random, &small(1, 1), DEACCESS_LOCKED, 0),
        marked: add(random, &small(1, 1), 0, MARKED_FOR_DELETE),
    };
    volume.roles = roles;
    while random.below(4) != 0 && numbers.len() > 3 && space.free() > 20 {
        let headers = random.between(1, 3);
        let blocks = random.long_between(0, 9);
        let first = (numbers.pop().expect("a number"), random_sequence(random));
        let wanted = small(headers, blocks);
        volume.add(make_file(random, space, numbers, first, &wanted));
    }
}

/// What the chained file needs: three headers or more, up to 256 where there are numbers.
fn random_chain(random: &mut Random, space: &Space, numbers: &[u16]) -> Wanted {
    // Five other roles need a number each, and the first header is one of the chain's.
    let most_headers = (numbers.len() - 5).min(256);
    let most_blocks = space.free() / 2;
    let headers = match random.below(8) {
        0 => most_headers,
        1 => random.between(3, most_headers),
        _ => random.between(3, most_headers.min(6)),
    };
    let longest = *random.pick(&[1, 2, 5, 40, 300]);
    let least = headers as u32;
    let blocks = match random.below(4) {
        0 => least.max(most_blocks),
        1 => least.max(random.long_between(1, most_blocks)),
        _ => least + random.long_between(0, 20),
    };
    Wanted {
        headers,
        blocks: blocks.min(most_blocks.max(least)),
        longest,
    }
}

/// Leaves old headers in slots that are not in use: whole ones, as if never cleared, or nothing but
/// a sequence.
fn leave_old_headers(random: &mut Random, numbers: &[u16], volume: &mut Volume) {
    for &number in numbers.iter().take(12) {
        let sequence = random_sequence(random);
        let lbn = volume.slot_of(number);
        match random.below(3) {
            0 => Header::new(number, sequence, Vec::new()).put(volume.block_mut(lbn)),
            1 => {
                let block = volume.block_mut(lbn);
                block.fill(0);
                put_word(block, at::H_FSEQ, sequence);
            }
            _ => (),
        }
    }
}

/// Random volumes by number, made for one purpose.
pub struct Maker {
    pub seed: u64,
    pub purpose: &'static str,
}

impl Maker {
    /// The volume of a number.
    fn make(&self, number: u64, size: Size) -> Volume {
        let mut random = Random::of_case(self.seed, self.purpose, number);
        random_volume(&mut random, size)
    }

    /// So many small volumes.
    pub fn small(&self, count: u64) -> Vec<Volume> {
        (0..count)
            .map(|number| self.make(number, Size::Small))
            .collect()
    }

    /// The first volume of a size that passes a test.
    pub fn find(&self, size: Size, test: fn(&Volume) -> bool) -> Volume {
        let mut all = (1_000_000..).map(|number| self.make(number, size));
        all.find(test).expect("there is always another one")
    }

    /// A volume whose chained file has 256 headers, and that has a number not in use.
    pub fn longest_chain(&self) -> Volume {
        self.find(Size::Blocks(1_200), |volume| {
            let chained = volume.file(volume.roles.chained);
            chained.headers.len() == 256 && volume.unused_number().is_some()
        })
    }
}

#[cfg(test)]
pub(crate) mod tests {
    use super::*;
    use crate::volume::MAP_BITS;
    use model::{attributes, file, sound, verdict, volume};
    use model::{Answer, Number, Vbn};

    /// Sees that a volume is accepted, with the counts that were given to it.
    fn expect_accepted(volume: &Volume) {
        let image = &volume.image;
        let blocks = u64::from(volume.plan.blocks);
        let claimed: u64 = volume.files.iter().map(|it| u64::from(it.blocks())).sum();
        let headers = volume.headers().count() as u64;
        let mut marks = vec![7; volume.plan.blocks as usize];
        let mut links = vec![7; usize::from(volume.plan.h_fmax)];
        let answer = verdict::judge(image, &mut marks, &mut links);
        let counts = [blocks, claimed, blocks - claimed, headers];
        assert_eq!(answer, Answer::done(&counts), "{}", volume.describe());
        assert!(sound::opens_and_is_sound(image), "{}", volume.describe());
        let covered = volume.covered().into_iter().map(u8::from);
        assert!(marks.into_iter().eq(covered), "{}", volume.describe());
        for (n, mark) in (1..=volume.plan.h_fmax).zip(links) {
            let linked = volume.headers().filter(|header| header.link.0 == n);
            assert_eq!(usize::from(mark), linked.count(), "{n}");
        }
    }

    /// Sees that a volume opens, and each of its files, with the blocks that were given to it.
    pub fn expect_as_built(volume: &Volume) {
        let image = &volume.image;
        let answer = volume::open_volume(image);
        let home = u64::from(volume.plan.home);
        assert_eq!(answer, Answer::done(&[home]), "{}", volume.describe());
        expect_accepted(volume);
        for built in &volume.files {
            let opened = file::open(image, built.id());
            if built.is_locked() {
                assert_eq!(opened.err(), Some(Number::Locked));
                continue;
            }
            let opened = opened.expect("a sound file opens");
            let lbns = built.lbns();
            assert_eq!(opened.blocks(), lbns.len() as u64);
            for (vbn, &lbn) in (1..).zip(&lbns) {
                let found = opened.lbn(Vbn(vbn));
                assert_eq!(found.map(|it| it.0), Some(u64::from(lbn)));
            }
            assert_eq!(opened.lbn(Vbn(0)), None);
            assert_eq!(opened.lbn(Vbn(lbns.len() as u64 + 1)), None);
            expect_facts(image, built);
        }
    }

    /// Sees that a file says of itself what was given to it.
    fn expect_facts(image: &[u8], built: &File) {
        let Some(facts) = built.headers[0].facts else {
            return;
        };
        let answer = attributes::attributes(image, built.id());
        let records = u16::from_le_bytes([facts.record_type, facts.record_attributes]);
        assert_eq!(answer.value[1], facts.end.bytes, "{facts:?}");
        let rights = [facts.owner, facts.protection].map(u64::from);
        assert_eq!(answer.value[2..4], rights, "{facts:?}");
        let words = [records, facts.record_size].map(u64::from);
        assert_eq!(answer.value[5..7], words, "{facts:?}");
        assert_eq!(answer.value[7], u64::from(facts.highest), "{facts:?}");
    }

    #[test]
    fn small_volumes_open_as_built() {
        for seed in 0..2_000 {
            expect_as_built(&random_volume(&mut Random::new(seed), Size::Small));
        }
    }

    #[test]
    fn medium_volumes_open_as_built() {
        for seed in 0..60 {
            expect_as_built(&random_volume(&mut Random::new(seed), Size::Medium));
        }
    }

    #[test]
    fn large_volumes_open_as_built() {
        for seed in 0..3 {
            expect_as_built(&random_volume(&mut Random::new(seed), Size::Rl02));
        }
    }

    #[test]
    fn no_block_is_taken_twice() {
        for seed in 0..200 {
            let volume = random_volume(&mut Random::new(seed), Size::Small);
            let mut lbns: Vec<u32> = volume.files.iter().flat_map(File::lbns).collect();
            let all = lbns.len();
            lbns.sort_unstable();
            lbns.dedup();
            assert_eq!(lbns.len(), all);
        }
    }

    /// Sees that among volumes each kind is met.
    pub fn expect_some(volumes: &[Volume], kind: &str, test: impl Fn(&Volume) -> bool) {
        assert!(volumes.iter().any(test), "no volume with {kind}");
    }

    #[test]
    fn every_shape_is_met() {
        let make = |seed, size| random_volume(&mut Random::new(seed), size);
        let mut volumes: Vec<Volume> = (0..400).map(|seed| make(seed, Size::Small)).collect();
        volumes.extend((0..100).map(|seed| make(seed, Size::Medium)));
        for blocks in [100, 256, 257, 4_095, 4_096, 4_097] {
            expect_some(&volumes, "N", |it| it.plan.blocks == blocks);
        }
        for home in [1, 256, 512, 768] {
            expect_some(&volumes, "home", |it| it.plan.home == home);
        }
        for h_fmax in [16, 17, 4_096, 4_097, 65_535] {
            expect_some(&volumes, "H.FMAX", |it| it.plan.h_fmax == h_fmax);
        }
        for h_vlev in [257, 258] {
            expect_some(&volumes, "H.VLEV", |it| it.plan.h_vlev == h_vlev);
        }
        let h_fmax = |it: &Volume| u32::from(it.plan.h_fmax);
        expect_some(&volumes, "few slots", |it| it.last_slot() < h_fmax(it));
        expect_some(&volumes, "all slots", |it| it.last_slot() == h_fmax(it));
        expect_some(&volumes, "more slots", |it| it.last_slot() > h_fmax(it));
        let pointers = |it: &Volume, number| it.file(number).pointers().count();
        expect_some(&volumes, "one index pointer", |it| pointers(it, 1) == 1);
        expect_some(&volumes, "index pointers", |it| pointers(it, 1) > 20);
        for count in [1, 2] {
            expect_some(&volumes, "storage", |it| pointers(it, 2) == count);
        }
        for headers in [1, 2, 4] {
            expect_some(&volumes, "bad block headers", |it| {
                it.file(3).headers.len() == headers
            });
        }
        expect_some(&volumes, "a home in an extension header", |it| {
            let first = it.file(3).headers[0].clone();
            let covers = |lbn| {
                first
                    .pointers
                    .iter()
                    .any(|it| it.lbns().any(|it| it == lbn))
            };
            it.plan.home > 256 && it.file(3).headers.len() > 1 && !covers(256)
        });
        for (name, modulus) in [("N mod 8", 8), ("N mod 4096", MAP_BITS)] {
            expect_some(&volumes, name, |it| it.plan.blocks % modulus == 0);
            expect_some(&volumes, name, |it| it.plan.blocks % modulus != 0);
        }
        let chain = |it: &Volume| it.file(it.roles.chained).headers.len();
        for least in [3, 10, 100, 256] {
            expect_some(&volumes, "a chain", |it| chain(it) >= least);
        }
        let any_header = |it: &Volume, test: &dyn Fn(&Header) -> bool| it.headers().any(test);
        expect_some(&volumes, "a full map", |it| {
            any_header(it, &|header| header.pointers.len() == MOST_POINTERS)
        });
        expect_some(&volumes, "sequence 0", |it| {
            any_header(it, &|header| header.sequence == 0 && header.segment == 0)
        });
        expect_some(&volumes, "a link with sequence 0", |it| {
            any_header(it, &|header| header.link.0 != 0 && header.link.1 == 0)
        });
        expect_some(&volumes, "an empty header within a chain", |it| {
            any_header(it, &|header| header.link.0 != 0 && header.blocks() == 0)
        });
        expect_some(&volumes, "more storage", |it| {
            it.plan.storage_map_blocks() > 1 && it.plan.blocks % MAP_BITS != 0
        });
        expect_some(&volumes, "a label", |it| it.label.is_some());
        expect_some(&volumes, "no label", |it| it.label.is_none());
        expect_some(&volumes, "a header without facts", |it| {
            any_header(it, &|header| header.facts.is_none())
        });
        expect_some(&volumes, "a name before the map area", |it| {
            any_header(it, &|header| header.facts.is_some() && header.has_name())
        });
        expect_some(&volumes, "a name in the map area", |it| {
            any_header(it, &|header| header.facts.is_some() && !header.has_name())
        });
    }
}
