//! Measures the exported calls against plain Rust that does the same work on the same images.
//!
//! Both sides answer the same twelve words, which is checked. They take turns round by round, so
//! that what disturbs one disturbs the other ([`turns`]). A line of the table gives the median time of a
//! call on each side, and the ratio library/Rust: below 1 the library is faster. The verdict is also held
//! against reading the headers in use and both maps once and nothing more, eight bytes at a time.
//! Create, extend and delete judge the volume first: beside each of their lines there is one of the
//! verdict on the same volume.
//!
//! `bench against OLD.a` has another build of the library as a third side, and `bench against OLD.a NEW.a`
//! measures the second one instead of the library that the bindings are linked with. Both archives are
//! loaded as shared objects ([`loaded`]). A line gives the ratio new/old, with bounds of what chance alone
//! makes of it, and new/Rust; `bench against SAME.a SAME.a` shows what else is in it.
//!
//! At the end the tool is measured against the calls that it makes ([`tool`]), and against e2fsck
//! ([`ext2`]); `bench tool` does that alone.
//!
//! With `--only WORD` a run has only the lines whose name has the word.
//!
//! The Rust side is built without the overflow checks that the tests have, and in one unit, so that the
//! compiler sees all of it at once, as it does of the library.

#![deny(unsafe_code)]

mod calls;
mod changes;
mod ext2;
mod facts;
mod folder;
mod hub;
mod judging;
mod loaded;
mod plain;
mod reading;
mod table;
mod tool;
mod turns;
mod volumes_to_judge;

use calls::{Calls, Linked, Plain};
use loaded::Loaded;
use std::path::Path;
use table::Run;
use turns::{Role, Side};

/// The library that the bindings are linked with.
const LINKED: &str = concat!(
    env!("CARGO_MANIFEST_DIR"),
    "/../../target/staticlib/libods1.a"
);

fn main() {
    let arguments: Vec<String> = std::env::args().skip(1).collect();
    let arguments: Vec<&str> = arguments.iter().map(String::as_str).collect();
    let (arguments, word) = match arguments[..] {
        [.., "--only", word] => (&arguments[..arguments.len() - 2], word),
        _ => (&arguments[..], ""),
    };
    match *arguments {
        [] => {
            measure_calls(&Run::new(linked(), word));
            tool::run(word);
        }
        ["tool"] => tool::run(word),
        ["against", old] => measure_calls(&Run::new(both(old, LINKED), word)),
        ["against", old, new] => measure_calls(&Run::new(both(old, new), word)),
        ["calls", verb, image] => tool::make_calls(verb, image),
        _ => panic!("usage: bench [tool | against OLD.a [NEW.a]] [--only WORD]"),
    }
}

/// Plain Rust.
fn plain() -> Side {
    Side::new(Role::Plain, vec![Box::new(Plain)])
}

/// The library that the bindings are linked with, and plain Rust.
fn linked() -> Vec<Side> {
    vec![Side::new(Role::Library, vec![Box::new(Linked)]), plain()]
}

/// How often an archive is loaded.
const COPIES: usize = 16;

/// Two archives, and plain Rust.
fn both(old: &str, new: &str) -> Vec<Side> {
    println!("old: {old}\nnew: {new}");
    let load = |role, archive: &str, name: &str| {
        let copies = Loaded::copies_of(Path::new(archive), name, COPIES);
        let copies = copies
            .into_iter()
            .map(|copy| Box::new(copy) as Box<dyn Calls>);
        Side::new(role, copies.collect())
    };
    vec![
        load(Role::Old, old, "old"),
        load(Role::Library, new, "new"),
        plain(),
    ]
}

/// Measures the exported calls.
fn measure_calls(run: &Run) {
    run.print_head();
    reading::measure(run);
    facts::measure(run);
    measure_verdicts(run);
    measure_changes(run);
    hub::measure(run);
    judging::measure_sizes(run);
}

/// Measures the verdict on full volumes.
fn measure_verdicts(run: &Run) {
    run.line("verdict, RL02, 2,000 files", |line| {
        line.judge(&volumes_to_judge::rl02_of_files(), 2_005);
    });
    run.line("verdict, RL02, 400 files of 5 headers", |line| {
        line.judge(&volumes_to_judge::rl02_of_chains(), 2_005);
    });
    run.line("verdict, RL02, 2,000 files, home at 512", |line| {
        line.judge(&volumes_to_judge::rl02_with_a_later_home(), 2_005);
    });
    run.line("verdict, 1,044,480 blocks, 28,910 headers", |line| {
        line.judge(&volumes_to_judge::largest(), 28_910);
    });
}

/// Measures create, extend and delete, and the verdict on the same volumes.
fn measure_changes(run: &Run) {
    run.line("verdict, RL02, 2,000 files, free in one piece", |line| {
        line.judge(&volumes_to_judge::rl02_with_room(), 2_005);
    });
    run.line("create, extend, delete, RL02, free in one piece", |line| {
        line.change(volumes_to_judge::rl02_with_room);
    });
    run.line("verdict, RL02, 2,000 files, 4,000 holes", |line| {
        line.judge(&volumes_to_judge::rl02_with_broken_room(), 2_005);
    });
    run.line("create, extend, delete, RL02, 4,000 holes", |line| {
        line.change(volumes_to_judge::rl02_with_broken_room);
    });
    run.line("verdict, 1,044,480 blocks, 28,810 headers", |line| {
        line.judge(&volumes_to_judge::largest_with_room(), 28_810);
    });
    run.line("create, extend, delete, 1,044,480 blocks", |line| {
        line.change(volumes_to_judge::largest_with_room);
    });
}
