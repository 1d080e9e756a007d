//! The calls that are measured, and the sides that make them.
//!
//! Every side is reached through the same kind of pointer, so that none has a shorter way to its code.

use crate::loaded::Loaded;
use crate::plain::{self, facts, writing, Answer};
use ods1::{kinds, words};

/// The library that the bindings are linked with.
pub struct Linked;

/// Plain Rust.
pub struct Plain;

/// Declares the calls, each with who makes it in plain Rust and with the kind of its function, and lets the
/// bindings, plain Rust and libraries that were loaded make them.
macro_rules! calls {
    ($($plain:path, $kind:ident => $call:ident($($argument:ident: $type:ty),*);)*) => {
        /// Who makes the calls. An answer is written as the exported calls write it.
        pub trait Calls {
            $(fn $call(&self, $($argument: $type,)* answer: &mut Answer);)*
        }

        impl Calls for Linked {
            $(fn $call(&self, $($argument: $type,)* answer: &mut Answer) {
                words::$call($($argument,)* answer);
            })*
        }

        impl Calls for Plain {
            $(fn $call(&self, $($argument: $type,)* answer: &mut Answer) {
                $plain($($argument,)* answer);
            })*
        }

        #[allow(unsafe_code)]
        impl Calls for Loaded {
            $(fn $call(&self, $($argument: $type,)* answer: &mut Answer) {
                // SAFETY: the function is one of the library, of this kind, and stays loaded.
                unsafe { kinds::$kind(self.$call, $($argument,)* answer) }
            })*
        }
    };
}

calls! {
    plain::open_volume, of_image => open_volume(image: &[u8]);
    plain::open_file, of_file => open_file(image: &[u8], id: [u16; 3]);
    plain::map, of_file_and_place => map(image: &[u8], id: [u16; 3], vbn: u32);
    plain::look_up, look_up => look_up(image: &[u8], id: [u16; 3], name: [u16; 5]);
    plain::next_record, of_file_and_place => next_record(image: &[u8], id: [u16; 3], place: u32);
    plain::judge, judge => judge(image: &[u8], blocks: &mut [u8], headers: &mut [u8]);
    writing::create, create => create(
        image: &mut [u8],
        name: [u16; 5],
        rights: (u16, u16),
        blocks: &mut [u8],
        headers: &mut [u8]
    );
    writing::extend, extend => extend(
        image: &mut [u8],
        id: [u16; 3],
        count: u32,
        blocks: &mut [u8],
        headers: &mut [u8]
    );
    writing::delete, delete => delete(
        image: &mut [u8],
        id: [u16; 3],
        blocks: &mut [u8],
        headers: &mut [u8]
    );
    facts::geometry, of_image => geometry(image: &[u8]);
    facts::label, of_image => label(image: &[u8]);
    facts::header, of_number => header(image: &[u8], number: u16);
    facts::pointer, of_number_and_place => pointer(image: &[u8], number: u16, place: u32);
    facts::attributes, of_file => attributes(image: &[u8], id: [u16; 3]);
    facts::extent, of_file_and_place => extent(image: &[u8], id: [u16; 3], vbn: u32);
    facts::free_run, of_place => free_run(image: &[u8], from: u32);
}

/// The answer of a call.
pub fn answer_of(call: impl FnOnce(&mut Answer)) -> Answer {
    let mut answer = [0; 12];
    call(&mut answer);
    answer
}
