//! A second implementation of the rules of paper 01, and of what paper 02 changes of them, to compare
//! the library with.
//!
//! It is written from the papers alone, plain and slow: it shares no code, no table and no way of
//! working with the library. Each function cites the sentence of the paper that it implements, or of
//! paper 000, the specification, where paper 01 only names a field. Of paper 02 it has request 9/14,
//! index files with several headers.
//!
//! One module for each part of the paper:
//!
//! * [`answer`]: "Answer numbers", the form of every answer;
//! * [`radix50`]: "Names and directories", words of three characters;
//! * [`names`]: "Names and directories", proper names as five words and as text;
//! * [`image`]: "The work and its edge" and "The volume", blocks, words, bits and the checksum;
//! * [`header`]: "The header", its fields, when it is whole, and its pointers;
//! * [`volume`]: "The volume", opening one, slots, numbers in use, and chains of headers;
//! * [`file`]: "The header" and "Answer numbers", opening a file, its blocks;
//! * [`facts`]: "The volume" and "The header", where a volume's parts lie, its label, and what a
//!   header says;
//! * [`attributes`]: "The header", what a file says of itself, its end among it;
//! * [`runs`]: "The header" and "The volume", blocks of a file in a row, and free blocks in a row;
//! * [`directory`]: "Names and directories", look-up and the walker's step;
//! * [`verdict`]: "The verdict", its refusals with their places, its counts and its marks;
//! * [`sound`]: "Demand 3, its words and its list", what the verdict is to accept, apart from it;
//! * [`writing`]: "The verdict", create, extend and delete, which judge the volume first;
//! * [`kept`]: "Demand 3, its words and its list", what a list of those calls leaves of a file.

#![forbid(unsafe_code)]

pub mod answer;
pub mod attributes;
pub mod directory;
pub mod facts;
pub mod file;
pub mod header;
pub mod image;
pub mod kept;
pub mod names;
pub mod radix50;
pub mod runs;
pub mod sound;
pub mod verdict;
pub mod volume;
pub mod writing;

#[cfg(test)]
mod long_index;
#[cfg(test)]
mod sample;

pub use answer::{Answer, Number};
pub use file::Id;
pub use image::{FileNumber, Lbn, Vbn};
pub use names::Name;
