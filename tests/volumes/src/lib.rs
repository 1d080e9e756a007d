//! The volumes of the tests, sound and damaged.
//!
//! They are built from the rules of paper 01, apart from the model: the model reads volumes and
//! this crate writes them, so that a slip in one is seen against the other.
//!
//! * [`random`]: the generator of pseudo-random numbers;
//! * [`block`]: words and checksums of a block;
//! * [`header`]: what a header says, and how it is put;
//! * [`facts`]: what a header says of its file, and a home block of its volume;
//! * [`volume`]: a volume, and the knowledge of what was put where;
//! * [`volume_v`]: the paper's own example;
//! * [`space`]: the blocks of a volume that are taken and free;
//! * [`directory`]: records of every kind, and names;
//! * [`shapes`]: sound volumes of every shape, at random;
//! * [`station`]: a disk as a metering station has it, directories and files with their names;
//! * [`large`]: sound volumes of many blocks;
//! * [`long_index`]: sound volumes whose index file has several headers, at random;
//! * [`hub`]: a disk as a hub station has it, with an index file of several headers;
//! * [`writable`]: sound volumes with little room, for the calls that change one;
//! * [`damage`]: each way that a rule of opening can be broken, with what is then answered;
//! * [`flaw`]: each way that a rule of the verdict can be broken, with its place;
//! * [`accident`]: random changes of a volume, and images of any bytes.

#![forbid(unsafe_code)]

pub mod accident;
pub mod block;
pub mod damage;
pub mod directory;
pub mod facts;
pub mod flaw;
pub mod header;
pub mod hub;
pub mod large;
pub mod long_index;
pub mod random;
pub mod shapes;
pub mod space;
pub mod station;
pub mod volume;
pub mod volume_v;
pub mod writable;

pub use random::Random;
pub use volume::Volume;
