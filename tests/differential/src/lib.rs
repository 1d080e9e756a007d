//! What the comparisons of library and model share.
//!
//! * [`run`]: numbers and counts the cases of a test, and reports a case that differs;
//! * [`names`]: the comparisons of the calls on names, and the names and texts that they use;
//! * [`images`]: the comparisons of the calls on images;
//! * [`built`]: those of a sound volume, whose builder knows what it put where;
//! * [`damaged`]: those of a damaged volume;
//! * [`facts`]: the comparisons of the calls that tell what a volume and its files say;
//! * [`judging`]: the comparisons of the verdict, with its work areas;
//! * [`writing`]: the comparisons of create, extend and delete, with the image that they change;
//! * [`both`]: the same on volumes that are too large to be lent by copy;
//! * [`lists`]: lists of those calls, and what demand 3 says of an image after one;
//! * [`asked`]: the IDs, VBNs, names and record places that are asked of a volume.
//!
//! The environment changes a run:
//!
//! * `ODS1_SEED`: the seed of the random cases (decimal, or hexadecimal after `0x`);
//! * `ODS1_CASES`: how many cases each random test makes, for a long run;
//! * `ODS1_CASE`: the one case to run, as a report of a difference gives it;
//! * `ODS1_TELL`: tells each case before it is run, to find one that ends the run without a report.

#![forbid(unsafe_code)]

pub mod asked;
pub mod both;
pub mod built;
pub mod damaged;
pub mod facts;
pub mod images;
pub mod judging;
pub mod lists;
pub mod names;
pub mod run;
pub mod writing;

pub use run::Run;
pub use volumes::Random;
