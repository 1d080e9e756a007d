//! The verbs that read: what they write, for a person and as JSON, on Volume V, on a station's disk, and on
//! volumes that are damaged, odd or none at all.

#[path = "../common/mod.rs"]
mod common;

mod asked;
mod directories;
mod help;
mod hub;
mod listing;
mod paths;
mod refused;
mod station;
mod story;
mod untouched;
mod volume_v;
