//! The verbs.

pub mod audit;
pub mod cat;
pub mod change;
pub mod completions;
pub mod extract;
pub mod info;
pub mod judge;
pub mod ls;
pub mod man;
pub mod map;

mod entries;
mod svg;

use std::path::{Path, PathBuf};

use clap::ArgMatches;

use crate::failure::Outcome;
use crate::image::Image;
use crate::paths::FileName;

/// An argument that the command line requires.
fn required<'a>(arguments: &'a ArgMatches, name: &str) -> &'a str {
    arguments
        .get_one::<String>(name)
        .expect("the argument is required")
}

/// An argument that may be left out.
fn optional<'a>(arguments: &'a ArgMatches, name: &str) -> Option<&'a str> {
    arguments.get_one::<String>(name).map(String::as_str)
}

/// A path that may be left out.
fn optional_path<'a>(arguments: &'a ArgMatches, name: &str) -> Option<&'a Path> {
    arguments.get_one::<PathBuf>(name).map(PathBuf::as_path)
}

/// A path that the command line requires.
fn required_path<'a>(arguments: &'a ArgMatches, name: &str) -> &'a Path {
    optional_path(arguments, name).expect("the argument is required")
}

/// The path of the image.
fn image_path(arguments: &ArgMatches) -> &Path {
    required_path(arguments, "IMAGE")
}

/// The image, to be read.
fn image(arguments: &ArgMatches) -> Outcome<Image> {
    Image::open(image_path(arguments))
}

/// The file that is named.
fn file(arguments: &ArgMatches) -> Outcome<FileName> {
    FileName::read(required(arguments, "FILE"))
}
