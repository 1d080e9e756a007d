//! `cat`: the bytes of a file, to standard output.

use clap::ArgMatches;
use ods1::FileId;
use serde_json::json;

use super::map::extents;
use crate::failure::{self, Failure, Outcome};
use crate::output::{self, Report};

/// The bytes of a file, as parts of the image: to its end of file, or all of its blocks.
pub fn parts(image: &[u8], id: FileId, all_blocks: bool) -> Outcome<Vec<&[u8]>> {
    let attributes = failure::open(image, id, ods1::attributes)?;
    let mapped = u64::from(attributes.blocks) * ods1::BLOCK as u64;
    let mut left = if all_blocks { mapped } else { attributes.end };
    let mut parts = Vec::new();
    for (_, extent) in extents(image, id, attributes.blocks)? {
        let bytes = extent.bytes(image);
        let part = &bytes[..bytes.len().min(usize::try_from(left).unwrap_or(usize::MAX))];
        left -= part.len() as u64;
        parts.push(part);
    }
    Ok(parts)
}

pub fn run(arguments: &ArgMatches) -> Outcome<Report> {
    let image = super::image(arguments)?;
    let id = super::file(arguments)?.find(&image)?;
    let parts = parts(&image, id, arguments.get_flag("blocks"))?;
    if arguments.get_flag("json") {
        let bytes = parts.concat();
        let members = json!({"id": id.to_string(), "bytes": bytes.len(), "base64": base64(&bytes)});
        return Ok(Report::of_members(members));
    }
    for part in parts {
        output::write(part).map_err(Failure::with_output)?;
    }
    Ok(Report::default())
}

/// Bytes in base 64 (RFC 4648, section 4), since JSON has no bytes.
fn base64(bytes: &[u8]) -> String {
    const DIGITS: &[u8; 64] = b"ABCDEFGHIJKLMNOPQRSTUVWXYZabcdefghijklmnopqrstuvwxyz0123456789+/";
    let mut text = String::with_capacity(bytes.len().div_ceil(3) * 4);
    for group in bytes.chunks(3) {
        let mut three = [0; 3];
        three[..group.len()].copy_from_slice(group);
        let bits = u32::from_be_bytes([0, three[0], three[1], three[2]]);
        for digit in 0..4 {
            let value = bits >> (18 - 6 * digit) & 63;
            let is_filled = digit <= group.len();
            text.push(if is_filled {
                DIGITS[value as usize].into()
            } else {
                '='
            });
        }
    }
    text
}

#[cfg(test)]
mod tests {
    use super::base64;

    #[test]
    fn base_64_as_in_its_definition() {
        let cases = [
            ("", ""),
            ("f", "Zg=="),
            ("fo", "Zm8="),
            ("foo", "Zm9v"),
            ("foob", "Zm9vYg=="),
            ("fooba", "Zm9vYmE="),
            ("foobar", "Zm9vYmFy"),
        ];
        for (bytes, text) in cases {
            assert_eq!(base64(bytes.as_bytes()), text);
        }
    }
}
