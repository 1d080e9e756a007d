//! The reading verbs on a hub station's disk, whose index file has four headers.

use serde_json::json;
use volumes::block::BLOCK_BYTES;
use volumes::hub::{hub, Hub};
use volumes::volume::Volume;

use crate::asked::{bytes, expect_refused, members, text};
use crate::common::folder_with;

/// How many numbers have their slots in what header 1 maps.
fn first_part(volume: &Volume) -> u16 {
    let blocks = volume.file(1).headers[0].blocks();
    let before = 2 + volume.plan.index_map_blocks();
    u16::try_from(blocks - before).expect("a number")
}

#[test]
fn the_index_file_is_told() {
    let volume = hub(&Hub::SMALL);
    let scratch = folder_with("hub_told", &volume.image);
    let told = text(scratch.folder(), "info v.dsk");
    assert!(told.contains("\nindex file 4 headers\n"), "{told}");
    let object = members(scratch.folder(), "info v.dsk");
    assert_eq!(object["index_headers"], json!(4));
    assert_eq!(object["slots"], json!(180));
    assert_eq!(object["counts"]["headers"], json!(150));
}

#[test]
fn files_past_header_1_are_read() {
    let volume = hub(&Hub::SMALL);
    let scratch = folder_with("hub_read", &volume.image);
    let last = first_part(&volume);
    let roles = &volume.roles;
    let odd = [roles.locked, roles.marked];
    let past = volume.files.iter().filter(|file| {
        let number = file.headers[0].number;
        number > last && !odd.contains(&number)
    });
    let mut read = 0;
    for file in past {
        let header = &file.headers[0];
        let id = format!("{},{},0", header.number, header.sequence);
        let blocks = file.lbns().into_iter().map(|lbn| {
            let from = lbn as usize * BLOCK_BYTES;
            &volume.image[from..from + BLOCK_BYTES]
        });
        let expected: Vec<u8> = blocks.flatten().copied().collect();
        let line = format!("cat --blocks v.dsk {id}");
        assert!(bytes(scratch.folder(), &line) == expected, "{line}");
        read += 1;
    }
    assert!(read > 20, "{read} files were read");
}

#[test]
fn a_bad_link_is_refused() {
    let mut volume = hub(&Hub::SMALL);
    let second = volume.file(1).headers[1].number;
    volume.edit_header(second, |header| header.sequence ^= 1);
    let scratch = folder_with("hub_refused", &volume.image);
    let meaning = expect_refused(
        scratch.folder(),
        "info v.dsk",
        "opening the volume",
        "answer 4 INDEX place 0",
    );
    assert!(meaning.contains("index file"), "{meaning}");
}
