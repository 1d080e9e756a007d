//! The judging program, run as a user runs it: what it prints, against the model, for Volume V,
//! for each flaw of a small volume, and for input of every odd length.

use model::answer::ANSWER_WORDS;
use model::{Answer, Number};
use std::io::{ErrorKind, Write};
use std::path::{Path, PathBuf};
use std::process::{Command, Stdio};
use std::thread;
use volumes::flaw::{each_flawed, volumes_to_judge, Flawed};
use volumes::header::Areas;
use volumes::volume::{Plan, Volume};
use volumes::volume_v::volume_v;

/// Paper 01, "The work and its edge": "an image of at most 65,536 bytes from standard input", and
/// "room for 4,096 header marks". An image of that size has 128 blocks.
const MOST_BYTES: usize = 65_536;
const HEADER_MARKS: usize = 4_096;
const BLOCK_MARKS: usize = MOST_BYTES / 512;

/// The program, which `rt ci` has proved and built.
fn program() -> PathBuf {
    let path = Path::new(env!("CARGO_MANIFEST_DIR")).join("../../crates/judge/out/judge");
    assert!(
        path.is_file(),
        "crates/judge/out/judge is missing: run rt ci at the root of the repository"
    );
    path
}

/// What the program prints, given this input. It must end well.
fn printed(input: &[u8]) -> String {
    let mut child = Command::new(program())
        .stdin(Stdio::piped())
        .stdout(Stdio::piped())
        .stderr(Stdio::piped())
        .spawn()
        .expect("the program starts");
    let mut stdin = child.stdin.take().expect("its input is a pipe");
    let input = input.to_vec();
    let feeder = thread::spawn(move || match stdin.write_all(&input) {
        // It reads one byte more than it takes, and need not read the rest.
        Err(error) if error.kind() == ErrorKind::BrokenPipe => Ok(()),
        written => written,
    });
    let output = child.wait_with_output().expect("the program ends");
    feeder
        .join()
        .expect("the feeder ends")
        .expect("the input is taken");
    assert!(output.status.success(), "it ends with {}", output.status);
    assert!(output.stderr.is_empty(), "it writes no error");
    String::from_utf8(output.stdout).expect("it prints text")
}

/// What paper 01, "Volume V", has it print: "number, name and place of the answer; then counts of
/// blocks, covered blocks, free bits and index bits in use .. for a refusal the first line only".
fn expected(input: &[u8]) -> String {
    // "longer input is SIZE".
    let words: [u64; ANSWER_WORDS] = if input.len() > MOST_BYTES {
        Answer::refused(Number::Size).words()
    } else {
        let mut blocks = vec![0; BLOCK_MARKS];
        let mut headers = vec![0; HEADER_MARKS];
        model::verdict::judge(input, &mut blocks, &mut headers).words()
    };
    let name = Number::from_number(words[0]).expect("a number of the table");
    let mut text = format!("answer {} {} place {}\n", words[0], name.name(), words[1]);
    if words[0] == 0 {
        for (name, count) in ["blocks", "claimed", "free", "headers"]
            .iter()
            .zip(&words[2..])
        {
            text += &format!("{name} {count}\n");
        }
    }
    text
}

#[test]
fn volume_v_prints_the_five_lines() {
    let five = "answer 0 DONE place 0\nblocks 100\nclaimed 26\nfree 74\nheaders 6\n";
    let image = volume_v().image;
    assert_eq!(printed(&image), five);
    assert_eq!(expected(&image), five);
}

#[test]
fn input_of_every_odd_length() {
    let volume = volume_v().image;
    let lengths = [
        0, 1, 511, 512, 51_199, 51_200, 51_201, 51_712, 65_024, 65_535, 65_536, 65_537, 65_538,
        66_048, 200_000,
    ];
    for length in lengths {
        let mut input = volume.clone();
        input.resize(length, 0);
        assert_eq!(printed(&input), expected(&input), "{length} bytes");
    }
}

/// A sound volume of 128 blocks with this H.FMAX.
fn with_h_fmax(h_fmax: u16) -> Volume {
    let m = u32::from(h_fmax).div_ceil(4_096);
    let end = 2 + m + 16;
    let plan = Plan {
        blocks: BLOCK_MARKS as u32,
        home: 1,
        h_vlev: 257,
        h_fmax,
        h_iblb: 2,
        more_slots: vec![],
        control: end,
        storage_map: end + 1,
    };
    let mut volume = Volume::new(plan, vec![0; MOST_BYTES]);
    volume.add_known(Areas::USUAL, vec![], vec![]);
    volume.put_storage_map();
    volume
}

#[test]
fn a_larger_h_fmax_than_there_is_room_for_is_work() {
    for (h_fmax, answer) in [
        (16, "answer 0 DONE"),
        (4_096, "answer 0 DONE"),
        (4_097, "answer 16 WORK"),
        (65_535, "answer 16 WORK"),
    ] {
        let image = with_h_fmax(h_fmax).image;
        let text = printed(&image);
        assert_eq!(text, expected(&image), "H.FMAX {h_fmax}");
        assert!(text.starts_with(answer), "H.FMAX {h_fmax}: {text}");
    }
}

#[test]
fn each_flaw_of_a_small_volume() {
    let mut met = [0; 32];
    let mut seen = 0;
    let mut volumes = volumes_to_judge(8, 30);
    volumes.retain(|volume| volume.image.len() <= MOST_BYTES);
    each_flawed(&volumes, |flawed: Flawed| {
        let image = &flawed.changed.image;
        let text = printed(image);
        assert_eq!(text, expected(image), "{}", flawed.flaw.name);
        let number: usize = text
            .split(' ')
            .nth(1)
            .and_then(|word| word.parse().ok())
            .expect("a number");
        met[number] += 1;
        seen += 1;
    });
    assert!(seen >= 300, "{seen} flaws");
    for number in [0, 17, 18, 19, 21] {
        assert!(met[number] > 0, "no flaw is answered {number}");
    }
}
