//! What the README shows is what the tool does.

use std::fs;
use std::path::Path;
use std::process::Command;

#[path = "common/scratch.rs"]
mod scratch;

use scratch::Scratch;

/// A command that the README shows, and the lines that it shows as its output.
struct Shown {
    command: String,
    lines: Vec<String>,
}

/// The commands of the README's first console block.
fn shown() -> Vec<Shown> {
    let root = Path::new(env!("CARGO_MANIFEST_DIR")).join("..");
    let readme = fs::read_to_string(root.join("README.md")).expect("the README can be read");
    let block = readme.split("```console\n").nth(1).expect("a block");
    let block = block.split("```").next().expect("the end of the block");
    let mut shown: Vec<Shown> = Vec::new();
    for line in block.lines() {
        match line.strip_prefix("$ ") {
            Some(command) => shown.push(Shown {
                command: command.into(),
                lines: Vec::new(),
            }),
            None => shown.last_mut().expect("a command").lines.push(line.into()),
        }
    }
    shown
}

/// Whether lines are those that are shown; `...` stands for the rest of a line, or for the lines that follow.
fn is_shown(got: &[&str], lines: &[String]) -> bool {
    let is_cut = lines.last().is_some_and(|line| line == "...");
    let lines = &lines[..lines.len() - usize::from(is_cut)];
    let is_line = |(got, line): (&&str, &String)| match line.strip_suffix("...") {
        Some(start) => got.starts_with(start),
        None => got == line,
    };
    let is_length = got.len() == lines.len() || (is_cut && got.len() > lines.len());
    is_length && got.iter().zip(lines).all(is_line)
}

#[test]
fn the_readme_shows_real_output() {
    let scratch = Scratch::new("readme");
    let root = Path::new(env!("CARGO_MANIFEST_DIR")).join("..");
    fs::create_dir(scratch.path("samples")).expect("a folder can be made");
    let sample = "samples/volume-v.dsk";
    fs::copy(root.join(sample), scratch.path(sample)).expect("the sample can be copied");
    let tool = Path::new(env!("CARGO_BIN_EXE_ods1"));
    let folder = tool.parent().expect("the tool is in a folder");
    let shown = shown();
    assert!(shown.len() >= 4, "{} commands", shown.len());
    for Shown { command, lines } in shown {
        let output = Command::new("sh")
            .args(["-c", &format!("PATH=\"$FOLDER:$PATH\"; {command} 2>&1")])
            .env("FOLDER", folder)
            .current_dir(scratch.folder())
            .output()
            .expect("a shell can be run");
        let text = String::from_utf8(output.stdout).expect("the output is text");
        let got: Vec<&str> = text.lines().collect();
        assert!(is_shown(&got, &lines), "{command}: {got:?}");
    }
}
