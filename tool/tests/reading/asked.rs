//! Runs of the tool, without --json and with it.

use std::path::Path;

use serde_json::{json, Value};

use crate::common::{run, tool, Ended};

/// The answer DONE as JSON.
pub fn done() -> Value {
    json!({"number": 0, "name": "DONE", "place": 0})
}

/// Runs the tool with --json, and answers how it ended and the object that it wrote.
#[track_caller]
pub fn run_json(folder: &Path, line: &str) -> (Ended, Value) {
    let ended = run(folder, &format!("--json {line}"));
    let object: Value = serde_json::from_str(&ended.out).expect("the output is one JSON object");
    assert!(object.is_object() && ended.out.ends_with("}\n"));
    assert_eq!(object["verb"], line.split(' ').next().expect("a verb"));
    (ended, object)
}

/// The text that a run writes which ends well, with nothing on standard error.
#[track_caller]
pub fn text(folder: &Path, line: &str) -> String {
    run(folder, line).expect_done()
}

/// The object that a run writes which ends well: its members after the first ones, which are seen to be
/// those of every object.
#[track_caller]
pub fn members(folder: &Path, line: &str) -> Value {
    let (ended, mut object) = run_json(folder, line);
    ended.expect_done();
    let members = object.as_object_mut().expect("an object");
    let first: Vec<String> = members.keys().take(3).cloned().collect();
    assert_eq!(first, ["verb", "image", "answer"]);
    assert_eq!(members.remove("answer"), Some(done()));
    assert_eq!(members.remove("image"), Some("v.dsk".into()));
    members.remove("verb");
    object
}

/// The bytes that a run writes which ends well, with nothing on standard error.
#[track_caller]
pub fn bytes(folder: &Path, line: &str) -> Vec<u8> {
    let output = tool(folder, line).output().expect("the tool can be run");
    let err = String::from_utf8_lossy(&output.stderr);
    assert_eq!((output.status.code(), &*err), (Some(0), ""), "{line}");
    output.stdout
}

/// Sees that a run is refused with this answer while it does this, with --json and without, and answers
/// the second line of standard error: what it means.
#[track_caller]
pub fn expect_refused(folder: &Path, line: &str, doing: &str, answer: &str) -> String {
    let Ended { status, out, err } = run(folder, line);
    assert_eq!((status, &*out), (Some(1), ""), "{line}");
    let lines: Vec<&str> = err.lines().collect();
    assert_eq!(lines.len(), 2, "{line}: {err}");
    assert_eq!(lines[0], format!("ods1: {doing}: {answer}"), "{line}");
    let meaning = lines[1].strip_prefix("ods1: ").expect("the tool's name");
    let (ended, object) = run_json(folder, line);
    assert_eq!((ended.status, &*ended.err), (Some(1), ""), "{line}");
    assert_eq!(answer_text(&object["answer"]), answer, "{line}");
    assert_eq!(object["while"], doing, "{line}");
    expect_explained(&object, meaning);
    meaning.into()
}

/// An answer of JSON as it is written for a person.
pub fn answer_text(answer: &Value) -> String {
    let name = answer["name"].as_str().expect("a name");
    format!(
        "answer {} {name} place {}",
        answer["number"], answer["place"]
    )
}

/// Sees that a refusal's object says in `meaning`, `now` and `advice` what the sentences say.
#[track_caller]
pub fn expect_explained(object: &Value, sentences: &str) {
    let part = |name: &str| object[name].as_str().expect("a sentence").to_string();
    let now = object.get("now").map_or(String::new(), |now| {
        let part = |name: &str| now[name].as_str().expect("an ID and a name");
        format!(" The number is now {} {}.", part("id"), part("name"))
    });
    assert!(part("meaning").len() > 20 && part("advice").len() > 20);
    assert_eq!(
        sentences,
        format!("{}.{now} {}", part("meaning"), part("advice"))
    );
}

/// Sees that a run has trouble, and that it says just this sentence, in JSON too.
#[track_caller]
pub fn expect_trouble(folder: &Path, line: &str, sentence: &str) {
    run(folder, line).expect_trouble(sentence);
    let (ended, object) = run_json(folder, line);
    assert_eq!(ended.status, Some(2), "{line}");
    assert_eq!(ended.err, format!("ods1: {sentence}\n"), "{line}");
    assert_eq!(object["error"], sentence);
    assert_eq!(object.get("answer"), None);
}
