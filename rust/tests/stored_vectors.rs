//! The files that the gate's program `known_answers` is held to are those that the
//! second program makes.

use std::fs;
use std::path::Path;

use support::vectors::vectors;

#[test]
fn the_stored_calls() {
    let calls = vectors().into_iter().map(|vector| vector.call);
    assert!(stored("stdin") == calls.collect::<String>());
}

#[test]
fn the_stored_answers() {
    let answers = vectors().into_iter().map(|vector| vector.answer);
    assert!(stored("stdout") == answers.collect::<String>());
}

fn stored(file: &str) -> String {
    let folder = Path::new(env!("CARGO_MANIFEST_DIR")).join("../crates/known_answers");
    fs::read_to_string(folder.join(file)).unwrap()
}
