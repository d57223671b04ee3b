//! The command `jarrovento`, run as a shell runs it.

mod check_header;
mod day;
mod day_edits;
mod day_lines;
mod headers;
mod help;
mod limits;
mod outputs;
mod refusals;
mod report;
mod round_trips;
mod stopped;
mod trouble;

use std::ffi::OsStr;
use std::fs;
use std::io::Write;
use std::ops::Deref;
use std::os::unix::fs::symlink;
use std::path::{Path, PathBuf};
use std::process::{Command, Stdio};

/// A header of four strings, in hex: 01, "n7", no bytes, "de".
const HEADER: &str = "0400010100026e37000000026465";

/// "hello" under the key 00 01 .. 2f, that header and a stretch of 16.
const HELLO: &str = "e3600052f6f4be16f514d7f4fee221ddcf4d71fd5d";

/// The sample's key and day file.
const SAMPLE_KEY: &str = concat!(env!("CARGO_MANIFEST_DIR"), "/sample/not-secret.key");
const SAMPLE_DAY: &str = concat!(env!("CARGO_MANIFEST_DIR"), "/sample/pauses.day");

struct Run {
    status: i32,
    stdout: Vec<u8>,
    stderr: String,
}

/// Runs the command with these words, and with `input` as standard input.
fn jarrovento<W: AsRef<OsStr>>(words: &[W], input: &[u8]) -> Run {
    run(program().args(words), input)
}

fn program() -> Command {
    Command::new(env!("CARGO_BIN_EXE_jarrovento"))
}

fn run(command: &mut Command, input: &[u8]) -> Run {
    let mut child = command
        .stdin(Stdio::piped())
        .stdout(Stdio::piped())
        .stderr(Stdio::piped())
        .spawn()
        .unwrap();
    // A command that refuses before it reads has closed its end.
    let _ = child.stdin.take().unwrap().write_all(input);
    let output = child.wait_with_output().unwrap();
    Run {
        status: output.status.code().expect("no signal ended it"),
        stdout: output.stdout,
        stderr: String::from_utf8(output.stderr).unwrap(),
    }
}

/// An empty folder for a test's files.
fn folder(test: &str) -> PathBuf {
    let folder = Path::new(env!("CARGO_TARGET_TMPDIR"))
        .join("command")
        .join(test);
    if folder.exists() {
        fs::remove_dir_all(&folder).unwrap();
    }
    fs::create_dir_all(&folder).unwrap();
    folder
}

/// A link, which goes with the test whatever comes of that: `rt ci` refuses a project
/// that has one left, also where cargo builds.
struct Link(PathBuf);

impl Link {
    fn to(target: &str, at: PathBuf) -> Link {
        symlink(target, &at).unwrap();
        Link(at)
    }
}

impl Deref for Link {
    type Target = Path;

    fn deref(&self) -> &Path {
        &self.0
    }
}

impl Drop for Link {
    fn drop(&mut self) {
        let _ = fs::remove_file(&self.0);
    }
}

/// The names in a folder, in order.
fn names(folder: &Path) -> Vec<String> {
    let entries = fs::read_dir(folder).unwrap();
    let mut names: Vec<String> = entries
        .map(|entry| entry.unwrap().file_name().into_string().unwrap())
        .collect();
    names.sort();
    names
}

/// Writes a file, and returns its name.
fn file(folder: &Path, name: &str, content: &[u8]) -> String {
    let path = folder.join(name);
    fs::write(&path, content).unwrap();
    path.to_str().unwrap().to_string()
}

/// The words of `seal` or `open`, with the key 00 01 .. 2f and the four strings.
fn words<'a>(command: &'a str, key: &'a str, stretch: &'a str, more: &[&'a str]) -> Vec<&'a str> {
    let mut words = vec![
        command,
        "--key",
        key,
        "--header",
        HEADER,
        "--stretch",
        stretch,
    ];
    words.extend(more);
    words
}

#[track_caller]
fn done(run: &Run) {
    assert_eq!((run.status, run.stderr.as_str()), (0, ""));
}

#[track_caller]
fn fails(run: &Run, status: i32, message: &str) {
    assert_eq!(run.status, status, "{}", run.stderr);
    assert_eq!(run.stderr, format!("jarrovento: {message}\n"));
    assert!(run.stdout.is_empty());
}
