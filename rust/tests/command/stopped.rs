//! `day clear` and `day add` that are stopped on the way: the old day is there, or the
//! new one, and never a part of one.

use std::fs;
use std::os::unix::process::ExitStatusExt;
use std::path::{Path, PathBuf};
use std::process::{Command, Stdio};
use std::sync::OnceLock;
use std::thread::sleep;
use std::time::{Duration, Instant};

use support::{day_file, Source};

use crate::{done, folder, jarrovento, names, program};

/// A full file of short records, and the words that change it.
struct Case {
    old: Vec<u8>,
    new: Vec<u8>,
    words: Vec<&'static str>,
}

fn cases() -> [Case; 2] {
    let with = |records| day_file(&[[1, 0, 0]], &vec![(0, 0, vec![]); records]);
    [
        Case {
            old: with(5_956),
            new: with(5_953),
            words: vec!["day", "clear", "day", "--drop", "0,17,5955"],
        },
        Case {
            old: with(5_955),
            new: with(5_956),
            words: vec![
                "day",
                "add",
                "day",
                "--header-number",
                "0",
                "--stretch",
                "0",
            ],
        },
    ]
}

impl Case {
    /// The command, in a folder where the file is `day`.
    fn command(&self, folder: &Path) -> Command {
        let mut command = program();
        command
            .args(&self.words)
            .current_dir(folder)
            .stdin(Stdio::null());
        command
    }

    /// Whether the new day is there. The old one is, otherwise, and the command can be
    /// run as if nothing had been, whatever else it left in the folder.
    #[track_caller]
    fn is_new(&self, folder: &Path) -> bool {
        let day = folder.join("day");
        let there = fs::read(&day).unwrap();
        let new = there == self.new;
        assert!(new || there == self.old, "{} bytes", there.len());
        let beside = |name: &String| name != "day" && !name.starts_with(".jarrovento-");
        assert_eq!(names(folder).into_iter().find(beside), None);
        if !new {
            assert!(self.command(folder).status().unwrap().success());
            assert!(fs::read(&day).unwrap() == self.new);
        }
        new
    }
}

/// The library that stops the command. It is compiled once, since the tests that use it
/// run side by side.
fn stopping() -> PathBuf {
    static LIBRARY: OnceLock<PathBuf> = OnceLock::new();
    LIBRARY.get_or_init(compiled).clone()
}

fn compiled() -> PathBuf {
    let library = folder("stop_at").join("stop_at.so");
    let compiled = Command::new("cc")
        .args([
            "-std=c99", "-Wall", "-Wextra", "-Werror", "-fPIC", "-shared", "-o",
        ])
        .arg(&library)
        .arg(concat!(
            env!("CARGO_MANIFEST_DIR"),
            "/tests/command/stop_at.c"
        ))
        .arg("-ldl")
        .status();
    assert!(compiled.expect("the C compiler cc starts").success());
    library
}

/// At each call that changes a file or flushes it, and in the middle of a write. Up to
/// the change of the name the old day is there, and from then on the new one.
#[test]
fn stopped_at_each_call() {
    let library = stopping();
    for (number, case) in cases().iter().enumerate() {
        let calls = calls(case, &library, number);
        let renamed = calls.iter().position(|call| call == "rename day").unwrap();
        for stop in 1..=calls.len() {
            let folder = folder(&format!("stopped_{number}_{stop}"));
            fs::write(folder.join("day"), &case.old).unwrap();
            let status = case
                .command(&folder)
                .env("LD_PRELOAD", &library)
                .env("STOP_AT", stop.to_string())
                .status()
                .unwrap();
            assert_eq!(status.signal(), Some(9), "{stop}: {}", calls[stop - 1]);
            assert_eq!(case.is_new(&folder), stop > renamed + 1, "{stop}");
        }
    }
}

/// The calls of a command that is not stopped, in the folder of the file, whose second
/// file is called `second` here.
fn calls(case: &Case, library: &Path, number: usize) -> Vec<String> {
    let folder = folder(&format!("calls_{number}"));
    let list = folder.with_extension("txt");
    let _ = fs::remove_file(&list);
    fs::write(folder.join("day"), &case.old).unwrap();
    let status = case
        .command(&folder)
        .env("LD_PRELOAD", library)
        .env("CALLS", &list)
        .status();
    assert!(status.unwrap().success());
    assert!(case.is_new(&folder));
    let folder = fs::canonicalize(&folder).unwrap();
    let place = folder.to_str().unwrap();
    let short = |call: &str| {
        let call = call.replace(&format!("{place}/"), "").replace(place, ".");
        match call.split_once(" .jarrovento-") {
            Some((call, _)) => format!("{call} second"),
            None => call,
        }
    };
    let list = fs::read_to_string(&list).unwrap();
    list.lines().map(short).collect()
}

/// All of the second file is flushed before it has the name, and the folder, where the
/// name is, after it. So a power cut finds one of the two on the disk, and after the
/// command has ended it is the new one. The day file itself is not written.
#[test]
fn flushed_before_the_name_and_after_it() {
    let library = stopping();
    for (number, case) in cases().iter().enumerate() {
        let expected = [
            "create second",
            "fchown second",
            "fchmod second",
            "write second",
            "fsync second",
            "rename day",
            "fsync .",
        ];
        assert_eq!(calls(case, &library, 10 + number), expected);
    }
}

/// Killed at moments around the one when the file gets its name: later where the old
/// day was found, and earlier where the new one was.
#[test]
fn killed_at_random() {
    let mut source = Source::new(151);
    for (number, case) in cases().iter().enumerate() {
        let folder = folder(&format!("killed_{number}"));
        let day = folder.join("day");
        let start = Instant::now();
        fs::write(&day, &case.old).unwrap();
        assert!(!case.is_new(&folder));
        let mut whole = start.elapsed();
        let mut found = [0, 0];
        for _ in 0..100 {
            fs::write(&day, &case.old).unwrap();
            let mut child = case.command(&folder).spawn().unwrap();
            sleep(whole.mul_f64(0.5 + source.below(1_000) as f64 / 1_000.0));
            child.kill().unwrap();
            child.wait().unwrap();
            let new = case.is_new(&folder);
            found[usize::from(new)] += 1;
            whole = whole.mul_f64(if new { 0.9 } else { 1.1 });
            whole = whole.max(Duration::from_micros(50));
        }
        assert!(found.into_iter().all(|times| times > 0), "{found:?}");
    }
}

/// What a command of the same number, which was killed, has left: the next goes on.
#[test]
fn what_is_left_is_in_nobody_s_way() {
    let [case, _] = cases();
    let folder = folder("left");
    fs::write(folder.join("day"), &case.old).unwrap();
    let shell = "for turn in 0 1 2; do : > .jarrovento-$$-$turn; done; exec \"$0\" \"$@\"";
    let status = Command::new("sh")
        .args(["-c", shell])
        .arg(program().get_program())
        .args(&case.words)
        .current_dir(&folder)
        .status();
    assert!(status.unwrap().success());
    assert!(case.is_new(&folder));
    assert_eq!(names(&folder).len(), 4);
}

/// Several at once: each waits for the one before it, and no record is lost.
#[test]
fn several_at_once() {
    let folder = folder("at_once");
    let day = folder.join("day");
    let day = day.to_str().unwrap();
    done(&jarrovento(&["day", "write", "--out", day], b""));
    let children: Vec<_> = (0..24)
        .map(|number| {
            let mut command = program();
            let header = format!("010001{number:02x}");
            command
                .args(["day", "add", day, "--header", &header, "--stretch", "0"])
                .stdin(Stdio::null());
            command.spawn().unwrap()
        })
        .collect();
    for mut child in children {
        assert!(child.wait().unwrap().success());
    }
    let list = jarrovento(&["day", "list", day, "--hex-out"], b"");
    let list = String::from_utf8(list.stdout).unwrap();
    let mut lines: Vec<&str> = list.lines().collect();
    lines.sort();
    let expected: Vec<String> = (0..24)
        .map(|number| format!("010001{number:02x} 0 -"))
        .collect();
    assert_eq!(lines, expected);
    assert_eq!(names(&folder), ["day"]);
}
