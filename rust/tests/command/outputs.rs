//! `--out`: a file is replaced whole or not at all, and what is no file is written
//! as it stands.

use std::fs::{self, File, Permissions};
use std::io::Read;
use std::os::unix::fs::{chown, FileTypeExt, MetadataExt, PermissionsExt};
use std::process::Command;
use std::thread;

use support::unhex;

use crate::{done, fails, file, folder, jarrovento, names, program, run, Link};

/// A log header, as hex; `header` needs no file but its output.
const BUILT: &str = "0400010100026e3700000000";

/// The words that write that header to `out`.
fn header(out: &str) -> [&str; 7] {
    ["header", "--nonce", "01", "--host", "n7", "--out", out]
}

fn mode(path: &str) -> u32 {
    fs::metadata(path).unwrap().permissions().mode() & 0o7777
}

#[test]
fn a_new_file() {
    let folder = folder("new_file");
    let usual = mode(&file(&folder, "usual", b""));
    let out = folder.join("out");
    let out = out.to_str().unwrap();
    done(&jarrovento(&header(out), b""));
    assert_eq!(fs::read(out).unwrap(), unhex(BUILT));
    assert_eq!(mode(out), usual);
    assert_eq!(names(&folder), ["out", "usual"]);
    // And by a name without a folder.
    done(&run(
        program().args(header("here")).current_dir(&folder),
        b"",
    ));
    assert_eq!(names(&folder), ["here", "out", "usual"]);
}

/// Whoever has the old file open goes on reading the old content.
#[test]
fn an_old_file_is_replaced_and_keeps_its_permissions() {
    let folder = folder("old_file");
    for permissions in [0o600, 0o640, 0o755] {
        let out = file(&folder, "out", b"as it was");
        fs::set_permissions(&out, Permissions::from_mode(permissions)).unwrap();
        let mut old = File::open(&out).unwrap();
        done(&jarrovento(&header(&out), b""));
        assert_eq!(fs::read(&out).unwrap(), unhex(BUILT));
        assert_eq!(mode(&out), permissions);
        let mut content = String::new();
        old.read_to_string(&mut content).unwrap();
        assert_eq!(content, "as it was");
        assert_eq!(names(&folder), ["out"]);
    }
}

#[test]
fn an_old_file_keeps_its_owner() {
    let folder = folder("owner");
    let out = file(&folder, "out", b"as it was");
    // Where the test may not give a file away, the owner is its own.
    let _ = chown(&out, Some(65_534), Some(65_534));
    let owner = |found: fs::Metadata| (found.uid(), found.gid());
    let before = owner(fs::metadata(&out).unwrap());
    done(&jarrovento(&header(&out), b""));
    assert_eq!(owner(fs::metadata(&out).unwrap()), before);
}

/// The system lets no file grow: nothing is half written, and nothing is left.
#[test]
fn a_failure_leaves_everything_as_it_was() {
    let folder = folder("half_written");
    let old = file(&folder, "old", b"as it was");
    let new = folder.join("new");
    for out in [&old, new.to_str().unwrap()] {
        let mut shell = Command::new("sh");
        shell
            .args(["-c", "trap '' XFSZ; ulimit -f 0; exec \"$0\" \"$@\""])
            .arg(program().get_program())
            .args(header(out));
        let run = run(&mut shell, b"");
        fails(&run, 74, &format!("{out}: File too large (os error 27)"));
        assert_eq!(names(&folder), ["old"]);
        assert_eq!(fs::read(&old).unwrap(), b"as it was");
    }
}

#[test]
fn a_link_stays_and_what_it_leads_to_is_replaced() {
    let folder = folder("links");
    let (here, there) = (folder.join("here"), folder.join("there"));
    fs::create_dir(&here).unwrap();
    fs::create_dir(&there).unwrap();
    let target = file(&there, "file", b"as it was");
    fs::set_permissions(&target, Permissions::from_mode(0o600)).unwrap();
    let mut old = File::open(&target).unwrap();
    let link = Link::to("../there/file", here.join("link"));
    done(&jarrovento(&header(link.to_str().unwrap()), b""));
    assert!(link.is_symlink());
    assert_eq!(fs::read(&target).unwrap(), unhex(BUILT));
    assert_eq!(mode(&target), 0o600);
    let mut content = String::new();
    old.read_to_string(&mut content).unwrap();
    assert_eq!(content, "as it was");
    assert_eq!(names(&here), ["link"]);
    assert_eq!(names(&there), ["file"]);
}

#[test]
fn a_link_to_no_file_makes_it() {
    let folder = folder("dangling");
    let link = Link::to("file", folder.join("link"));
    done(&jarrovento(&header(link.to_str().unwrap()), b""));
    assert!(link.is_symlink());
    assert_eq!(fs::read(folder.join("file")).unwrap(), unhex(BUILT));
    assert_eq!(names(&folder), ["file", "link"]);
}

#[test]
fn a_pipe_is_written_as_it_stands() {
    let folder = folder("pipe");
    let pipe = folder.join("pipe");
    let made = Command::new("mkfifo").arg(&pipe).status().unwrap();
    assert!(made.success());
    let reader = thread::spawn({
        let pipe = pipe.clone();
        move || fs::read(pipe).unwrap()
    });
    done(&jarrovento(&header(pipe.to_str().unwrap()), b""));
    // Before the reader, who would wait for ever at a pipe that is gone.
    assert!(fs::metadata(&pipe).unwrap().file_type().is_fifo());
    assert_eq!(reader.join().unwrap(), unhex(BUILT));
    assert_eq!(names(&folder), ["pipe"]);
}

/// `/dev/stdout` leads here. It is not named itself, nor is any device: were the
/// command to replace what it should write, it would be the machine's that is gone.
const STANDARD_OUTPUT: &str = "/proc/self/fd/1";

/// Also where standard output is a file that others write to before and after.
#[test]
fn standard_output_by_its_name() {
    let run = jarrovento(&header(STANDARD_OUTPUT), b"");
    done(&run);
    assert_eq!(run.stdout, unhex(BUILT));

    let folder = folder("stdout");
    let log = folder.join("log");
    let mut shell = Command::new("sh");
    shell
        .args(["-c", "{ printf before; \"$@\"; printf after; } > \"$0\""])
        .arg(&log)
        .arg(program().get_program())
        .args(header(STANDARD_OUTPUT));
    done(&crate::run(&mut shell, b""));
    let expected = [b"before", &unhex(BUILT)[..], b"after"].concat();
    assert_eq!(fs::read(&log).unwrap(), expected);
    assert_eq!(names(&folder), ["log"]);
}

/// A program that is running is a file that the system lets nobody write.
#[test]
fn what_can_t_be_written_is_not_replaced() {
    let folder = folder("busy");
    let out = folder.join("out");
    let copy = "cp \"$(command -v sleep)\" \"$0\"";
    let copied = Command::new("sh").args(["-c", copy]).arg(&out).status();
    assert!(copied.unwrap().success());
    let mut running = Command::new(&out).arg("60").spawn().unwrap();
    let out = out.to_str().unwrap();
    let run = jarrovento(&header(out), b"");
    running.kill().unwrap();
    running.wait().unwrap();
    fails(&run, 74, &format!("{out}: Text file busy (os error 26)"));
    assert_eq!(names(&folder), ["out"]);
}

#[test]
fn a_folder_can_t_be_written() {
    let folder = folder("folder");
    let out = folder.to_str().unwrap();
    let run = jarrovento(&header(out), b"");
    fails(&run, 74, &format!("{out}: Is a directory (os error 21)"));
    assert!(names(&folder).is_empty());
}
