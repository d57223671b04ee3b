//! The kit's `rt`, which proves the crates and builds the library.

use std::collections::HashSet;
use std::io::{self, BufRead, BufReader};
use std::num::NonZero;
use std::path::Path;
use std::process::{Command, ExitStatus, Stdio};
use std::{fs, mem, thread};

use crate::progress::Progress;
use crate::LIBRARY;

/// Most crates take half of this or less.
const MEMORY_OF_A_CRATE_IN_KB: u64 = 2_000_000;

/// Proves the crate in the folder and those that it needs, all of which are named, and
/// builds its library. `rt lib` would do, but it proves the crates one after the other.
pub fn prove_and_build(folder: &Path, crates: &[&str]) -> Result<(), String> {
    let jobs = at_a_time().to_string();
    let progress = Progress::of(crates.len());
    progress.during(|| {
        run(folder, &["all", "check", "--jobs", &jobs], |name| {
            if crates.contains(&name) {
                progress.done(name);
            }
        })?;
        run(folder, &["lib"], |_| ())
    })
}

/// How many crates are proved at a time: as many as there are processors and memory for.
fn at_a_time() -> u64 {
    let processors = thread::available_parallelism().map_or(1, NonZero::get) as u64;
    let memory = free_kb().map_or(1, |free| free / MEMORY_OF_A_CRATE_IN_KB);
    processors.min(memory).max(1)
}

fn free_kb() -> Option<u64> {
    let told = fs::read_to_string("/proc/meminfo").ok()?;
    let mut lines = told.lines();
    let free = lines.find_map(|line| line.strip_prefix("MemAvailable:"))?;
    free.split_whitespace().next()?.parse().ok()
}

fn run(folder: &Path, words: &[&str], ended: impl FnMut(&str)) -> Result<(), String> {
    let (status, parts) = finish(folder, words, ended).map_err(|error| match error.kind() {
        io::ErrorKind::NotFound => format!(
            "The proved library, {LIBRARY}, is missing or older than what it is made from, and \
             the Rattle kit's rt, which proves and builds it, is not on the PATH. Put the kit's \
             bin/ on the PATH, or bring a current libaez.a there."
        ),
        _ => format!("rt does not run: {error}"),
    })?;
    if status.success() {
        return Ok(());
    }
    let words = words.join(" ");
    Err(format!("rt {words}: {status}\n{}", of_failures(&parts)))
}

/// What rt writes: some lines, and then of each crate a line `== NAME` and what there is
/// to say, once the crate has ended.
#[derive(Default)]
struct Part {
    name: String,
    text: String,
}

/// Runs rt to its end, and calls `ended` with the name of each crate.
fn finish(
    folder: &Path,
    words: &[&str],
    mut ended: impl FnMut(&str),
) -> io::Result<(ExitStatus, Vec<Part>)> {
    let (said, says) = io::pipe()?;
    let mut rt = Command::new("rt")
        .args(words)
        .current_dir(folder)
        .stdin(Stdio::null())
        .stdout(says.try_clone()?)
        .stderr(says)
        .spawn()?;
    let mut part = Part::default();
    let mut parts = Vec::new();
    for line in BufReader::new(said).split(b'\n') {
        let line = line?;
        let line = String::from_utf8_lossy(&line);
        if let Some(name) = line.strip_prefix("== ") {
            ended(name);
            let next = Part {
                name: name.to_string(),
                text: String::new(),
            };
            parts.push(mem::replace(&mut part, next));
        }
        part.text.push_str(&line);
        part.text.push('\n');
    }
    parts.push(part);
    Ok((rt.wait()?, parts))
}

/// All that rt said but of crates that are proved. The last part, a summary, has a line
/// `NAME: ok` for each of these.
fn of_failures(parts: &[Part]) -> String {
    let summary = parts.last().map_or("", |last| &last.text);
    let proved: HashSet<&str> = summary
        .lines()
        .filter_map(|line| line.strip_suffix(": ok"))
        .collect();
    let failures = parts.iter().filter(|part| !proved.contains(&*part.name));
    failures.map(|part| &*part.text).collect()
}
