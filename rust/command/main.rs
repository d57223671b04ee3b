//! The command `jarrovento`: log headers, sealing, opening, day files and reports from
//! the shell. `help.txt` says what it does.

mod arguments;
mod change;
mod day;
mod day_edits;
mod demo;
mod demo_day;
mod demo_report;
mod failure;
mod hex;
mod input;
mod lines;
mod output;
mod report;

use std::env;
use std::ffi::OsString;
use std::io::Write;
use std::os::unix::ffi::OsStrExt;
use std::process::ExitCode;

use arguments::Arguments;
use failure::Failure;
use input::Input;
use jarrovento::{Key, Refusal, LONGEST_LOG_HEADER, LONGEST_SEALED};

const HELP: &str = include_str!("help.txt");

fn main() -> ExitCode {
    let words: Vec<OsString> = env::args_os().skip(1).collect();
    match run(&words) {
        Ok(()) => ExitCode::SUCCESS,
        Err(failure) => {
            // Where standard error is closed too, the exit status is all that is left.
            let _ = writeln!(std::io::stderr(), "jarrovento: {failure}");
            ExitCode::from(failure.exit_status())
        }
    }
}

fn run(words: &[OsString]) -> Result<(), Failure> {
    let Some((command, words)) = words.split_first() else {
        return Err(Failure::usage("no command"));
    };
    if words.first().is_some_and(|word| word == "--help") {
        return output::write(None, HELP.as_bytes());
    }
    match command.to_str() {
        Some("--help") => output::write(None, HELP.as_bytes()),
        Some("header") => header(words),
        Some("check-header") => check_header(words),
        Some("seal") => seal_or_open(words, Key::seal),
        Some("open") => seal_or_open(words, Key::open),
        Some("day") => day::run(words),
        Some("report") => report::run(words),
        Some("demo") => {
            Arguments::read(words, &[], &[])?;
            output::write(None, demo::story()?.as_bytes())
        }
        _ => Err(Failure::usage(format!(
            "no such command: {}",
            command.display()
        ))),
    }
}

fn header(words: &[OsString]) -> Result<(), Failure> {
    let items = ["--nonce", "--host", "--collector", "--locale", "--out"];
    let arguments = Arguments::read(words, &items, &["--hex-out"])?;
    let nonce = input::hex_argument("--nonce", arguments.required("--nonce")?)?;
    let host = arguments.required("--host")?.as_bytes();
    let item = |name| {
        arguments
            .value(name)
            .map_or(&[][..], |value| value.as_bytes())
    };
    let mut out = [0; LONGEST_LOG_HEADER];
    let header = jarrovento::log_header(
        &nonce,
        host,
        item("--collector"),
        item("--locale"),
        &mut out,
    )?;
    write_result(&arguments, header)
}

/// A line for each string of a header. Its bytes may have come from anywhere: what a
/// terminal would not show as it stands is escaped.
fn check_header(words: &[OsString]) -> Result<(), Failure> {
    let arguments = Arguments::read(words, &["--header", "--header-file"], &[])?;
    let header = header_given(&arguments)?;
    let strings = jarrovento::read_header(&header).map_err(Refusal::from)?;
    let line = |(string, number): (&&[u8], u32)| {
        let (length, shown) = (string.len(), string.escape_ascii());
        format!("string {number}, length {length}: \"{shown}\"\n")
    };
    let lines: String = strings.iter().zip(1..).map(line).collect();
    output::write(None, lines.as_bytes())
}

/// A key's `seal` or `open`: they take the same inputs.
type Call = for<'a> fn(&Key, &[u8], u64, &[u8], &'a mut [u8]) -> Result<&'a mut [u8], Refusal>;

fn seal_or_open(words: &[OsString], call: Call) -> Result<(), Failure> {
    let values = [
        "--key",
        "--header",
        "--header-file",
        "--stretch",
        "--in",
        "--out",
    ];
    let arguments = Arguments::read(words, &values, &["--hex-in", "--hex-out"])?;
    let header = header_given(&arguments)?;
    let stretch = arguments.number("--stretch", "a number of bytes")?;
    let key_file = Input::open(Some(arguments.required("--key")?))?.bytes()?;
    let input = input_given(&arguments)?;
    // All is read. From here on document 01's tests, in its order: the key first.
    let key = input::key(key_file)?;
    let mut out = vec![0; LONGEST_SEALED];
    write_result(&arguments, call(&key, &header, stretch, &input, &mut out)?)
}

/// The header to read, or to seal or open under, from one of its two options.
fn header_given(arguments: &Arguments) -> Result<Vec<u8>, Failure> {
    match (
        arguments.value("--header"),
        arguments.value("--header-file"),
    ) {
        (Some(digits), None) => input::hex_argument("--header", digits),
        (None, Some(file)) => Input::open(Some(file))?.bytes(),
        (None, None) => Err(Failure::usage("--header or --header-file is missing")),
        (Some(_), Some(_)) => Err(Failure::usage("--header and --header-file are both given")),
    }
}

/// What `--in` names, or standard input.
fn input_given(arguments: &Arguments) -> Result<Vec<u8>, Failure> {
    let input = Input::open(arguments.value("--in"))?;
    if arguments.flag("--hex-in") {
        return input.hex();
    }
    input.bytes()
}

fn write_result(arguments: &Arguments, result: &[u8]) -> Result<(), Failure> {
    let file = arguments.value("--out");
    if arguments.flag("--hex-out") {
        let line = hex::encode(result) + "\n";
        return output::write(file, line.as_bytes());
    }
    output::write(file, result)
}
