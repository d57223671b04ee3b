//! Prints the vectors of `support::vectors`, which the gate's program
//! `known_answers` is held to. From the root of the repository:
//!
//!     cargo run --release --example vectors calls > crates/known_answers/stdin
//!     cargo run --release --example vectors answers > crates/known_answers/stdout

use std::io::{self, Write};
use std::process::ExitCode;

use support::vectors::{vectors, Vector};

fn main() -> ExitCode {
    let line: fn(Vector) -> String = match std::env::args().nth(1).as_deref() {
        Some("calls") => |vector| vector.call,
        Some("answers") => |vector| vector.answer,
        _ => {
            eprintln!("say which to print: calls, or answers");
            return ExitCode::FAILURE;
        }
    };
    let lines: String = vectors().into_iter().map(line).collect();
    match io::stdout().write_all(lines.as_bytes()) {
        Ok(()) => ExitCode::SUCCESS,
        Err(_) => ExitCode::FAILURE,
    }
}
