//! One line on the terminal, if there is one, that says how far the proofs are. The
//! first build takes minutes, and cargo keeps what a build script prints to itself.

use std::env;
use std::fs::File;
use std::io::Write;
use std::sync::mpsc::{channel, RecvTimeoutError};
use std::sync::{Mutex, MutexGuard, PoisonError};
use std::thread;
use std::time::{Duration, Instant};

/// Clears from the cursor to the end of the line.
const CLEAR: &str = "\x1b[K";

pub struct Progress {
    /// Nothing where there is no terminal, or one that can't clear a line.
    terminal: Option<File>,
    started: Instant,
    crates: usize,
    /// The crates that are done, in their order.
    ended: Mutex<Vec<String>>,
}

impl Progress {
    pub fn of(crates: usize) -> Progress {
        let plain = env::var_os("TERM").is_none_or(|term| term == "dumb");
        let terminal = File::options().write(true).open("/dev/tty").ok();
        Progress {
            terminal: terminal.filter(|_| !plain),
            started: Instant::now(),
            crates,
            ended: Mutex::default(),
        }
    }

    /// Does the work, and shows every second how far it is.
    pub fn during<T>(&self, work: impl FnOnce() -> T) -> T {
        thread::scope(|scope| {
            let (working, ended) = channel::<()>();
            scope.spawn(move || loop {
                self.show();
                let waited = ended.recv_timeout(Duration::from_secs(1));
                if waited != Err(RecvTimeoutError::Timeout) {
                    break;
                }
            });
            let result = work();
            drop(working);
            result
        })
    }

    /// The crate of this name is done, after those before it.
    pub fn done(&self, name: &str) {
        self.ended().push(name.to_string());
    }

    fn ended(&self) -> MutexGuard<'_, Vec<String>> {
        self.ended.lock().unwrap_or_else(PoisonError::into_inner)
    }

    fn show(&self) {
        let seconds = self.started.elapsed().as_secs();
        let (minutes, seconds) = (seconds / 60, seconds % 60);
        let ended = self.ended();
        let (done, crates) = (ended.len(), self.crates);
        let last = ended
            .last()
            .map_or(String::new(), |name| format!(", {name} the last"));
        // The cursor goes back to the start, where cargo writes lines of its own.
        self.write(&format!(
            "\r     Proving ({done} of {crates} crates done{last}, {minutes}:{seconds:02} so far)\
             {CLEAR}\r"
        ));
    }

    /// A line that can't be shown stops no proof.
    fn write(&self, text: &str) {
        if let Some(mut terminal) = self.terminal.as_ref() {
            let _ = terminal.write_all(text.as_bytes());
        }
    }
}

impl Drop for Progress {
    fn drop(&mut self) {
        self.write(&format!("\r{CLEAR}"));
    }
}
