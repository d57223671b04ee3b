//! The words after a command: options with a value, and flags.

use std::ffi::{OsStr, OsString};
use std::os::unix::ffi::OsStrExt;

use crate::failure::Failure;

/// The options as given, each at most once.
#[derive(Default)]
pub struct Arguments<'a> {
    values: Vec<(&'a OsStr, &'a OsStr)>,
    flags: Vec<&'a OsStr>,
}

impl<'a> Arguments<'a> {
    /// Reads the words. `values` names the options that take the next word,
    /// whatever it is, and `flags` those that take none.
    pub fn read(
        words: &'a [OsString],
        values: &[&str],
        flags: &[&str],
    ) -> Result<Arguments<'a>, Failure> {
        let (arguments, others) = Arguments::split(words, values, flags)?;
        match others.first() {
            None => Ok(arguments),
            Some(word) => Err(no_such_option(word)),
        }
    }

    /// Reads the words, one of which is the name of a file.
    pub fn read_with_file(
        words: &'a [OsString],
        values: &[&str],
        flags: &[&str],
    ) -> Result<(Arguments<'a>, &'a OsStr), Failure> {
        let (arguments, others) = Arguments::split(words, values, flags)?;
        let option = |word: &&&OsStr| word.as_bytes().starts_with(b"--");
        if let Some(word) = others.iter().find(option) {
            return Err(no_such_option(word));
        }
        match others[..] {
            [file] => Ok((arguments, file)),
            [] => Err(Failure::usage("the file is missing")),
            [_, second, ..] => Err(Failure::usage(format!(
                "a second file is given: {}",
                second.display()
            ))),
        }
    }

    /// The options, and the words that are none.
    fn split(
        words: &'a [OsString],
        values: &[&str],
        flags: &[&str],
    ) -> Result<(Arguments<'a>, Vec<&'a OsStr>), Failure> {
        let mut arguments = Arguments::default();
        let mut others = Vec::new();
        let mut words = words.iter();
        while let Some(word) = words.next() {
            if arguments.has(word) {
                return Err(Failure::usage(format!("{} is given twice", word.display())));
            }
            if flags.iter().any(|flag| word == flag) {
                arguments.flags.push(word);
            } else if values.iter().any(|name| word == name) {
                let value = words.next().ok_or_else(|| {
                    Failure::usage(format!("{} has no value after it", word.display()))
                })?;
                arguments.values.push((word, value));
            } else {
                others.push(word.as_os_str());
            }
        }
        Ok((arguments, others))
    }

    fn has(&self, word: &OsStr) -> bool {
        self.flags.contains(&word) || self.values.iter().any(|(name, _)| *name == word)
    }

    pub fn flag(&self, name: &str) -> bool {
        self.flags.iter().any(|flag| *flag == name)
    }

    pub fn value(&self, name: &str) -> Option<&'a OsStr> {
        let found = self.values.iter().find(|(given, _)| *given == name);
        found.map(|(_, value)| *value)
    }

    pub fn required(&self, name: &str) -> Result<&'a OsStr, Failure> {
        self.value(name)
            .ok_or_else(|| Failure::usage(format!("{name} is missing")))
    }

    /// A value that is a number, of which `what` says what it is.
    pub fn number(&self, name: &str, what: &str) -> Result<u64, Failure> {
        let number = self.required(name)?;
        let parsed = number.to_str().and_then(|number| number.parse().ok());
        parsed.ok_or_else(|| Failure::usage(format!("{name} {} is not {what}", number.display())))
    }
}

fn no_such_option(word: &OsStr) -> Failure {
    Failure::usage(format!("no such option here: {}", word.display()))
}
