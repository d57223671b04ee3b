//! The list of the Rattle crates, `crates.txt`.

use std::collections::HashSet;

/// The crate `name` and those that it needs, or nothing where the list lacks it. A line
/// is `NAME: DEP DEP ..`, with `staticlib` after the name of a static library, and a
/// crate uses only crates above it.
pub fn needed_by<'a>(name: &'a str, list: &'a str) -> Vec<&'a str> {
    let mut needed = HashSet::from([name]);
    let mut found = Vec::new();
    // From the bottom up: who uses a crate has been met before it.
    for line in list.lines().rev() {
        let (line, _comment) = line.split_once('#').unwrap_or((line, ""));
        let (own, uses) = line.split_once(':').unwrap_or((line, ""));
        let Some(own) = own.split_whitespace().next() else {
            continue;
        };
        if needed.contains(own) {
            found.push(own);
            needed.extend(uses.split_whitespace());
        }
    }
    found
}
