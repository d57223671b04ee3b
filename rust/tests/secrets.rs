//! What depends on a secret: a C program marks key, text, sealed string and the bytes
//! of the header's strings as undefined, and valgrind's memcheck reports every branch and
//! every address that depends on one of them. This looks at the machine code of the
//! library as it is linked here; no proof says anything on time.

mod c_program;

use std::fmt::Write;
use std::process::Command;

const LENGTHS: [usize; 12] = [0, 1, 5, 15, 16, 31, 32, 33, 48, 64, 200, 4096];

/// Sealing depends on no secret. Opening does once, after the final check of the stretch,
/// by a branch: the answer is what is told. Without a stretch there is nothing to check,
/// and every string opens. A lookup in a table and a branch on a secret are reported.
#[test]
fn no_address_and_no_branch_depends_on_a_secret() {
    let mut expected = String::new();
    for length in LENGTHS {
        for (stretch, damaged, branches) in [(16, 7, 1), (0, 0, 0)] {
            let mut tell = |call: &str, answer: u32, reported: u32| {
                writeln!(
                    expected,
                    "{call} {length} + {stretch}: answer {answer}, {reported} reported"
                )
                .expect("a string takes every line");
            };
            tell("seal", 0, 0);
            tell("open", 0, branches);
            if length + stretch > 0 {
                tell("open damaged", damaged, branches);
            }
        }
    }
    expected.push_str("table: 1 reported\nbranch: 1 reported\n");

    let run = Command::new("valgrind")
        .args(["--quiet", "--error-limit=no"])
        .arg(c_program::compiled("secrets"))
        .output()
        .expect("valgrind starts");
    assert!(run.status.success(), "{}", run.status);
    assert_eq!(String::from_utf8_lossy(&run.stdout), expected);
    let reports = String::from_utf8_lossy(&run.stderr);
    let (addresses, branches) = counted(&reports);
    assert_eq!(addresses, 1, "the table of the control alone: {reports}");
    assert!(
        branches > 1,
        "the control's and those of opening: {reports}"
    );
}

/// How many places of the machine code were reported for an address, and for a branch.
fn counted(reports: &str) -> (usize, usize) {
    let lines_with = |words| reports.lines().filter(|line| line.contains(words)).count();
    (
        lines_with("Use of uninitialised value of size"),
        lines_with("Conditional jump or move depends on uninitialised value"),
    )
}
