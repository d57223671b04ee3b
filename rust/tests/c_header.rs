//! The C header: a C program that includes it compiles without a warning, links
//! the library, and gets the known values.

mod c_program;

use std::process::Command;

use second::document01;
use support::{counting, hex};

#[test]
fn a_c_program_links_the_library() {
    let program = c_program::compiled("c_header");
    let run = Command::new(&program).output().expect("the program starts");
    assert!(run.status.success(), "{}", run.status);
    let expected = "\
seal 0 a68fcc5b92
seal 0 e3600052f6f4be16f514d7f4fee221ddcf4d71fd5d
open 0 68656c6c6f00000000000000000000000000000000
log_header 0 0400010100026e37000000026465
log_header 0 0400010100026e37000264650000
seal_at 0 e3600052f6f4be16f514d7f4fee221ddcf4d71fd5d
seal_at 0 at 0
open_at 0 68656c6c6f00000000000000000000000000000000
open_at 0 at 0
seal_at 3 at 2
open_at 3 at 4
header_read 0 at 0
4 strings
header_read 3 at 4
0 strings
open 7 000000000000000000000000000000000000000000
seal 2 
log_header 6 
";
    let expected = format!("{expected}{}{}{PAUSES}", day(), edits());
    assert_eq!(String::from_utf8_lossy(&run.stdout), expected);
}

/// The part on pauses.
const PAUSES: &str = "\
pause 0: 1204000
pause 16: 0
pause 3: 0
report 0: 1 1 1204000 1204000 1204000/1
report 6: 0
report_figures 0: 1 1 1204000 1204000 1204000 1
report_figures 6
";

/// "hello" under the header of one string 07, sealed by the second program.
fn hello() -> String {
    let mut sealed = [0; 9];
    document01::seal(&counting(48), &[1, 0, 1, 7], 4, b"hello", &mut sealed);
    hex(&sealed)
}

/// The part on day files.
fn day() -> String {
    let sealed = hello();
    format!(
        "\
day_write 0 0000000200030100000004010001070000000200010400000009{sealed}\
00000000000000000000020000001300000023
day_records 0: 2
day_list 0: 2 2: 6 9 11 15 1 4 26 35 0 0 42 42
day_list 6: 0 0
day_open 0 68656c6c6f00000000
5 bytes
day_open 9: 0 bytes
day_records 9: 0
day_write 9: 0 bytes
"
    )
}

/// The part on clearing and appending: the files were written by hand.
fn edits() -> String {
    let sealed = hello();
    let zeros = "00".repeat(21);
    format!(
        "\
day_append 0 00000001\
0003010000\
00000001\
00000000000000\
00000001\
0000000d
day_append 0 00000002\
0003010000\
000401000107\
00000002\
00000000000000\
00010400000009{sealed}\
00000002\
00000013\
0000001a
day_append 6: 0 bytes
day_append 9: 0 bytes
day_clear 17: 0 bytes
day_clear 9: 0 bytes
day_clear 0 00000001\
000401000107\
00000001\
00000400000009{sealed}\
00000001\
0000000e\
{zeros}a5
38 bytes
day_open 0 68656c6c6f
"
    )
}
