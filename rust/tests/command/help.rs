//! `--help` and `demo`: what they show is what comes out.

use std::path::Path;
use std::process::Command;

use jarrovento::Refusal;
use second::document01;
use support::{counting, header, hex};

use crate::{done, folder, jarrovento, run, Link};

#[test]
fn help_names_every_refusal() {
    let help = jarrovento(&["--help"], b"");
    done(&help);
    let text = String::from_utf8(help.stdout).unwrap();
    for refusal in Refusal::ALL {
        let line = format!("\n  {:>2}  {}", refusal.number(), refusal.meaning());
        assert!(text.contains(&line), "{line}");
    }
    for command in [
        &["header"][..],
        &["check-header"],
        &["seal"],
        &["open"],
        &["day"],
        &["day", "list"],
        &["day", "open"],
        &["day", "write"],
        &["day", "clear"],
        &["day", "add"],
        &["report"],
        &["demo"],
    ] {
        let run = jarrovento(&[command, &["--help"]].concat(), b"");
        done(&run);
        assert_eq!(run.stdout, text.as_bytes());
    }
}

/// The lines of the help that a shell would run, each with what is shown after it.
fn shown_use(help: &str) -> Vec<(String, String)> {
    let mut shown: Vec<(String, String)> = Vec::new();
    let start = help.find("\n  $ ").expect("a use is shown") + 1;
    for line in help[start..].lines().take_while(|line| !line.is_empty()) {
        match (line.strip_prefix("  $ "), shown.last_mut()) {
            (Some(command), _) => shown.push((command.to_string(), String::new())),
            (None, Some((command, _))) if command.ends_with('\\') => {
                command.push('\n');
                command.push_str(line);
            }
            (None, Some((_, output))) => {
                output.push_str(line.strip_prefix("  ").unwrap_or(line));
                output.push('\n');
            }
            (None, None) => unreachable!("the first line is a command"),
        }
    }
    shown
}

#[test]
fn the_use_in_the_help_comes_out_as_shown() {
    let help = String::from_utf8(jarrovento(&["--help"], b"").stdout).unwrap();
    let shown = shown_use(&help);
    assert_eq!(shown.len(), 17);
    let programs = Path::new(env!("CARGO_BIN_EXE_jarrovento"))
        .parent()
        .unwrap();
    // As from the root of the repository, and what is written is not left there.
    let folder = folder("help");
    let _rust = Link::to(env!("CARGO_MANIFEST_DIR"), folder.join("rust"));
    for (command, output) in shown {
        let mut shell = Command::new("sh");
        shell
            .args(["-c", &format!("PATH=\"$0:$PATH\"; {{ {command}\n}} 2>&1")])
            .arg(programs)
            .current_dir(&folder);
        let run = run(&mut shell, b"");
        assert_eq!(
            String::from_utf8_lossy(&run.stdout).trim_end(),
            output.trim_end(),
            "{command}"
        );
    }
}

#[test]
fn the_demo_tells_what_the_second_program_gives() {
    let demo = jarrovento(&["demo"], b"");
    done(&demo);
    let story = String::from_utf8(demo.stdout).unwrap();
    let key = counting(48);
    let n7 = header(&[&[1][..], b"n7", b"", b"de"]);
    let n8 = header(&[&[1][..], b"n8", b"", b"en"]);
    let by_collector = header(&[&[1][..], b"n7", b"de", b""]);
    let before_e2 = header(&[&[1][..], b"n7", b"de"]);
    let (mut sealed, mut bare, mut other) = ([0; 11], [0; 7], [0; 7]);
    document01::seal(&key, &n7, 4, b"1,204 s", &mut sealed);
    document01::seal(&key, &n7, 0, b"1,204 s", &mut bare);
    document01::open(&key, &n8, 0, &bare, &mut other);
    for wrong in [&n8, &by_collector] {
        let answer = document01::open(&key, wrong, 4, &sealed, &mut [0; 11]);
        assert_eq!(answer.number, 7);
    }
    for line in [
        format!("  header        {}\n", hex(&n7)),
        format!("  sealed        {}\n", hex(&sealed)),
        "  text          1,204 s\n".to_string(),
        format!(
            "  header        {}\n  answer        {}\n",
            hex(&n8),
            Refusal::CheckFails
        ),
        format!(
            "  locale de     {}\n  collector de  {}\n  answer        {}\n  old, for both {}\n",
            hex(&n7),
            hex(&by_collector),
            Refusal::CheckFails,
            hex(&before_e2)
        ),
        format!("  sealed on n7  {}\n", hex(&bare)),
        "  opened on n7  1,204 s\n".to_string(),
        format!("  under n8      {},", hex(&other)),
        "  record 1, stretch 4, length 10, header \"\\x02\" \"n7\" \"\" \"de\"\n  text          870 ms\n"
            .to_string(),
        format!("wrong by one\n  answer        {}\n", Refusal::DayUnreadable),
        format!("that of host n8\n  answer        {}\n", Refusal::CheckFails),
        "  1,204 s in de 1204000 microseconds\n".to_string(),
        format!("  1,204 s in en {}\n", Refusal::NotAPause),
        "  report        3 1 3278000 1204000 3278000/3\n".to_string(),
    ] {
        assert!(story.contains(&line), "{line}");
    }
}
