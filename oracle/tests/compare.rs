//! `oracle compare` against stand-ins for the program: this program itself, which must
//! agree, and wrong ones made of it, on which a difference must be found, made small and
//! told.

use std::fs;
use std::path::PathBuf;
use std::process::{Command, Output};

const ORACLE: &str = env!("CARGO_BIN_EXE_oracle");

/// A folder of its own, removed at the end.
struct Folder(PathBuf);

impl Folder {
    fn new(name: &str) -> Folder {
        let name = format!("oracle-test-{name}-{}", std::process::id());
        let folder = std::env::temp_dir().join(name);
        fs::create_dir(&folder).unwrap();
        Folder(folder)
    }

    fn is_empty(&self) -> bool {
        fs::read_dir(&self.0).unwrap().next().is_none()
    }
}

impl Drop for Folder {
    fn drop(&mut self) {
        fs::remove_dir_all(&self.0).unwrap();
    }
}

/// Compares this program with a line of sh, in which `$1` is this program.
fn compare(name: &str, count: u32, line: &str) -> (bool, String) {
    let folder = Folder::new(name);
    let output = Command::new(ORACLE)
        .args([
            "compare",
            &count.to_string(),
            "1",
            "sh",
            "-c",
            line,
            "sh",
            ORACLE,
        ])
        .env("TMPDIR", &folder.0)
        .output()
        .unwrap();
    assert!(folder.is_empty(), "something is left behind");
    (output.status.success(), text(output))
}

fn text(output: Output) -> String {
    String::from_utf8(output.stdout).unwrap()
}

#[test]
fn a_program_that_answers_alike_agrees_on_every_shape() {
    let (agree, told) = compare("right", 90, r#"exec "$1" run ."#);
    assert!(agree, "{told}");
    assert_eq!(told.lines().count(), 1);
    assert!(
        told.starts_with("90 pairs agree: 2 named sets, 3 named texts, 6 edges, 7 tiny, "),
        "{told}"
    );
}

/// A wrong rule is shown by one rule and by one directive with one exception at most, all
/// of them open in all fields.
#[test]
fn a_wrong_word_is_shown_by_few_open_lines() {
    let line = r#""$1" run . | sed 's/^verdict wrong/verdict unasked/'"#;
    let (agree, told) = compare("word", 300, line);
    assert!(!agree, "{told}");
    let (files, outputs) = told
        .split_once("the program (exit status: 0) prints:\n")
        .unwrap();
    let (rules, policy) = files.split_once("policy.txt, ").unwrap();
    for (lines, most) in [(rules.lines().skip(3), 1), (policy.lines().skip(1), 2)] {
        let lines: Vec<&str> = lines.collect();
        assert!((1..=most).contains(&lines.len()), "{told}");
        assert!(
            lines.iter().all(|line| line.ends_with("\\t*\\t*\\t*\\t*")),
            "{told}"
        );
    }
    let (program, independent) = outputs
        .split_once("the independent program prints:\n")
        .unwrap();
    assert!(program.starts_with("      1 verdict unasked 1 "), "{told}");
    assert!(
        independent.starts_with("      1 verdict wrong 1 "),
        "{told}"
    );
}

/// Only listings of 512 blocks and more show it.
#[test]
fn one_block_line_too_few_is_found() {
    let (agree, told) = compare("limit", 300, r#""$1" run . | head -n 513"#);
    assert!(!agree, "{told}");
    assert!(told.contains("\n    514 block "), "{told}");
    assert!(
        told.contains("    510 lines before these\n    511 block "),
        "{told}"
    );
}

#[test]
fn a_death_by_signal_is_a_difference() {
    let line = r#""$1" run .; [ -e policy.txt ] || kill -SEGV $$"#;
    let (agree, told) = compare("signal", 600, line);
    assert!(!agree, "{told}");
    assert!(told.contains("the program (signal: 11 (SIGSEGV)"), "{told}");
    assert!(
        told.contains("\nrules.txt, 0 bytes:\npolicy.txt: unreadable, "),
        "{told}"
    );
}

#[test]
fn another_status_than_0_is_a_difference() {
    let (agree, told) = compare("status", 1, r#""$1" run .; exit 3"#);
    assert!(!agree, "{told}");
    assert!(
        told.contains("\nrules.txt, 0 bytes:\npolicy.txt, 0 bytes:\n"),
        "{told}"
    );
    assert!(
        told.contains("the program (exit status: 3) prints:"),
        "{told}"
    );
}

/// Output that lacks only its last byte 10 is another output.
#[test]
fn bytes_are_compared_and_not_lines() {
    let (agree, told) = compare("bytes", 1, r#"printf %s "$("$1" run .)""#);
    assert!(!agree, "{told}");
    assert!(told.contains("      2 blocks 0 (not ended)\n"), "{told}");
}

#[test]
fn the_pair_can_be_had_again() {
    let line = r#""$1" run . | sed 's/^refused rules.txt 7/refused rules.txt 6/'"#;
    let (agree, told) = compare("again", 3_600, line);
    assert!(!agree, "{told}");
    let words: Vec<&str> = told.split([' ', ';', '\n']).collect();
    let place = words.iter().position(|word| *word == "oracle").unwrap();
    let [pair, number, seed] = words[place + 1..place + 4] else {
        panic!("{told}");
    };
    let folder = Folder::new("pair");
    let path = folder.0.to_str().unwrap();
    let written = Command::new(ORACLE)
        .args([pair, number, seed, path])
        .status();
    assert!(written.unwrap().success());
    let run = Command::new(ORACLE).args(["run", path]).output().unwrap();
    assert!(text(run).starts_with("refused rules.txt 7 "), "{told}");
}

#[test]
fn what_cannot_be_asked_is_told() {
    for (words, status) in [
        (&["compare", "1", "1"][..], 2),
        (&["compare", "one", "1", "true"], 2),
        (&["pair", "1", "1"], 2),
        (&["run"], 2),
        (&["compare", "1", "1", "no-such-program"], 1),
    ] {
        let output = Command::new(ORACLE).args(words).output().unwrap();
        assert_eq!(output.status.code(), Some(status), "{words:?}");
        assert!(!output.stderr.is_empty() && output.stdout.is_empty());
    }
}
