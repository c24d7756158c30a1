//! A difference told in words: both files with their tabs shown, both outputs, and how
//! to have the pair again.

use super::scratch::Ran;
use crate::pairs::{self, Entry, Pair, SHAPES};
use crate::run::NAMES;
use std::fmt::Write;

/// Of longer lines and outputs only a part is shown.
const MOST_BYTES: usize = 200;
const MOST_LINES: usize = 24;

/// A pair on which the programs differ.
pub struct Found {
    pub pair: Pair,
    pub ran: Ran,
    pub expected: String,
}

impl Found {
    /// A pair on which they differed once and agree now.
    pub fn gone(pair: Pair) -> Found {
        Found {
            pair,
            ran: Ran {
                printed: vec![],
                ended: "another output when it was run again".to_string(),
                well: false,
            },
            expected: String::new(),
        }
    }
}

pub fn difference(number: u64, seed: u64, found: &Found) -> String {
    let (shape, _, _) = SHAPES[pairs::shape(number)];
    let mut told = format!("difference: pair {number} of seed {seed}, drawn as: {shape}\n");
    told.push_str("the smallest files found that show it (\\t is a tab):\n");
    for (name, entry) in NAMES.iter().zip(&found.pair) {
        told.push_str(&file(name, entry));
    }
    let ended = &found.ran.ended;
    let same = same_lines(&found.ran.printed, found.expected.as_bytes());
    writeln!(told, "the program ({ended}) prints:").expect("a string");
    told.push_str(&lines(&found.ran.printed, same));
    told.push_str("the independent program prints:\n");
    told.push_str(&lines(found.expected.as_bytes(), same));
    told.push_str("again, as it was drawn, into a folder that is there and empty:\n");
    writeln!(told, "    oracle pair {number} {seed} DIR; oracle run DIR").expect("a string");
    told
}

fn file(name: &str, entry: &Entry) -> String {
    match entry {
        Entry::Unreadable(kind) => format!("{name}: unreadable, {kind:?}\n"),
        Entry::Text(text) => format!("{name}, {} bytes:\n{}", text.len(), lines(text, 0)),
        Entry::Linked(text) => {
            let shown = lines(text, 0);
            format!("{name}, a link to {} bytes:\n{shown}", text.len())
        }
    }
}

/// How many lines at the front are the same.
fn same_lines(one: &[u8], other: &[u8]) -> usize {
    let pairs = split(one).into_iter().zip(split(other));
    pairs.take_while(|(one, other)| one == other).count()
}

fn split(text: &[u8]) -> Vec<&[u8]> {
    text.split_inclusive(|byte| *byte == b'\n').collect()
}

/// The lines, numbered, from a little before the one told.
fn lines(text: &[u8], from: usize) -> String {
    let lines = split(text);
    let first = from.saturating_sub(3).min(lines.len());
    let mut told = String::new();
    if first > 0 {
        writeln!(told, "    {first} lines before these").expect("a string");
    }
    for (number, line) in (first + 1..).zip(&lines[first..]).take(MOST_LINES) {
        writeln!(told, "{number:7} {}", shown(line)).expect("a string");
    }
    let behind = lines.len().saturating_sub(first + MOST_LINES);
    if behind > 0 {
        writeln!(told, "    {behind} lines behind these").expect("a string");
    }
    told
}

fn shown(line: &[u8]) -> String {
    let (line, end) = match line.strip_suffix(b"\n") {
        Some(line) => (line, ""),
        None => (line, " (not ended)"),
    };
    let (front, behind) = line.split_at(line.len().min(MOST_BYTES));
    let more = match behind.len() {
        0 => String::new(),
        count => format!(" ({count} bytes more)"),
    };
    format!("{}{more}{end}", front.escape_ascii())
}

#[cfg(test)]
mod tests {
    use super::*;

    #[test]
    fn tabs_ends_and_long_lines_are_shown() {
        assert_eq!(shown(b"rule\taccept\n"), "rule\\taccept");
        assert_eq!(shown(b"#"), "# (not ended)");
        let long = shown(&[b'#'; 205]);
        assert!(long.ends_with("# (5 bytes more) (not ended)"), "{long}");
    }

    #[test]
    fn lines_are_shown_around_the_first_that_differs() {
        let text: String = (1..=40).map(|number| format!("line {number}\n")).collect();
        let told = lines(text.as_bytes(), 10);
        let told: Vec<&str> = told.lines().collect();
        assert_eq!(told[..2], ["    7 lines before these", "      8 line 8"]);
        assert_eq!(told[24..], ["     31 line 31", "    9 lines behind these"]);
    }
}
