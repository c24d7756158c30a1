//! The field reader: "A field is the part of the line between two tabs, the line's
//! two ends standing for tabs ... one that the line lacks is the empty part at its
//! end."

use super::*;

/// Numbers that lack in every line here, also where they are cut to 32 bits.
const LACKING: [u64; 6] = [0, 1_000, 1 << 32, (1 << 32) + 1, u64::MAX - 1, u64::MAX];

pub fn cases() -> Vec<Case> {
    [each_field(), empty_ones(), odd_bytes(), long_lines()].concat()
}

/// The line's fields, one past the last, and those that lack in any line.
fn all_fields(why: &str, line: &[u8], parts: &[&[u8]]) -> Vec<Case> {
    let numbered = (1..).zip(parts);
    let mut cases: Vec<Case> = numbered
        .map(|(number, part)| field(why, line, number, part))
        .collect();
    let past = parts.len() as u64 + 1;
    for number in [past, past + 1].into_iter().chain(LACKING) {
        cases.push(field("01.34: a lacking one is empty", line, number, b""));
    }
    cases
}

fn each_field() -> Vec<Case> {
    let why = "01.34: fields from 1";
    [
        all_fields(
            why,
            b"rule\taccept\t10.20.0.0/24\t*\ttcp\t80-81",
            &[b"rule", b"accept", b"10.20.0.0/24", b"*", b"tcp", b"80-81"],
        ),
        all_fields(why, b"rule", &[b"rule"]),
        all_fields(why, b"a\tb", &[b"a", b"b"]),
        all_fields(why, b"#\trule", &[b"#", b"rule"]),
        all_fields(why, b" a \t b ", &[b" a ", b" b "]),
    ]
    .concat()
}

fn empty_ones() -> Vec<Case> {
    let why = "document 01: the line's two ends standing for tabs";
    [
        all_fields(why, b"", &[b""]),
        all_fields(why, b"\t", &[b"", b""]),
        all_fields(why, b"\t\t\t", &[b"", b"", b"", b""]),
        all_fields(why, b"a\t", &[b"a", b""]),
        all_fields(why, b"\ta", &[b"", b"a"]),
        all_fields(why, b"a\t\tb", &[b"a", b"", b"b"]),
        all_fields(why, b"\ta\t\tb\t", &[b"", b"a", b"", b"b", b""]),
    ]
    .concat()
}

fn odd_bytes() -> Vec<Case> {
    let why = "01.4: bytes like others, and here byte 10 is one of them";
    [
        all_fields(why, b"\n", &[b"\n"]),
        all_fields(why, b"a\nb\tc\n", &[b"a\nb", b"c\n"]),
        all_fields(
            why,
            b"rule\taccept\nrule\tdeny",
            &[b"rule", b"accept\nrule", b"deny"],
        ),
        all_fields(why, b"\r\t\0\t\xff", &[b"\r", b"\0", b"\xff"]),
        all_fields(why, b"\0", &[b"\0"]),
    ]
    .concat()
}

fn long_lines() -> Vec<Case> {
    let why = "document 01: no limit for a field or a line is named here";
    let long = vec![b'x'; 40_000];
    let line = [b"a\t", &long[..], b"\tb"].concat();
    let mut cases = vec![
        field(why, &line, 2, &long),
        field(why, &line, 3, b"b"),
        field(why, &line, 4, b""),
    ];
    let tabs = vec![b'\t'; 5_000];
    let line = [&tabs[..], b"z"].concat();
    cases.push(field(why, &line, 5_000, b""));
    cases.push(field(why, &line, 5_001, b"z"));
    cases.push(field(why, &line, 5_002, b""));
    // A number that would be a field's own again in 32 bits.
    cases.push(field(why, &line, (1 << 32) + 5_001, b""));
    cases
}
