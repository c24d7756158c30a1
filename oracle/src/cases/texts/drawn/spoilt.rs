//! Spoilt fields: numbers at their limits, falling ranges, masks and prefixes with
//! a bit too many, and spellings that are near to a form.

use super::blocks::{address, mask, prefix_around, quad};
use crate::random::Random;

const NUMBERS: [&str; 33] = [
    "0",
    "1",
    "9",
    "00",
    "01",
    "006",
    "31",
    "32",
    "33",
    "34",
    "254",
    "255",
    "256",
    "257",
    "999",
    "1000",
    "65534",
    "65535",
    "65536",
    "65537",
    "65616",
    "4294967295",
    "4294967296",
    "4294967302",
    "18446744073709551615",
    "18446744073709551616",
    "18446744073709551622",
    "18446744073709551696",
    "99999999999999999999",
    "10000000000000000000",
    "-1",
    "+1",
    "",
];

const ODD: [&[u8]; 30] = [
    b"",
    b"*",
    b"**",
    b"*-*",
    b"*/0",
    b" *",
    b"-",
    b"/",
    b".",
    b"...",
    b"0",
    b"5-5",
    b"6-5",
    b"tcp",
    b"TCP",
    b"tcp-udp",
    b"icmp",
    b"accept",
    b"deny",
    b"rule",
    b"ask",
    b"but",
    b"#",
    b"x",
    b"\r",
    b"\0",
    b"\xff",
    b"1.2.3",
    b"1.2.3.4.5",
    b"10.0.0.0/8-11.0.0.0/8",
];

/// Another field in its place. The kind is 0 for an address, 1 for a protocol or
/// a port, 2 for any other field.
pub fn field(random: &mut Random, old: &[u8], kind: usize) -> Vec<u8> {
    match (random.below(10), kind) {
        (0..=2, _) => with_other_number(random, old),
        (3, _) => with_leading_zero(random, old),
        (4, _) => random.pick(&ODD).to_vec(),
        (5, _) => turned_round(old),
        (_, 0) => spoilt_address(random).into_bytes(),
        (_, 1) => spoilt_number(random).into_bytes(),
        _ => other_case(random, old),
    }
}

/// Where runs of digits begin and end.
fn digit_runs(field: &[u8]) -> Vec<(usize, usize)> {
    let digit = |place: usize| field.get(place).is_some_and(u8::is_ascii_digit);
    let begins = |place: &usize| digit(*place) && (*place == 0 || !digit(*place - 1));
    let starts = (0..field.len()).filter(begins);
    let run = |start: usize| {
        let end = (start..field.len()).find(|place| !digit(*place));
        (start, end.unwrap_or(field.len()))
    };
    starts.map(run).collect()
}

/// One of the field's numbers replaced, or the whole field if it has none.
fn with_other_number(random: &mut Random, old: &[u8]) -> Vec<u8> {
    let runs = digit_runs(old);
    let (start, end) = if runs.is_empty() {
        (0, old.len())
    } else {
        random.pick(&runs)
    };
    let number = random.pick(&NUMBERS).as_bytes();
    [&old[..start], number, &old[end..]].concat()
}

fn with_leading_zero(random: &mut Random, old: &[u8]) -> Vec<u8> {
    let runs = digit_runs(old);
    let start = if runs.is_empty() {
        0
    } else {
        random.pick(&runs).0
    };
    [&old[..start], b"0", &old[start..]].concat()
}

/// A range turned round falls, unless both bounds are the same.
fn turned_round(old: &[u8]) -> Vec<u8> {
    let mut sides: Vec<&[u8]> = old.split(|byte| *byte == b'-').collect();
    sides.reverse();
    sides.join(&b'-')
}

fn other_case(random: &mut Random, old: &[u8]) -> Vec<u8> {
    match random.below(3) {
        0 => old.to_ascii_uppercase(),
        1 => [old, b" "].concat(),
        _ => [old, old].concat(),
    }
}

fn spoilt_address(random: &mut Random) -> String {
    let (start, length) = (address(random), random.between(0, 32));
    let clean = prefix_around(start, length).low;
    match random.below(6) {
        0 => format!("{}-{}", quad(start.max(1)), quad(start.max(1) - 1)),
        1 => {
            let other = address(random);
            format!("{}-{}", quad(start.max(other)), quad(start.min(other)))
        }
        // A bit that may lie past the length or not.
        2 => {
            let bit = 1 << random.below(32);
            format!("{}/{length}", quad(clean ^ bit))
        }
        3 => format!("{}/{}", quad(start), quad(mask(length))),
        4 => {
            let flipped = mask(length) ^ (1 << random.below(32));
            format!("{}/{}", quad(clean), quad(flipped))
        }
        _ => {
            let length = random.between(30, 35);
            format!("{}/{length}", quad(clean))
        }
    }
}

fn spoilt_number(random: &mut Random) -> String {
    let largest = random.pick(&[5, 100, 255, 300, 65_535, 70_000]);
    let (one, other) = (random.between(1, largest), random.between(1, largest));
    match random.below(4) {
        0 => format!("{one}-{}", one - 1),
        1 => format!("{}-{}", one.max(other), one.min(other)),
        2 => format!("{one}-{other}"),
        _ => random.pick(&NUMBERS).to_string(),
    }
}
