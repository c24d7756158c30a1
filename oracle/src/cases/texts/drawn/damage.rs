//! Damage to the lines of a text: fields spoilt, dropped, doubled or exchanged, and
//! lines likewise; then damage to its bytes.

use super::lines::{written, Line};
use super::{bytes, spoilt};
use crate::random::Random;

const WORDS: [&str; 10] = [
    "rule", "ask", "but", "Rule", "rules", "silent", "", "ASK", "bu", "rule ",
];

/// The text of the lines, damaged more often than not.
pub fn maybe(random: &mut Random, mut lines: Vec<Line>) -> Vec<u8> {
    let times = random.pick(&[0, 0, 0, 1, 1, 1, 1, 2, 3]);
    let by_bytes = (0..times).filter(|_| random.one_in(4)).count();
    for _ in by_bytes..times {
        damage_lines(random, &mut lines);
    }
    let mut text = written(&lines);
    for _ in 0..by_bytes {
        damage_bytes(random, &mut text);
    }
    text
}

fn damage_bytes(random: &mut Random, text: &mut Vec<u8>) {
    match random.below(10) {
        0 => bytes::unend(text),
        1 => bytes::tab_to_space(random, text),
        _ => bytes::change_one(random, text),
    }
}

fn damage_lines(random: &mut Random, lines: &mut Vec<Line>) {
    if lines.is_empty() {
        lines.push(vec![random.pick(&WORDS).as_bytes().to_vec()]);
        return;
    }
    let place = line_to_damage(random, lines.len());
    let other = random.below(lines.len());
    match random.below(20) {
        0 => lines.insert(place, lines[other].clone()),
        1 => {
            lines.remove(place);
        }
        2 => lines.swap(place, other),
        3 => exception_first(lines),
        4 | 5 => {
            let fields = lines[other].clone();
            exchange_fields(random, &mut lines[place], &fields);
        }
        _ => one_line(random, &mut lines[place]),
    }
}

/// Another count of fields, another word, or a field spoilt.
pub fn one_line(random: &mut Random, line: &mut Line) {
    match random.below(14) {
        0..=2 => change_count(random, line),
        3 => line[0] = random.pick(&WORDS).as_bytes().to_vec(),
        _ => spoil_field(random, line),
    }
}

/// Often one of the last, for there a long text meets the limits of its counts.
fn line_to_damage(random: &mut Random, lines: usize) -> usize {
    if random.one_in(2) {
        lines - 1 - random.below(lines.min(8))
    } else {
        random.below(lines)
    }
}

/// The first `but` line goes before all others.
fn exception_first(lines: &mut [Line]) {
    if let Some(place) = lines.iter().position(|line| line[0] == b"but") {
        lines[..=place].rotate_right(1);
    }
}

/// Two fields of the line change places, or one is taken from another line.
fn exchange_fields(random: &mut Random, line: &mut Line, other: &Line) {
    let place = random.below(line.len());
    if random.one_in(2) {
        let with = random.below(line.len());
        line.swap(place, with);
    } else {
        line[place] = other[random.below(other.len())].clone();
    }
}

/// A field dropped, doubled or put in empty, or an empty one behind the last.
fn change_count(random: &mut Random, line: &mut Line) {
    let place = random.below(line.len());
    match random.below(4) {
        0 if line.len() > 1 => {
            line.remove(place);
        }
        1 => line.insert(place, line[place].clone()),
        2 => line.insert(place, vec![]),
        _ => line.push(vec![]),
    }
}

/// Mostly one of the block's four fields, which stand last in a line.
fn spoil_field(random: &mut Random, line: &mut Line) {
    let counted = if random.one_in(4) {
        line.len()
    } else {
        line.len().min(4)
    };
    let from_the_end = random.below(counted) + 1;
    let place = line.len() - from_the_end;
    let kind = match from_the_end {
        1 | 2 => 1,
        3 | 4 => 0,
        _ => 2,
    };
    line[place] = spoilt::field(random, &line[place], kind);
}
