//! Drawing the lines of a text that is well formed, apart from exceptions which
//! now and then reach outside.

use super::blocks::{block, block_beside, block_inside, spelled, Bounded};
use crate::random::Random;

/// The fields of a line. A line to be skipped has one field.
pub type Line = Vec<Vec<u8>>;

const NOTES: [&[u8]; 8] = [
    b"",
    b"",
    b"#",
    b"# a note",
    b"##\r",
    b"#rule\taccept\t*\t*\t*\t*",
    b"#\0\xff\x80",
    b"#ask",
];

pub fn rules(random: &mut Random, count: usize) -> Vec<Line> {
    let rule = |_| {
        let drawn = block(random);
        acting(random, b"rule", &drawn)
    };
    (0..count).map(rule).collect()
}

/// Directives with exceptions drawn to them in turn; none if there is no directive.
pub fn policy(random: &mut Random, directives: usize, exceptions: usize) -> Vec<Line> {
    let mut lines = vec![];
    let mut left = exceptions;
    for number in 1..=directives {
        let asked = block(random);
        lines.push(acting(random, b"ask", &asked));
        let own = if number == directives {
            left
        } else {
            random.below(left + 1).min(1 + 2 * exceptions / directives)
        };
        left -= own;
        // Rarer where there are many, so that some long texts are read to their end.
        let rarely = 20 + 2 * exceptions;
        lines.extend((0..own).map(|_| exception(random, &asked, rarely)));
    }
    lines
}

/// An exception that reaches outside one time in so many.
fn exception(random: &mut Random, asked: &Bounded, times: usize) -> Line {
    let block = if random.one_in(times) {
        block_beside(random, asked)
    } else {
        block_inside(random, asked)
    };
    let mut line = vec![b"but".to_vec()];
    line.extend(fields(random, &block));
    line
}

fn acting(random: &mut Random, word: &[u8], block: &Bounded) -> Line {
    let action = random.pick(&["accept", "deny"]);
    let mut line = vec![word.to_vec(), action.as_bytes().to_vec()];
    line.extend(fields(random, block));
    line
}

fn fields(random: &mut Random, block: &Bounded) -> Vec<Vec<u8>> {
    let spell = |(field, bounds): (usize, &_)| spelled(random, field, *bounds);
    block.iter().enumerate().map(spell).collect()
}

/// One time in three with lines to be skipped put in.
pub fn noted(random: &mut Random, mut lines: Vec<Line>) -> Vec<Line> {
    if random.one_in(3) {
        let notes = random.between(1, 4);
        put_notes(random, &mut lines, notes);
    }
    lines
}

pub fn put_notes(random: &mut Random, lines: &mut Vec<Line>, notes: u32) {
    for _ in 0..notes {
        let place = random.below(lines.len() + 1);
        lines.insert(place, vec![random.pick(&NOTES).to_vec()]);
    }
}

/// The text of the lines, each ended.
pub fn written(lines: &[Line]) -> Vec<u8> {
    let ended = lines
        .iter()
        .flat_map(|line| [line.join(&b'\t'), b"\n".to_vec()]);
    ended.flatten().collect()
}
