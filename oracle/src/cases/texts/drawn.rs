//! Drawn requests with a fixed seed: rule texts and policy texts, well formed and
//! damaged, and fields and lines asked for in such texts.

pub mod blocks;
pub mod bytes;
pub mod damage;
pub mod lines;
mod spoilt;

use crate::model::{MOST_DIRECTIVES, MOST_EXCEPTIONS, MOST_RULES};
use crate::random::Random;
use crate::texts::parts::Named;
use crate::texts::requests::Request;
use lines::Line;

const SEED: u64 = 4_632;
const TEXTS: usize = 24_000;
const FIELDS: usize = 2_000;
const LINES: usize = 1_000;

pub fn requests() -> Vec<Request> {
    let mut random = Random::new(SEED);
    let mut requests = texts(&mut random);
    requests.extend((0..FIELDS).map(|_| field(&mut random)));
    requests.extend((0..LINES).map(|_| line(&mut random)));
    requests
}

/// A rule text and a policy text in turn.
fn texts(random: &mut Random) -> Vec<Request> {
    let draw = |place| match [Named::Rules, Named::Policy][place % 2] {
        Named::Rules => Request::Rules(text(random, Named::Rules)),
        Named::Policy => Request::Policy(text(random, Named::Policy)),
    };
    (0..TEXTS).map(draw).collect()
}

/// Mostly a few lines; now and then more records than there may be, a text near
/// 32,768 bytes, or bytes and words in no order.
fn text(random: &mut Random, named: Named) -> Vec<u8> {
    match random.below(800) {
        0 => {
            let few = few_lines(random, named);
            bytes::near_the_limit(random, lines::written(&few))
        }
        1..=14 => {
            let many = many_lines(random, named);
            damage::maybe(random, many)
        }
        15 | 16 => one_too_many(random, named),
        17..=42 => bytes::in_no_order(random),
        _ => {
            let few = few_lines(random, named);
            damage::maybe(random, few)
        }
    }
}

pub fn few_lines(random: &mut Random, named: Named) -> Vec<Line> {
    let records = random.pick(&[0, 1, 1, 2, 2, 3, 4, 6]);
    let lines = match named {
        Named::Rules => lines::rules(random, records),
        Named::Policy => {
            let exceptions = random.below(4);
            lines::policy(random, records, exceptions)
        }
    };
    lines::noted(random, lines)
}

/// Counts on both sides of the limits.
pub fn many_lines(random: &mut Random, named: Named) -> Vec<Line> {
    let lines = match named {
        Named::Rules => {
            let records = random.between(60, 70) as usize;
            lines::rules(random, records)
        }
        Named::Policy => {
            let directives = random.pick(&[1, 2, 5, 20, 30, 31, 32, 33, 34]);
            let exceptions = random.pick(&[0, 10, 40, 62, 63, 64, 65, 66, 70]);
            lines::policy(random, directives, exceptions)
        }
    };
    lines::noted(random, lines)
}

/// The last record is one more than there may be, and its line is damaged too.
pub fn one_too_many(random: &mut Random, named: Named) -> Vec<u8> {
    let mut lines = match named {
        Named::Rules => lines::rules(random, MOST_RULES + 1),
        Named::Policy if random.one_in(2) => {
            let exceptions = random.below(3);
            let full = lines::policy(random, MOST_DIRECTIVES, exceptions);
            [full, lines::policy(random, 1, 0)].concat()
        }
        Named::Policy => {
            let directives = random.between(1, 4) as usize;
            lines::policy(random, directives, MOST_EXCEPTIONS + 1)
        }
    };
    if let Some(last) = lines.last_mut() {
        damage::one_line(random, last);
    }
    lines::written(&lines)
}

fn field(random: &mut Random) -> Request {
    let named = random.pick(&[Named::Rules, Named::Policy]);
    let drawn = few_lines(random, named);
    let mut line = match drawn.first() {
        Some(first) if !random.one_in(4) => first.join(&b'\t'),
        _ => bytes::in_no_order(random),
    };
    if random.one_in(4) {
        bytes::change_one(random, &mut line);
    }
    let number = number(random);
    Request::Field { number, line }
}

fn line(random: &mut Random) -> Request {
    let rules = text_of_either(random, Named::Rules);
    let policy = text_of_either(random, Named::Policy);
    Request::Line {
        named: random.pick(&[Named::Rules, Named::Policy]),
        number: number(random),
        rules,
        policy,
    }
}

/// Now and then a text of the other kind, in which no line is a record, and often
/// one that is not ended, since its last line counts here.
fn text_of_either(random: &mut Random, named: Named) -> Vec<u8> {
    let other = random.pick(&[Named::Rules, Named::Policy]);
    let lines = match random.below(12) {
        0 => few_lines(random, other),
        1 | 2 => return bytes::in_no_order(random),
        _ => few_lines(random, named),
    };
    let mut text = damage::maybe(random, lines);
    if random.one_in(3) {
        bytes::unend(&mut text);
    }
    text
}

/// Small numbers mostly, some that are small again when they are cut to 32 bits,
/// and the largest.
fn number(random: &mut Random) -> u64 {
    let small = random.below(7) as u64;
    match random.below(12) {
        0 => (1 << 32) + small,
        1 => u64::MAX - small,
        2 => (1 << 16) + small,
        _ => small,
    }
}

#[cfg(test)]
mod tests;
