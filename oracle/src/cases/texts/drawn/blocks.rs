//! Drawing bounds for a field, inside others or not, and spelling them in one of
//! the forms that fit.

use crate::model::{Bounds, FIELDS, LARGEST};
use crate::random::Random;

pub type Bounded = [Bounds; FIELDS];

const WORDS: [(&str, u32); 3] = [("icmp", 1), ("tcp", 6), ("udp", 17)];

pub fn block(random: &mut Random) -> Bounded {
    std::array::from_fn(|field| bounds(random, field))
}

pub fn block_inside(random: &mut Random, outer: &Bounded) -> Bounded {
    outer.map(|bounds| inside(random, bounds))
}

/// A block inside but for one field, which reaches over one of its ends.
pub fn block_beside(random: &mut Random, outer: &Bounded) -> Bounded {
    let mut block = block_inside(random, outer);
    let field = random.below(FIELDS);
    let Bounds { low, high } = outer[field];
    if low > 0 && random.one_in(2) {
        block[field].low = random.between(low.saturating_sub(9), low - 1);
    } else if high < LARGEST[field] {
        block[field].high = random.between(high + 1, high.saturating_add(9).min(LARGEST[field]));
    }
    block
}

pub fn bounds(random: &mut Random, field: usize) -> Bounds {
    match field {
        0 | 1 => addresses(random),
        2 => numbers(random, LARGEST[2], &[1, 6, 17]),
        _ => numbers(random, LARGEST[3], &[22, 53, 80, 443, 8443]),
    }
}

fn addresses(random: &mut Random) -> Bounds {
    let start = address(random);
    match random.below(12) {
        0 | 1 => Bounds::new(0, u32::MAX),
        2..=4 => Bounds::new(start, start),
        5..=8 => {
            let length = random.between(0, 32);
            prefix_around(start, length)
        }
        9 => sorted(start, address(random)),
        _ => {
            let more = random.between(0, 300);
            Bounds::new(start, start.saturating_add(more))
        }
    }
}

pub fn address(random: &mut Random) -> u32 {
    let low = random.between(0, 255);
    match random.below(8) {
        0 => u32::from_be_bytes([10, 20, 0, 0]) + low,
        1 => u32::from_be_bytes([10, 30, 0, 0]) + low,
        2 => u32::from_be_bytes([192, 168, 0, 0]) + low * 256,
        3 => u32::from_be_bytes([10, 0, 0, 0]) + low * 65_536,
        4 => random.pick(&[0, 1, u32::MAX - 1, u32::MAX, 1 << 31, (1 << 31) - 1]),
        _ => random.between(0, u32::MAX),
    }
}

fn numbers(random: &mut Random, largest: u32, known: &[u32]) -> Bounds {
    let one = random.between(0, largest);
    match random.below(12) {
        0..=2 => Bounds::new(0, largest),
        3..=5 => {
            let known = random.pick(known);
            Bounds::new(known, known)
        }
        6 => Bounds::new(one, one),
        7 => random.pick(&[
            Bounds::new(0, 0),
            Bounds::new(largest, largest),
            Bounds::new(largest - 1, largest),
        ]),
        8 => Bounds::new(one, (one + 9).min(largest)),
        _ => {
            let other = random.between(0, largest);
            sorted(one, other)
        }
    }
}

fn sorted(one: u32, other: u32) -> Bounds {
    Bounds::new(one.min(other), one.max(other))
}

/// All of it, one end, or a part.
fn inside(random: &mut Random, outer: Bounds) -> Bounds {
    let Bounds { low, high } = outer;
    match random.below(8) {
        0..=3 => outer,
        4 => Bounds::new(low, low),
        5 => Bounds::new(high, high),
        _ => {
            let one = random.between(low, high);
            let other = random.between(low, high);
            sorted(one, other)
        }
    }
}

/// The prefix of this length that holds the address.
pub fn prefix_around(address: u32, length: u32) -> Bounds {
    let past = u32::MAX.checked_shr(length).unwrap_or(0);
    Bounds::new(address & !past, address | past)
}

/// One of the spellings that stand for these bounds.
pub fn spelled(random: &mut Random, field: usize, bounds: Bounds) -> Vec<u8> {
    let mut forms = if field < 2 {
        address_spellings(bounds)
    } else {
        number_spellings(field, bounds)
    };
    forms.swap_remove(random.below(forms.len())).into_bytes()
}

fn address_spellings(Bounds { low, high }: Bounds) -> Vec<String> {
    let mut forms = vec![format!("{}-{}", quad(low), quad(high))];
    if low == high {
        forms.extend([quad(low), quad(low)]);
    }
    if (low, high) == (0, u32::MAX) {
        forms.extend(["*", "*", "*"].map(str::to_string));
    }
    let fits = |length: &u32| prefix_around(low, *length) == Bounds::new(low, high);
    if let Some(length) = (0..=32).find(fits) {
        forms.push(format!("{}/{length}", quad(low)));
        forms.push(format!("{}/{}", quad(low), quad(mask(length))));
    }
    forms
}

fn number_spellings(field: usize, Bounds { low, high }: Bounds) -> Vec<String> {
    let mut forms = vec![format!("{low}-{high}")];
    if low == high {
        forms.extend([low.to_string(), low.to_string()]);
        let words = WORDS
            .iter()
            .filter(|(_, number)| field == 2 && *number == low);
        forms.extend(words.map(|(word, _)| word.to_string()));
    }
    if (low, high) == (0, LARGEST[field]) {
        forms.extend(["*", "*", "*"].map(str::to_string));
    }
    forms
}

pub fn mask(length: u32) -> u32 {
    prefix_around(u32::MAX, length).low
}

pub fn quad(address: u32) -> String {
    address
        .to_be_bytes()
        .map(|number| number.to_string())
        .join(".")
}
