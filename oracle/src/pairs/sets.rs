//! Pairs of texts that are read, of the shapes in which sets are drawn for the calls.

use super::{spelled, Pair};
use crate::cases::faults::drawn::{
    anywhere, both_ends, conflicting, few, one_number, one_side, one_top, onion,
    partly_met as in_part, same_blocks, slips as changed, tiles, without_exceptions,
};
use crate::cases::faults::full::{different, from_store, middling, FULL};
use crate::cases::faults::gateways::{agreed, change};
use crate::cases::faults::Sets;
use crate::cases::labels::{corner, ends, high_corner, nearly_conforming, network, CHANGES};
use crate::random::Random;

pub fn tiny(random: &mut Random) -> Pair {
    let sets = match random.below(5) {
        0 | 1 => few(random, corner, [8, 5, 7]),
        2 => few(random, high_corner, [8, 5, 7]),
        3 => few(random, one_number, [9, 6, 3]),
        _ => {
            let change = random.below(CHANGES);
            nearly_conforming(random, change)
        }
    };
    spelled::pair(random, &sets)
}

pub fn nested(random: &mut Random) -> Pair {
    let sets = onion(random);
    spelled::pair(random, &sets)
}

pub fn overlapping(random: &mut Random) -> Pair {
    let families: [fn(&mut Random) -> Sets; 9] = [
        same_blocks,
        tiles,
        one_top,
        conflicting,
        in_part,
        without_exceptions,
        one_side,
        changed,
        middling,
    ];
    let sets = match random.below(14) {
        0 => few(random, both_ends, [7, 4, 5]),
        1 => few(random, ends, [4, 3, 3]),
        2 | 3 => few(random, network, [6, 4, 4]),
        4 => few(random, anywhere, [4, 3, 2]),
        family => families[family - 5](random),
    };
    spelled::pair(random, &sets)
}

/// Nothing is wrong or unasked, but not all that is asked for is done.
pub fn partly_met(random: &mut Random) -> Pair {
    let sets = in_part(random);
    spelled::pair(random, &sets)
}

/// 64 rules, 32 directives and 64 exceptions.
pub fn full(random: &mut Random) -> Pair {
    let sets = match random.below(24) {
        0 => {
            let fields = random.pick(&[[0, 1], [1, 3], [2, 3], [0, 3]]);
            different(random, &fields)
        }
        1..=6 => {
            let field = random.below(4);
            different(random, &[field])
        }
        7 => from_store(random, 8, FULL),
        _ => from_store(random, 4, FULL),
    };
    spelled::pair(random, &sets)
}

/// Now and then with many services.
const SERVICES: [u32; 8] = [5, 5, 5, 5, 5, 5, 9, 16];

pub fn gateways(random: &mut Random) -> Pair {
    let most = random.pick(&SERVICES);
    let sets = agreed(random, most).sets();
    spelled::pair(random, &sets)
}

pub fn slips(random: &mut Random) -> Pair {
    let most = random.pick(&SERVICES);
    let mut draft = agreed(random, most);
    for _ in 0..random.between(1, 3) {
        change(random, &mut draft);
    }
    spelled::pair(random, &draft.sets())
}
