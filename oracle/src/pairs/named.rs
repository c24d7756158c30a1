//! Pairs of the named cases, which are about one sentence of document 01 each.

use super::{sets, spelled, Entry, Pair};
use crate::cases::faults::{named_sets, Sets};
use crate::cases::texts::named_texts;
use crate::random::Random;
use crate::texts::parts::Named;
use std::sync::OnceLock;

pub fn sets(random: &mut Random) -> Pair {
    static NAMED: OnceLock<Vec<Sets>> = OnceLock::new();
    let named = NAMED.get_or_init(named_sets);
    let place = random.below(named.len());
    spelled::pair(random, &named[place])
}

/// One named text, and beside it a text that is read.
pub fn texts(random: &mut Random) -> Pair {
    static NAMED: OnceLock<Vec<(Named, Vec<u8>)>> = OnceLock::new();
    let named = NAMED.get_or_init(named_texts);
    let (kind, text) = &named[random.below(named.len())];
    let mut pair = sets::tiny(random);
    let place = match kind {
        Named::Rules => 0,
        Named::Policy => 1,
    };
    pair[place] = Entry::Text(text.clone());
    pair
}
