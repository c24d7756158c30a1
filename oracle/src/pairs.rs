//! Drawn pairs of files for the whole program, of every shape that it can meet. A pair
//! has a number, and hangs on its number and a seed alone.

mod conforming;
mod edges;
mod files;
mod listings;
mod named;
mod sets;
mod spelled;
#[cfg(test)]
mod tests;

use crate::faults::{self, MOST_CELLS_DRAWN};
use crate::random::Random;
use crate::run::Content;
use crate::texts::reading;

/// What stands under the name of a file.
#[derive(Clone, Debug, PartialEq, Eq)]
pub enum Entry {
    Text(Vec<u8>),
    /// A link to a link to a file with this text.
    Linked(Vec<u8>),
    Unreadable(Unreadable),
}

/// What cannot be opened, or opens and cannot be read.
#[derive(Clone, Copy, Debug, PartialEq, Eq, PartialOrd, Ord)]
pub enum Unreadable {
    Missing,
    Directory,
    DanglingLink,
    LinkToItself,
    Socket,
    /// A link to what opens, but whose first bytes cannot be read.
    FailingRead,
}

impl Unreadable {
    pub const ALL: [Unreadable; 6] = [
        Unreadable::Missing,
        Unreadable::Directory,
        Unreadable::DanglingLink,
        Unreadable::LinkToItself,
        Unreadable::Socket,
        Unreadable::FailingRead,
    ];
}

impl Entry {
    pub fn content(&self) -> Content {
        match self {
            Entry::Text(text) | Entry::Linked(text) => Some(text.clone()),
            Entry::Unreadable(_) => None,
        }
    }
}

/// What stands under `rules.txt` and under `policy.txt`.
pub type Pair = [Entry; 2];

type Family = fn(&mut Random) -> Pair;

/// A name, how many of each ninety pairs have this shape, and how it is drawn.
pub const SHAPES: [(&str, usize, Family); 23] = [
    ("named sets", 2, named::sets),
    ("named texts", 3, named::texts),
    ("edges", 6, edges::edges),
    ("tiny", 7, sets::tiny),
    ("nested", 5, sets::nested),
    ("overlapping", 8, sets::overlapping),
    ("partly met", 3, sets::partly_met),
    ("table follows policy", 5, conforming::table_follows_policy),
    ("policy follows table", 5, conforming::policy_follows_table),
    ("full", 3, sets::full),
    ("gateways", 5, sets::gateways),
    ("gateways with slips", 6, sets::slips),
    ("near 512 blocks", 3, listings::near_the_limit),
    ("more than 512 blocks", 4, listings::far_above),
    ("one damaged", 6, files::one_damaged),
    ("both damaged", 3, files::both_damaged),
    ("unreadable", 5, files::unreadable),
    ("unreadable beside refused", 2, files::beside_refused),
    ("empty", 1, files::empty),
    ("sizes", 3, files::sizes),
    ("notes", 2, files::notes),
    ("spellings", 2, files::spellings),
    ("links", 1, files::links),
];

const ROUND: usize = 90;

/// The place of a pair's shape in the table. The shapes take turns, so that a few pairs
/// have many shapes: the step shares no divisor with the round.
pub fn shape(number: u64) -> usize {
    const STEP: u64 = 37;
    let mut left = (number * STEP % ROUND as u64) as usize;
    let mut place = 0;
    while left >= SHAPES[place].1 {
        left -= SHAPES[place].1;
        place += 1;
    }
    place
}

/// The pair of a number. What has more cells than the table of labels may have is drawn
/// again.
pub fn draw(seed: u64, number: u64) -> Pair {
    let mut random = Random::numbered(seed, number);
    let (_, _, family) = SHAPES[shape(number)];
    loop {
        let pair = family(&mut random);
        if can_be_answered(&pair) {
            return pair;
        }
    }
}

fn can_be_answered([rules, policy]: &Pair) -> bool {
    let rules = rules.content().map(|text| reading::rules(&text));
    let policy = policy.content().map(|text| reading::policy(&text));
    match (rules, policy) {
        (Some(Ok(rules)), Some(Ok(policy))) => faults::cells(&rules, &policy) <= MOST_CELLS_DRAWN,
        _ => true,
    }
}
