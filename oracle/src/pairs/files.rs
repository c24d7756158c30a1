//! Pairs of which it matters how the files are written or whether they can be read at
//! all: damaged, too long, empty, with lines to be skipped, in every spelling, behind
//! links, and unreadable.

use super::{sets, spelled, Entry, Pair, Unreadable};
use crate::cases::faults::gateways::agreed;
use crate::cases::faults::Sets;
use crate::cases::texts::drawn::lines::{policy, put_notes, rules, written, Line};
use crate::cases::texts::drawn::{blocks, bytes, damage, few_lines, many_lines, one_too_many};
use crate::model::{Block, Directive, PolicySet, Rule, RuleSet};
use crate::random::Random;
use crate::texts::parts::Named;
use crate::texts::reading;

const BOTH: [Named; 2] = [Named::Rules, Named::Policy];

/// A text that is damaged more often than not.
fn damaged(random: &mut Random, named: Named) -> Vec<u8> {
    match random.below(20) {
        0 | 1 => {
            let many = many_lines(random, named);
            damage::maybe(random, many)
        }
        2 => one_too_many(random, named),
        3 => bytes::in_no_order(random),
        4..=8 => {
            let (rules, policy) = agreed(random, 5).sets();
            let lines = match named {
                Named::Rules => spelled::rule_lines(random, &rules),
                Named::Policy => spelled::policy_lines(random, &policy),
            };
            damage::maybe(random, lines)
        }
        _ => {
            let few = few_lines(random, named);
            damage::maybe(random, few)
        }
    }
}

fn damaged_entry(random: &mut Random, place: usize) -> Entry {
    Entry::Text(damaged(random, BOTH[place]))
}

/// The other file is as it was drawn.
pub fn one_damaged(random: &mut Random) -> Pair {
    let mut pair = sets::tiny(random);
    let place = random.below(2);
    pair[place] = damaged_entry(random, place);
    pair
}

pub fn both_damaged(random: &mut Random) -> Pair {
    [0, 1].map(|place| damaged_entry(random, place))
}

/// One file or both; the other is fine, or damaged.
pub fn unreadable(random: &mut Random) -> Pair {
    let mut pair = if random.one_in(2) {
        sets::tiny(random)
    } else {
        both_damaged(random)
    };
    match random.below(5) {
        0 => pair = [0, 1].map(|_| unreadable_entry(random)),
        1 | 2 => pair[0] = unreadable_entry(random),
        _ => pair[1] = unreadable_entry(random),
    }
    pair
}

fn unreadable_entry(random: &mut Random) -> Entry {
    Entry::Unreadable(random.pick(&Unreadable::ALL))
}

/// One file cannot be read and the other is refused.
pub fn beside_refused(random: &mut Random) -> Pair {
    let place = random.below(2);
    loop {
        let text = damaged(random, BOTH[place]);
        if is_refused(&text, BOTH[place]) {
            let mut pair = [0, 1].map(|_| unreadable_entry(random));
            pair[place] = Entry::Text(text);
            return pair;
        }
    }
}

fn is_refused(text: &[u8], named: Named) -> bool {
    match named {
        Named::Rules => reading::rules(text).is_err(),
        Named::Policy => reading::policy(text).is_err(),
    }
}

/// One file or both without any record.
pub fn empty(random: &mut Random) -> Pair {
    let mut pair = sets::tiny(random);
    let empty = |random: &mut Random| {
        let text: &[u8] = random.pick(&[&b""[..], b"", b"", b"\n", b"#\n", b"\n\n# none\n"]);
        Entry::Text(text.to_vec())
    };
    match random.below(4) {
        0 => pair[0] = empty(random),
        1 => pair[1] = empty(random),
        _ => pair = [0, 1].map(|_| empty(random)),
    }
    pair
}

/// On both sides of the most bytes that a text may have, and much longer.
const LENGTHS: [usize; 16] = [
    32_766, 32_767, 32_767, 32_767, 32_768, 32_768, 32_768, 32_768, 32_769, 32_769, 32_769, 32_770,
    40_000, 65_535, 65_536, 1_000_000,
];

/// One file or both come to such a length; now and then one is damaged as well, far
/// behind in the text.
pub fn sizes(random: &mut Random) -> Pair {
    let mut texts = [0, 1].map(|place| match random.below(4) {
        0 => damaged(random, BOTH[place]),
        _ => written(&few_lines(random, BOTH[place])),
    });
    let places: &[usize] = random.pick(&[&[0][..], &[1], &[0, 1]]);
    for place in places {
        let length = random.pick(&LENGTHS);
        texts[*place] = padded(random, &texts[*place], length);
    }
    texts.map(Entry::Text)
}

/// The text with lines to be skipped before it or behind it.
fn padded(random: &mut Random, text: &[u8], length: usize) -> Vec<u8> {
    let note: &[u8] = random.pick(&[&b"\n"[..], b"# a note\n", b"#"]);
    let mut padding: Vec<u8> = note
        .iter()
        .copied()
        .cycle()
        .take(length - text.len())
        .collect();
    if let Some(last) = padding.last_mut() {
        *last = b'\n';
    }
    match random.below(5) {
        0 => {
            padding.pop();
            [text, &padding, b"#"].concat()
        }
        1 | 2 => [text, &padding].concat(),
        _ => [&padding, text].concat(),
    }
}

/// Many lines to be skipped between the others.
pub fn notes(random: &mut Random) -> Pair {
    let (rules, policy) = agreed(random, 3).sets();
    let lines = [
        spelled::rule_lines(random, &rules),
        spelled::policy_lines(random, &policy),
    ];
    lines.map(|mut lines: Vec<Line>| {
        let notes = random.between(1, 30);
        put_notes(random, &mut lines, notes);
        Entry::Text(written(&lines))
    })
}

/// Bounds of every kind in every spelling; half of the pairs say the same in both files,
/// spelled anew, and so conform.
pub fn spellings(random: &mut Random) -> Pair {
    if random.one_in(2) {
        let sets = said_twice(random);
        return spelled::pair(random, &sets);
    }
    let records = random.between(0, 3) as usize;
    let table = rules(random, records);
    let directives = random.between(0, 2) as usize;
    let exceptions = random.below(3);
    let asked = policy(random, directives, exceptions);
    [table, asked].map(|lines| Entry::Text(written(&lines)))
}

/// A few blocks with one action.
fn said_twice(random: &mut Random) -> Sets {
    let action = crate::cases::labels::random_action(random);
    let drawn: Vec<Block> = (0..random.between(1, 3))
        .map(|_| Block(blocks::block(random)))
        .collect();
    let rule = |block: &Block| Rule {
        action,
        block: *block,
    };
    let directive = |block: &Block| Directive {
        action,
        block: *block,
    };
    let rules = drawn.iter().map(rule).collect();
    let directives = drawn.iter().rev().map(directive).collect();
    (RuleSet::new(rules), PolicySet::new(directives, vec![]))
}

/// A text behind links is read like any other.
pub fn links(random: &mut Random) -> Pair {
    let mut pair = sets::tiny(random);
    for place in random.pick(&[&[0][..], &[1], &[0, 1]]) {
        if let Entry::Text(text) = &pair[*place] {
            pair[*place] = Entry::Linked(text.clone());
        }
    }
    pair
}
