//! Drawn pairs of sets of many shapes.

use super::full::middling;
use super::gateways::{change, gateway, Draft};
use super::*;
use crate::cases::labels::{
    corner, ends, following, high_corner, nearly_conforming, nested, network, random_action,
    random_block, random_exceptions, random_sets, Shape, CHANGES,
};
use crate::model::{Bounds, FIELDS, LARGEST};

/// A name, how many pairs, the shape of their blocks, and the numbers that rules,
/// directives and exceptions stay below.
const SHAPES: [(&str, usize, Shape, [usize; 3]); 7] = [
    ("tiny blocks in the low corner", 700, corner, [8, 5, 7]),
    (
        "tiny blocks in the high corner",
        400,
        high_corner,
        [8, 5, 7],
    ),
    (
        "blocks at both ends of every field",
        400,
        both_ends,
        [7, 4, 5],
    ),
    ("blocks from an end to the middle", 250, ends, [4, 3, 3]),
    ("blocks of a small network", 500, network, [6, 4, 4]),
    ("blocks anywhere", 200, anywhere, [4, 3, 2]),
    ("one-number blocks", 300, one_number, [9, 6, 3]),
];

type Family = fn(&mut Random) -> Sets;

const FAMILIES: [(&str, usize, Family); 12] = [
    ("the largest number in one field only", 250, one_top),
    ("blocks of a few kinds, often the same", 300, same_blocks),
    ("blocks one inside the other", 400, onion),
    ("blocks side by side in one field", 500, tiles),
    ("rules that follow a consistent policy", 400, conforming),
    ("such rules with slips", 600, slips),
    ("rules that leave out exceptions", 200, without_exceptions),
    ("rules that meet a part of the policy", 400, partly_met),
    ("policies that conflict", 250, conflicting),
    ("gateways", 1_200, gateway),
    ("many records from a store of bounds", 150, middling),
    ("only rules or only a policy", 100, one_side),
];

pub fn pairs(random: &mut Random) -> Pairs {
    let mut pairs = vec![];
    for (name, count, shape, ends) in SHAPES {
        for _ in 0..count {
            pairs.push((name, few(random, shape, ends)));
        }
    }
    for change in 0..60 * CHANGES {
        let sets = nearly_conforming(random, change);
        pairs.push(("rules that follow the policy, or nearly", sets));
    }
    for (name, count, family) in FAMILIES {
        for _ in 0..count {
            pairs.push((name, family(random)));
        }
    }
    pairs
}

/// Sets of one shape, with fewer rules, directives and exceptions than told.
pub fn few(random: &mut Random, shape: Shape, ends: [usize; 3]) -> Sets {
    let [rules, directives, exceptions] = ends.map(|end| random.below(end));
    random_sets(random, shape, rules, directives, exceptions)
}

/// Bounds among the lowest three numbers of a field and its largest three.
pub fn both_ends(random: &mut Random, field: usize) -> Bounds {
    let largest = LARGEST[field];
    let numbers = [0, 0, 1, 2, largest - 2, largest - 1, largest, largest];
    let (one, other) = (random.pick(&numbers), random.pick(&numbers));
    Bounds::new(one.min(other), one.max(other))
}

pub fn anywhere(random: &mut Random, field: usize) -> Bounds {
    let one = random.between(0, LARGEST[field]);
    let other = random.between(0, LARGEST[field]);
    Bounds::new(one.min(other), one.max(other))
}

/// One of a few numbers, many of them neighbours.
pub fn one_number(random: &mut Random, field: usize) -> Bounds {
    let largest = LARGEST[field];
    let number = random.pick(&[0, 1, 2, 2, 3, largest / 2, largest - 1, largest]);
    Bounds::new(number, number)
}

/// Sets of blocks that are drawn as told.
fn sets_of(random: &mut Random, mut block: impl FnMut(&mut Random) -> Block) -> Sets {
    let mut rules = vec![];
    for _ in 0..random.below(7) {
        rules.push(Rule {
            action: random_action(random),
            block: block(random),
        });
    }
    let mut directives = vec![];
    for _ in 0..random.below(4) {
        directives.push(Directive {
            action: random_action(random),
            block: block(random),
        });
    }
    let most = random.below(4);
    let exceptions = random_exceptions(random, &directives, most);
    (RuleSet::new(rules), PolicySet::new(directives, exceptions))
}

/// Tiny blocks that go on to the largest number in one field.
pub fn one_top(random: &mut Random) -> Sets {
    sets_of(random, |random| {
        let mut block = random_block(random, corner);
        let field = random.below(FIELDS);
        block.0[field].high = LARGEST[field];
        block
    })
}

/// All blocks of rules and directives are among three.
pub fn same_blocks(random: &mut Random) -> Sets {
    let shape = random.pick(&[corner as Shape, both_ends, network]);
    let blocks: Vec<Block> = (0..3).map(|_| random_block(random, shape)).collect();
    sets_of(random, |random| random.pick(&blocks))
}

/// Each block inside the one before; the rules from the innermost, from the
/// outermost or in no order.
pub fn onion(random: &mut Random) -> Sets {
    let drawn = random_block(random, network);
    let mut block = random.pick(&[Block::WIDEST, drawn]);
    let mut blocks = vec![];
    for _ in 0..random.between(2, 6) {
        blocks.push(block);
        let inner = nested(random, block);
        let field = random.below(FIELDS);
        block.0[field] = inner.0[field];
    }
    let mut rules: Vec<Rule> = blocks
        .iter()
        .map(|block| Rule {
            action: random_action(random),
            block: *block,
        })
        .collect();
    match random.below(3) {
        0 => {}
        1 => rules.reverse(),
        _ => rules.swap(0, blocks.len() - 1),
    }
    let mut directives = vec![];
    let mut exceptions = vec![];
    for (number, pair) in (1..).zip(blocks.chunks(2)) {
        directives.push(Directive {
            action: random_action(random),
            block: pair[0],
        });
        exceptions.extend(pair[1..].iter().map(|block| except(number, *block)));
    }
    (RuleSet::new(rules), PolicySet::new(directives, exceptions))
}

/// Rules and directives that lie side by side in one field, without a gap or with
/// a small one, and have one of two bounds in another.
pub fn tiles(random: &mut Random) -> Sets {
    let field = random.below(FIELDS);
    let other = (field + random.between(1, 3) as usize) % FIELDS;
    let mut base = Block::WIDEST;
    if random.one_in(2) {
        base = random_block(random, corner);
    }
    let halves = [Bounds::new(0, 100), Bounds::new(50, LARGEST[other])];
    let row = |random: &mut Random| {
        let mut low = random.between(0, 2);
        let mut blocks = vec![];
        for _ in 0..random.between(1, 8) {
            let high = low + random.between(0, 4);
            let mut block = base;
            block.0[field] = Bounds::new(low, high);
            block.0[other] = random.pick(&halves);
            blocks.push(block);
            low = high + random.pick(&[1, 1, 1, 2]);
        }
        blocks
    };
    let mut rules = vec![];
    for block in row(random) {
        let action = random.pick(&[Action::Accept, Action::Accept, Action::Deny]);
        rules.push(Rule { action, block });
    }
    let mut directives = vec![];
    for block in row(random) {
        let action = random.pick(&[Action::Accept, Action::Accept, Action::Deny]);
        directives.push(Directive { action, block });
    }
    let exceptions = random_exceptions(random, &directives, 2);
    (RuleSet::new(rules), PolicySet::new(directives, exceptions))
}

/// A policy whose directives lie apart in one field, and rules that do just what it
/// asks, now and then two rules for one.
fn consistent(random: &mut Random) -> Draft {
    let field = random.below(FIELDS);
    let shape = random.pick(&[corner as Shape, high_corner, both_ends, network]);
    let step = if field == 2 { 40 } else { 10_000 };
    let count = random.between(1, 4);
    let mut directives = vec![];
    for place in 0..count {
        let mut block = random_block(random, shape);
        let low = step * place + random.between(0, 5);
        let high = low + random.between(0, step - 6);
        block.0[field] = Bounds::new(low, high);
        if place + 1 == count && random.one_in(3) {
            block.0[field].high = LARGEST[field];
        }
        directives.push(Directive {
            action: random_action(random),
            block,
        });
    }
    let most = random.between(0, 4) as usize;
    let exceptions = random_exceptions(random, &directives, most);
    let mut rules = following(&directives, &exceptions);
    let last = rules[rules.len() - 1];
    let Bounds { low, high } = last.block.0[0];
    if low < high && random.one_in(2) {
        let middle = random.between(low, high - 1);
        let place = rules.len() - 1;
        rules[place].block.0[0].high = middle;
        let mut second = last;
        second.block.0[0].low = middle + 1;
        rules.push(second);
    }
    Draft {
        rules,
        directives,
        exceptions,
    }
}

pub fn conforming(random: &mut Random) -> Sets {
    consistent(random).sets()
}

pub fn slips(random: &mut Random) -> Sets {
    let mut draft = consistent(random);
    for _ in 0..random.between(1, 3) {
        change(random, &mut draft);
    }
    draft.sets()
}

/// The rules do what the directives ask, as if these had no exceptions.
pub fn without_exceptions(random: &mut Random) -> Sets {
    let mut draft = consistent(random);
    draft.rules = following(&draft.directives, &[]);
    if draft.exceptions.is_empty() {
        draft.exceptions = random_exceptions(random, &draft.directives, 1);
    }
    draft.sets()
}

/// Only some of the rules that the policy asks for, each with the rules above that
/// it needs; so nothing is wrong or unasked.
pub fn partly_met(random: &mut Random) -> Sets {
    let mut draft = consistent(random);
    let mut rules = vec![];
    for (number, directive) in (1..).zip(&draft.directives) {
        let own = draft.exceptions.iter();
        let own: Vec<Exception> = own
            .filter(|exception| exception.directive == number)
            .copied()
            .collect();
        for exception in &own {
            if random.one_in(2) {
                rules.push(Rule {
                    action: directive.action.opposite(),
                    block: exception.block,
                });
            }
        }
        if own.is_empty() && random.one_in(2) {
            rules.push(Rule {
                action: directive.action,
                block: nested(random, directive.block),
            });
        }
    }
    draft.rules = rules;
    draft.sets()
}

/// Directives that overlap and ask for different actions, with rules that follow
/// them one after another.
pub fn conflicting(random: &mut Random) -> Sets {
    let mut draft = consistent(random);
    let directive = random.pick(&draft.directives);
    draft.directives.push(Directive {
        action: directive.action.opposite(),
        block: nested(random, directive.block),
    });
    if random.one_in(2) {
        draft.rules = following(&draft.directives, &draft.exceptions);
    }
    if random.one_in(3) {
        change(random, &mut draft);
    }
    draft.sets()
}

/// A rule table without a policy, or a policy without a rule table.
pub fn one_side(random: &mut Random) -> Sets {
    let shape = random.pick(&[corner as Shape, both_ends, network]);
    let (rules, policy) = few(random, shape, [6, 4, 5]);
    if random.one_in(2) {
        (rules, no_policy())
    } else {
        (no_rules(), policy)
    }
}
