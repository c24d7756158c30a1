//! Drawn sets of different shapes, and labels of packets at the corners of their
//! blocks, beside them, inside them and anywhere.

use super::*;
use crate::faults::blocks;
use crate::model::{Bounds, FIELDS, LARGEST};

/// Draws the bounds of one field.
pub type Shape = fn(&mut Random, usize) -> Bounds;

pub fn write(script: &mut Script, random: &mut Random) {
    for (name, shape, pairs) in [
        ("tiny blocks in the low corner", corner as Shape, 18),
        ("tiny blocks in the high corner", high_corner, 7),
        ("blocks that touch the ends of fields", ends, 8),
        ("blocks of a small network", network, 8),
    ] {
        for _ in 0..pairs {
            script.group(&format!("labels: {name}"));
            let rules = random.below(8);
            let directives = random.below(5);
            let exceptions = random.below(7);
            let sets = random_sets(random, shape, rules, directives, exceptions);
            labels(script, random, &sets, shape, 12);
        }
    }
    for change in 0..3 * CHANGES {
        script.group("labels: rules that follow the policy, or nearly");
        let sets = nearly_conforming(random, change);
        labels(script, random, &sets, corner, 8);
    }
    for shape in [corner, strips, strips_of_network] {
        script.group("labels: full sets");
        let sets = random_sets(random, shape, MOST_RULES, MOST_DIRECTIVES, MOST_EXCEPTIONS);
        labels(script, random, &sets, shape, 24);
    }
}

fn labels(
    script: &mut Script,
    random: &mut Random,
    (rules, policy): &(RuleSet, PolicySet),
    shape: Shape,
    count: usize,
) {
    script.sets(rules, policy);
    let blocks = blocks(rules, policy);
    for _ in 0..count {
        script.label(random_packet(random, &blocks, shape));
    }
}

/// Four numbers a field, three for the protocol.
pub fn corner(random: &mut Random, field: usize) -> Bounds {
    let last = if field == 2 { 2 } else { 3 };
    if random.one_in(3) {
        return Bounds::new(0, last);
    }
    let low = random.between(0, last);
    Bounds::new(low, random.between(low, last))
}

/// The low corner turned over to the largest numbers.
pub fn high_corner(random: &mut Random, field: usize) -> Bounds {
    let Bounds { low, high } = corner(random, field);
    Bounds::new(LARGEST[field] - high, LARGEST[field] - low)
}

pub fn ends(random: &mut Random, field: usize) -> Bounds {
    let largest = LARGEST[field];
    let middle = random.between(1, largest - 1);
    let tried = [
        (0, largest),
        (0, largest),
        (0, largest - 1),
        (1, largest),
        (0, middle),
        (middle, largest),
        (0, 0),
        (largest, largest),
    ];
    let (low, high) = random.pick(&tried);
    Bounds::new(low, high)
}

/// Prefixes of a few addresses, one protocol or all, and a few ports.
pub fn network(random: &mut Random, field: usize) -> Bounds {
    if random.one_in(4) {
        return Bounds::new(0, LARGEST[field]);
    }
    match field {
        0 => prefix(random, 0x0A14_0000),
        1 => prefix(random, 0x0A1E_0000),
        2 => {
            let protocol = random.pick(&[1, 6, 6, 6, 17]);
            Bounds::new(protocol, protocol)
        }
        _ => {
            let low = random.pick(&[22, 80, 443, 8443, 8443]);
            let high = random.pick(&[low, low, low + 1, 8444, 65_535]);
            Bounds::new(low, high)
        }
    }
}

/// A prefix of 256 addresses or fewer.
pub fn prefix(random: &mut Random, base: u32) -> Bounds {
    let size = 1 << random.between(0, 8);
    let low = base + size * random.between(0, 256 / size - 1);
    Bounds::new(low, low + size - 1)
}

/// Narrow strips of sources, so that many blocks need not all overlap.
fn strips(random: &mut Random, field: usize) -> Bounds {
    let (last, longest) = [(99, 9), (39, 19), (5, 5), (9, 9)][field];
    if field > 1 && random.one_in(2) {
        return Bounds::new(0, LARGEST[field]);
    }
    let low = random.between(0, last);
    Bounds::new(low, random.between(low, low + longest))
}

/// The strips laid over a network's addresses and ports.
fn strips_of_network(random: &mut Random, field: usize) -> Bounds {
    let Bounds { low, high } = strips(random, field);
    let start = [0x0A14_0000, 0x0A1E_0000, 0, 8_000][field];
    let moved = |number: u32| (number + start).min(LARGEST[field]);
    Bounds::new(moved(low), moved(high))
}

pub fn random_block(random: &mut Random, shape: Shape) -> Block {
    Block(std::array::from_fn(|field| shape(random, field)))
}

/// A block inside the given one.
pub fn nested(random: &mut Random, block: Block) -> Block {
    Block(block.0.map(|bounds| {
        if random.one_in(2) {
            return bounds;
        }
        let low = random.between(bounds.low, bounds.high);
        Bounds::new(low, random.between(low, bounds.high))
    }))
}

pub fn random_action(random: &mut Random) -> Action {
    random.pick(&[Action::Accept, Action::Deny])
}

/// Sets in form with so many rules, directives and exceptions; no exceptions if
/// there is no directive.
pub fn random_sets(
    random: &mut Random,
    shape: Shape,
    rules: usize,
    directives: usize,
    exceptions: usize,
) -> (RuleSet, PolicySet) {
    let rules = (0..rules)
        .map(|_| Rule {
            action: random_action(random),
            block: random_block(random, shape),
        })
        .collect();
    let directives: Vec<Directive> = (0..directives)
        .map(|_| Directive {
            action: random_action(random),
            block: random_block(random, shape),
        })
        .collect();
    let exceptions = random_exceptions(random, &directives, exceptions);
    (RuleSet::new(rules), PolicySet::new(directives, exceptions))
}

pub fn random_exceptions(
    random: &mut Random,
    directives: &[Directive],
    count: usize,
) -> Vec<Exception> {
    if directives.is_empty() {
        return vec![];
    }
    let mut places: Vec<usize> = (0..count).map(|_| random.below(directives.len())).collect();
    places.sort();
    places
        .into_iter()
        .map(|place| except(place as u32 + 1, nested(random, directives[place].block)))
        .collect()
}

pub const CHANGES: usize = 10;

/// A policy whose directives lie in different sources, and rules that do just
/// what it asks, but for one change in all cases except the first.
pub fn nearly_conforming(random: &mut Random, change: usize) -> (RuleSet, PolicySet) {
    let count = random.between(2, 4);
    let directives: Vec<Directive> = (0..count)
        .map(|place| {
            let mut block = random_block(random, corner);
            block.0[0] = Bounds::new(4 * place, 4 * place + random.between(0, 3));
            Directive {
                action: random_action(random),
                block,
            }
        })
        .collect();
    let exceptions = random_exceptions(random, &directives, 4);
    let mut rules = following(&directives, &exceptions);
    let place = random.below(rules.len() - 1);
    let last = rules.len() - 1;
    match change % CHANGES {
        0 => {}
        1 => drop(rules.remove(place)),
        2 => drop(rules.pop()),
        3 => rules.swap(place, place + 1),
        4 => rules.reverse(),
        5 => rules[place].action = rules[place].action.opposite(),
        6 => rules[place].block.0[1].high += 1,
        7 => rules[last].block.0[3].low = rules[last].block.0[3].high,
        8 => rules.push(deny(Block::from_numbers([0, 16, 0, 4, 0, 3, 0, 4]))),
        _ => {
            let mut block = rules[place].block;
            block.0[1] = Bounds::new(1, 1);
            rules.insert(0, accept(block));
        }
    }
    (RuleSet::new(rules), PolicySet::new(directives, exceptions))
}

/// The rules that do what the policy asks: before each directive its exceptions.
pub fn following(directives: &[Directive], exceptions: &[Exception]) -> Vec<Rule> {
    let mut rules = vec![];
    for (number, directive) in (1..).zip(directives) {
        for exception in exceptions {
            if exception.directive == number {
                rules.push(Rule {
                    action: directive.action.opposite(),
                    block: exception.block,
                });
            }
        }
        rules.push(Rule {
            action: directive.action,
            block: directive.block,
        });
    }
    rules
}

/// A packet that tells blocks apart more often than one drawn from all packets.
fn random_packet(random: &mut Random, blocks: &[Block], shape: Shape) -> Packet {
    let anywhere = random_block(random, shape);
    if blocks.is_empty() {
        return inside(random, anywhere);
    }
    let block = random.pick(blocks);
    match random.below(6) {
        0 => inside(random, anywhere),
        1 => inside(random, block),
        2 | 3 => {
            let other = random.pick(blocks);
            inside(random, overlap(block, other))
        }
        4 => at_corner(random, block),
        _ => beside(random, block),
    }
}

fn inside(random: &mut Random, block: Block) -> Packet {
    Packet(
        block
            .0
            .map(|bounds| random.between(bounds.low, bounds.high)),
    )
}

fn at_corner(random: &mut Random, block: Block) -> Packet {
    Packet(
        block
            .0
            .map(|bounds| random.pick(&[bounds.low, bounds.high])),
    )
}

/// The first block narrowed by the bounds of the second.
fn overlap(block: Block, other: Block) -> Block {
    (0..FIELDS).fold(block, |block, field| {
        let (_, narrowed) = block.narrowed(field, other.0[field]);
        narrowed
    })
}

/// A corner moved out of the block by one in one field, where there is room. It
/// may be out of form there.
fn beside(random: &mut Random, block: Block) -> Packet {
    let mut packet = at_corner(random, block);
    let field = random.below(FIELDS);
    let Bounds { low, high } = block.0[field];
    if packet.0[field] == low && low > 0 {
        packet.0[field] = low - 1;
    } else if high < u32::MAX {
        packet.0[field] = high + 1;
    }
    packet
}
