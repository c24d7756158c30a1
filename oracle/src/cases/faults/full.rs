//! Sets with as many records as there may be: with bounds from a small store, so
//! that they have few cells for so many blocks; with as many different bounds in one
//! or two fields as 160 blocks can have; and with long listings.

use super::*;
use crate::cases::labels::{random_action, random_exceptions};
use crate::model::{Bounds, FIELDS, LARGEST};

const BLOCKS: usize = MOST_RULES + MOST_DIRECTIVES + MOST_EXCEPTIONS;

pub fn pairs(random: &mut Random) -> Pairs {
    let mut pairs = vec![];
    for round in 0..48 {
        let bounds = if round % 8 == 7 { 8 } else { 4 };
        let sets = from_store(random, bounds, FULL);
        pairs.push(("full sets from a store of bounds", sets));
    }
    for fields in [
        &[0][..],
        &[1],
        &[2],
        &[3],
        &[0, 1],
        &[1, 3],
        &[2, 3],
        &[0, 3],
    ] {
        let sets = different(random, fields);
        pairs.push(("full sets, bounds different in all blocks", sets));
    }
    for (strips, fields) in [(21, &[0, 1, 3][..]), (21, &[1, 2, 3]), (12, &[0, 1, 2, 3])] {
        let sets = (crossing(random, strips, fields), no_policy());
        pairs.push(("strips that cross, nothing asked", sets));
    }
    let sets = (rules_side_by_side(random), no_policy());
    pairs.push(("64 rules side by side, nothing asked", sets));
    let sets = (no_rules(), policy_side_by_side());
    pairs.push(("a full policy side by side, no rule", sets));
    let sets = (rules_side_by_side(random), policy_side_by_side());
    pairs.push(("full sets side by side", sets));
    pairs
}

/// Rules, directives and exceptions of full sets.
pub const FULL: [usize; 3] = [MOST_RULES, MOST_DIRECTIVES, MOST_EXCEPTIONS];

/// Sets with fewer records, at least one of each kind.
pub fn middling(random: &mut Random) -> Sets {
    let counts = FULL.map(|most| 1 + random.below(most));
    let bounds = random.between(2, 4) as usize;
    from_store(random, bounds, counts)
}

/// Sets with so many records, whose bounds are among a few for each field. An
/// exception has what its directive shares with such bounds.
pub fn from_store(random: &mut Random, bounds: usize, counts: [usize; 3]) -> Sets {
    let store = store(random, bounds);
    let [rules, directives, exceptions] = counts;
    let rules = (0..rules)
        .map(|_| Rule {
            action: random_action(random),
            block: picked(random, &store),
        })
        .collect();
    let directives: Vec<Directive> = (0..directives)
        .map(|_| Directive {
            action: random_action(random),
            block: picked(random, &store),
        })
        .collect();
    let mut exceptions = random_exceptions(random, &directives, exceptions);
    for exception in &mut exceptions {
        let block = directives[exception.directive as usize - 1].block;
        let other = picked(random, &store);
        exception.block = Block(std::array::from_fn(|field| {
            let own = block.0[field];
            own.shared(other.0[field]).unwrap_or(own)
        }));
    }
    (RuleSet::new(rules), PolicySet::new(directives, exceptions))
}

/// So many bounds for each field; some touch an end of the field.
fn store(random: &mut Random, bounds: usize) -> [Vec<Bounds>; FIELDS] {
    std::array::from_fn(|field| {
        let largest = LARGEST[field];
        (0..bounds)
            .map(|place| {
                let low = random.between(0, largest);
                let high = random.between(low, largest);
                match place {
                    0 => Bounds::new(0, high),
                    1 => Bounds::new(low, largest),
                    _ => Bounds::new(low, high),
                }
            })
            .collect()
    })
}

fn picked(random: &mut Random, store: &[Vec<Bounds>; FIELDS]) -> Block {
    Block(std::array::from_fn(|field| random.pick(&store[field])))
}

/// Full sets whose 160 blocks have 320 different bounds in each of these fields, as
/// far as the field has so many numbers, and are open in the others. Where 0 and the
/// largest number are no bounds, that makes 321 strips.
pub fn different(random: &mut Random, fields: &[usize]) -> Sets {
    let mut rules = vec![accept(Block::WIDEST); MOST_RULES];
    let mut directives = vec![ask_accept(Block::WIDEST); MOST_DIRECTIVES];
    let numbers = (0..MOST_EXCEPTIONS as u32).map(|place| place / 2 + 1);
    let mut exceptions: Vec<Exception> = numbers
        .map(|number| except(number, Block::WIDEST))
        .collect();
    for rule in &mut rules {
        rule.action = random_action(random);
    }
    for directive in &mut directives {
        directive.action = random_action(random);
    }
    for field in fields {
        let (mut of_rules, of_policy) = cuts(*field);
        shuffle(random, &mut of_rules);
        for (rule, own) in rules.iter_mut().zip(of_rules.chunks(2)) {
            rule.block.0[*field] = between(own[0].min(own[1]), own[0].max(own[1]));
        }
        let mut own: Vec<&[u32]> = of_policy.chunks(6).collect();
        shuffle(random, &mut own);
        for (place, own) in own.into_iter().enumerate() {
            directives[place].block.0[*field] = between(own[0], own[5]);
            exceptions[2 * place].block.0[*field] = between(own[1], own[2]);
            exceptions[2 * place + 1].block.0[*field] = between(own[3], own[4]);
        }
    }
    (RuleSet::new(rules), PolicySet::new(directives, exceptions))
}

/// Where the strips of a field begin: 320 rising numbers, two of each five for the
/// rules and the others for the policy.
fn cuts(field: usize) -> (Vec<u32>, Vec<u32>) {
    let count = 2 * BLOCKS as u64;
    let room = u64::from(LARGEST[field]) - 1;
    let cut = |place: u64| (1 + place * room / (count - 1)) as u32;
    let for_rules = |place: &u64| matches!(place % 5, 2 | 4);
    let (of_rules, of_policy): (Vec<u64>, Vec<u64>) = (0..count).partition(for_rules);
    let cuts = |places: Vec<u64>| places.into_iter().map(cut).collect();
    (cuts(of_rules), cuts(of_policy))
}

/// From a number to the one before the other, or the number alone.
fn between(low: u32, past: u32) -> Bounds {
    Bounds::new(low, low.max(past - 1))
}

pub fn shuffle<T>(random: &mut Random, items: &mut [T]) {
    for place in (1..items.len()).rev() {
        items.swap(place, random.below(place + 1));
    }
}

/// So many strips of each of these fields, apart from each other and open in the
/// other fields.
pub fn crossing(random: &mut Random, strips: usize, fields: &[usize]) -> RuleSet {
    let mut rules = vec![];
    for strip in 0..strips as u32 {
        for field in fields {
            let low = 1 + 10 * strip + random.between(0, 4);
            let mut block = Block::WIDEST;
            block.0[*field] = Bounds::new(low, low + random.between(0, 4));
            rules.push(Rule {
                action: random_action(random),
                block,
            });
        }
    }
    RuleSet::new(rules)
}

/// One-number blocks at every second source, or side by side.
fn rules_side_by_side(random: &mut Random) -> RuleSet {
    let mut source = 0;
    let rules = (0..MOST_RULES)
        .map(|_| {
            source += random.between(1, 2);
            Rule {
                action: random_action(random),
                block: at_source(source, source),
            }
        })
        .collect();
    RuleSet::new(rules)
}

/// Directives of three sources each, with the first and the last excepted.
fn policy_side_by_side() -> PolicySet {
    let mut directives = vec![];
    let mut exceptions = vec![];
    for number in 1..=MOST_DIRECTIVES as u32 {
        let low = 3 * number;
        directives.push(if number % 2 == 0 {
            ask_accept(at_source(low, low + 2))
        } else {
            ask_deny(at_source(low, low + 2))
        });
        exceptions.push(except(number, at_source(low, low)));
        exceptions.push(except(number, at_source(low + 2, low + 2)));
    }
    PolicySet::new(directives, exceptions)
}

fn at_source(low: u32, high: u32) -> Block {
    let mut block = Block::WIDEST;
    block.0[0] = Bounds::new(low, high);
    block
}
