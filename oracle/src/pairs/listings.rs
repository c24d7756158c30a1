//! Pairs with long listings: near 512 blocks, where block lines end, and far above.

use super::{spelled, Pair};
use crate::cases::faults::full::{crossing, shuffle};
use crate::cases::labels::{random_action, random_exceptions};
use crate::model::{
    Block, Bounds, Directive, PolicySet, Rule, RuleSet, FIELDS, MOST_DIRECTIVES, MOST_RULES,
};
use crate::random::Random;

pub fn near_the_limit(random: &mut Random) -> Pair {
    let blocks = random.pick(&[510, 511, 511, 512, 512, 512, 513, 513, 514]);
    let sets = blocks_of(random, blocks);
    spelled::pair(random, &sets)
}

/// How many hosts, bands and guests there are.
type Counts = [usize; 3];

/// Sets whose listing has just so many blocks, of which some are asked for or none.
fn blocks_of(random: &mut Random, blocks: usize) -> (RuleSet, PolicySet) {
    let asked = random.one_in(2);
    let fitting: Vec<Counts> = counts(blocks)
        .into_iter()
        .filter(|[_, bands, _]| !asked || *bands <= MOST_DIRECTIVES)
        .collect();
    let counts = random.pick(&fitting);
    let (bands, mut decided) = placed(random, counts);
    let mut directives = vec![];
    if asked {
        directives.extend(bands.into_iter().map(|block| Directive {
            action: random_action(random),
            block,
        }));
    } else {
        decided.extend(bands);
    }
    let mut rules: Vec<Rule> = decided
        .into_iter()
        .map(|block| Rule {
            action: random_action(random),
            block,
        })
        .collect();
    shuffle(random, &mut rules);
    (RuleSet::new(rules), PolicySet::new(directives, vec![]))
}

/// The bands, then the hosts and guests. Bands are single numbers of one field, open in all
/// others. Hosts are single numbers of a field before it, all with the same number behind
/// the bands; the first host has some more behind that, its guests. All numbers lie apart
/// from each other and from the ends. So each host has the bands and one block, the first
/// also the guests, and each gap beside the hosts has the bands.
fn placed(random: &mut Random, [hosts, bands, guests]: Counts) -> (Vec<Block>, Vec<Block>) {
    let first = random.below(FIELDS - 1);
    let second = first + 1 + random.below(FIELDS - 1 - first);
    let host = apart(random, hosts);
    let across = apart(random, bands + 1 + guests);
    let (band, behind) = across.split_at(bands);
    let bands = band.iter().map(|number| at(&[(second, *number)]));
    let hosts = host
        .iter()
        .map(|number| at(&[(first, *number), (second, behind[0])]));
    let guests = behind[1..]
        .iter()
        .map(|number| at(&[(first, host[0]), (second, *number)]));
    (bands.collect(), hosts.chain(guests).collect())
}

/// All counts that give so many blocks and take at most 64 records.
fn counts(blocks: usize) -> Vec<Counts> {
    let mut fitting = vec![];
    for hosts in 1..MOST_RULES {
        for bands in 1..MOST_RULES {
            let without_guests = hosts * (bands + 1) + (hosts + 1) * bands;
            let guests = blocks.checked_sub(without_guests);
            let guests = guests.filter(|guests| hosts + bands + guests <= MOST_RULES);
            fitting.extend(guests.map(|guests| [hosts, bands, guests]));
        }
    }
    fitting
}

/// So many rising numbers with a gap before each. Even 65 stay below a protocol's 255.
fn apart(random: &mut Random, count: usize) -> Vec<u32> {
    let mut number = 0;
    let next = |_| {
        number += random.between(2, 3);
        number
    };
    (0..count).map(next).collect()
}

/// The block with one number in each of these fields, open in the others.
fn at(numbers: &[(usize, u32)]) -> Block {
    let mut block = Block::WIDEST;
    for (field, number) in numbers {
        block.0[*field] = Bounds::new(*number, *number);
    }
    block
}

/// Strips of three or four fields that cross, as rules or as directives.
pub fn far_above(random: &mut Random) -> Pair {
    let fields: &[usize] = random.pick(&[&[0, 1, 3][..], &[1, 2, 3], &[0, 1, 2], &[0, 1, 2, 3]]);
    let strips = if fields.len() == 4 { [3, 6] } else { [6, 10] };
    let strips = random.between(strips[0], strips[1]) as usize;
    let rules = crossing(random, strips, fields);
    let sets = match random.below(4) {
        0 => (rules, PolicySet::new(vec![], vec![])),
        1 => (RuleSet::new(vec![]), asking(random, &rules)),
        2 => {
            let policy = asking(random, &rules);
            (rules, policy)
        }
        _ => {
            let policy = all_but_some(random);
            (rules, policy)
        }
    };
    spelled::pair(random, &sets)
}

/// A directive for each rule, in another order and as far as there is room.
fn asking(random: &mut Random, rules: &RuleSet) -> PolicySet {
    let mut directives: Vec<Directive> = rules.records[..rules.count as usize]
        .iter()
        .map(|rule| Directive {
            action: random_action(random),
            block: rule.block,
        })
        .collect();
    shuffle(random, &mut directives);
    directives.truncate(MOST_DIRECTIVES);
    PolicySet::new(directives, vec![])
}

fn all_but_some(random: &mut Random) -> PolicySet {
    let directives = vec![Directive {
        action: random_action(random),
        block: Block::WIDEST,
    }];
    let exceptions = random_exceptions(random, &directives, 2);
    PolicySet::new(directives, exceptions)
}
