//! The table against every packet of a small universe, by document 01's words.

use super::*;
use crate::cases::labels;
use crate::model::label;
use crate::random::Random;
use std::collections::BTreeMap;

/// For each field stretches of numbers that no block tells apart, rising and
/// without a gap. Most have one number.
type Universe = [Vec<Bounds>; FIELDS];

/// The numbers below the count, each alone, and all others together.
fn low_universe(count: [u32; FIELDS]) -> Universe {
    std::array::from_fn(|field| {
        let mut stretches = ones(0, count[field] - 1);
        stretches.push(Bounds::new(count[field], LARGEST[field]));
        stretches
    })
}

/// The same turned over to the largest numbers.
fn high_universe(count: [u32; FIELDS]) -> Universe {
    low_universe(count).map(|stretches| {
        let largest = stretches[stretches.len() - 1].high;
        let turned = |bounds: &Bounds| Bounds::new(largest - bounds.high, largest - bounds.low);
        stretches.iter().rev().map(turned).collect()
    })
}

/// The lowest three numbers and the largest three, each alone.
fn universe_of_ends() -> Universe {
    std::array::from_fn(|field| {
        let largest = LARGEST[field];
        let mut stretches = ones(0, 2);
        stretches.push(Bounds::new(3, largest - 3));
        stretches.extend(ones(largest - 2, largest));
        stretches
    })
}

fn ones(low: u32, high: u32) -> Vec<Bounds> {
    (low..=high)
        .map(|number| Bounds::new(number, number))
        .collect()
}

/// Sets whose bounds part no stretch.
fn sets_of(random: &mut Random, universe: &Universe) -> (RuleSet, PolicySet) {
    let (rules, directives) = (random.below(6), random.below(4));
    let (mut rules, mut policy) = labels::random_sets(random, labels::corner, rules, directives, 4);
    for rule in &mut rules.records[..rules.count as usize] {
        rule.block = block_of(random, universe);
    }
    for directive in &mut policy.directives[..policy.directive_count as usize] {
        directive.block = block_of(random, universe);
    }
    for exception in &mut policy.exceptions[..policy.exception_count as usize] {
        let outer = policy.directives[exception.directive as usize - 1].block;
        let drawn = block_of(random, universe);
        exception.block = Block(std::array::from_fn(|field| {
            let own = outer.0[field];
            own.shared(drawn.0[field]).unwrap_or(own)
        }));
    }
    (rules, policy)
}

fn block_of(random: &mut Random, universe: &Universe) -> Block {
    Block(universe.each_ref().map(|stretches| {
        let one = random.below(stretches.len());
        let other = random.below(stretches.len());
        Bounds::new(
            stretches[one.min(other)].low,
            stretches[one.max(other)].high,
        )
    }))
}

#[test]
fn verdict_and_listing_agree_with_every_packet() {
    let mut random = Random::new(11);
    let tiny = [4, 4, 3, 4];
    for (universe, pairs) in [
        (low_universe(tiny), 150),
        (high_universe(tiny), 150),
        (universe_of_ends(), 40),
    ] {
        for _ in 0..pairs {
            let sets = sets_of(&mut random, &universe);
            compare(&mut random, &universe, &sets);
        }
    }
    let universe = low_universe([17, 5, 4, 5]);
    for change in 0..6 * labels::CHANGES {
        let sets = labels::nearly_conforming(&mut random, change);
        compare(&mut random, &universe, &sets);
    }
}

/// Whether no block parts a stretch.
fn parts_none(universe: &Universe, blocks: &[Block]) -> bool {
    (0..FIELDS).all(|field| {
        blocks.iter().all(|block| {
            let Bounds { low, high } = block.0[field];
            universe[field].iter().any(|stretch| stretch.low == low)
                && universe[field].iter().any(|stretch| stretch.high == high)
        })
    })
}

fn compare(random: &mut Random, universe: &Universe, (rules, policy): &(RuleSet, PolicySet)) {
    assert!(parts_none(universe, &blocks(rules, policy)));
    let label_of = |packet| label(rules, policy, packet).unwrap();
    let labels = labels_of(universe, label_of);
    for _ in 0..50 {
        let places = universe
            .each_ref()
            .map(|stretches| random.below(stretches.len()));
        let stretches: Block = Block(std::array::from_fn(|field| universe[field][places[field]]));
        let packet = stretches
            .0
            .map(|bounds| random.between(bounds.low, bounds.high));
        assert_eq!(label_of(Packet(packet)), labels[&places]);
    }
    let faults = Faults::new(rules, policy).unwrap();
    assert_eq!(faults.verdict, verdict(universe, &labels, rules, policy));
    let mut listing = vec![];
    gather(universe, &labels, &[], &mut listing);
    assert_eq!(faults.listing, listing);
    for (places, label) in &labels {
        let packet = lowest(universe, *places);
        let holding: Vec<Label> = listing
            .iter()
            .filter(|listed| listed.block.holds(packet))
            .map(|listed| listed.label)
            .collect();
        let meant = if label.kind == Kind::Good {
            vec![]
        } else {
            vec![*label]
        };
        assert_eq!(holding, meant);
    }
}

/// A stretch for each field, by its place. Places have the order of packets.
type Places = [usize; FIELDS];

fn lowest(universe: &Universe, places: Places) -> Packet {
    Packet(std::array::from_fn(|field| {
        universe[field][places[field]].low
    }))
}

fn labels_of(universe: &Universe, label: impl Fn(Packet) -> Label) -> BTreeMap<Places, Label> {
    let mut all = vec![[0; FIELDS]];
    for field in 0..FIELDS {
        all = all
            .iter()
            .flat_map(|places| {
                (0..universe[field].len()).map(|place| {
                    let mut longer = *places;
                    longer[field] = place;
                    longer
                })
            })
            .collect();
    }
    all.into_iter()
        .map(|places| (places, label(lowest(universe, places))))
        .collect()
}

/// The least packet of each of the verdict's cases, by sets of packets.
fn verdict(
    universe: &Universe,
    labels: &BTreeMap<Places, Label>,
    rules: &RuleSet,
    policy: &PolicySet,
) -> Verdict {
    let least = |wanted: &dyn Fn(&Label) -> bool| {
        labels
            .iter()
            .filter(|(_, label)| wanted(label))
            .map(|(places, label)| (lowest(universe, *places), *label))
            .min_by_key(|(packet, _)| *packet)
    };
    let mut cases = vec![least(&|label| label.kind as u32 == 1)];
    for number in 1..=rules.count {
        cases.push(least(&|label| {
            label.rule == number && [2, 3].contains(&(label.kind as u32))
        }));
    }
    cases.push(least(&|label| [4, 5].contains(&(label.kind as u32))));
    let Some((packet, label)) = cases.into_iter().flatten().next() else {
        return CONFORMS;
    };
    Verdict {
        label,
        accept: policy.lowest_asking(Action::Accept, packet).unwrap_or(0),
        deny: policy.lowest_asking(Action::Deny, packet).unwrap_or(0),
        packet,
    }
}

/// The runs of the next field, where the fields before have these runs of places.
/// Two neighbours agree if the labels agree for all numbers of the fields behind,
/// whichever number of each run before is taken.
fn gather(
    universe: &Universe,
    labels: &BTreeMap<Places, Label>,
    runs: &[(usize, usize)],
    listing: &mut Vec<Listed>,
) {
    let field = runs.len();
    if field == FIELDS {
        let first = std::array::from_fn(|field| runs[field].0);
        let last = std::array::from_fn(|field| runs[field].1);
        assert_eq!(labels[&first], labels[&last]);
        if labels[&first].kind != Kind::Good {
            listing.push(Listed {
                label: labels[&first],
                block: Block(std::array::from_fn(|field| {
                    let (first, last) = runs[field];
                    Bounds::new(universe[field][first].low, universe[field][last].high)
                })),
            });
        }
        return;
    }
    let agree = |place: usize| {
        let inside = |places: &Places| {
            (0..field).all(|field| (runs[field].0..=runs[field].1).contains(&places[field]))
        };
        let own = labels
            .iter()
            .filter(|(places, _)| places[field] == place && inside(places));
        own.into_iter().all(|(places, label)| {
            let mut neighbour = *places;
            neighbour[field] += 1;
            labels[&neighbour] == *label
        })
    };
    let mut first = 0;
    for place in 0..universe[field].len() {
        if place + 1 == universe[field].len() || !agree(place) {
            let runs = [runs, &[(first, place)]].concat();
            gather(universe, labels, &runs, listing);
            first = place + 1;
        }
    }
}

#[test]
fn only_whole_blocks_that_fit_are_written() {
    let rules = RuleSet::new(vec![]);
    let directive = crate::model::Directive {
        action: Action::Accept,
        block: Block::ZERO,
    };
    let policy = PolicySet::new(vec![directive], vec![]);
    let faults = Faults::new(&rules, &policy).unwrap();
    for length in 0..25 {
        let mut buffer = vec![7; length];
        assert_eq!(faults.write(&mut buffer), 1);
        let mut meant = vec![7; length];
        if length >= 10 {
            meant[..10].copy_from_slice(&[4, 0, 0, 0, 0, 0, 0, 0, 0, 0]);
        }
        assert_eq!(buffer, meant);
    }
}
