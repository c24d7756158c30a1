//! That the drawn pairs reach every verdict and listings of all lengths.

use super::*;
use crate::faults::{blocks, cells, MOST_CELLS_DRAWN};
use crate::model::{Kind, LARGEST};
use crate::requests::answers;
use std::collections::{BTreeMap, BTreeSet};

fn full() -> Pairs {
    pairs(&mut Random::new(SEED)).0
}

fn drawn() -> Pairs {
    pairs(&mut Random::new(SEED)).1
}

fn faults((rules, policy): &Sets) -> Faults {
    Faults::new(rules, policy).unwrap()
}

#[test]
fn the_named_cases_have_the_answers_of_the_paper() {
    for case in [paper::cases(), named::cases()].concat() {
        case.assert();
    }
}

#[test]
fn no_pair_has_more_cells_than_it_may() {
    for (name, (rules, policy)) in [full(), drawn()].concat() {
        assert!(cells(&rules, &policy) <= MOST_CELLS_DRAWN, "{name}");
    }
}

#[test]
fn the_whole_run_is_answered_as_the_paper_prints_it() {
    let mut script = Script::new();
    let (rules, policy) = twelve::first_sets();
    script.sets(&rules, &policy);
    script.faults([25, 40]);
    let bay = |last: u32| 169_082_880 + last;
    let yard = |last: u32| 169_738_240 + last;
    let line = |kind: u32, rule: u32, low: u32, high: u32, to: u32| {
        let (low, high, to) = (bay(low), bay(high), yard(to));
        format!("{kind} {rule} {low} {high} {to} {to} 6 6 8443 8443")
    };
    let blocks = [
        line(4, 0, 0, 8, 7),
        line(2, 2, 9, 9, 6),
        line(4, 0, 9, 9, 7),
        line(4, 0, 10, 255, 7),
    ];
    let untouched = |from: u32, past: u32| {
        let numbers: Vec<String> = (from..past)
            .map(|place| (4_294_967_295 - place).to_string())
            .collect();
        numbers.join(" ")
    };
    let expected = [
        format!("verdict 0 0 0 2 2 0 1 {} {} 6 8443", bay(9), yard(6)),
        format!(
            "listing 0 0 0 4 {} {} {}",
            blocks[0],
            blocks[1],
            untouched(20, 35)
        ),
        format!("listing 0 0 0 4 {} {}", blocks.join(" "), untouched(40, 50)),
    ];
    let answers = answers(&script.text);
    assert_eq!(answers.lines().collect::<Vec<_>>(), expected);
}

#[test]
fn both_empty_conform_and_both_out_of_form_are_refused() {
    let mut script = Script::new();
    script.faults([0]);
    let mut rules = no_rules();
    rules.count = 65;
    let mut policy = no_policy();
    policy.exception_count = 1;
    for (rules, policy) in [(&rules, &policy), (&no_rules(), &policy)] {
        script.sets(rules, policy);
        script.faults([1]);
    }
    let canaries: Vec<String> = (0..11)
        .map(|place| (4_294_967_295u32 - place).to_string())
        .collect();
    let expected = [
        "verdict 0 0 0 0 0 0 0 0 0 0 0".to_string(),
        format!("listing 0 0 0 0 {}", canaries[..10].join(" ")),
        "verdict 14 1 0 0 0 0 0 0 0 0 0".to_string(),
        format!("listing 14 1 0 0 {}", canaries.join(" ")),
        "verdict 14 2 0 0 0 0 0 0 0 0 0".to_string(),
        format!("listing 14 2 0 0 {}", canaries.join(" ")),
    ];
    let answers = answers(&script.text);
    assert_eq!(answers.lines().collect::<Vec<_>>(), expected);
}

#[test]
fn there_are_enough_different_pairs() {
    let drawn = drawn();
    println!("{} drawn pairs", drawn.len());
    assert!(drawn.len() >= 5_000);
    let written: BTreeSet<String> = drawn
        .iter()
        .map(|(_, (rules, policy))| {
            let mut script = Script::new();
            script.sets(rules, policy);
            script.text
        })
        .collect();
    println!("{} of them different", written.len());
    assert!(written.len() >= 5_000);
}

#[test]
fn every_verdict_and_every_length_is_common() {
    let mut kinds: BTreeMap<u32, usize> = BTreeMap::new();
    let mut totals: BTreeMap<usize, usize> = BTreeMap::new();
    let mut rules = BTreeSet::new();
    let mut directives = BTreeSet::new();
    for (_, sets) in drawn() {
        let Faults { verdict, listing } = faults(&sets);
        *kinds.entry(verdict.label.kind as u32).or_default() += 1;
        *totals.entry(listing.len()).or_default() += 1;
        rules.insert(verdict.label.rule);
        directives.extend([verdict.accept, verdict.deny]);
    }
    println!("verdicts by kind: {kinds:?}");
    println!("pairs by total: {totals:?}");
    for kind in 0..6 {
        assert!(kinds[&kind] >= 100, "kind {kind}");
    }
    for total in 0..=20 {
        assert!(totals[&total] >= 20, "total {total}");
    }
    let more_than = |least: usize| totals.range(least + 1..).map(|(_, count)| count).sum();
    for (least, count) in [(20, 500), (100, 100), (300, 20)] {
        let longer: usize = more_than(least);
        assert!(longer >= count, "more than {least}: {longer}");
    }
    assert!((0..=6).all(|number| rules.contains(&number)), "{rules:?}");
    assert!((0..=4).all(|number| directives.contains(&number)));
}

#[test]
fn every_kind_of_block_is_listed_often() {
    let mut kinds = [0; 6];
    for (_, sets) in drawn() {
        let listing = faults(&sets).listing;
        let listed: BTreeSet<u32> = listing
            .iter()
            .map(|listed| listed.label.kind as u32)
            .collect();
        for kind in listed {
            kinds[kind as usize] += 1;
        }
    }
    println!("pairs that list a kind: {kinds:?}");
    assert_eq!(kinds[Kind::Good as usize], 0);
    assert!(kinds[1..].iter().all(|count| *count >= 300));
}

#[test]
fn full_sets_are_full_and_have_long_listings() {
    let pairs = full();
    let most = |(rules, policy): &Sets| {
        (rules.count, policy.directive_count, policy.exception_count) == (64, 32, 64)
    };
    assert!(pairs.iter().filter(|(_, sets)| most(sets)).count() >= 50);
    let totals: Vec<usize> = pairs
        .iter()
        .map(|(_, sets)| faults(sets).listing.len())
        .collect();
    println!("totals of the full sets: {totals:?}");
    assert!(totals.iter().any(|total| *total > 10_000));
}

#[test]
fn buffers_are_too_short_and_just_right_and_too_long() {
    let mut lengths = BTreeSet::new();
    let mut met: BTreeMap<&str, usize> = BTreeMap::new();
    let (_, answers) = crate::cases::tests::all();
    let listings = answers
        .lines()
        .filter_map(|line| line.strip_prefix("listing 0 0 0 "));
    for listing in listings {
        let numbers: Vec<usize> = listing
            .split(' ')
            .map(|word| word.parse().unwrap())
            .collect();
        let (needed, length) = (10 * numbers[0], numbers.len() - 11);
        lengths.insert(length);
        let fit = match length {
            0 => "none",
            _ if length + 10 <= needed => "short by a block or more",
            _ if length < needed => "short by less than a block",
            _ if length == needed => "just right",
            _ => "too long",
        };
        *met.entry(fit).or_default() += 1;
    }
    println!("buffers: {met:?}, {} lengths", lengths.len());
    assert_eq!(met.len(), 5);
    assert!(met.values().all(|count| *count >= 100));
    assert!((0..=100).all(|length| lengths.contains(&length)));
    assert!(lengths.len() >= 300);
}

/// How many strips the blocks cut a field into.
fn strips((rules, policy): &Sets, field: usize) -> usize {
    let mut starts = BTreeSet::from([0]);
    for block in blocks(rules, policy) {
        let bounds = block.0[field];
        starts.insert(bounds.low);
        starts.extend((bounds.high < LARGEST[field]).then(|| bounds.high + 1));
    }
    starts.len()
}

#[test]
fn fields_are_cut_into_as_many_strips_as_can_be() {
    let pairs = full();
    let most = |field| pairs.iter().map(|(_, sets)| strips(sets, field)).max();
    let [source, destination, protocol, port] = [0, 1, 2, 3].map(most);
    assert_eq!([source, destination, port], [Some(321); 3]);
    assert_eq!(protocol, Some(256));
    let twice = pairs
        .iter()
        .filter(|(_, sets)| strips(sets, 0) == 321 && strips(sets, 1) == 321);
    assert!(twice.count() > 0);
}
