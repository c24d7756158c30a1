//! Verdicts and listings: named cases first, each with its answers by document 01,
//! then full sets, then drawn pairs of sets with a fixed seed.

pub mod drawn;
pub mod full;
pub mod gateways;
mod named;
mod paper;
#[cfg(test)]
mod tests;

use super::*;
use crate::faults::Faults;
use crate::model::Bounds;

pub type Sets = (RuleSet, PolicySet);

const SEED: u64 = 5_031;

pub fn write(script: &mut Script) {
    for case in [paper::cases(), named::cases()].concat() {
        case.write(script);
    }
    refused(script);
    let mut random = Random::new(SEED);
    let (full, drawn) = pairs(&mut random);
    for (name, sets) in full {
        write_pair(script, &mut random, name, &sets, 1_000);
    }
    for (name, sets) in drawn {
        write_pair(script, &mut random, name, &sets, 400);
    }
}

/// The sets of the named cases.
pub fn named_sets() -> Vec<Sets> {
    let cases = [paper::cases(), named::cases()].concat();
    cases.into_iter().map(|case| case.sets).collect()
}

/// Pairs of sets, each with the name of its shape.
type Pairs = Vec<(&'static str, Sets)>;

/// The full pairs and the drawn ones.
fn pairs(random: &mut Random) -> (Pairs, Pairs) {
    (full::pairs(random), drawn::pairs(random))
}

/// A pair of sets, the verdict and the listing that document 01 gives to it, and
/// why.
#[derive(Clone)]
struct Case {
    why: String,
    sets: Sets,
    /// Kind, rule, accept directive, deny directive, packet.
    verdict: [u32; 8],
    /// Kind, rule and bounds of each block.
    listing: Vec<[u32; 10]>,
}

impl Case {
    /// Panics if the oracle's own answers are others. The listing is asked for with
    /// a buffer of every length up to three blocks and with some around its own.
    fn write(&self, script: &mut Script) {
        self.assert();
        script.group(&format!("faults: {}", self.why));
        script.sets(&self.sets.0, &self.sets.1);
        let needed = 10 * self.listing.len();
        let mut lengths: Vec<usize> = (0..32).collect();
        lengths.extend([
            needed.saturating_sub(1),
            needed,
            needed + 9,
            needed + 10,
            300,
        ]);
        lengths.sort();
        lengths.dedup();
        script.faults(lengths);
    }

    fn assert(&self) {
        let faults = Faults::new(&self.sets.0, &self.sets.1).unwrap();
        let verdict = faults.verdict;
        let label = verdict.label;
        let mut told = vec![label.kind as u32, label.rule, verdict.accept, verdict.deny];
        told.extend(verdict.packet.0);
        assert_eq!(told, self.verdict, "{}", self.why);
        let listing = faults.listing.into_iter().map(|listed| listed.numbers());
        assert_eq!(listing.collect::<Vec<_>>(), self.listing, "{}", self.why);
    }
}

/// Sets that are not in form, with a buffer of every length up to three blocks;
/// more of them are among the limits of refusal 14.
fn refused(script: &mut Script) {
    let falling = Block([Bounds::new(1, 0); 4]);
    let bad_rules = RuleSet::new(vec![accept(Block::WIDEST), deny(falling)]);
    let bad_policy = PolicySet::new(vec![ask_deny(Block::WIDEST)], vec![except(2, Block::ZERO)]);
    for (what, rules, policy) in [
        ("the rules", &bad_rules, &no_policy()),
        ("the policy", &no_rules(), &bad_policy),
        ("both sets", &bad_rules, &bad_policy),
    ] {
        script.group(&format!("faults: {what} out of form"));
        script.sets(rules, policy);
        script.faults((0..32).chain([400, 1_000]));
    }
}

/// A pair with its verdict and its listing, the buffer's length drawn from none to
/// a little more than is needed, but not above the most.
fn write_pair(script: &mut Script, random: &mut Random, name: &str, sets: &Sets, most: usize) {
    script.group(&format!("faults: {name}"));
    script.sets(&sets.0, &sets.1);
    let total = Faults::new(&sets.0, &sets.1).unwrap().listing.len();
    script.faults([random.below(most.min(10 * total + 15) + 1)]);
}
