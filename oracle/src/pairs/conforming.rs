//! Pairs that conform by the way they are made: the table is made from the policy, or
//! the policy from the table.

use super::{spelled, Pair};
use crate::cases::faults::drawn::{self, both_ends};
use crate::cases::faults::full::shuffle;
use crate::cases::labels::{
    corner, nested, network, random_action, random_block, random_exceptions, Shape,
};
use crate::faults::{Faults, Listed};
use crate::model::{
    Action, Block, Directive, Exception, Kind, PolicySet, Rule, RuleSet, MOST_DIRECTIVES,
    MOST_EXCEPTIONS, MOST_RULES,
};
use crate::random::Random;

/// Rules that follow the directives of a policy, or one rule for each block that the
/// policy asks for where there is no rule.
pub fn table_follows_policy(random: &mut Random) -> Pair {
    if random.one_in(2) {
        let sets = drawn::conforming(random);
        return spelled::pair(random, &sets);
    }
    loop {
        let policy = policy(random);
        let unmet = listing(&RuleSet::new(vec![]), &policy);
        let conflict = unmet
            .iter()
            .any(|listed| listed.label.kind == Kind::Conflict);
        if !conflict && unmet.len() <= MOST_RULES {
            let rules = rules_for(random, &unmet);
            return spelled::pair(random, &(rules, policy));
        }
    }
}

fn policy(random: &mut Random) -> PolicySet {
    let shape = shape(random);
    let directives: Vec<Directive> = (0..random.between(1, 3))
        .map(|_| Directive {
            action: random_action(random),
            block: random_block(random, shape),
        })
        .collect();
    let most = random.below(4);
    let exceptions = random_exceptions(random, &directives, most);
    PolicySet::new(directives, exceptions)
}

fn shape(random: &mut Random) -> Shape {
    random.pick(&[corner as Shape, both_ends, network])
}

/// A rule for each block in any order, for they lie apart; and behind them, where there
/// is room, rules that decide nothing.
fn rules_for(random: &mut Random, unmet: &[Listed]) -> RuleSet {
    let met = |listed: &Listed| Rule {
        action: match listed.label.kind {
            Kind::UnmetAccept => Action::Accept,
            _ => Action::Deny,
        },
        block: listed.block,
    };
    let mut rules: Vec<Rule> = unmet.iter().map(met).collect();
    shuffle(random, &mut rules);
    for _ in 0..random.below(3) {
        if !rules.is_empty() && rules.len() < MOST_RULES {
            let hidden = random.pick(&rules);
            rules.push(Rule {
                action: random_action(random),
                block: nested(random, hidden.block),
            });
        }
    }
    RuleSet::new(rules)
}

/// Drawn rules, with a closing one or without; the policy asks for what they do.
pub fn policy_follows_table(random: &mut Random) -> Pair {
    loop {
        let closed = !random.one_in(3);
        let rules = table(random, closed);
        let set = RuleSet::new(rules.clone());
        let decided = listing(&set, &PolicySet::new(vec![], vec![]));
        let policy = if closed {
            closed_policy(&rules, &decided)
        } else {
            open_policy(&rules, &decided)
        };
        if let Some(policy) = policy {
            return spelled::pair(random, &(set, policy));
        }
    }
}

/// All rules lie inside one block, which the last of them closes.
fn table(random: &mut Random, closed: bool) -> Vec<Rule> {
    let shape = shape(random);
    let drawn = random_block(random, shape);
    let around = random.pick(&[Block::WIDEST, drawn]);
    let mut rules: Vec<Rule> = (0..random.between(1, 5))
        .map(|_| Rule {
            action: random_action(random),
            block: nested(random, around),
        })
        .collect();
    if closed {
        rules.push(Rule {
            action: random_action(random),
            block: around,
        });
    }
    rules
}

/// What the closing rule does is asked for, with an exception for each block in which
/// a rule does the other.
fn closed_policy(rules: &[Rule], decided: &[Listed]) -> Option<PolicySet> {
    let closing = rules.last()?;
    let others = decided
        .iter()
        .filter(|listed| deciding(rules, listed).action != closing.action);
    let exceptions: Vec<Exception> = others
        .map(|listed| Exception {
            directive: 1,
            block: listed.block,
        })
        .collect();
    let directive = Directive {
        action: closing.action,
        block: closing.block,
    };
    (exceptions.len() <= MOST_EXCEPTIONS).then(|| PolicySet::new(vec![directive], exceptions))
}

/// A directive for each block that a rule decides.
fn open_policy(rules: &[Rule], decided: &[Listed]) -> Option<PolicySet> {
    let directives: Vec<Directive> = decided
        .iter()
        .map(|listed| Directive {
            action: deciding(rules, listed).action,
            block: listed.block,
        })
        .collect();
    (directives.len() <= MOST_DIRECTIVES).then(|| PolicySet::new(directives, vec![]))
}

fn deciding(rules: &[Rule], listed: &Listed) -> Rule {
    rules[listed.label.rule as usize - 1]
}

fn listing(rules: &RuleSet, policy: &PolicySet) -> Vec<Listed> {
    Faults::new(rules, policy).expect("in form").listing
}
