//! The lines of two texts that say what sets say, each field in one of the spellings
//! that fit.

use super::{Entry, Pair};
use crate::cases::faults::Sets;
use crate::cases::texts::drawn::blocks::spelled;
use crate::cases::texts::drawn::lines::{written, Line};
use crate::model::{Action, Block, PolicySet, RuleSet};
use crate::random::Random;

pub fn pair(random: &mut Random, (rules, policy): &Sets) -> Pair {
    let lines = [rule_lines(random, rules), policy_lines(random, policy)];
    lines.map(|lines| Entry::Text(written(&lines)))
}

pub fn rule_lines(random: &mut Random, rules: &RuleSet) -> Vec<Line> {
    let counted = rules.records.iter().take(rules.count as usize);
    counted
        .map(|rule| acting(random, "rule", rule.action, rule.block))
        .collect()
}

/// Each directive, followed by its exceptions.
pub fn policy_lines(random: &mut Random, policy: &PolicySet) -> Vec<Line> {
    let mut lines = vec![];
    let directives = policy.directives.iter();
    for (number, directive) in (1..).zip(directives.take(policy.directive_count as usize)) {
        lines.push(acting(random, "ask", directive.action, directive.block));
        let exceptions = policy.exceptions.iter();
        for exception in exceptions.take(policy.exception_count as usize) {
            if exception.directive == number {
                lines.push(line(random, &["but"], exception.block));
            }
        }
    }
    lines
}

fn acting(random: &mut Random, word: &str, action: Action, block: Block) -> Line {
    let action = match action {
        Action::Accept => "accept",
        Action::Deny => "deny",
    };
    line(random, &[word, action], block)
}

fn line(random: &mut Random, words: &[&str], block: Block) -> Line {
    let mut line: Line = words.iter().map(|word| word.as_bytes().to_vec()).collect();
    for (field, bounds) in block.0.into_iter().enumerate() {
        line.push(spelled(random, field, bounds));
    }
    line
}
