//! The test requests: fixed cases first, then drawn ones with a fixed seed.

mod blocks;
pub mod faults;
pub mod labels;
mod limits;
pub mod texts;
mod twelve;

use crate::model::{
    Action, Block, Directive, Exception, Packet, PolicySet, Rule, RuleSet, MOST_DIRECTIVES,
    MOST_EXCEPTIONS, MOST_RULES,
};
use crate::random::Random;

const SEED: u64 = 20_090_705;

/// All test requests as one text.
pub fn requests() -> String {
    let mut script = Script::new();
    let mut random = Random::new(SEED);
    script.group("the widest block and the lowest packet");
    script.request('w', &[]);
    script.group("the empty sets, before any request changes them");
    script.ask(Packet::LOWEST);
    twelve::write(&mut script);
    limits::write(&mut script);
    labels::write(&mut script, &mut random);
    blocks::write(&mut script, &mut random);
    faults::write(&mut script);
    script.text
}

/// The text of requests as it is written.
pub struct Script {
    text: String,
}

impl Script {
    fn new() -> Script {
        Script {
            text: String::new(),
        }
    }

    /// Opens a group of requests with its name in words.
    fn group(&mut self, words: &str) {
        self.text.push_str("# ");
        self.text.push_str(words);
        self.text.push('\n');
    }

    fn request(&mut self, letter: char, parts: &[&[u32]]) {
        self.text.push(letter);
        for number in parts.concat() {
            self.text.push(' ');
            self.text.push_str(&number.to_string());
        }
        self.text.push('\n');
    }

    /// The rule set with all its records, also those past the count. Zero records
    /// need no line.
    fn rules(&mut self, rules: &RuleSet) {
        self.request('R', &[&[rules.count]]);
        for (number, rule) in (1..).zip(&rules.records) {
            if *rule != Rule::ZERO {
                let numbers = [number, rule.action as u32];
                self.request('r', &[&numbers, &rule.block.numbers()]);
            }
        }
    }

    fn policy(&mut self, policy: &PolicySet) {
        self.request('P', &[&[policy.directive_count, policy.exception_count]]);
        for (number, directive) in (1..).zip(&policy.directives) {
            if *directive != Directive::ZERO {
                let numbers = [number, directive.action as u32];
                self.request('d', &[&numbers, &directive.block.numbers()]);
            }
        }
        for (number, exception) in (1..).zip(&policy.exceptions) {
            if *exception != Exception::ZERO {
                let numbers = [number, exception.directive];
                self.request('e', &[&numbers, &exception.block.numbers()]);
            }
        }
    }

    fn sets(&mut self, rules: &RuleSet, policy: &PolicySet) {
        self.rules(rules);
        self.policy(policy);
    }

    fn label(&mut self, packet: Packet) {
        self.request('l', &[&packet.0]);
        self.request('a', &[&packet.0]);
    }

    /// The verdict, and the listing with a buffer of each of these lengths.
    fn faults(&mut self, lengths: impl IntoIterator<Item = usize>) {
        self.request('v', &[]);
        for length in lengths {
            self.request('g', &[&[length as u32]]);
        }
    }

    /// Every request about the sets, or about them and a packet.
    fn ask(&mut self, packet: Packet) {
        self.request('s', &[]);
        self.request('f', &[&packet.0]);
        self.label(packet);
        self.faults([25]);
    }
}

fn accept(block: Block) -> Rule {
    Rule {
        action: Action::Accept,
        block,
    }
}

fn deny(block: Block) -> Rule {
    Rule {
        action: Action::Deny,
        block,
    }
}

fn ask_accept(block: Block) -> Directive {
    Directive {
        action: Action::Accept,
        block,
    }
}

fn ask_deny(block: Block) -> Directive {
    Directive {
        action: Action::Deny,
        block,
    }
}

fn except(directive: u32, block: Block) -> Exception {
    Exception { directive, block }
}

fn no_rules() -> RuleSet {
    RuleSet::new(vec![])
}

fn no_policy() -> PolicySet {
    PolicySet::new(vec![], vec![])
}

#[cfg(test)]
mod tests {
    use super::*;
    use crate::requests::answers;
    use std::sync::OnceLock;

    /// All requests and their answers, worked out once for all tests.
    pub fn all() -> &'static (String, String) {
        static ALL: OnceLock<(String, String)> = OnceLock::new();
        ALL.get_or_init(|| {
            let requests = requests();
            let answers = answers(&requests);
            (requests, answers)
        })
    }

    /// The harness reads lines of at most 1,024 bytes, a million of them, and has
    /// 16,384 bytes for an answer.
    #[test]
    fn requests_and_answers_are_short_enough() {
        let (requests, answers) = all();
        assert!(requests.len() < 12_000_000 && answers.len() < 12_000_000);
        assert!(requests.is_ascii());
        assert!(requests.lines().count() < 1_000_000);
        assert!(requests.lines().all(|line| line.len() < 1_024));
        assert!(answers.lines().all(|line| line.len() < 16_384));
    }

    #[test]
    fn every_kind_is_common_among_the_drawn_labels() {
        let mut script = Script::new();
        labels::write(&mut script, &mut Random::new(SEED));
        let answers = answers(&script.text);
        let labels: Vec<&str> = answers
            .lines()
            .filter(|line| line.starts_with("label "))
            .collect();
        assert!(labels.len() >= 400);
        for kind in 0..6 {
            let start = format!("label 0 0 0 {kind} ");
            let count = labels
                .iter()
                .filter(|line| line.starts_with(&start))
                .count();
            assert!(count >= 15, "kind {kind} only {count} times");
        }
    }

    #[test]
    fn every_refusal_is_met() {
        let (_, answers) = all();
        for part in 1..=3 {
            let refused = format!("label 14 {part} 0 0 0");
            assert!(answers.lines().filter(|line| *line == refused).count() >= 5);
        }
        for part in 1..=2 {
            for start in [
                format!("verdict 14 {part} 0 0 0 0 0 0 0 0 0"),
                format!("listing 14 {part} 0 0 4294967295 4294967294 "),
            ] {
                let met = answers.lines().filter(|line| line.starts_with(&start));
                assert!(met.count() >= 30, "{start}");
            }
        }
        let labels = answers.lines().filter(|line| line.starts_with("label "));
        for label in labels {
            assert!(label.starts_with("label 0 0 0 ") || label.starts_with("label 14 "));
        }
    }

    #[test]
    fn both_answers_about_blocks_are_common() {
        let (_, answers) = all();
        for word in ["holds", "inside", "narrow", "block"] {
            for yes_or_no in 0..2 {
                let start = format!("{word} {yes_or_no}");
                let count = answers
                    .lines()
                    .filter(|line| line.starts_with(&start))
                    .count();
                assert!(count >= 15, "{start} only {count} times");
            }
        }
    }
}
