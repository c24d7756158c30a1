//! The twelve labels of document 01, over the sets of its one whole run.

use super::{accept, ask_accept, ask_deny, deny, except, Script};
use crate::model::{Block, Bounds, Packet, PolicySet, RuleSet};

pub fn write(script: &mut Script) {
    let (rules, policy) = first_sets();
    script.group("the twelve labels: the first sets");
    script.sets(&rules, &policy);
    one_label(script, "L1 good", packet(0, 1, 4));
    one_label(script, "L2 wrong by 2", packet(0, 9, 6));
    one_label(script, "L3 good", packet(0, 8, 6));
    one_label(script, "L4 unmet-accept", packet(0, 9, 7));
    one_label(script, "L5 good", packet(0, 255, 5));
    one_label(script, "L6 good", packet(1, 0, 6));
    let [source, destination, _, _] = packet(0, 9, 6).0;
    let other_port = Packet([source, destination, 6, 8444]);
    one_label(script, "L7 good", other_port);
    let other_protocol = Packet([source, destination, 17, 8443]);
    one_label(script, "L8 good", other_protocol);

    script.group("the twelve labels: a second directive added");
    let (rules, policy) = with_second_directive();
    script.sets(&rules, &policy);
    one_label(script, "L9 conflict", packet(0, 1, 5));
    let far = Packet([quad(10, 21, 0, 0), quad(10, 30, 0, 5), 6, 8443]);
    one_label(script, "L10 unmet-deny", far);

    script.group("the twelve labels: a fourth rule added to the first sets");
    let (rules, policy) = with_fourth_rule();
    script.sets(&rules, &policy);
    one_label(script, "L11 unasked by 4", Packet::LOWEST);
    one_label(script, "L12 wrong by 4", packet(0, 3, 7));
}

/// The sets of the one whole run.
pub fn first_sets() -> (RuleSet, PolicySet) {
    let rules = RuleSet::new(vec![
        accept(block(bay(), prefix(30, 4, 2))),
        accept(block(one(20, 9), one(30, 6))),
        deny(block(bay(), one(30, 6))),
    ]);
    let asked = ask_accept(block(bay(), prefix(30, 4, 4)));
    let exception = except(1, block(bay(), one(30, 6)));
    (rules, PolicySet::new(vec![asked], vec![exception]))
}

/// The first sets with directive 2, `ask deny * 10.30.0.5 6 8443`.
pub fn with_second_directive() -> (RuleSet, PolicySet) {
    let (rules, mut policy) = first_sets();
    let any = Block::WIDEST.0[0];
    policy.directive_count = 2;
    policy.directives[1] = ask_deny(block(any, one(30, 5)));
    (rules, policy)
}

/// The first sets with rule 4, `deny * * * *`.
pub fn with_fourth_rule() -> (RuleSet, PolicySet) {
    let (mut rules, policy) = first_sets();
    rules.count = 4;
    rules.records[3] = deny(Block::WIDEST);
    (rules, policy)
}

fn one_label(script: &mut Script, name: &str, packet: Packet) {
    script.group(name);
    script.label(packet);
}

fn quad(first: u8, second: u8, third: u8, fourth: u8) -> u32 {
    u32::from_be_bytes([first, second, third, fourth])
}

/// From 10.20.x.y to 10.30.0.z by protocol 6 and port 8443.
fn packet(third: u8, fourth: u8, to: u8) -> Packet {
    let source = quad(10, 20, third, fourth);
    Packet([source, quad(10, 30, 0, to), 6, 8443])
}

fn block(source: Bounds, destination: Bounds) -> Block {
    Block([
        source,
        destination,
        Bounds::new(6, 6),
        Bounds::new(8443, 8443),
    ])
}

/// 10.20.0.0/24.
fn bay() -> Bounds {
    prefix(20, 0, 256)
}

/// The addresses from 10.x.0.y on, so many of them.
fn prefix(second: u8, fourth: u8, size: u32) -> Bounds {
    let low = quad(10, second, 0, fourth);
    Bounds::new(low, low + size - 1)
}

fn one(second: u8, fourth: u8) -> Bounds {
    prefix(second, fourth, 1)
}

#[cfg(test)]
mod tests {
    use super::*;
    use crate::model::Kind;
    use crate::requests::answers;

    #[test]
    fn the_twelve_labels_are_those_of_the_paper() {
        let paper = [
            (Kind::Good, 0),
            (Kind::Wrong, 2),
            (Kind::Good, 0),
            (Kind::UnmetAccept, 0),
            (Kind::Good, 0),
            (Kind::Good, 0),
            (Kind::Good, 0),
            (Kind::Good, 0),
            (Kind::Conflict, 0),
            (Kind::UnmetDeny, 0),
            (Kind::Unasked, 4),
            (Kind::Wrong, 4),
        ];
        let expected = paper.map(|(kind, rule)| format!("label 0 0 0 {} {rule}", kind as u32));
        let mut script = Script::new();
        write(&mut script);
        let answers = answers(&script.text);
        let labels = answers.lines().filter(|line| line.starts_with("label "));
        assert_eq!(labels.collect::<Vec<_>>(), expected);
    }

    #[test]
    fn addresses_are_those_of_the_quads() {
        assert_eq!(bay(), Bounds::new(169_082_880, 169_083_135));
    }
}
