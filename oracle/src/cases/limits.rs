//! Both sides of every limit of refusal 14, for each call on sets.

use super::*;
use crate::model::{Bounds, FIELDS, LARGEST};

/// A block in the middle of every field, so that each bound has room on both sides.
const ROOM: Block = Block([
    Bounds::new(10, 20),
    Bounds::new(30, 40),
    Bounds::new(5, 8),
    Bounds::new(100, 200),
]);

/// A packet in the middle of the room.
const MIDDLE: Packet = Packet([15, 35, 6, 150]);

const FIELD_NAMES: [&str; FIELDS] = ["source", "destination", "protocol", "port"];

pub fn write(script: &mut Script) {
    empty_sets(script);
    counts_of_rules(script);
    counts_of_directives(script);
    counts_of_exceptions(script);
    bounds_of_records(script);
    packets(script);
    records_and_counts_of_rules(script);
    records_and_counts_of_directives(script);
    records_and_counts_of_exceptions(script);
    order_of_exceptions(script);
    directives_named(script);
    inside_the_directive(script);
    told_first(script);
}

fn empty_sets(script: &mut Script) {
    script.group("form: both sets empty");
    script.sets(&no_rules(), &no_policy());
    script.ask(Packet::LOWEST);
    script.ask(MIDDLE);
    script.ask(Packet(LARGEST));
}

/// Counts on both sides of a limit, and counts that a narrower number would take
/// for small ones.
fn around(limit: usize) -> [u32; 7] {
    let limit = limit as u32;
    [limit - 1, limit, limit + 1, 256, 65_536, 1 << 31, u32::MAX]
}

fn counts_of_rules(script: &mut Script) {
    script.group("form: counts of rules, the 64th record deciding");
    let mut rules = no_rules();
    rules.records[MOST_RULES - 1] = accept(ROOM);
    for count in around(MOST_RULES) {
        rules.count = count;
        script.sets(&rules, &no_policy());
        script.ask(MIDDLE);
    }
}

fn counts_of_directives(script: &mut Script) {
    script.group("form: counts of directives, the 32nd record asking");
    let mut policy = no_policy();
    policy.directives[MOST_DIRECTIVES - 1] = ask_accept(ROOM);
    for count in around(MOST_DIRECTIVES) {
        policy.directive_count = count;
        script.sets(&no_rules(), &policy);
        script.ask(MIDDLE);
    }
}

fn counts_of_exceptions(script: &mut Script) {
    script.group("form: counts of exceptions, the 64th record holding the packet");
    let mut policy = PolicySet::new(vec![ask_accept(ROOM)], full_of_exceptions());
    for count in around(MOST_EXCEPTIONS) {
        policy.exception_count = count;
        script.sets(&no_rules(), &policy);
        script.ask(MIDDLE);
    }
}

/// 64 exceptions of directive 1, only the last holding the packet asked about.
fn full_of_exceptions() -> Vec<Exception> {
    let corner = Block(ROOM.0.map(|bounds| Bounds::new(bounds.low, bounds.low)));
    let mut exceptions = vec![except(1, corner); MOST_EXCEPTIONS];
    exceptions[MOST_EXCEPTIONS - 1] = except(1, ROOM);
    exceptions
}

/// Bounds on both sides of being in form, in each field of a rule, of a directive
/// and of an exception of the widest directive.
fn bounds_of_records(script: &mut Script) {
    for (field, name) in FIELD_NAMES.into_iter().enumerate() {
        for (what, bounds) in tried_bounds(field) {
            let mut block = ROOM;
            block.0[field] = bounds;
            let mut packet = MIDDLE;
            packet.0[field] = bounds.low.min(LARGEST[field]);

            script.group(&format!("form: {name} with {what} in a rule"));
            script.sets(&RuleSet::new(vec![accept(block)]), &no_policy());
            script.ask(packet);

            script.group(&format!("form: {name} with {what} in a directive"));
            let policy = PolicySet::new(vec![ask_deny(block)], vec![]);
            script.sets(&no_rules(), &policy);
            script.ask(packet);

            script.group(&format!("form: {name} with {what} in an exception"));
            let directive = ask_deny(Block::WIDEST);
            let policy = PolicySet::new(vec![directive], vec![except(1, block)]);
            script.sets(&no_rules(), &policy);
            script.ask(packet);
        }
    }
}

fn tried_bounds(field: usize) -> Vec<(&'static str, Bounds)> {
    let largest = LARGEST[field];
    let mut tried = vec![
        ("the low at the high", Bounds::new(7, 7)),
        ("the low past the high by one", Bounds::new(8, 7)),
        ("both bounds 0", Bounds::new(0, 0)),
        ("low 1 and high 0", Bounds::new(1, 0)),
        ("the high at the largest", Bounds::new(0, largest)),
        ("both bounds at the largest", Bounds::new(largest, largest)),
        (
            "the low at the largest, the high below it",
            Bounds::new(largest, largest - 1),
        ),
    ];
    if largest < u32::MAX {
        tried.extend([
            (
                "the high past the largest by one",
                Bounds::new(0, largest + 1),
            ),
            (
                "both bounds past the largest by one",
                Bounds::new(largest + 1, largest + 1),
            ),
            (
                "only the low past the largest",
                Bounds::new(largest + 1, largest),
            ),
            ("the high at 2^32 - 1", Bounds::new(0, u32::MAX)),
        ]);
    }
    tried
}

fn packets(script: &mut Script) {
    script.group("form: numbers of a packet at and past the largest");
    let rules = RuleSet::new(vec![accept(Block::WIDEST)]);
    let policy = PolicySet::new(vec![ask_deny(ROOM)], vec![]);
    script.sets(&rules, &policy);
    for (field, largest) in LARGEST.into_iter().enumerate() {
        let mut numbers = vec![largest - 1, largest];
        if let Some(past) = largest.checked_add(1) {
            // Cut to the field's own width, this one would be in the room.
            let wrapped = past + MIDDLE.0[field];
            numbers.extend([past, wrapped, u32::MAX]);
        }
        for number in numbers {
            let mut packet = MIDDLE;
            packet.0[field] = number;
            script.ask(packet);
        }
    }
    script.ask(Packet([u32::MAX, u32::MAX, 255, 65_535]));
    script.ask(Packet([u32::MAX, u32::MAX, 256, 65_536]));
    script.ask(Packet([u32::MAX; FIELDS]));
}

/// Blocks that are out of form, from nearly in form to all numbers huge.
fn bad_blocks() -> Vec<Block> {
    let mut falling = ROOM;
    falling.0[0] = Bounds::new(20, 19);
    let mut past = ROOM;
    past.0[2].high = 256;
    let huge = Block([Bounds::new(u32::MAX, u32::MAX); FIELDS]);
    let huge_falling = Block([Bounds::new(u32::MAX, 0); FIELDS]);
    vec![falling, past, huge, huge_falling]
}

fn records_and_counts_of_rules(script: &mut Script) {
    script.group("form: a bad rule last within the count, and first past it");
    for count in [1, 3, MOST_RULES] {
        for bad in bad_blocks() {
            let mut rules = RuleSet::new(vec![accept(Block::ZERO); count.min(3)]);
            rules.records[count - 1] = deny(bad);
            for counted in [count, count - 1] {
                rules.count = counted as u32;
                script.sets(&rules, &no_policy());
                script.ask(Packet::LOWEST);
            }
        }
    }
    script.group("form: a rule past the count that would decide");
    let mut rules = RuleSet::new(vec![accept(ROOM), deny(Block::WIDEST)]);
    for count in [0, 1, 2] {
        rules.count = count;
        script.sets(&rules, &no_policy());
        script.ask(MIDDLE);
        script.ask(Packet::LOWEST);
    }
}

fn records_and_counts_of_directives(script: &mut Script) {
    script.group("form: a bad directive last within the count, and first past it");
    for count in [1, 3, MOST_DIRECTIVES] {
        for bad in bad_blocks() {
            let mut policy = PolicySet::new(vec![ask_accept(Block::ZERO); count.min(3)], vec![]);
            policy.directives[count - 1] = ask_deny(bad);
            for counted in [count, count - 1] {
                policy.directive_count = counted as u32;
                script.sets(&no_rules(), &policy);
                script.ask(Packet::LOWEST);
            }
        }
    }
    script.group("form: a directive past the count that would ask");
    let mut policy = PolicySet::new(vec![ask_accept(ROOM), ask_deny(Block::WIDEST)], vec![]);
    for count in [0, 1, 2] {
        policy.directive_count = count;
        script.sets(&no_rules(), &policy);
        script.ask(MIDDLE);
        script.ask(Packet::LOWEST);
    }
}

fn records_and_counts_of_exceptions(script: &mut Script) {
    script.group("form: a bad exception last within the count, and first past it");
    let mut bad_exceptions: Vec<Exception> = bad_blocks()
        .into_iter()
        .map(|block| except(2, block))
        .collect();
    bad_exceptions.extend([
        except(2, Block::ZERO),
        except(0, ROOM),
        except(1, ROOM),
        except(3, ROOM),
        except(u32::MAX, ROOM),
    ]);
    let directives = vec![ask_accept(ROOM), ask_deny(ROOM)];
    for bad in bad_exceptions {
        let exceptions = vec![except(2, ROOM), bad];
        let mut policy = PolicySet::new(directives.clone(), exceptions);
        for count in [2, 1] {
            policy.exception_count = count;
            script.sets(&no_rules(), &policy);
            script.ask(MIDDLE);
        }
    }
    script.group("form: the first and the 64th exception bad, within the count and past it");
    for count in [1, MOST_EXCEPTIONS] {
        let mut policy = PolicySet::new(vec![ask_accept(ROOM)], full_of_exceptions());
        policy.exceptions[count - 1] = except(1, Block::WIDEST);
        for counted in [count, count - 1] {
            policy.exception_count = counted as u32;
            script.sets(&no_rules(), &policy);
            script.ask(MIDDLE);
        }
    }
    script.group("form: an exception past the count that would hold the packet");
    let mut policy = PolicySet::new(vec![ask_accept(ROOM)], vec![except(1, ROOM)]);
    for count in [0, 1] {
        policy.exception_count = count;
        script.sets(&no_rules(), &policy);
        script.ask(MIDDLE);
    }
}

fn order_of_exceptions(script: &mut Script) {
    script.group("form: exceptions in rising, equal and falling order of directive");
    let orders: [&[u32]; 12] = [
        &[1, 2],
        &[1, 1],
        &[2, 1],
        &[1, 2, 3],
        &[1, 3],
        &[3],
        &[3, 3, 3],
        &[1, 1, 2, 3, 3],
        &[1, 2, 1],
        &[2, 2, 1],
        &[3, 2, 3],
        &[1, 1, 3, 2],
    ];
    for order in orders {
        let directives = vec![ask_accept(ROOM), ask_accept(ROOM), ask_accept(ROOM)];
        let exceptions = order.iter().map(|number| except(*number, ROOM)).collect();
        script.sets(&no_rules(), &PolicySet::new(directives, exceptions));
        script.ask(MIDDLE);
    }
}

fn directives_named(script: &mut Script) {
    script.group("form: an exception naming directive 0, one of the count, one past it");
    // Every record asks for accept on the room, also those past the count.
    let directives = vec![ask_accept(ROOM); MOST_DIRECTIVES];
    let mut policy = PolicySet::new(directives, vec![except(0, ROOM)]);
    for count in [0, 1, 2, MOST_DIRECTIVES as u32] {
        for named in [0, count, count + 1, 256 + count, u32::MAX] {
            policy.directive_count = count;
            policy.exceptions[0].directive = named;
            // The records beyond those named say nothing more and are left out.
            let mut short = policy.clone();
            if (count as usize) < MOST_DIRECTIVES {
                short.directives[count as usize + 1..].fill(Directive::ZERO);
            }
            script.sets(&no_rules(), &short);
            script.ask(MIDDLE);
        }
    }
}

fn inside_the_directive(script: &mut Script) {
    script.group("form: an exception equal to its directive");
    excepted(script, ROOM);
    for (field, name) in FIELD_NAMES.into_iter().enumerate() {
        script.group(&format!(
            "form: an exception one inside and one outside its directive in {name}"
        ));
        let Bounds { low, high } = ROOM.0[field];
        for bounds in [
            Bounds::new(low + 1, high),
            Bounds::new(low - 1, high),
            Bounds::new(low, high - 1),
            Bounds::new(low, high + 1),
        ] {
            let mut block = ROOM;
            block.0[field] = bounds;
            excepted(script, block);
        }
    }
    script.group("form: an exception that lies inside another directive than its own");
    let small = Block::only(MIDDLE);
    for number in [1, 2] {
        let directives = vec![ask_accept(small), ask_accept(ROOM)];
        let policy = PolicySet::new(directives, vec![except(number, ROOM)]);
        script.sets(&no_rules(), &policy);
        script.ask(MIDDLE);
    }
    script.group("form: exceptions that overlap and repeat");
    let exceptions = vec![except(1, ROOM), except(1, small), except(1, ROOM)];
    let policy = PolicySet::new(vec![ask_accept(ROOM)], exceptions);
    script.sets(&no_rules(), &policy);
    script.ask(MIDDLE);
}

/// A policy of the room with one exception.
fn excepted(script: &mut Script, block: Block) {
    let policy = PolicySet::new(vec![ask_accept(ROOM)], vec![except(1, block)]);
    script.sets(&no_rules(), &policy);
    script.ask(MIDDLE);
}

fn told_first(script: &mut Script) {
    script.group("form: rules, policy and packet in and out of form together");
    let falling = bad_blocks()[0];
    let past = Packet([15, 35, 256, 150]);
    for (good_rules, good_policy, good_packet) in [
        (false, false, false),
        (false, false, true),
        (false, true, false),
        (false, true, true),
        (true, false, false),
        (true, false, true),
        (true, true, false),
        (true, true, true),
    ] {
        let rules = RuleSet::new(vec![accept(if good_rules { ROOM } else { falling })]);
        let asked = ask_deny(if good_policy { ROOM } else { falling });
        let policy = PolicySet::new(vec![asked], vec![]);
        script.sets(&rules, &policy);
        script.ask(if good_packet { MIDDLE } else { past });
    }
}
