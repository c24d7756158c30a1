//! Both sides of 64 rules, 32 directives and 64 exceptions.

use super::*;

pub fn cases() -> Vec<Case> {
    [
        rules_full(),
        directives_full(),
        exceptions_full(),
        all_full(),
    ]
    .concat()
}

/// Rules that differ in their port, which is the rule's number.
fn numbered_rules(count: u32) -> String {
    let line = |port| format!("rule\tdeny\t*\t*\t*\t{port}\n");
    (1..=count).map(line).collect()
}

fn numbered_rules_told(count: u32) -> String {
    let told = |port| format!(" 0 0 4294967295 0 4294967295 0 255 {port} {port}");
    format!("0 0 0 {count}{}", (1..=count).map(told).collect::<String>())
}

fn rules_full() -> Vec<Case> {
    let why = "document 01: rules, at most 64; 01.8: the line that would be the 65th";
    let full = numbered_rules(64);
    let mut cases: Vec<Case> = [1, 2, 63, 64]
        .iter()
        .map(|count| rules(why, numbered_rules(*count), &numbered_rules_told(*count)))
        .collect();
    let noted = full.replace("rule\tdeny", "#\n\nrule\tdeny");
    cases.extend([
        rules_refused(why, numbered_rules(65), [13, 65, 0]),
        rules_refused(why, numbered_rules(66), [13, 65, 0]),
        rules_refused(why, numbered_rules(130), [13, 65, 0]),
        rules_refused(why, numbered_rules(320), [13, 65, 0]),
        // Skipped lines are no rules, but they are counted as lines.
        rules(why, format!("{full}\n# rule\n"), &numbered_rules_told(64)),
        rules(why, &noted, &numbered_rules_told(64)),
        rules_refused(why, format!("{noted}\n{RULE}"), [13, 194, 0]),
        rules_refused(why, format!("{full}\n#\n{RULE}x\n"), [13, 67, 0]),
        // A refused line before the 65th is told first.
        rules_refused(why, format!("x\n{}", numbered_rules(65)), [3, 1, 1]),
    ]);
    cases
}

fn numbered_asks(count: u32) -> String {
    let line = |port| format!("ask\taccept\t*\t*\t*\t{port}\n");
    (1..=count).map(line).collect()
}

fn numbered_asks_told(count: u32) -> String {
    let told = |port| format!(" 1 0 4294967295 0 4294967295 0 255 {port} {port}");
    (1..=count).map(told).collect()
}

fn directives_full() -> Vec<Case> {
    let why = "document 01: a policy has at most 32 directives";
    let read = |count| {
        let told = format!("0 0 0 {count} 0{}", numbered_asks_told(count));
        policy(why, numbered_asks(count), &told)
    };
    vec![
        read(1),
        read(2),
        read(31),
        read(32),
        policy_refused(why, numbered_asks(33), [13, 33, 0]),
        policy_refused(why, numbered_asks(64), [13, 33, 0]),
        policy_refused(why, numbered_asks(65), [13, 33, 0]),
        policy_refused(why, format!("\n{}#\n{ASK}", numbered_asks(32)), [13, 35, 0]),
        // Sixty-four exceptions do not take a directive's place.
        policy_refused(why, format!("{}{ASK}", spread(32, 2)), [13, 97, 0]),
    ]
}

/// Directives, each with so many exceptions equal to it.
fn spread(directives: u32, exceptions: u32) -> String {
    let lines = |port| {
        let but = format!("but\t*\t*\t*\t{port}\n").repeat(exceptions as usize);
        format!("ask\taccept\t*\t*\t*\t{port}\n{but}")
    };
    (1..=directives).map(lines).collect()
}

fn spread_told(directives: u32, exceptions: u32) -> String {
    let told = |port| {
        format!(" {port} 0 4294967295 0 4294967295 0 255 {port} {port}").repeat(exceptions as usize)
    };
    let exceptions_told: String = (1..=directives).map(told).collect();
    let count = directives * exceptions;
    let directives_told = numbered_asks_told(directives);
    format!("0 0 0 {directives} {count}{directives_told}{exceptions_told}")
}

fn exceptions_full() -> Vec<Case> {
    let why = "01.8: exceptions are counted over the whole policy";
    let mut cases: Vec<Case> = [(1, 63), (1, 64), (2, 32), (4, 16), (9, 7), (16, 4), (21, 3)]
        .iter()
        .map(|(asks, buts)| policy(why, spread(*asks, *buts), &spread_told(*asks, *buts)))
        .collect();
    cases.extend([
        policy_refused(why, spread(1, 65), [13, 66, 0]),
        policy_refused(why, spread(1, 100), [13, 66, 0]),
        // 64 exceptions under one directive, and one more under a second: the 65th of the whole policy.
        policy_refused(why, format!("{}{ASK}{BUT}", spread(1, 64)), [13, 67, 0]),
        policy_refused(why, spread(5, 13), [13, 70, 0]),
        policy_refused(why, spread(13, 5), [13, 78, 0]),
        policy_refused(why, spread(22, 3), [13, 87, 0]),
        policy_refused(why, format!("{}\n#\n{BUT}", spread(2, 32)), [13, 69, 0]),
    ]);
    cases
}

fn all_full() -> Vec<Case> {
    let why = "01.8: 32 directives and 64 exceptions together";
    vec![
        policy(why, spread(32, 2), &spread_told(32, 2)),
        policy_refused(why, format!("{}{BUT}", spread(32, 2)), [13, 97, 0]),
        policy_refused(why, spread(33, 2), [13, 97, 0]),
    ]
}
