//! Texts on both sides of 32,768 bytes, and the highest line numbers.

use super::*;

const MOST: usize = 32_768;

pub fn cases() -> Vec<Case> {
    [one_long_line(), many_lines(), records(), far_longer()].concat()
}

/// A `#` line of so many bytes, its byte 10 among them.
fn note(bytes: usize) -> String {
    format!("#{}\n", "x".repeat(bytes - 2))
}

fn one_long_line() -> Vec<Case> {
    let why = "01.2: 32,768 bytes exactly is read";
    [
        both_empty(why, note(MOST - 1)),
        both_empty(why, note(MOST)),
        both_refused(why, note(MOST + 1), [1, 0, 0]),
        // 1 goes before 2.
        both_refused(why, "#".repeat(MOST + 1), [1, 0, 0]),
        both_refused(why, "#".repeat(MOST), [2, 1, 0]),
        both_refused(why, "\t".repeat(MOST), [2, 1, 0]),
    ]
    .concat()
}

fn many_lines() -> Vec<Case> {
    let why = "01.2 and 01.1, with as many lines as can be";
    let empty = |lines| "\n".repeat(lines);
    [
        both_empty(why, empty(MOST)),
        both_refused(why, empty(MOST + 1), [1, 0, 0]),
        both_refused(why, format!("{}x\n", empty(MOST - 2)), [3, 32_767, 1]),
        both_refused(why, format!("{}x", empty(MOST - 1)), [2, 32_768, 0]),
        both_refused(why, format!("{}x", empty(MOST)), [1, 0, 0]),
        both_refused(
            why,
            format!("{}x\n{}", empty(1_000), empty(31_766)),
            [3, 1_001, 1],
        ),
    ]
    .concat()
}

fn records() -> Vec<Case> {
    let why = "01.2: the whole text is read, to its end";
    let told = format!("0 0 0 1 1 {ANY}");
    let rule_at_the_end = |bytes: usize| format!("{}{RULE}", note(bytes - RULE.len()));
    let rule_at_the_start = |bytes: usize| format!("{RULE}{}", note(bytes - RULE.len()));
    let policy_around = |bytes: usize| {
        let records = ASK.len() + BUT.len();
        format!("{ASK}{}{BUT}", note(bytes - records))
    };
    let unended = rule_at_the_end(MOST + 1);
    vec![
        rules(why, rule_at_the_end(MOST), &told),
        rules(why, rule_at_the_start(MOST), &told),
        rules_refused(why, rule_at_the_end(MOST + 1), [1, 0, 0]),
        rules_refused(why, rule_at_the_start(MOST + 1), [1, 0, 0]),
        rules_refused(why, &unended[..MOST], [2, 2, 0]),
        policy(
            why,
            policy_around(MOST),
            &format!("0 0 0 1 1 0 {ANY} 1 {ANY}"),
        ),
        policy_refused(why, policy_around(MOST + 1), [1, 0, 0]),
        // A line that fills the text, refused in its last field.
        rules_refused(
            why,
            format!("{}{}\n", RULE.trim_end(), "9".repeat(MOST - RULE.len())),
            [9, 1, 6],
        ),
    ]
}

fn far_longer() -> Vec<Case> {
    let why = "01.2: a file of any greater length is 1, never cut off and read";
    [
        both_refused(why, "\n".repeat(MOST + 2), [1, 0, 0]),
        both_refused(why, "\n".repeat(40_000), [1, 0, 0]),
        both_refused(why, note(65_535), [1, 0, 0]),
        both_refused(why, note(65_536), [1, 0, 0]),
    ]
    .concat()
}
