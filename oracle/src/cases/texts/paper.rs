//! The texts that document 01 itself shows: "On each side", "One whole run" and
//! the sets of the twelve labels.

use super::*;

pub const RULES: &str = "\
    rule accept 10.20.0.0/24 10.30.0.4/31 6 8443\n\
    rule accept 10.20.0.9 10.30.0.6 6 8443\n\
    rule deny 10.20.0.0/24 10.30.0.6 6 8443\n";

pub const POLICY: &str = "\
    ask accept 10.20.0.0/24 10.30.0.4/30 6 8443\n\
    but 10.20.0.0/24 10.30.0.6 6 8443\n";

pub const PRINTED: &str = "\
    verdict wrong 2 0 1 10.20.0.9 10.30.0.6 6 8443\n\
    blocks 4\n\
    block 4 0 10.20.0.0 10.20.0.8 10.30.0.7 10.30.0.7 6 6 8443 8443\n\
    block 2 2 10.20.0.9 10.20.0.9 10.30.0.6 10.30.0.6 6 6 8443 8443\n\
    block 4 0 10.20.0.9 10.20.0.9 10.30.0.7 10.30.0.7 6 6 8443 8443\n\
    block 4 0 10.20.0.10 10.20.0.255 10.30.0.7 10.30.0.7 6 6 8443 8443\n";

/// 10.20.0.0 is 169082880 and 10.30.0.0 is 169738240.
const RULES_TOLD: &str = "\
    1 169082880 169083135 169738244 169738245 6 6 8443 8443 \
    1 169082889 169082889 169738246 169738246 6 6 8443 8443 \
    0 169082880 169083135 169738246 169738246 6 6 8443 8443";
const ASK_TOLD: &str = "1 169082880 169083135 169738244 169738247 6 6 8443 8443";
const BUT_TOLD: &str = "1 169082880 169083135 169738246 169738246 6 6 8443 8443";

pub fn cases() -> Vec<Case> {
    [
        addresses_on_each_side(),
        numbers_on_each_side(),
        texts_on_each_side(),
        whole_run(),
        twelve_labels(),
        timed(),
    ]
    .concat()
}

const ON_EACH_SIDE: &str = "document 01: On each side";

fn addresses_on_each_side() -> Vec<Case> {
    spelled_addresses(
        ON_EACH_SIDE,
        &[
            ("10.20.0.0/24", Ok((169_082_880, 169_083_135))),
            ("10.20.0.1/24", Err(7)),
            ("10.20.0.1/32", Ok((169_082_881, 169_082_881))),
            ("10.20.0.1/33", Err(6)),
            ("0.0.0.0/0.0.0.0", Ok((0, 4_294_967_295))),
            ("*", Ok((0, 4_294_967_295))),
            ("10.0.0.0/255.0.255.0", Err(7)),
            ("255.0.0.0", Ok((4_278_190_080, 4_278_190_080))),
            ("256.0.0.0", Err(6)),
            ("010.0.0.0", Err(6)),
        ],
    )
}

fn numbers_on_each_side() -> Vec<Case> {
    let ports = [
        ("65535", Ok((65_535, 65_535))),
        ("65536", Err(9)),
        ("5-5", Ok((5, 5))),
        ("6-5", Err(10)),
    ];
    let protocols = [
        ("255", Ok((255, 255))),
        ("256", Err(8)),
        ("5-5", Ok((5, 5))),
        ("6-5", Err(10)),
    ];
    [
        spelled_in(ON_EACH_SIDE, PORT, &ports),
        spelled_in(ON_EACH_SIDE, PROTOCOL, &protocols),
    ]
    .concat()
}

fn texts_on_each_side() -> Vec<Case> {
    [
        both_empty("an empty text is an empty set", ""),
        both_refused("`#` without an end is 2", "#", [2, 1, 0]),
    ]
    .concat()
}

fn whole_run() -> Vec<Case> {
    let why = "document 01: One whole run";
    vec![
        rules(why, tabbed(RULES), &format!("0 0 0 3 {RULES_TOLD}")),
        policy(
            why,
            tabbed(POLICY),
            &format!("0 0 0 1 1 {ASK_TOLD} {BUT_TOLD}"),
        ),
        // Its tabs are shown as spaces, but they are tabs: with spaces there is one field.
        rules_refused(why, RULES, [3, 1, 1]),
        policy_refused(why, POLICY, [3, 1, 1]),
        // The two files exchanged.
        rules_refused(why, tabbed(POLICY), [3, 1, 1]),
        policy_refused(why, tabbed(RULES), [3, 1, 1]),
    ]
}

fn twelve_labels() -> Vec<Case> {
    let why = "document 01: Twelve labels, the sets added to";
    let directive = format!("{POLICY}ask deny * 10.30.0.5 6 8443\n");
    let second_told = "0 0 4294967295 169738245 169738245 6 6 8443 8443";
    let rule = format!("{RULES}rule deny * * * *\n");
    vec![
        policy(
            why,
            tabbed(&directive),
            &format!("0 0 0 2 1 {ASK_TOLD} {second_told} {BUT_TOLD}"),
        ),
        rules(why, tabbed(&rule), &format!("0 0 0 4 {RULES_TOLD} 0 {ANY}")),
    ]
}

/// Reading a text again is the same reading.
fn timed() -> Vec<Case> {
    let timed = |times, text: &str, answer: String| {
        let rules = text.as_bytes().to_vec();
        Case::new("a timed reading", Request::Timed { times, rules }, answer)
    };
    let read = format!("rules 0 0 0 3 {RULES_TOLD} past 0\n");
    vec![
        timed(1, &tabbed(RULES), read.clone()),
        timed(3, &tabbed(RULES), read),
        timed(2, RULES, "rules 3 1 1 0 past 0\n".to_string()),
        timed(2, "", "rules 0 0 0 0 past 0\n".to_string()),
    ]
}
