//! Whole runs in a lent buffer.

use super::super::paper::{POLICY, PRINTED, RULES};
use super::*;
use crate::faults;
use crate::pairs;
use crate::texts::reading;

const DRAWN: usize = 231;
const MOST_CELLS: usize = 20_000;
const MOST_BYTES: usize = 4_000;

pub fn cases() -> Vec<Case> {
    let rules = tabbed(RULES);
    let policy = tabbed(POLICY);
    let whole = |room| {
        report(
            "document 01: One whole run",
            3,
            room,
            [&rules, &policy],
            PRINTED,
        )
    };
    let mut cases: Vec<Case> = (0..=400).map(whole).collect();
    cases.extend([4_095, 4_096, 4_097, 1 << 32, u64::MAX].map(whole));
    cases.extend(others([&rules, &policy]));
    cases
}

/// What is printed where there is no verdict, or a short one.
fn others([rules, policy]: [&str; 2]) -> Vec<Case> {
    let conforms = "document 01: A conforming pair prints `verdict conforms` and `blocks 0`";
    let refused = "document 01: A refusal prints one line and nothing else";
    let unreadable = "01.35: both files are looked at before any refusal";
    let table: [(&str, u64, [&str; 2], &str); 9] = [
        (conforms, 3, ["", ""], "verdict conforms\nblocks 0\n"),
        (conforms, 3, ["#\n", "\n"], "verdict conforms\nblocks 0\n"),
        (refused, 3, ["#", "#"], "refused rules.txt 2 1 0\n"),
        (refused, 3, [rules, "\nask\n"], "refused policy.txt 4 2 0\n"),
        (refused, 3, [policy, rules], "refused rules.txt 3 1 1\n"),
        (unreadable, 0, [rules, policy], "unreadable rules.txt\n"),
        (unreadable, 1, [rules, policy], "unreadable policy.txt\n"),
        (unreadable, 2, [rules, policy], "unreadable rules.txt\n"),
        (unreadable, 1, ["#", policy], "unreadable policy.txt\n"),
    ];
    let mut cases = vec![];
    for (why, which, texts, printed) in table {
        for room in [0, 1, 20, 21, 24, 26, 100] {
            cases.push(report(why, which, room, texts, printed));
        }
    }
    cases
}

fn report(why: &str, which: u64, room: u64, [rules, policy]: [&str; 2], printed: &str) -> Case {
    let request = Request::Report {
        readable: [which % 2 == 1, which / 2 == 1],
        room,
        rules: rules.into(),
        policy: policy.into(),
    };
    let sizes = [4_160, room.min(4_096)];
    Case::new(why, request, lent("report", sizes, 0, printed.as_bytes()))
}

/// Pairs of files as they are drawn for the program, without the long ones. A file that
/// cannot be read has a text here all the same.
pub fn drawn(random: &mut Random) -> Vec<Request> {
    let pairs = (0..).map(|number| pairs::draw(SEED, number));
    let texts = pairs.map(|pair| pair.map(|entry| entry.content().unwrap_or(b"#".to_vec())));
    let small = texts.filter(|texts| texts.concat().len() <= MOST_BYTES && has_few_cells(texts));
    small
        .take(DRAWN)
        .map(|[rules, policy]| Request::Report {
            readable: random.pick(&READABLE),
            room: room(random),
            rules,
            policy,
        })
        .collect()
}

/// Mostly both.
const READABLE: [[bool; 2]; 10] = [
    [true, true],
    [true, true],
    [true, true],
    [true, true],
    [true, true],
    [true, true],
    [true, true],
    [false, true],
    [true, false],
    [false, false],
];

fn has_few_cells([rules, policy]: &[Vec<u8>; 2]) -> bool {
    match (reading::rules(rules), reading::policy(policy)) {
        (Ok(rules), Ok(policy)) => faults::cells(&rules, &policy) <= MOST_CELLS,
        _ => true,
    }
}

/// Often too little, often more than enough.
fn room(random: &mut Random) -> u64 {
    match random.below(8) {
        0 | 1 => random.between(0, 60).into(),
        2..=4 => random.between(60, 1_000).into(),
        5 => random.between(1_000, 4_100).into(),
        6 => 4_096,
        _ => u64::MAX - u64::from(random.between(0, 9)),
    }
}
