//! Exceptions: the directive they belong to, and what lies inside it.

use super::*;

/// A directive with room on both sides of every bound.
const ROOM: &str = "ask\taccept\t0.0.0.10-0.0.0.20\t0.0.0.30-0.0.0.40\t5-8\t100-200\n";
const ROOM_TOLD: &str = "1 10 20 30 40 5 8 100 200";

pub fn cases() -> Vec<Case> {
    [
        bound_by_bound(),
        inside(),
        outside(),
        repeated(),
        nearest(),
        skipped_between(),
        numbered_fields(),
    ]
    .concat()
}

/// The room's spelling with one bound given anew.
fn moved(place: usize, number: u32) -> String {
    let mut bounds = [10, 20, 30, 40, 5, 8, 100, 200];
    bounds[place] = number;
    let [a, b, c, d, e, f, g, h] = bounds;
    format!("but\t0.0.0.{a}-0.0.0.{b}\t0.0.0.{c}-0.0.0.{d}\t{e}-{f}\t{g}-{h}\n")
}

fn bound_by_bound() -> Vec<Case> {
    let why = "01.17: bound by bound in every field; equal is inside";
    let mut cases = vec![];
    for (place, inward, outward) in [
        (0, 11, 9),
        (1, 19, 21),
        (2, 31, 29),
        (3, 39, 41),
        (4, 6, 4),
        (5, 7, 9),
        (6, 101, 99),
        (7, 199, 201),
    ] {
        let mut told = [10, 20, 30, 40, 5, 8, 100, 200];
        told[place] = inward;
        let told = told.map(|bound| bound.to_string()).join(" ");
        cases.push(policy(
            why,
            format!("{ROOM}{}", moved(place, inward)),
            &format!("0 0 0 1 1 {ROOM_TOLD} 1 {told}"),
        ));
        let text = format!("{ROOM}{}", moved(place, outward));
        cases.push(policy_refused(why, text, [12, 2, 0]));
    }
    cases
}

fn inside() -> Vec<Case> {
    let why = "01.17: equal is inside, and so are both corners";
    let blocks = [
        (
            "0.0.0.10-0.0.0.20\t0.0.0.30-0.0.0.40\t5-8\t100-200",
            "10 20 30 40 5 8 100 200",
        ),
        ("0.0.0.10\t0.0.0.30\t5\t100", "10 10 30 30 5 5 100 100"),
        ("0.0.0.20\t0.0.0.40\t8\t200", "20 20 40 40 8 8 200 200"),
        (
            "0.0.0.16/30\t0.0.0.32/255.255.255.248\ttcp\t150",
            "16 19 32 39 6 6 150 150",
        ),
    ];
    let mut cases = blocks
        .map(|(block, told)| {
            let told = format!("0 0 0 1 1 {ROOM_TOLD} 1 {told}");
            policy(why, format!("{ROOM}but\t{block}\n"), &told)
        })
        .to_vec();
    let all = "but\t0.0.0.0/0\t0.0.0.0-255.255.255.255\t0-255\t0-65535\n";
    let told = format!("0 0 0 1 1 0 {ANY} 1 {ANY}");
    cases.push(policy(why, format!("{ASK}{BUT}"), &told));
    cases.push(policy(why, format!("{ASK}{all}"), &told));
    cases
}

fn outside() -> Vec<Case> {
    let why = "document 01: exception not inside its directive";
    let blocks = [
        "*\t*\t*\t*",
        "0.0.0.9\t0.0.0.30\t5\t100",
        "0.0.0.21\t0.0.0.30\t5\t100",
        "0.0.0.10\t0.0.0.29\t5\t100",
        "0.0.0.10\t0.0.0.41\t5\t100",
        "0.0.0.10\t0.0.0.30\t4\t100",
        "0.0.0.10\t0.0.0.30\t9\t100",
        "0.0.0.10\t0.0.0.30\t5\t99",
        "0.0.0.10\t0.0.0.30\t5\t201",
        "0.0.0.10\t0.0.0.30\t5\t*",
        "0.0.0.10\t0.0.0.30\t*\t100",
        "0.0.0.10\t*\t5\t100",
        "*\t0.0.0.30\t5\t100",
        "0.0.0.20-0.0.0.21\t0.0.0.30\t5\t100",
        "0.0.0.9-0.0.0.21\t0.0.0.29-0.0.0.41\t4-9\t99-201",
        "255.255.255.255\t0.0.0.30\t5\t100",
    ];
    let cases = blocks.map(|block| {
        let text = format!("{ROOM}but\t{block}\n");
        policy_refused(why, text, [12, 2, 0])
    });
    cases.to_vec()
}

fn repeated() -> Vec<Case> {
    let why = "01.17: exceptions may overlap and repeat";
    let one = "but\t*\t*\t6\t80-90\n";
    let other = "but\t*\t*\t6-7\t85-95\n";
    let one_told = "1 0 4294967295 0 4294967295 6 6 80 90";
    let other_told = "1 0 4294967295 0 4294967295 6 7 85 95";
    vec![
        policy(
            why,
            format!("{ASK}{one}{one}{one}"),
            &format!("0 0 0 1 3 0 {ANY} {one_told} {one_told} {one_told}"),
        ),
        policy(
            why,
            format!("{ASK}{one}{other}{one}"),
            &format!("0 0 0 1 3 0 {ANY} {one_told} {other_told} {one_told}"),
        ),
        // The whole directive, and then a part of it again.
        policy(
            why,
            format!("{ASK}{BUT}{one}"),
            &format!("0 0 0 1 2 0 {ANY} 1 {ANY} {one_told}"),
        ),
    ]
}

fn nearest() -> Vec<Case> {
    let why = "01.17: against the nearest `ask` above and no other";
    let low = "ask\tdeny\t*\t*\t*\t0-99\n";
    let high = "ask\taccept\t*\t*\t*\t100-199\n";
    let in_low = "but\t*\t*\t*\t50\n";
    let in_high = "but\t*\t*\t*\t150\n";
    let any = "0 4294967295 0 4294967295 0 255";
    let (low_told, high_told) = (format!("0 {any} 0 99"), format!("1 {any} 100 199"));
    vec![
        policy(
            why,
            format!("{low}{in_low}{high}{in_high}"),
            &format!("0 0 0 2 2 {low_told} {high_told} 1 {any} 50 50 2 {any} 150 150"),
        ),
        policy(
            why,
            format!("{low}{high}{in_high}{in_high}"),
            &format!("0 0 0 2 2 {low_told} {high_told} 2 {any} 150 150 2 {any} 150 150"),
        ),
        policy_refused(why, format!("{low}{high}{in_low}"), [12, 3, 0]),
        policy_refused(why, format!("{low}{in_high}{high}"), [12, 2, 0]),
        policy_refused(why, format!("{ASK}{low}{in_high}"), [12, 3, 0]),
        policy_refused(why, format!("{low}{in_low}{high}{in_low}"), [12, 4, 0]),
        policy(
            why,
            format!("{low}{ASK}{in_high}"),
            &format!("0 0 0 2 1 {low_told} 0 {ANY} 2 {any} 150 150"),
        ),
        // Two directives that are the same are still two.
        policy(
            why,
            format!("{ASK}{ASK}{BUT}{ASK}{BUT}"),
            &format!("0 0 0 3 2 0 {ANY} 0 {ANY} 0 {ANY} 2 {ANY} 3 {ANY}"),
        ),
    ]
}

fn skipped_between() -> Vec<Case> {
    let why = "01.18: skipped lines between do not matter";
    let told = format!("0 0 0 1 1 0 {ANY} 1 {ANY}");
    vec![
        policy(why, format!("{ASK}\n{BUT}"), &told),
        policy(why, format!("{ASK}#\n{BUT}"), &told),
        policy(why, format!("\n{ASK}\n#ask\n# but\n\n{BUT}#\n"), &told),
        policy_refused(why, format!("#ask\tdeny\t*\t*\t*\t*\n{BUT}"), [11, 2, 0]),
        policy_refused(why, format!("{ROOM}#{ASK}\n{BUT}"), [12, 4, 0]),
    ]
}

fn numbered_fields() -> Vec<Case> {
    let why = "01.9: the fields of `but` are source 2, destination 3, protocol 4, port 5";
    vec![
        policy_refused(why, format!("{ASK}but\tx\t*\t*\t*\n"), [6, 2, 2]),
        policy_refused(why, format!("{ASK}but\t*\tx\t*\t*\n"), [6, 2, 3]),
        policy_refused(why, format!("{ASK}but\t*\t*\tx\t*\n"), [8, 2, 4]),
        policy_refused(why, format!("{ASK}but\t*\t*\t*\tx\n"), [9, 2, 5]),
        policy_refused(why, format!("{ASK}but\t1.0.0.0/0\t*\t*\t*\n"), [7, 2, 2]),
        policy_refused(why, format!("{ASK}but\t*\t1.0.0.0/0\t*\t*\n"), [7, 2, 3]),
        policy_refused(why, format!("{ASK}but\t*\t*\t6-5\t*\n"), [10, 2, 4]),
        policy_refused(why, format!("{ASK}but\t*\t*\t*\t6-5\n"), [10, 2, 5]),
        policy_refused(why, format!("{ASK}but\tdeny\t*\t*\t*\n"), [6, 2, 2]),
    ]
}
