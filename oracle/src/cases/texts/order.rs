//! Which refusal is told where there are several: over the whole text, by lines,
//! and in a line.

use super::*;

/// The limits: one record more is the 65th rule, the 33rd directive or the 65th exception.
const FULL_RULES: usize = 64;
const FULL_DIRECTIVES: usize = 32;
const FULL_EXCEPTIONS: usize = 64;

pub fn cases() -> Vec<Case> {
    [
        whole_text(),
        first_line(),
        full_rules(),
        full_directives(),
        full_exceptions(),
        but_first(),
        from_the_left(),
        outside_last(),
        nothing_kept(),
    ]
    .concat()
}

fn whole_text() -> Vec<Case> {
    let why = "document 01: 1, 2 over the whole text, then the first line with a refusal";
    let long = "x\n".repeat(16_385);
    let mut cases = both_refused(why, &long, [1, 0, 0]);
    cases.extend(both_refused(why, format!("{long}x"), [1, 0, 0]));
    cases.extend(both_refused(why, "x\ny\nz", [2, 3, 0]));
    cases.push(policy_refused(why, format!("{BUT}{ASK}#"), [2, 3, 0]));
    cases.push(rules_refused(
        why,
        format!("{}#", RULE.repeat(65)),
        [2, 66, 0],
    ));
    cases
}

fn first_line() -> Vec<Case> {
    let why = "document 01: the first line with a refusal";
    let bad_port = "rule\taccept\t*\t*\t*\tx\n";
    let bad_action = "rule\tx\t*\t*\t*\t*\n";
    let outside = "ask\tdeny\t*\t*\t6\t*\nbut\t*\t*\t7\t*\n";
    vec![
        rules_refused(why, format!("{bad_port}{bad_action}"), [9, 1, 6]),
        rules_refused(why, format!("{bad_action}{bad_port}"), [5, 1, 2]),
        rules_refused(why, format!("{bad_port}x\n"), [9, 1, 6]),
        rules_refused(why, format!("{RULE}{bad_port}rule\n"), [9, 2, 6]),
        policy_refused(why, format!("{outside}x\n"), [12, 2, 0]),
        policy_refused(why, format!("{BUT}x\n"), [11, 1, 0]),
        policy_refused(why, format!("{outside}{outside}ask\n"), [12, 2, 0]),
    ]
}

fn full_rules() -> Vec<Case> {
    let why = "01.7: a 65th rule with a wrong count is 4, with a bad action 13";
    let full = RULE.repeat(FULL_RULES);
    let lines = [
        ("rule\n", [4, 65, 0]),
        ("rule\taccept\t*\t*\t*\t*\t\n", [4, 65, 0]),
        ("rule\tx\t*\t*\t*\t*\n", [13, 65, 0]),
        ("rule\taccept\tx\t*\t*\t*\n", [13, 65, 0]),
        ("rule\taccept\t*\t*\t*\t6-5\n", [13, 65, 0]),
        ("rule\t\t\t\t\t\n", [13, 65, 0]),
        ("rules\taccept\t*\t*\t*\t*\n", [3, 65, 1]),
        ("ask\taccept\t*\t*\t*\t*\n", [3, 65, 1]),
    ];
    let cases = lines.map(|(line, refused)| rules_refused(why, format!("{full}{line}"), refused));
    cases.to_vec()
}

fn full_directives() -> Vec<Case> {
    let why = "01.7: the same for a 33rd directive";
    let full = ASK.repeat(FULL_DIRECTIVES);
    let lines = [
        ("ask\n", [4, 33, 0]),
        ("ask\tx\t*\t*\t*\t*\n", [13, 33, 0]),
        ("ask\tdeny\t*\tx\t*\t*\n", [13, 33, 0]),
        ("rule\tdeny\t*\t*\t*\t*\n", [3, 33, 1]),
        ("but\t*\t*\t*\tx\n", [9, 33, 5]),
    ];
    let cases = lines.map(|(line, refused)| policy_refused(why, format!("{full}{line}"), refused));
    cases.to_vec()
}

fn full_exceptions() -> Vec<Case> {
    let why = "01.7: a 65th exception that is also outside is 13";
    let full = format!(
        "ask\tdeny\t*\t*\t6\t*\n{}",
        "but\t*\t*\t6\t*\n".repeat(FULL_EXCEPTIONS)
    );
    let lines = [
        ("but\t*\t*\t7\t*\n", [13, 66, 0]),
        ("but\t*\t*\t*\t*\n", [13, 66, 0]),
        ("but\tx\t*\t6\t*\n", [13, 66, 0]),
        ("but\t*\t*\t6\n", [4, 66, 0]),
        ("but\t*\t*\t6\t*\t\n", [4, 66, 0]),
        ("butt\t*\t*\t6\t*\n", [3, 66, 1]),
        ("ask\tx\t*\t*\t6\t*\n", [5, 66, 2]),
    ];
    let cases = lines.map(|(line, refused)| policy_refused(why, format!("{full}{line}"), refused));
    cases.to_vec()
}

fn but_first() -> Vec<Case> {
    let why = "01.7: a `but` first of all with a wrong count is 4, with bad fields 11";
    vec![
        policy_refused(why, BUT, [11, 1, 0]),
        policy_refused(why, format!("{BUT}{ASK}"), [11, 1, 0]),
        policy_refused(why, format!("#\n\n{BUT}"), [11, 3, 0]),
        policy_refused(why, "but\n", [4, 1, 0]),
        policy_refused(why, "but\t*\t*\t*\t*\t\n", [4, 1, 0]),
        policy_refused(why, "but\tdeny\t*\t*\t*\t*\n", [4, 1, 0]),
        policy_refused(why, "but\tx\ty\tz\tw\n", [11, 1, 0]),
        policy_refused(why, "but\t\t\t\t\n", [11, 1, 0]),
        policy_refused(why, "but\t*\t*\t*\t6-5\n", [11, 1, 0]),
    ]
}

fn from_the_left() -> Vec<Case> {
    let why = "document 01: then fields from the left";
    let blocks = [
        ("x\tx\tx\tx", 6, 0),
        ("2.0.0.0-1.0.0.0\tx\tx\tx", 7, 0),
        ("*\t10.0.0.1/8\tx\tx", 7, 1),
        ("*\tx\t6-5\tx", 6, 1),
        ("*\t*\tx\tx", 8, 2),
        ("*\t*\t6-5\tx", 10, 2),
        ("*\t*\tx\t6-5", 8, 2),
        ("*\t*\t6-5\t6-5", 10, 2),
        ("*\t*\t*\tx", 9, 3),
        ("*\t*\t*\t6-5", 10, 3),
        ("x\t*\t*\t6-5", 6, 0),
        ("*\t10.0.0.0/255.0.255.0\t*\tx", 7, 1),
    ];
    let mut cases = vec![];
    for (block, number, place) in blocks {
        let rule = format!("rule\taccept\t{block}\n");
        let ask = format!("ask\tdeny\t{block}\n");
        let but = format!("{ASK}but\t{block}\n");
        cases.push(rules_refused(why, rule, [number, 1, place + 3]));
        cases.push(policy_refused(why, ask, [number, 1, place + 3]));
        cases.push(policy_refused(why, but, [number, 2, place + 2]));
        let no_action = format!("rule\tx\t{block}\n");
        cases.push(rules_refused(why, no_action, [5, 1, 2]));
        let no_action = format!("ask\tx\t{block}\n");
        cases.push(policy_refused(why, no_action, [5, 1, 2]));
    }
    cases
}

fn outside_last() -> Vec<Case> {
    let why = "01.7: an exception outside with a bad port is 9";
    let ask = "ask\tdeny\t10.0.0.0/8\t*\t6\t80\n";
    let buts = [
        ("*\t*\t6\tx", [9, 2, 5]),
        ("*\t*\t6\t65536", [9, 2, 5]),
        ("*\t*\t6\t6-5", [10, 2, 5]),
        ("*\t*\tx\t80", [8, 2, 4]),
        ("*\tx\t6\t80", [6, 2, 3]),
        ("*\t10.0.0.1/8\t6\t80", [7, 2, 3]),
        ("*\t*\t6\t80", [12, 2, 0]),
        ("10.0.0.0/8\t*\t6\t79-80", [12, 2, 0]),
    ];
    let cases =
        buts.map(|(block, refused)| policy_refused(why, format!("{ask}but\t{block}\n"), refused));
    cases.to_vec()
}

/// The answer counts the records that are not zero, so nothing may be left there.
fn nothing_kept() -> Vec<Case> {
    let why = "01.19: a refused reading hands back the empty set";
    vec![
        rules_refused(why, format!("{RULE}{RULE}x\n"), [3, 3, 1]),
        rules_refused(why, format!("{}rule\n", RULE.repeat(64)), [4, 65, 0]),
        policy_refused(why, format!("{ASK}{BUT}{BUT}x\n"), [3, 4, 1]),
        policy_refused(why, format!("{ASK}{BUT}but\t*\t*\t*\tx\n"), [9, 3, 5]),
    ]
}
