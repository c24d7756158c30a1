//! Lines: which one is the last, which are skipped, what the first field and the
//! count of fields may be, and the action.

use super::*;

pub fn cases() -> Vec<Case> {
    [
        unended(),
        skipped(),
        not_skipped(),
        odd_bytes(),
        first_fields(),
        first_fields_of_the_other_text(),
        counts_of_rules(),
        counts_of_policies(),
        actions(),
        line_numbers(),
    ]
    .concat()
}

fn unended() -> Vec<Case> {
    let why = "01.1: the unended last line has the number of bytes 10, plus 1";
    let texts: [(&str, u32); 10] = [
        ("#", 1),
        ("#\n#", 2),
        ("x", 1),
        ("\n\nx", 3),
        ("\n\n\n#", 4),
        ("#\n\n\t", 3),
        ("#\n\r", 2),
        ("\0", 1),
        ("rule", 1),
        ("#\nask", 2),
    ];
    let both = texts.map(|(text, line)| both_refused(why, text, [2, line, 0]));
    let mut cases = both.concat();
    let rule = RULE.trim_end();
    cases.extend([
        rules_refused(why, rule, [2, 1, 0]),
        rules_refused(why, format!("{RULE}{rule}"), [2, 2, 0]),
        rules_refused(why, format!("{RULE}\n#\n{rule}"), [2, 4, 0]),
        policy_refused(why, format!("{ASK}{}", BUT.trim_end()), [2, 2, 0]),
        policy_refused(why, format!("{ASK}\n{}", ASK.trim_end()), [2, 3, 0]),
    ]);
    cases
}

fn skipped() -> Vec<Case> {
    let why = "document 01: lines that are empty or start with `#` are skipped";
    let texts = [
        "\n",
        "\n\n\n\n",
        "#\n",
        "##\n",
        "# a note\n",
        "#\trule\taccept\n",
        "#rule\taccept\t*\t*\t*\t*\n",
        "#ask\tdeny\t*\t*\t*\t*\n#but\n",
        "\n#\n\n#\n",
        "#\n\n#\n\n",
        "# \r\n#\0\n#\t\t\n",
    ];
    let mut cases: Vec<Case> = texts
        .iter()
        .flat_map(|text| both_empty(why, text))
        .collect();
    let bytes = b"#\xff\x80\xfe\0\r\t\n".as_slice();
    cases.extend(both_empty("01.4: in a `#` line they do no harm", bytes));
    let around = format!("\n#\n{RULE}\n# rule\n");
    cases.push(rules(why, around, &format!("0 0 0 1 1 {ANY}")));
    let around = format!("#\n\n{ASK}#\n\n");
    cases.push(policy(why, around, &format!("0 0 0 1 0 0 {ANY}")));
    cases
}

fn not_skipped() -> Vec<Case> {
    let why = "01.3: empty is no byte at all, and `#` is the very first byte";
    let texts = [
        " \n",
        "\t\n",
        "\r\n",
        "\0\n",
        " #\n",
        "\t#\n",
        "\r#\n",
        " \t\n",
        "\t\t\t\t\t\n",
        "\t\t\t\t\n",
    ];
    let cases = texts
        .iter()
        .flat_map(|text| both_refused(why, text, [3, 1, 1]));
    cases.collect()
}

fn odd_bytes() -> Vec<Case> {
    let why = "01.4: byte 13, byte 0 and bytes above 127 are bytes like others";
    let ended_by_two = |line: &str| line.replace('\n', "\r\n");
    let mut cases = vec![
        rules_refused(why, ended_by_two(RULE), [9, 1, 6]),
        rules_refused(why, format!("#\r\n{}", ended_by_two(RULE)), [9, 2, 6]),
        policy_refused(why, ended_by_two(ASK), [9, 1, 6]),
        policy_refused(why, format!("{ASK}{}", ended_by_two(BUT)), [9, 2, 5]),
        // An ended line that is otherwise empty is no empty line.
        rules_refused(why, format!("{RULE}\r\n"), [3, 2, 1]),
        rules_refused(why, "rule\taccept\t*\r\t*\t*\t*\n", [6, 1, 3]),
        rules_refused(why, "rule\raccept\t*\t*\t*\t*\n", [3, 1, 1]),
        rules_refused(why, "rule\taccept\r\t*\t*\t*\t*\n", [5, 1, 2]),
        rules_refused(why, "rule\0\taccept\t*\t*\t*\t*\n", [3, 1, 1]),
        rules_refused(why, "rule\taccept\0\t*\t*\t*\t*\n", [5, 1, 2]),
        rules_refused(why, b"rule\taccept\t*\t*\t*\t*\xff\n", [9, 1, 6]),
    ];
    for text in [
        &b"\xffrule\n"[..],
        b"\xef\xbb\xbfrule\taccept\t*\t*\t*\t*\n",
        b"rule\x80\n",
    ] {
        cases.extend(both_refused(why, text, [3, 1, 1]));
    }
    // Byte 11, byte 12 and other marks of a line's end do not end a line.
    let text = format!("{}\x0b{RULE}", RULE.trim_end());
    cases.push(rules_refused(why, text, [4, 1, 0]));
    cases
}

/// First fields that are unknown in both texts.
fn first_fields() -> Vec<Case> {
    let why = "01.5: compared byte for byte, case and all, whole field";
    let rest = "\taccept\t*\t*\t*\t*\n";
    let unknown = "Rule RULE rul rules Ask ASK as asks But bu butt ru r a * accept silent rule#";
    let spaced = ["", "rule ", " rule", "ask ", "but "];
    let mut cases = vec![];
    for word in unknown.split(' ').chain(spaced) {
        cases.extend(both_refused(why, format!("{word}{rest}"), [3, 1, 1]));
        cases.extend(both_refused(why, format!("\n#\n{word} x\n"), [3, 3, 1]));
    }
    cases.extend(both_refused(why, "rule accept * * * *\n", [3, 1, 1]));
    cases.extend(both_refused(why, "ask accept * * * *\n", [3, 1, 1]));
    cases.extend(both_refused(why, format!("\t{RULE}"), [3, 1, 1]));
    cases.extend(both_refused(why, format!("\t{ASK}"), [3, 1, 1]));
    cases
}

fn first_fields_of_the_other_text() -> Vec<Case> {
    let why = "01.5: `ask` in the rules and `rule` in the policy are 3";
    vec![
        rules_refused(why, ASK, [3, 1, 1]),
        rules_refused(why, format!("{RULE}{ASK}"), [3, 2, 1]),
        rules_refused(why, "ask\n", [3, 1, 1]),
        rules_refused(why, format!("{RULE}{BUT}"), [3, 2, 1]),
        rules_refused(why, "but\n", [3, 1, 1]),
        policy_refused(why, RULE, [3, 1, 1]),
        policy_refused(why, format!("{ASK}{RULE}"), [3, 2, 1]),
        policy_refused(why, format!("{ASK}{BUT}{RULE}"), [3, 3, 1]),
        policy_refused(why, "rule\n", [3, 1, 1]),
    ]
}

fn counts_of_rules() -> Vec<Case> {
    let why = "01.6: fields are tabs plus one, so a trailing tab is one field more";
    let lines = [
        "rule\n",
        "rule\t\n",
        "rule\taccept\n",
        "rule\taccept\t*\t*\t*\n",
        "rule\taccept\t*\t*\t*\t*\t\n",
        "rule\taccept\t*\t*\t*\t*\t*\n",
        "rule\taccept\t\t*\t*\t*\t*\n",
        "rule\t\taccept\t*\t*\t*\t*\n",
        "rule\taccept\t*\t*\t*\t*\t\t\t\n",
        "rule\t\t\t\t\t\t\n",
        "rule\t\t\t\t\n",
        "rule\tx\ty\n",
    ];
    let cases = lines.iter().map(|line| rules_refused(why, line, [4, 1, 0]));
    let mut cases: Vec<Case> = cases.collect();
    cases.push(rules_refused(why, "rule\t\t\t\t\t\n", [5, 1, 2]));
    let many = format!("rule{}\n", "\t".repeat(30_000));
    cases.push(rules_refused(why, many, [4, 1, 0]));
    cases
}

fn counts_of_policies() -> Vec<Case> {
    let why = "01.6: `ask` has six fields, `but` has five";
    let asks = [
        "ask\n",
        "ask\t\n",
        "ask\tdeny\n",
        "ask\tdeny\t*\t*\t*\n",
        "ask\tdeny\t*\t*\t*\t*\t\n",
        "ask\tdeny\t*\t*\t*\t*\t*\n",
        "ask\t*\t*\t*\t*\n",
        "ask\t\t\t\t\n",
    ];
    let buts = [
        "but\n",
        "but\t\n",
        "but\t*\t*\t*\n",
        "but\t*\t*\t*\t*\t\n",
        "but\t*\t*\t*\t*\t*\n",
        "but\tdeny\t*\t*\t*\t*\n",
        "but\t\t*\t*\t*\t*\n",
        "but\t\t\t\t\t\n",
    ];
    let asks = asks.iter().map(|line| policy_refused(why, line, [4, 1, 0]));
    let buts = buts
        .iter()
        .map(|line| policy_refused(why, format!("{ASK}{line}"), [4, 2, 0]));
    let mut cases: Vec<Case> = asks.chain(buts).collect();
    cases.push(policy_refused(why, "ask\t\t\t\t\t\n", [5, 1, 2]));
    cases.push(policy_refused(
        why,
        format!("{ASK}but\t\t\t\t\n"),
        [6, 2, 2],
    ));
    cases
}

fn actions() -> Vec<Case> {
    let why = "document 01: action neither `accept` nor `deny`";
    let unknown = "Accept ACCEPT accep acceptt Deny den denyy allow permit drop reject * 0 1 rule \
        acceptdeny deny\r";
    let spaced = ["", "accept ", " accept", "deny ", "accept deny"];
    let mut cases = vec![];
    for word in unknown.split(' ').chain(spaced) {
        let rest = format!("{word}\t*\t*\t*\t*\n");
        cases.push(rules_refused(why, format!("rule\t{rest}"), [5, 1, 2]));
        cases.push(policy_refused(why, format!("ask\t{rest}"), [5, 1, 2]));
    }
    for (word, action) in [("accept", 1), ("deny", 0)] {
        let rest = format!("{word}\t*\t*\t*\t*\n");
        let rule = format!("0 0 0 1 {action} {ANY}");
        let ask = format!("0 0 0 1 0 {action} {ANY}");
        cases.push(rules(why, format!("rule\t{rest}"), &rule));
        cases.push(policy(why, format!("ask\t{rest}"), &ask));
    }
    cases
}

fn line_numbers() -> Vec<Case> {
    let why = "document 01: skipped but counted";
    vec![
        rules_refused(why, format!("#\n{RULE}\n\n#\nx\n{RULE}"), [3, 6, 1]),
        rules_refused(why, format!("\n\n\n{RULE}rule\n"), [4, 5, 0]),
        policy_refused(why, format!("{ASK}\n{BUT}#\n#\nbut\n"), [4, 6, 0]),
        policy_refused(why, format!("\n#\n{BUT}{ASK}"), [11, 3, 0]),
        rules_refused(why, format!("{}x\n", "\n".repeat(255)), [3, 256, 1]),
        rules_refused(why, format!("{}x\n", "#\n".repeat(9_999)), [3, 10_000, 1]),
    ]
}
