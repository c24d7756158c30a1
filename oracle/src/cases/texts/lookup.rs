//! A line asked for again: "given both texts, which one, and a record number from
//! 1, the answer is that line without its byte 10".

use super::*;
use Named::{Policy, Rules};

pub fn cases() -> Vec<Case> {
    [
        both_texts(),
        records_only(),
        words(),
        badly_formed(),
        unended(),
        long_texts(),
    ]
    .concat()
}

/// The lines of all records in one text, then numbers for which there is none.
fn all_lines(why: &str, named: Named, texts: [&[u8]; 2], lines: &[&[u8]]) -> Vec<Case> {
    let numbered = (1..).zip(lines);
    let mut cases: Vec<Case> = numbered
        .map(|(number, part)| line(why, named, number, texts, part))
        .collect();
    let past = lines.len() as u64 + 1;
    for number in [0, past, past + 1, 1 << 32, (1 << 32) + 1, u64::MAX] {
        cases.push(line("01.33: 0 or too large", named, number, texts, b""));
    }
    cases
}

fn both_texts() -> Vec<Case> {
    let why = "document 01: as part of the text it came from";
    let rules: &[u8] = b"#\nrule\taccept\t*\t*\t*\t80\n\nrule\tdeny\t*\t*\t*\t81\n";
    let policy: &[u8] = b"ask\tdeny\t*\t*\t*\t82\nbut\t*\t*\t*\t82\nask\taccept\t*\t*\t*\t83\n";
    let texts = [rules, policy];
    let lines: [&[u8]; 2] = [b"rule\taccept\t*\t*\t*\t80", b"rule\tdeny\t*\t*\t*\t81"];
    let asks: [&[u8]; 2] = [b"ask\tdeny\t*\t*\t*\t82", b"ask\taccept\t*\t*\t*\t83"];
    [
        all_lines(why, Rules, texts, &lines),
        all_lines(why, Policy, texts, &asks),
        // The texts exchanged: `ask` lines are no records of a rule text.
        all_lines(why, Rules, [policy, rules], &[]),
        all_lines(why, Policy, [policy, rules], &[]),
        all_lines(why, Rules, [rules, b""], &lines),
        all_lines(why, Policy, [b"", policy], &asks),
        all_lines(why, Rules, [b"", policy], &[]),
        all_lines(why, Policy, [rules, b""], &[]),
        all_lines(why, Rules, [b"", b""], &[]),
        all_lines(why, Policy, [b"", b""], &[]),
    ]
    .concat()
}

fn records_only() -> Vec<Case> {
    let why = "document 01: records are lines whose first field is `rule` or `ask` respectively";
    let text: &[u8] = b"but\t1\nask\t2\nrule\t3\n#ask\n#rule\n\nbut\t4\nrule\t5\nask\t6\n";
    [
        all_lines(why, Rules, [text, text], &[b"rule\t3", b"rule\t5"]),
        all_lines(why, Policy, [text, text], &[b"ask\t2", b"ask\t6"]),
    ]
    .concat()
}

fn words() -> Vec<Case> {
    let why = "01.33: the first field is the word, whole and byte for byte";
    let rules: &[u8] = b"rules\nrule \n rule\nRule\nrul\n\trule\nrule\r\nrule\0\nrule\n#rule\nru\n";
    let policy: &[u8] = b"asks\nask \n ask\nASK\nas\n\task\nask\r\nask\0\nask\n#ask\nbut\task\n";
    [
        all_lines(why, Rules, [rules, policy], &[b"rule"]),
        all_lines(why, Policy, [rules, policy], &[b"ask"]),
    ]
    .concat()
}

fn badly_formed() -> Vec<Case> {
    let why = "01.33: a record is any such line, well formed or not";
    let rules: &[u8] = b"rule\nrule\t\nrule\tx\ty\nx\nrule\t\t\t\t\t\t\t\t\nrule\t\xff\0\r\n";
    let lines: [&[u8]; 5] = [
        b"rule",
        b"rule\t",
        b"rule\tx\ty",
        b"rule\t\t\t\t\t\t\t\t",
        b"rule\t\xff\0\r",
    ];
    let policy: &[u8] = b"but\nask\nask\t\nbut\task\nask\tx\n";
    [
        all_lines(why, Rules, [rules, policy], &lines),
        all_lines(why, Policy, [rules, policy], &[b"ask", b"ask\t", b"ask\tx"]),
    ]
    .concat()
}

fn unended() -> Vec<Case> {
    let why = "document 01: an unended last line counts";
    [
        all_lines(why, Rules, [b"rule", b"ask"], &[b"rule"]),
        all_lines(why, Policy, [b"rule", b"ask"], &[b"ask"]),
        all_lines(
            why,
            Rules,
            [b"rule\t1\nrule\t2", b""],
            &[b"rule\t1", b"rule\t2"],
        ),
        all_lines(
            why,
            Policy,
            [b"", b"#\nask\t1\n\nask\t2"],
            &[b"ask\t1", b"ask\t2"],
        ),
        all_lines(why, Rules, [b"rul", b"as"], &[]),
        all_lines(why, Policy, [b"rul", b"as"], &[]),
        all_lines(why, Rules, [b"\n\n\n", b"\n"], &[]),
        // The end of one text does not run on into the other.
        all_lines(why, Rules, [b"ru", b"le\nrule\n"], &[]),
        all_lines(why, Policy, [b"ask\n", b"\nas"], &[]),
    ]
    .concat()
}

fn long_texts() -> Vec<Case> {
    let why = "01.33: line lookup reads nothing, so it knows no limit";
    let many = b"rule\tx\n".repeat(5_000);
    let last = [&many[..], b"rule\tlast\n"].concat();
    let long = [b"ask\t", &[b'x'; 40_000][..], b"\nask\n"].concat();
    let ask = &long[..40_004];
    vec![
        line(why, Rules, 65, [&last, b""], b"rule\tx"),
        line(why, Rules, 5_000, [&last, b""], b"rule\tx"),
        line(why, Rules, 5_001, [&last, b""], b"rule\tlast"),
        line(why, Rules, 5_002, [&last, b""], b""),
        line(why, Rules, (1 << 32) + 1, [&last, b""], b""),
        line(why, Policy, 1, [b"rule", &long], ask),
        line(why, Policy, 2, [b"rule", &long], b"ask"),
        line(why, Policy, 3, [b"rule", &long], b""),
        line(why, Rules, 1, [b"rule", &long], b"rule"),
    ]
}
