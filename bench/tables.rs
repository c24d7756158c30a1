//! Writes a rule table and a policy of a shape (`shapes.rs`): the requests that make them,
//! for `bench/faults`, or the two texts into a folder, for `bench/solvers`.
//!
//!     tables SHAPE RULES
//!     tables SHAPE RULES FOLDER

mod shapes;

use shapes::{Block, Table, ACCEPT, LARGEST};
use std::fs;
use std::path::Path;
use std::process::ExitCode;

fn requests(table: &Table) -> String {
    let Table {
        rules,
        directives,
        exceptions,
    } = table;
    let mut text = format!("R {}\n", rules.len());
    text += &records('r', rules);
    text += &format!("P {} {}\n", directives.len(), exceptions.len());
    text += &records('d', directives);
    text += &records('e', exceptions);
    text
}

fn records(letter: char, records: &[(usize, Block)]) -> String {
    let mut text = String::new();
    for (number, (head, block)) in (1..).zip(records) {
        text += &format!("{letter} {number} {head}");
        for (low, high) in block {
            text += &format!(" {low} {high}");
        }
        text.push('\n');
    }
    text
}

fn rules_text(table: &Table) -> String {
    let lines = table
        .rules
        .iter()
        .map(|(action, block)| line(&["rule", word(*action)], block));
    lines.collect()
}

fn policy_text(table: &Table) -> String {
    let mut text = String::new();
    for (number, (action, block)) in (1..).zip(&table.directives) {
        text += &line(&["ask", word(*action)], block);
        for (directive, block) in &table.exceptions {
            if *directive == number {
                text += &line(&["but"], block);
            }
        }
    }
    text
}

fn word(action: usize) -> &'static str {
    if action == ACCEPT {
        "accept"
    } else {
        "deny"
    }
}

fn line(words: &[&str], block: &Block) -> String {
    let mut fields: Vec<String> = words.iter().map(|word| word.to_string()).collect();
    for (field, (low, high)) in block.iter().enumerate() {
        let number = if field < 2 { quad } else { decimal };
        fields.push(match (*low, *high) {
            (0, high) if high == LARGEST[field] => "*".to_string(),
            (low, high) if low == high => number(low),
            (low, high) => format!("{}-{}", number(low), number(high)),
        });
    }
    fields.join("\t") + "\n"
}

fn quad(number: u64) -> String {
    let octets = [24, 16, 8, 0].map(|place| decimal(number >> place & 255));
    octets.join(".")
}

fn decimal(number: u64) -> String {
    number.to_string()
}

fn main() -> ExitCode {
    let words: Vec<String> = std::env::args().skip(1).collect();
    let table = match &words[..] {
        [shape, rules] | [shape, rules, _] => rules
            .parse()
            .ok()
            .and_then(|rules| shapes::table(shape, rules)),
        _ => None,
    };
    let Some(table) = table else {
        eprintln!("usage: tables SHAPE RULES [FOLDER]");
        return ExitCode::from(2);
    };
    match words.get(2) {
        Some(folder) => {
            let folder = Path::new(folder);
            fs::write(folder.join("rules.txt"), rules_text(&table)).expect("rules.txt");
            fs::write(folder.join("policy.txt"), policy_text(&table)).expect("policy.txt");
        }
        None => print!("{}", requests(&table)),
    }
    ExitCode::SUCCESS
}
