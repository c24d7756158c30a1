//! The bounds as numbers: the lines `R`, `r`, `P`, `d`, `e` that `oracle/README.md` has.

use crate::texts::{Block, Table};

pub fn written(table: &Table) -> String {
    let mut text = format!("R {}\n", table.rules.len());
    for (number, rule) in (1..).zip(&table.rules) {
        text += &line('r', number, rule.accept as usize, &rule.block);
    }
    let exceptions = table
        .directives
        .iter()
        .map(|directive| directive.exceptions.len());
    text += &format!(
        "P {} {}\n",
        table.directives.len(),
        exceptions.sum::<usize>()
    );
    for (number, directive) in (1..).zip(&table.directives) {
        text += &line('d', number, directive.accept as usize, &directive.block);
    }
    let mut count = 0;
    for (number, directive) in (1..).zip(&table.directives) {
        for block in &directive.exceptions {
            count += 1;
            text += &line('e', count, number, block);
        }
    }
    text
}

fn line(letter: char, number: usize, head: usize, block: &Block) -> String {
    let mut text = format!("{letter} {number} {head}");
    for (low, high) in block {
        text += &format!(" {low} {high}");
    }
    text + "\n"
}
