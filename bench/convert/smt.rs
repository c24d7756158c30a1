//! The question in SMT-LIB 2, on four bit-vectors.

use crate::question::{fault, Logic};
use crate::texts::{Table, LARGEST};

const NAMES: [&str; 4] = ["source", "destination", "protocol", "port"];
const DIGITS: [usize; 4] = [8, 8, 2, 4];

/// A claim is a name, defined from claims before it.
#[derive(Default)]
struct Definitions {
    text: String,
    count: usize,
}

impl Definitions {
    fn define(&mut self, meaning: &str) -> String {
        self.count += 1;
        let name = format!("c{}", self.count);
        self.text += &format!("(define-fun {name} () Bool {meaning})\n");
        name
    }

    fn joined(&mut self, word: &str, none: &str, claims: &[String]) -> String {
        match claims {
            [] => none.to_string(),
            [one] => one.clone(),
            more => self.define(&format!("({word} {})", more.join(" "))),
        }
    }
}

impl Logic for Definitions {
    type Claim = String;

    fn between(&mut self, field: usize, low: u64, high: u64) -> String {
        let name = NAMES[field];
        let number = |value| format!("#x{value:0width$x}", width = DIGITS[field]);
        if low == high {
            return self.define(&format!("(= {name} {})", number(low)));
        }
        let mut bounds = vec![];
        if low > 0 {
            bounds.push(format!("(bvule {} {name})", number(low)));
        }
        if high < LARGEST[field] {
            bounds.push(format!("(bvule {name} {})", number(high)));
        }
        self.joined("and", "true", &bounds)
    }

    fn not(&mut self, claim: &String) -> String {
        format!("(not {claim})")
    }

    fn all(&mut self, claims: &[String]) -> String {
        self.joined("and", "true", claims)
    }

    fn any(&mut self, claims: &[String]) -> String {
        self.joined("or", "false", claims)
    }
}

pub fn written(table: &Table) -> String {
    let mut text = "(set-logic QF_BV)\n".to_string();
    for (name, digits) in NAMES.iter().zip(DIGITS) {
        text += &format!("(declare-const {name} (_ BitVec {}))\n", 4 * digits);
    }
    let mut definitions = Definitions::default();
    let fault = fault(&mut definitions, table);
    text + &definitions.text + &format!("(assert {fault})\n(check-sat)\n")
}
