//! The question as clauses in DIMACS form, by Tseitin's way: a variable for each gate, with
//! clauses in both directions. Variables 1 to 88 are the bits of the packet, the highest of
//! the source first. A comparison with a bound goes bit by bit.

use crate::question::{fault, Logic};
use crate::texts::{Table, LARGEST};
use std::collections::HashMap;

const BITS: [i32; 4] = [32, 32, 8, 16];

/// The variable before the first of each field.
const BEFORE: [i32; 4] = [0, 32, 64, 72];

/// A variable that a clause of its own makes true.
const TRUE: i32 = 89;

/// A claim is a variable, or less than 0 for its opposite.
struct Clauses {
    variables: i32,
    text: String,
    count: usize,
    /// The gate for claims that must all hold: the same ones make no second gate.
    gates: HashMap<Vec<i32>, i32>,
}

impl Clauses {
    fn new() -> Clauses {
        let mut clauses = Clauses {
            variables: TRUE,
            text: String::new(),
            count: 0,
            gates: HashMap::new(),
        };
        clauses.add(&[TRUE]);
        clauses
    }

    fn add(&mut self, clause: &[i32]) {
        for claim in clause {
            self.text += &format!("{claim} ");
        }
        self.text += "0\n";
        self.count += 1;
    }

    /// The field's number is at least this. From the lowest bit up: a bit that the bound
    /// has must be there too, and one that it lacks is enough.
    fn at_least(&mut self, field: usize, bound: u64) -> i32 {
        let mut claim = TRUE;
        for place in 0..BITS[field] {
            let bit = BEFORE[field] + BITS[field] - place;
            claim = if bound >> place & 1 == 1 {
                self.all(&[bit, claim])
            } else {
                self.any(&[bit, claim])
            };
        }
        claim
    }
}

impl Logic for Clauses {
    type Claim = i32;

    fn between(&mut self, field: usize, low: u64, high: u64) -> i32 {
        let from = self.at_least(field, low);
        if high == LARGEST[field] {
            return from;
        }
        let past = self.at_least(field, high + 1);
        self.all(&[from, -past])
    }

    fn not(&mut self, claim: &i32) -> i32 {
        -claim
    }

    fn all(&mut self, claims: &[i32]) -> i32 {
        let mut claims: Vec<i32> = claims
            .iter()
            .copied()
            .filter(|claim| *claim != TRUE)
            .collect();
        claims.sort();
        claims.dedup();
        if claims.contains(&-TRUE) || claims.iter().any(|claim| claims.contains(&-claim)) {
            return -TRUE;
        }
        match claims[..] {
            [] => return TRUE,
            [one] => return one,
            _ => {}
        }
        if let Some(gate) = self.gates.get(&claims) {
            return *gate;
        }
        self.variables += 1;
        let gate = self.variables;
        for claim in &claims {
            self.add(&[-gate, *claim]);
        }
        let mut back: Vec<i32> = claims.iter().map(|claim| -claim).collect();
        back.push(gate);
        self.add(&back);
        self.gates.insert(claims, gate);
        gate
    }
}

pub fn written(table: &Table) -> String {
    let mut clauses = Clauses::new();
    let fault = fault(&mut clauses, table);
    clauses.add(&[fault]);
    format!(
        "p cnf {} {}\n{}",
        clauses.variables, clauses.count, clauses.text
    )
}
