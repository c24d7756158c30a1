//! Puts the question whether a rule table conforms to a policy into the words of other
//! tools, for `bench/solvers`. It reads FOLDER/rules.txt and FOLDER/policy.txt, which must
//! be in form, and writes to standard output:
//!
//!     convert smt FOLDER        SMT-LIB 2 on bit-vectors; `unsat` means conforms
//!     convert dimacs FOLDER     clauses on the 88 bits of a packet; `unsatisfiable` means conforms
//!     convert numbers FOLDER    the bounds as numbers, for diagrams.c and walk.rs
//!
//! It shares no code with the product or with the independent program.

#[path = "convert/dimacs.rs"]
mod dimacs;
#[path = "convert/numbers.rs"]
mod numbers;
#[path = "convert/question.rs"]
mod question;
#[path = "convert/smt.rs"]
mod smt;
#[path = "convert/texts.rs"]
mod texts;

use std::path::Path;
use std::process::ExitCode;

fn main() -> ExitCode {
    let words: Vec<String> = std::env::args().skip(1).collect();
    let words: Vec<&str> = words.iter().map(String::as_str).collect();
    let (write, folder): (fn(&texts::Table) -> String, &str) = match words[..] {
        ["smt", folder] => (smt::written, folder),
        ["dimacs", folder] => (dimacs::written, folder),
        ["numbers", folder] => (numbers::written, folder),
        _ => {
            eprintln!("usage: convert smt | dimacs | numbers FOLDER");
            return ExitCode::from(2);
        }
    };
    match texts::read(Path::new(folder)) {
        Ok(table) => print!("{}", write(&table)),
        Err(why) => {
            eprintln!("convert: {folder}: {why}");
            return ExitCode::FAILURE;
        }
    }
    ExitCode::SUCCESS
}
