//! A second reading of document 01, kept apart from the library it is compared
//! with. It writes test requests and tells the answers that document 01 gives.
//!
//!     oracle requests > requests.txt
//!     oracle answers < requests.txt
//!
//! The same for the two texts, whose requests are not lines of text but bytes:
//!
//!     oracle texts-requests > requests.bytes
//!     oracle texts-answers < requests.bytes
//!
//! It is a program of its own too, with the output of document 01's "One whole run" for
//! the files rules.txt and policy.txt of a folder:
//!
//!     oracle run DIR
//!
//! And it compares a program, given by the words of its command, with itself on drawn
//! pairs of such files. A drawn pair can be had again by its number and seed:
//!
//!     oracle compare COUNT SEED WORD...
//!     oracle pair NUMBER SEED DIR

mod cases;
mod compare;
mod faults;
mod model;
mod pairs;
mod printing;
mod random;
mod requests;
mod run;
mod texts;

use std::io::{self, Read, Write};
use std::path::Path;
use std::process::ExitCode;

const USAGE: &str = "usage: oracle requests | answers | texts-requests | texts-answers
       oracle run DIR
       oracle compare COUNT SEED WORD...
       oracle pair NUMBER SEED DIR";

fn main() -> ExitCode {
    let words: Vec<String> = std::env::args().skip(1).collect();
    let words: Vec<&str> = words.iter().map(String::as_str).collect();
    match done(&words) {
        Some(Ok(true)) => ExitCode::SUCCESS,
        Some(Ok(false)) => ExitCode::FAILURE,
        Some(Err(error)) => {
            eprintln!("oracle: {error}");
            ExitCode::FAILURE
        }
        None => {
            eprintln!("{USAGE}");
            ExitCode::from(2)
        }
    }
}

/// Whether what the words ask for went well, or none if they ask for nothing known.
fn done(words: &[&str]) -> Option<io::Result<bool>> {
    let told = match words {
        ["requests"] => tell(cases::requests().as_bytes()),
        ["answers"] => answer(),
        ["texts-requests"] => tell(&cases::texts::requests()),
        ["texts-answers"] => answer_texts(),
        ["run", folder] => answer_files(folder),
        ["pair", number, seed, folder] => {
            compare::write(number.parse().ok()?, seed.parse().ok()?, Path::new(folder))
        }
        ["compare", count, seed, command @ ..] if !command.is_empty() => {
            let (count, seed) = (count.parse().ok()?, seed.parse().ok()?);
            return Some(compare::compare(count, seed, command));
        }
        _ => return None,
    };
    Some(told.map(|()| true))
}

fn answer() -> io::Result<()> {
    let mut text = String::new();
    io::stdin().read_to_string(&mut text)?;
    tell(requests::answers(&text).as_bytes())
}

fn answer_texts() -> io::Result<()> {
    let mut bytes = vec![];
    io::stdin().read_to_end(&mut bytes)?;
    tell(&texts::requests::answers(&bytes))
}

fn answer_files(folder: &str) -> io::Result<()> {
    match run::run(Path::new(folder)) {
        Ok(printed) => tell(printed.as_bytes()),
        Err(run::TooManyCells(cells)) => Err(io::Error::other(format!(
            "{cells} cells, and this program takes {} at most",
            faults::MOST_CELLS
        ))),
    }
}

fn tell(answers: &[u8]) -> io::Result<()> {
    io::stdout().write_all(answers)
}
