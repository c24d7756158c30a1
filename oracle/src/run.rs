//! One whole run of document 01: two files are opened and read, rules first, and what
//! is found is told.

use crate::faults::{self, Faults};
use crate::printing;
use crate::texts::reading;
use std::fs::File;
use std::io::{self, Read};
use std::path::Path;

/// The two files, in the order in which they are opened.
pub const NAMES: [&str; 2] = ["rules.txt", "policy.txt"];

/// The bytes of a file, or none if it cannot be opened or read.
pub type Content = Option<Vec<u8>>;

/// The answer for the two files of a folder.
pub fn run(folder: &Path) -> Result<String, TooManyCells> {
    let [rules, policy] = NAMES.map(|name| content(&folder.join(name)).ok());
    answer(&rules, &policy, faults::MOST_CELLS)
}

/// No more is read than shows that a text is too long, so that a file without an end
/// is refused like any other.
fn content(path: &Path) -> io::Result<Vec<u8>> {
    let mut bytes = vec![];
    let most = reading::MOST_BYTES as u64 + 1;
    File::open(path)?.take(most).read_to_end(&mut bytes)?;
    Ok(bytes)
}

/// The sets are in form, but the whole table of their labels would be too large.
#[derive(Debug, PartialEq, Eq)]
pub struct TooManyCells(pub usize);

/// What is printed for two files. A file that cannot be read goes before a refusal,
/// and the rules go before the policy. A table of labels may have so many cells.
pub fn answer(rules: &Content, policy: &Content, most: usize) -> Result<String, TooManyCells> {
    let (rules, policy) = match (rules, policy) {
        (None, _) => return Ok(printing::unreadable(NAMES[0])),
        (_, None) => return Ok(printing::unreadable(NAMES[1])),
        (Some(rules), Some(policy)) => (reading::rules(rules), reading::policy(policy)),
    };
    let (rules, policy) = match (rules, policy) {
        (Err(refusal), _) => return Ok(printing::refused(NAMES[0], refusal)),
        (_, Err(refusal)) => return Ok(printing::refused(NAMES[1], refusal)),
        (Ok(rules), Ok(policy)) => (rules, policy),
    };
    let cells = faults::cells(&rules, &policy);
    if cells > most {
        return Err(TooManyCells(cells));
    }
    let faults = Faults::new(&rules, &policy).expect("what is read is in form");
    Ok(printing::faults(&faults))
}

#[cfg(test)]
mod tests;
