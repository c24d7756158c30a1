//! The requests about texts: named cases first, each with its answer by the
//! papers, then drawn texts with a fixed seed. The requests that lend bytes to what
//! prints follow, named and drawn likewise.
//!
//! A case names the sentence of document 01 or the reading (01.1 and so on; see
//! docs/DECISIONS.md, 45 to 62) that decides it.

mod addresses;
mod counts;
pub mod drawn;
mod exceptions;
mod fields;
mod lent;
mod lines;
mod lookup;
mod numbers;
mod order;
mod paper;
mod prefixes;
mod sizes;

use crate::texts::parts::Named;
use crate::texts::requests::Request;

/// All requests about texts, one behind the other.
pub fn requests() -> Vec<u8> {
    let mut bytes = vec![];
    let mut write = |cases: Vec<Case>, drawn: Vec<Request>| {
        cases.iter().for_each(Case::assert);
        let cases = cases.into_iter().map(|case| case.request);
        cases
            .chain(drawn)
            .for_each(|request| request.write(&mut bytes));
    };
    write(named(), drawn::requests());
    write(lent::cases(), lent::drawn());
    bytes
}

/// The texts of the named cases, each with its kind.
pub fn named_texts() -> Vec<(Named, Vec<u8>)> {
    let text = |case: Case| match case.request {
        Request::Rules(text) => Some((Named::Rules, text)),
        Request::Policy(text) => Some((Named::Policy, text)),
        _ => None,
    };
    named().into_iter().filter_map(text).collect()
}

fn named() -> Vec<Case> {
    [
        paper::cases(),
        addresses::cases(),
        prefixes::cases(),
        numbers::cases(),
        lines::cases(),
        order::cases(),
        sizes::cases(),
        counts::cases(),
        exceptions::cases(),
        fields::cases(),
        lookup::cases(),
    ]
    .concat()
}

/// A request, the answer that the papers give to it, and why.
#[derive(Clone)]
struct Case {
    why: String,
    request: Request,
    answer: Vec<u8>,
}

impl Case {
    fn new(why: &str, request: Request, answer: impl Into<Vec<u8>>) -> Case {
        Case {
            why: why.to_string(),
            request,
            answer: answer.into(),
        }
    }

    /// Panics if the oracle's own answer is another, so that a case cannot be
    /// stored with an answer that its author did not mean.
    fn assert(&self) {
        let told = self.request.answer();
        let (told, meant) = (shown(&told), shown(&self.answer));
        assert_eq!(told, meant, "{}", self.why);
    }
}

fn shown(bytes: &[u8]) -> String {
    bytes.escape_ascii().to_string()
}

/// Lines open in all fields. The rule accepts and the directive denies, so that
/// both actions are met.
const RULE: &str = "rule\taccept\t*\t*\t*\t*\n";
const ASK: &str = "ask\tdeny\t*\t*\t*\t*\n";
const BUT: &str = "but\t*\t*\t*\t*\n";

/// The widest block as it is told.
const ANY: &str = "0 4294967295 0 4294967295 0 255 0 65535";

/// A text with its tabs shown as spaces, as document 01 shows them.
fn tabbed(text: &str) -> String {
    text.replace(' ', "\t")
}

fn rules(why: &str, text: impl AsRef<[u8]>, answer: &str) -> Case {
    let request = Request::Rules(text.as_ref().to_vec());
    Case::new(why, request, format!("rules {answer} past 0\n"))
}

fn policy(why: &str, text: impl AsRef<[u8]>, answer: &str) -> Case {
    let request = Request::Policy(text.as_ref().to_vec());
    Case::new(why, request, format!("policy {answer} past 0\n"))
}

/// Number, line and field of a refusal; the empty set is handed back (01.19).
type Refused = [u32; 3];

fn rules_refused(why: &str, text: impl AsRef<[u8]>, [number, line, field]: Refused) -> Case {
    rules(why, text, &format!("{number} {line} {field} 0"))
}

fn policy_refused(why: &str, text: impl AsRef<[u8]>, [number, line, field]: Refused) -> Case {
    policy(why, text, &format!("{number} {line} {field} 0 0"))
}

/// Both texts refused in the same way.
fn both_refused(why: &str, text: impl AsRef<[u8]>, refused: Refused) -> Vec<Case> {
    let text = text.as_ref();
    vec![
        rules_refused(why, text, refused),
        policy_refused(why, text, refused),
    ]
}

/// Both texts read, without any record.
fn both_empty(why: &str, text: impl AsRef<[u8]>) -> Vec<Case> {
    both_refused(why, text, [0, 0, 0])
}

/// The bounds that a field stands for, or the number of its refusal.
type Spelled = Result<(u32, u32), u32>;

const SOURCE: usize = 0;
const DESTINATION: usize = 1;
const PROTOCOL: usize = 2;
const PORT: usize = 3;

/// A spelling in a rule, a directive and an exception whose other fields are open.
/// The exception's fields are numbered one lower, since it has no action (01.9).
fn spelled(why: &str, place: usize, spelling: impl AsRef<[u8]>, meant: Spelled) -> Vec<Case> {
    let mut fields: [&[u8]; 4] = [b"*"; 4];
    fields[place] = spelling.as_ref();
    let block = [&fields.join(&b'\t')[..], b"\n"].concat();
    let rule = [b"rule\taccept\t", &block[..]].concat();
    let ask = [b"ask\tdeny\t", &block[..]].concat();
    let but = [ASK.as_bytes(), b"but\t", &block[..]].concat();
    let field = place as u32 + 3;
    match meant {
        Ok((low, high)) => {
            let block = told_block(place, low, high);
            vec![
                rules(why, rule, &format!("0 0 0 1 1 {block}")),
                policy(why, ask, &format!("0 0 0 1 0 0 {block}")),
                policy(why, but, &format!("0 0 0 1 1 0 {ANY} 1 {block}")),
            ]
        }
        Err(number) => vec![
            rules_refused(why, rule, [number, 1, field]),
            policy_refused(why, ask, [number, 1, field]),
            policy_refused(why, but, [number, 2, field - 1]),
        ],
    }
}

/// The widest block with other bounds in one field.
fn told_block(place: usize, low: u32, high: u32) -> String {
    let mut fields = ["0 4294967295", "0 4294967295", "0 255", "0 65535"].map(str::to_string);
    fields[place] = format!("{low} {high}");
    fields.join(" ")
}

/// Each spelling of a table as source and as destination.
fn spelled_addresses(why: &str, table: &[(&str, Spelled)]) -> Vec<Case> {
    let mut cases = spelled_in(why, SOURCE, table);
    cases.extend(spelled_in(why, DESTINATION, table));
    cases
}

fn spelled_in(why: &str, place: usize, table: &[(&str, Spelled)]) -> Vec<Case> {
    let cases = table
        .iter()
        .map(|(spelling, meant)| spelled(why, place, spelling, *meant));
    cases.flatten().collect()
}

fn field(why: &str, line: &[u8], number: u64, part: &[u8]) -> Case {
    let request = Request::Field {
        number,
        line: line.to_vec(),
    };
    let header = format!("field {}\n", part.len());
    Case::new(why, request, [header.as_bytes(), part, b"\n"].concat())
}

/// The texts stand in the order rules, policy.
fn line(why: &str, named: Named, number: u64, texts: [&[u8]; 2], part: &[u8]) -> Case {
    let request = Request::Line {
        named,
        number,
        rules: texts[0].to_vec(),
        policy: texts[1].to_vec(),
    };
    let header = format!("line {}\n", part.len());
    Case::new(why, request, [header.as_bytes(), part, b"\n"].concat())
}

#[cfg(test)]
mod tests {
    use super::*;
    use crate::texts::requests::answers;
    use std::collections::BTreeSet;

    #[test]
    fn the_named_cases_have_the_answers_of_the_papers() {
        named().iter().for_each(Case::assert);
    }

    #[test]
    fn every_reading_about_texts_has_a_case() {
        let whys: Vec<String> = named().into_iter().map(|case| case.why).collect();
        let words: BTreeSet<&str> = whys.iter().flat_map(|why| why.split([' ', ':'])).collect();
        for number in (1..=19).chain([33, 34]) {
            let reading = format!("01.{number}");
            assert!(words.contains(&reading[..]), "{reading}");
        }
    }

    #[test]
    fn the_requests_are_short_enough() {
        assert!(requests().len() < 12_000_000);
    }

    #[test]
    fn requests_are_read_as_they_were_written() {
        let requests_of = |cases: Vec<Case>| cases.into_iter().map(|case| case.request);
        let answered = requests_of(named())
            .chain(drawn::requests())
            .chain(requests_of(lent::cases()))
            .chain(lent::drawn());
        let one_by_one: Vec<u8> = answered.flat_map(|request| request.answer()).collect();
        assert!(answers(&requests()) == one_by_one);
    }
}
