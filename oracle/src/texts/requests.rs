//! The requests about texts and their answers, as bytes. README.md has the table.
//!
//! A header line is a letter and decimal numbers below 2^64, one space before
//! each. The payload follows at once, then the next header.

use super::calls::Call;
use super::lending;
use super::parts::{field, line, Named};
use super::reading;
use crate::model::{Action, Block, Directive, Exception, PolicySet, Refusal, Rule, RuleSet};

/// No payload is longer, so that a lent buffer of this size is enough.
pub const MOST_PAYLOAD: usize = 65_536;

#[derive(Clone, Debug, PartialEq, Eq)]
pub enum Request {
    Rules(Vec<u8>),
    Policy(Vec<u8>),
    Field {
        number: u64,
        line: Vec<u8>,
    },
    Line {
        named: Named,
        number: u64,
        rules: Vec<u8>,
        policy: Vec<u8>,
    },
    /// Reading a rule text so many times, for timing.
    Timed {
        times: u64,
        rules: Vec<u8>,
    },
    /// A whole run, with so many bytes lent for what it prints. A file that is not
    /// readable has a text here too, which must not matter.
    Report {
        readable: [bool; 2],
        room: u64,
        rules: Vec<u8>,
        policy: Vec<u8>,
    },
    /// A call that prints, from a place of the bytes lent on.
    Put {
        call: Call,
        start: u64,
        payload: Vec<u8>,
    },
}

/// The answers to all requests in these bytes. Panics, telling which request it
/// is, at one that does not read.
pub fn answers(mut bytes: &[u8]) -> Vec<u8> {
    let mut answers = vec![];
    let mut number = 1;
    while !bytes.is_empty() {
        let (request, rest) =
            Request::read(bytes).unwrap_or_else(|reason| panic!("request {number}: {reason}"));
        answers.extend(request.answer());
        bytes = rest;
        number += 1;
    }
    answers
}

impl Request {
    pub fn write(&self, bytes: &mut Vec<u8>) {
        let (letter, numbers, payloads): (char, Vec<u64>, Vec<&[u8]>) = match self {
            Request::Rules(text) => ('R', vec![], vec![text]),
            Request::Policy(text) => ('P', vec![], vec![text]),
            Request::Field { number, line } => ('F', vec![*number], vec![line]),
            Request::Line {
                named,
                number,
                rules,
                policy,
            } => ('L', vec![*named as u64, *number], vec![rules, policy]),
            Request::Timed { times, rules } => ('T', vec![*times], vec![rules]),
            Request::Report {
                readable: [first, second],
                room,
                rules,
                policy,
            } => {
                let which = u64::from(*first) + 2 * u64::from(*second);
                ('O', vec![which, *room], vec![rules, policy])
            }
            Request::Put {
                call,
                start,
                payload,
            } => ('V', vec![*call as u64, *start], vec![payload]),
        };
        let payload = payloads.concat();
        assert!(payload.len() <= MOST_PAYLOAD, "too long a payload");
        let lengths = payloads.iter().map(|part| part.len() as u64);
        let numbers: Vec<u64> = numbers.into_iter().chain(lengths).collect();
        bytes.extend(told(&letter.to_string(), &numbers).into_bytes());
        bytes.push(b'\n');
        bytes.extend(payload);
    }

    /// The first request in the bytes, and the bytes behind it.
    fn read(bytes: &[u8]) -> Result<(Request, &[u8]), &'static str> {
        let end = bytes.iter().position(|byte| *byte == b'\n');
        let (header, behind) = bytes.split_at(end.ok_or("the header is not ended")?);
        let header = std::str::from_utf8(header).map_err(|_| "not a header")?;
        let mut payload = Payload(&behind[1..]);
        let (letter, numbers) = header.split_once(' ').ok_or("no numbers")?;
        let numbers: Vec<u64> = numbers.split(' ').map(number).collect::<Result<_, _>>()?;
        let request = Request::taken(letter, &numbers, &mut payload)?;
        Ok((request, payload.0))
    }

    fn taken(
        letter: &str,
        numbers: &[u64],
        payload: &mut Payload,
    ) -> Result<Request, &'static str> {
        Ok(match (letter, numbers) {
            ("R", [length]) => Request::Rules(payload.take(*length)?),
            ("P", [length]) => Request::Policy(payload.take(*length)?),
            ("F", [number, length]) => Request::Field {
                number: *number,
                line: payload.take(*length)?,
            },
            ("L", [which, number, rules, policy]) => Request::Line {
                named: named(*which)?,
                number: *number,
                rules: payload.take(*rules)?,
                policy: payload.take(*policy)?,
            },
            ("T", [times, length]) => Request::Timed {
                times: *times,
                rules: payload.take(*length)?,
            },
            ("O", [which, room, rules, policy]) => Request::Report {
                readable: readable(*which)?,
                room: *room,
                rules: payload.take(*rules)?,
                policy: payload.take(*policy)?,
            },
            ("V", [which, start, length]) => Request::Put {
                call: call(*which)?,
                start: *start,
                payload: payload.take(*length)?,
            },
            _ => return Err("no such request"),
        })
    }

    pub fn answer(&self) -> Vec<u8> {
        match self {
            // One reading is like another, so a timed one is read once here.
            Request::Rules(text) | Request::Timed { rules: text, .. } => {
                rules_told(reading::rules(text)).into_bytes()
            }
            Request::Policy(text) => policy_told(reading::policy(text)).into_bytes(),
            Request::Field { number, line } => shown("field", field(line, *number)),
            Request::Line {
                named,
                number,
                rules,
                policy,
            } => shown("line", line(rules, policy, *named, *number)),
            Request::Report {
                readable,
                room,
                rules,
                policy,
            } => lending::report(*readable, *room, [rules, policy]),
            Request::Put {
                call,
                start,
                payload,
            } => lending::put(*call, *start, payload),
        }
    }
}

/// The bytes from which payloads are taken.
struct Payload<'a>(&'a [u8]);

impl Payload<'_> {
    fn take(&mut self, length: u64) -> Result<Vec<u8>, &'static str> {
        let length = usize::try_from(length).map_err(|_| "too long")?;
        if length > self.0.len() {
            return Err("the payload is cut short");
        }
        let (taken, rest) = self.0.split_at(length);
        self.0 = rest;
        Ok(taken.to_vec())
    }
}

fn named(which: u64) -> Result<Named, &'static str> {
    match which {
        0 => Ok(Named::Rules),
        1 => Ok(Named::Policy),
        _ => Err("no such text"),
    }
}

/// Whether the rules can be read, by the lowest bit, and whether the policy can.
fn readable(which: u64) -> Result<[bool; 2], &'static str> {
    match which {
        0..=3 => Ok([which % 2 == 1, which >= 2]),
        _ => Err("no such files"),
    }
}

fn call(which: u64) -> Result<Call, &'static str> {
    let place = usize::try_from(which).map_err(|_| "no such call")?;
    Call::ALL.get(place).copied().ok_or("no such call")
}

fn number(piece: &str) -> Result<u64, &'static str> {
    if !piece.bytes().all(|byte| byte.is_ascii_digit()) {
        return Err("not a decimal number");
    }
    piece.parse().map_err(|_| "not a number below 2^64")
}

fn rules_told(read: Result<RuleSet, Refusal>) -> String {
    let (refusal, set) = apart(read, RuleSet::new(vec![]));
    let (counted, past) = set.records.split_at(set.count as usize);
    let mut numbers = refusal;
    numbers.push(set.count);
    for rule in counted {
        numbers.extend(acting(rule.action, rule.block));
    }
    let past = past.iter().filter(|rule| **rule != Rule::ZERO).count();
    format!("{} past {past}\n", told("rules", &numbers))
}

fn policy_told(read: Result<PolicySet, Refusal>) -> String {
    let (refusal, set) = apart(read, PolicySet::new(vec![], vec![]));
    let (directives, no_directives) = set.directives.split_at(set.directive_count as usize);
    let (exceptions, no_exceptions) = set.exceptions.split_at(set.exception_count as usize);
    let mut numbers = refusal;
    numbers.extend([set.directive_count, set.exception_count]);
    for directive in directives {
        numbers.extend(acting(directive.action, directive.block));
    }
    for exception in exceptions {
        numbers.push(exception.directive);
        numbers.extend(exception.block.numbers());
    }
    let asks = no_directives
        .iter()
        .filter(|record| **record != Directive::ZERO);
    let buts = no_exceptions
        .iter()
        .filter(|record| **record != Exception::ZERO);
    let past = asks.count() + buts.count();
    format!("{} past {past}\n", told("policy", &numbers))
}

/// Number, line and field, zeros if nothing is refused; and the set, the empty one
/// if it is refused.
fn apart<Set>(read: Result<Set, Refusal>, empty: Set) -> (Vec<u32>, Set) {
    match read {
        Ok(set) => (vec![0, 0, 0], set),
        Err(refusal) => (vec![refusal.number, refusal.line, refusal.field], empty),
    }
}

fn acting(action: Action, block: Block) -> Vec<u32> {
    let mut numbers = vec![action as u32];
    numbers.extend(block.numbers());
    numbers
}

fn shown(word: &str, part: &[u8]) -> Vec<u8> {
    let length = part.len();
    [format!("{word} {length}\n").as_bytes(), part, b"\n"].concat()
}

/// A word and numbers, parted by one space.
fn told<Number: ToString>(word: &str, numbers: &[Number]) -> String {
    let words: Vec<String> = numbers.iter().map(Number::to_string).collect();
    [&[word.to_string()], &words[..]].concat().join(" ")
}

#[cfg(test)]
mod tests {
    use super::*;

    #[test]
    fn each_request_is_answered_in_its_own_words() {
        let requests = "R 0\n\
            R 26\nrule\taccept\t*\t*\ttcp\t80-81\n\
            P 30\nask\tdeny\t*\t*\t*\t*\nbut\t*\t*\t*\t*\n\n\
            P 2\nbu\
            F 2 5\na\tb\tc\
            F 0 1\n\n\
            L 1 1 5 4\nrule\nask\n\
            T 3 1\n#\
            L 0 18446744073709551615 4 0\nrule";
        let expected = "rules 0 0 0 0 past 0\n\
            rules 0 0 0 1 1 0 4294967295 0 4294967295 6 6 80 81 past 0\n\
            policy 0 0 0 1 1 0 0 4294967295 0 4294967295 0 255 0 65535 \
            1 0 4294967295 0 4294967295 0 255 0 65535 past 0\n\
            policy 2 1 0 0 0 past 0\n\
            field 1\nb\n\
            field 0\n\n\
            line 3\nask\n\
            rules 2 1 0 0 past 0\n\
            line 0\n\n";
        let answers = answers(requests.as_bytes());
        assert_eq!(String::from_utf8(answers).unwrap(), expected);
    }

    #[test]
    fn requests_that_do_not_read_are_told_by_number() {
        for (text, message) in [
            ("R 0\nR 0", "request 2: the header is not ended"),
            ("R\n", "request 1: no numbers"),
            ("R 4\nabc", "request 1: the payload is cut short"),
            ("R  4\nabcd", "request 1: not a number below 2^64"),
            ("R +4\nabcd", "request 1: not a decimal number"),
            (
                "R 18446744073709551616\n",
                "request 1: not a number below 2^64",
            ),
            ("R 0 0\n", "request 1: no such request"),
            ("Q 0\n", "request 1: no such request"),
            ("L 2 0 0 0\n", "request 1: no such text"),
            ("O 4 0 0 0\n", "request 1: no such files"),
            ("V 9 0 0\n", "request 1: no such call"),
            ("V 0 0\n", "request 1: no such request"),
        ] {
            let panic = std::panic::catch_unwind(|| answers(text.as_bytes())).unwrap_err();
            assert_eq!(panic.downcast_ref::<String>().unwrap(), message);
        }
    }
}
