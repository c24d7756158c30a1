//! Reading requests, one a line, and answering them.
//!
//! A line is a letter and decimal numbers below 2^32, one space before each.
//! Empty lines and lines that start with `#` are skipped.

use crate::faults::Faults;
use crate::model::{
    label, Action, Block, Bounds, Directive, Exception, Packet, PolicySet, Refusal, Rule, RuleSet,
    FIELDS,
};

/// The answers to a text of requests. Panics, telling the line, at one that does
/// not read.
pub fn answers(text: &str) -> String {
    assert!(
        text.is_empty() || text.ends_with('\n'),
        "the last line is not ended"
    );
    let mut state = State::new();
    let mut answers = String::new();
    for (number, line) in (1..).zip(text.split_terminator('\n')) {
        if line.is_empty() || line.starts_with('#') {
            continue;
        }
        match state.answer(line) {
            Ok(Some(answer)) => {
                answers.push_str(&answer);
                answers.push('\n');
            }
            Ok(None) => {}
            Err(reason) => panic!("line {number}: {reason}"),
        }
    }
    answers
}

/// The two sets that requests change and ask about.
struct State {
    rules: RuleSet,
    policy: PolicySet,
    /// Worked out when they are first asked for, and kept until the sets change.
    faults: Option<Result<Faults, Refusal>>,
}

/// The most numbers that the listing is lent, and how many behind them are told
/// too.
const MOST_LENT: usize = 1_000;
const BEHIND: usize = 10;

impl State {
    fn new() -> State {
        State {
            rules: RuleSet::new(vec![]),
            policy: PolicySet::new(vec![], vec![]),
            faults: None,
        }
    }

    fn answer(&mut self, line: &str) -> Result<Option<String>, &'static str> {
        let (letter, numbers) = parts(line)?;
        if matches!(letter, 'R' | 'r' | 'P' | 'd' | 'e') {
            self.faults = None;
        }
        let answer = match letter {
            'R' => {
                self.rules = RuleSet::new(vec![]);
                self.rules.count = numbers[0];
                return Ok(None);
            }
            'r' => {
                *record(&mut self.rules.records, numbers[0])? = Rule {
                    action: action(numbers[1])?,
                    block: block(&numbers[2..]),
                };
                return Ok(None);
            }
            'P' => {
                self.policy = PolicySet::new(vec![], vec![]);
                self.policy.directive_count = numbers[0];
                self.policy.exception_count = numbers[1];
                return Ok(None);
            }
            'd' => {
                *record(&mut self.policy.directives, numbers[0])? = Directive {
                    action: action(numbers[1])?,
                    block: block(&numbers[2..]),
                };
                return Ok(None);
            }
            'e' => {
                *record(&mut self.policy.exceptions, numbers[0])? = Exception {
                    directive: numbers[1],
                    block: block(&numbers[2..]),
                };
                return Ok(None);
            }
            'f' => self.form(packet(&numbers)),
            's' => {
                let sets = self.rules.form().and(self.policy.form());
                told("sets", &refusal(sets))
            }
            'l' => self.label(packet(&numbers)),
            'a' => self.at(packet(&numbers)),
            'v' => self.verdict(),
            'g' => self.listing(numbers[0] as usize)?,
            'b' => {
                let in_form = block(&numbers).in_form();
                told("block", &[u32::from(in_form)])
            }
            'h' => {
                let holds = block(&numbers).holds(packet(&numbers[8..]));
                told("holds", &[u32::from(holds)])
            }
            'i' => {
                let inside = block(&numbers).lies_inside(block(&numbers[8..]));
                told("inside", &[u32::from(inside)])
            }
            'n' => narrow(&numbers)?,
            'c' => chain(&numbers),
            'w' => {
                let widest = told("widest", &Block::WIDEST.numbers());
                let lowest = told("lowest", &Packet::LOWEST.0);
                format!("{widest} {lowest}")
            }
            _ => unreachable!(),
        };
        Ok(Some(answer))
    }

    /// The refusals of the rules, the policy and the packet, each alone, then of
    /// all together; and whether the packet is in form.
    fn form(&self, packet: Packet) -> String {
        let (rules, policy) = (self.rules.form(), self.policy.form());
        let all = rules.and(policy).and(packet.form());
        let forms = [rules, policy, packet.form(), all].map(refusal).concat();
        told(
            "form",
            &[forms, vec![u32::from(packet.form().is_ok())]].concat(),
        )
    }

    fn label(&self, packet: Packet) -> String {
        let numbers = match label(&self.rules, &self.policy, packet) {
            Ok(label) => [0, 0, 0, label.kind as u32, label.rule],
            Err(refusal) => [refusal.number, refusal.line, refusal.field, 0, 0],
        };
        told("label", &numbers)
    }

    /// The deciding rule with its number, and the lowest directives that ask for
    /// accept and for deny; zeros where there are none.
    fn at(&self, packet: Packet) -> String {
        let (number, rule) = self.rules.deciding(packet).unwrap_or((0, Rule::ZERO));
        let mut numbers = vec![number, rule.action as u32];
        numbers.extend(rule.block.numbers());
        for action in [Action::Accept, Action::Deny] {
            numbers.push(self.policy.lowest_asking(action, packet).unwrap_or(0));
        }
        told("at", &numbers)
    }

    fn faults(&mut self) -> Result<&Faults, Refusal> {
        let (rules, policy) = (&self.rules, &self.policy);
        let faults = self
            .faults
            .get_or_insert_with(|| Faults::new(rules, policy));
        faults.as_ref().map_err(|refusal| *refusal)
    }

    fn verdict(&mut self) -> String {
        let mut numbers = [0; 11];
        match self.faults() {
            Ok(faults) => {
                let verdict = faults.verdict;
                let label = verdict.label;
                numbers[3..7].copy_from_slice(&[
                    label.kind as u32,
                    label.rule,
                    verdict.accept,
                    verdict.deny,
                ]);
                numbers[7..].copy_from_slice(&verdict.packet.0);
            }
            Err(refused) => numbers[..3].copy_from_slice(&refusal(Err(refused))),
        }
        told("verdict", &numbers)
    }

    /// The refusal, the total, the numbers lent and those behind them, as they are
    /// after the call.
    fn listing(&mut self, lent: usize) -> Result<String, &'static str> {
        if lent > MOST_LENT {
            return Err("too many numbers lent");
        }
        let mut buffer: Vec<u32> = (0..lent + BEHIND)
            .map(|place| u32::MAX - place as u32)
            .collect();
        let (form, total) = match self.faults() {
            Ok(faults) => (Ok(()), faults.write(&mut buffer[..lent])),
            Err(refusal) => (Err(refusal), 0),
        };
        let start = told("listing", &refusal(form));
        Ok(told(&format!("{start} {total}"), &buffer))
    }
}

fn narrow(numbers: &[u32]) -> Result<String, &'static str> {
    if !(1..=FIELDS as u32).contains(&numbers[0]) {
        return Err("no such field");
    }
    let field = numbers[0] as usize - 1;
    let bounds = Bounds::new(numbers[1], numbers[2]);
    let (shared, block) = block(&numbers[3..]).narrowed(field, bounds);
    let mut answer = vec![u32::from(shared)];
    answer.extend(block.numbers());
    Ok(told("narrow", &answer))
}

/// Narrowing in all four fields, one after another.
fn chain(numbers: &[u32]) -> String {
    let given = block(numbers);
    let mut block = block(&numbers[8..]);
    let mut answer = vec![];
    for field in 0..FIELDS {
        let (shared, narrowed) = block.narrowed(field, given.0[field]);
        answer.push(u32::from(shared));
        block = narrowed;
    }
    answer.extend(block.numbers());
    told("chain", &answer)
}

/// How many numbers follow the letter.
fn size(letter: char) -> Option<usize> {
    Some(match letter {
        's' | 'v' | 'w' => 0,
        'R' | 'g' => 1,
        'P' => 2,
        'a' | 'f' | 'l' => 4,
        'b' => 8,
        'r' | 'd' | 'e' => 10,
        'n' => 11,
        'h' => 12,
        'i' | 'c' => 16,
        _ => return None,
    })
}

fn parts(line: &str) -> Result<(char, Vec<u32>), &'static str> {
    let mut pieces = line.split(' ');
    let mut word = pieces.next().unwrap_or("").chars();
    let (Some(letter), None) = (word.next(), word.next()) else {
        return Err("no single letter");
    };
    let size = size(letter).ok_or("unknown letter")?;
    let numbers = pieces.map(number).collect::<Result<Vec<u32>, _>>()?;
    if numbers.len() != size {
        return Err("wrong count of numbers");
    }
    Ok((letter, numbers))
}

fn number(piece: &str) -> Result<u32, &'static str> {
    if !piece.bytes().all(|byte| byte.is_ascii_digit()) {
        return Err("not a decimal number");
    }
    piece.parse().map_err(|_| "not a number below 2^32")
}

fn action(number: u32) -> Result<Action, &'static str> {
    match number {
        0 => Ok(Action::Deny),
        1 => Ok(Action::Accept),
        _ => Err("no such action"),
    }
}

/// The record with this number, counted from 1.
fn record<T>(records: &mut [T], number: u32) -> Result<&mut T, &'static str> {
    (number as usize)
        .checked_sub(1)
        .and_then(|place| records.get_mut(place))
        .ok_or("no such record")
}

/// The block in the first eight numbers.
fn block(numbers: &[u32]) -> Block {
    Block::from_numbers(std::array::from_fn(|place| numbers[place]))
}

/// The packet in the first four numbers.
fn packet(numbers: &[u32]) -> Packet {
    Packet(std::array::from_fn(|place| numbers[place]))
}

fn refusal(form: Result<(), Refusal>) -> [u32; 3] {
    match form {
        Ok(()) => [0, 0, 0],
        Err(refusal) => [refusal.number, refusal.line, refusal.field],
    }
}

/// A word and numbers, parted by one space.
fn told(word: &str, numbers: &[u32]) -> String {
    let mut line = word.to_string();
    for number in numbers {
        line.push(' ');
        line.push_str(&number.to_string());
    }
    line
}

#[cfg(test)]
mod tests {
    use super::*;

    #[test]
    fn each_request_is_answered_in_its_own_words() {
        let text = "# words\n\nw\nR 65\ns\nf 0 0 256 0\nl 0 0 256 0\nR 1\nr 1 1 0 9 0 9 0 9 0 9\n\
            l 1 2 3 4\na 1 2 3 4\nP 1 1\ne 1 1 0 0 0 0 0 0 0 0\nl 0 0 0 0\na 0 0 0 0\ns\n\
            b 1 1 2 2 0 255 0 65535\nb 1 1 2 2 0 256 0 65535\nb 1 0 2 2 0 255 0 65535\n\
            h 1 2 3 4 5 6 7 8 1 4 5 8\nh 2 1 3 4 5 6 7 8 1 4 5 8\n\
            i 2 1 0 0 0 0 0 0 2 1 0 0 0 0 0 0\ni 1 1 0 0 0 0 0 0 2 2 0 0 0 0 0 0\n\
            n 3 5 300 1 2 3 4 0 9 7 8\nn 3 9 5 1 2 3 4 0 9 7 8\n\
            c 0 1 5 9 6 6 8 7 1 2 3 4 5 6 7 8\n\
            R 0\nP 0 0\nv\ng 1\nP 1 0\nv\ng 11\nR 65\nv\ng 0\n";
        let expected = "\
            widest 0 4294967295 0 4294967295 0 255 0 65535 lowest 0 0 0 0\n\
            sets 14 1 0\nform 14 1 0 0 0 0 14 3 0 14 1 0 0\nlabel 14 1 0 0 0\nlabel 0 0 0 3 1\nat 1 1 0 9 0 9 0 9 0 9 0 0\n\
            label 0 0 0 0 0\nat 1 1 0 9 0 9 0 9 0 9 1 0\nsets 0 0 0\nblock 1\nblock 0\nblock 0\n\
            holds 1\nholds 0\ninside 1\ninside 0\n\
            narrow 1 1 2 3 4 5 9 7 8\nnarrow 0 1 2 3 4 0 9 7 8\n\
            chain 1 0 1 0 1 1 3 4 6 6 7 8\n\
            verdict 0 0 0 0 0 0 0 0 0 0 0\nlisting 0 0 0 0 {11}\n\
            verdict 0 0 0 5 0 0 1 0 0 0 0\nlisting 0 0 0 1 5 0 0 0 0 0 0 0 0 0 4294967285 {10 behind}\n\
            verdict 14 1 0 0 0 0 0 0 0 0 0\nlisting 14 1 0 0 {10}\n"
            .replace("{11}", &untouched(0, 11))
            .replace("{10 behind}", &untouched(11, 21))
            .replace("{10}", &untouched(0, 10));
        assert_eq!(answers(text), expected);
    }

    /// The numbers from a place up to another as they are before the listing.
    fn untouched(from: u32, past: u32) -> String {
        let numbers = (from..past).map(|place| 4_294_967_295 - place);
        let words: Vec<String> = numbers.map(|number| number.to_string()).collect();
        words.join(" ")
    }

    #[test]
    fn lines_that_do_not_read_are_told_by_number() {
        for (text, message) in [
            ("w\nx\n", "line 2: unknown letter"),
            ("w \n", "line 1: not a number below 2^32"),
            ("f 1 2  3\n", "line 1: not a number below 2^32"),
            ("R +1\n", "line 1: not a decimal number"),
            ("R 4294967296\n", "line 1: not a number below 2^32"),
            ("\nf 1 2 3\n", "line 2: wrong count of numbers"),
            ("r 65 0 0 0 0 0 0 0 0 0\n", "line 1: no such record"),
            ("r 0 0 0 0 0 0 0 0 0 0\n", "line 1: no such record"),
            ("r 1 2 0 0 0 0 0 0 0 0\n", "line 1: no such action"),
            ("n 5 0 0 0 0 0 0 0 0 0 0\n", "line 1: no such field"),
            ("g 1000\ng 1001\n", "line 2: too many numbers lent"),
        ] {
            let panic = std::panic::catch_unwind(|| answers(text)).unwrap_err();
            assert_eq!(panic.downcast_ref::<String>().unwrap(), message);
        }
    }
}
