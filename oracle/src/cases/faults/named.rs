//! Small pairs of sets, each for one sentence of document 01 or one reading (01.20
//! to 01.30).

use super::*;
use crate::model::{Bounds, FIELDS, LARGEST};

pub fn cases() -> Vec<Case> {
    [
        empty(),
        one_record(),
        conforming(),
        verdicts(),
        conflicts(),
        exceptions(),
        runs(),
        several_fields(),
        ends_of_fields(),
        one_number(),
        nested(),
        last_records(),
    ]
    .concat()
}

/// Most cases differ in their sources alone.
fn sources(low: u32, high: u32) -> Block {
    Block::from_numbers([low, high, 7, 7, 6, 6, 80, 80])
}

/// The packet of these blocks with this source.
fn from(source: u32) -> [u32; 4] {
    [source, 7, 6, 80]
}

fn listed(kind: u32, rule: u32, block: Block) -> [u32; 10] {
    let mut numbers = [kind, rule, 0, 0, 0, 0, 0, 0, 0, 0];
    numbers[2..].copy_from_slice(&block.numbers());
    numbers
}

/// Kind, rule, accept directive and deny directive at a packet.
fn at(told: [u32; 4], packet: [u32; 4]) -> [u32; 8] {
    let [a, b, c, d] = told;
    let [e, f, g, h] = packet;
    [a, b, c, d, e, f, g, h]
}

const CONFORMS: [u32; 8] = [0; 8];

fn case(
    why: &str,
    rules: Vec<Rule>,
    directives: Vec<Directive>,
    exceptions: Vec<Exception>,
    verdict: [u32; 8],
    listing: Vec<[u32; 10]>,
) -> Case {
    Case {
        why: why.to_string(),
        sets: (RuleSet::new(rules), PolicySet::new(directives, exceptions)),
        verdict,
        listing,
    }
}

fn empty() -> Vec<Case> {
    let none = case(
        "both empty conform",
        vec![],
        vec![],
        vec![],
        CONFORMS,
        vec![],
    );
    let mut past = none.clone();
    past.why = "01.27: records past the counts are not looked at".to_string();
    past.sets.0.records[0] = accept(Block::WIDEST);
    past.sets.1.directives[0] = ask_deny(Block::WIDEST);
    past.sets.1.exceptions[0] = except(9, Block([Bounds::new(1, 0); FIELDS]));
    vec![none, past]
}

fn one_record() -> Vec<Case> {
    let mut cases = vec![];
    for (what, block) in [
        ("the widest block", Block::WIDEST),
        ("the lowest packet alone", Block::ZERO),
        ("the highest packet alone", Block::only(Packet(LARGEST))),
        ("a block in the middle", sources(10, 19)),
    ] {
        let packet = block.0.map(|bounds| bounds.low);
        for rule in [accept(block), deny(block)] {
            cases.push(case(
                &format!("nothing but a rule, {what}"),
                vec![rule],
                vec![],
                vec![],
                at([3, 1, 0, 0], packet),
                vec![listed(3, 1, block)],
            ));
        }
        for (directive, kind, own, opposite) in [
            (ask_accept(block), 4, [4, 0, 1, 0], [5, 0, 0, 1]),
            (ask_deny(block), 5, [5, 0, 0, 1], [4, 0, 1, 0]),
        ] {
            cases.push(case(
                &format!("nothing but a directive, {what}"),
                vec![],
                vec![directive],
                vec![],
                at(own, packet),
                vec![listed(kind, 0, block)],
            ));
            cases.push(case(
                &format!("a directive and an exception equal to it, {what}"),
                vec![],
                vec![directive],
                vec![except(1, block)],
                at(opposite, packet),
                vec![listed(9 - kind, 0, block)],
            ));
        }
    }
    cases
}

fn conforming() -> Vec<Case> {
    vec![
        case(
            "overlapping rules with different actions are no fault",
            vec![accept(sources(10, 19)), deny(sources(10, 29))],
            vec![ask_accept(sources(10, 19)), ask_deny(sources(20, 29))],
            vec![],
            CONFORMS,
            vec![],
        ),
        case(
            "a rule that decides no packet is no fault",
            vec![accept(sources(10, 29)), deny(sources(15, 15))],
            vec![ask_accept(sources(10, 29))],
            vec![],
            CONFORMS,
            vec![],
        ),
        case(
            "a closing deny, and the directive that asks for it but for one service",
            vec![accept(sources(10, 19)), deny(Block::WIDEST)],
            vec![ask_deny(Block::WIDEST)],
            vec![except(1, sources(10, 19))],
            CONFORMS,
            vec![],
        ),
        case(
            "one directive met by three rules, three directives met by one rule",
            vec![
                accept(sources(14, 29)),
                accept(sources(10, 12)),
                accept(sources(12, 14)),
                deny(sources(40, 49)),
            ],
            vec![
                ask_accept(sources(10, 29)),
                ask_deny(sources(47, 49)),
                ask_deny(sources(40, 43)),
                ask_deny(sources(42, 48)),
            ],
            vec![],
            CONFORMS,
            vec![],
        ),
    ]
}

fn verdicts() -> Vec<Case> {
    vec![
        case(
            "the lowest faulty rule, though a higher one has a lower packet",
            vec![accept(sources(50, 59)), accept(sources(10, 19))],
            vec![],
            vec![],
            at([3, 1, 0, 0], from(50)),
            vec![listed(3, 2, sources(10, 19)), listed(3, 1, sources(50, 59))],
        ),
        case(
            "the lowest faulty rule is wrong, a higher one is unasked before it",
            vec![
                accept(sources(40, 49)),
                deny(sources(50, 59)),
                accept(sources(10, 19)),
            ],
            vec![ask_accept(sources(40, 59))],
            vec![],
            at([2, 2, 1, 0], from(50)),
            vec![listed(3, 3, sources(10, 19)), listed(2, 2, sources(50, 59))],
        ),
        case(
            "01.22: the rule's unasked packet is below its wrong one",
            vec![accept(sources(10, 29))],
            vec![ask_deny(sources(20, 29))],
            vec![],
            at([3, 1, 0, 0], from(10)),
            vec![listed(3, 1, sources(10, 19)), listed(2, 1, sources(20, 29))],
        ),
        case(
            "01.22: the rule's wrong packet is below its unasked one",
            vec![accept(sources(10, 29))],
            vec![ask_deny(sources(10, 19))],
            vec![],
            at([2, 1, 0, 1], from(10)),
            vec![listed(2, 1, sources(10, 19)), listed(3, 1, sources(20, 29))],
        ),
        case(
            "a faulty rule goes before an unmet packet below it",
            vec![deny(sources(30, 39))],
            vec![ask_accept(sources(10, 19))],
            vec![],
            at([3, 1, 0, 0], from(30)),
            vec![listed(4, 0, sources(10, 19)), listed(3, 1, sources(30, 39))],
        ),
        case(
            "01.23: the least of both unmet kinds, deny below accept",
            vec![],
            vec![ask_accept(sources(20, 29)), ask_deny(sources(10, 19))],
            vec![],
            at([5, 0, 0, 2], from(10)),
            vec![listed(5, 0, sources(10, 19)), listed(4, 0, sources(20, 29))],
        ),
        case(
            "01.23: the least of both unmet kinds, accept below deny",
            vec![],
            vec![ask_deny(sources(20, 29)), ask_accept(sources(10, 19))],
            vec![],
            at([4, 0, 2, 0], from(10)),
            vec![listed(4, 0, sources(10, 19)), listed(5, 0, sources(20, 29))],
        ),
        case(
            "the lowest directive that asks, of several and not the first",
            vec![],
            vec![
                ask_deny(sources(40, 49)),
                ask_accept(sources(12, 29)),
                ask_accept(sources(10, 29)),
                ask_accept(sources(10, 10)),
            ],
            vec![],
            at([4, 0, 3, 0], from(10)),
            vec![listed(4, 0, sources(10, 29)), listed(5, 0, sources(40, 49))],
        ),
    ]
}

fn conflicts() -> Vec<Case> {
    vec![
        case(
            "01.20: a conflict goes before faulty rules and unmet packets",
            vec![deny(sources(0, 5)), accept(sources(20, 20))],
            vec![
                ask_accept(sources(8, 9)),
                ask_deny(sources(20, 22)),
                ask_accept(sources(20, 21)),
            ],
            vec![],
            at([1, 0, 3, 2], from(20)),
            vec![
                listed(3, 1, sources(0, 5)),
                listed(4, 0, sources(8, 9)),
                listed(1, 0, sources(20, 21)),
                listed(5, 0, sources(22, 22)),
            ],
        ),
        case(
            "01.28: conflicts of different directives are one run",
            vec![accept(sources(10, 14))],
            vec![
                ask_accept(sources(10, 29)),
                ask_deny(sources(10, 19)),
                ask_deny(sources(20, 29)),
            ],
            vec![],
            at([1, 0, 1, 2], from(10)),
            vec![listed(1, 0, sources(10, 29))],
        ),
        case(
            "01.21: another directive asks for the action that an exception takes back",
            vec![accept(sources(10, 29))],
            vec![ask_accept(sources(10, 29)), ask_accept(sources(15, 15))],
            vec![except(1, sources(15, 15))],
            at([1, 0, 2, 1], from(15)),
            vec![listed(1, 0, sources(15, 15))],
        ),
        case(
            "two directives of the same action, the exception of one inside the other",
            vec![],
            vec![ask_deny(sources(10, 29)), ask_deny(sources(20, 39))],
            vec![except(2, sources(28, 31))],
            at([1, 0, 2, 1], from(28)),
            vec![
                listed(5, 0, sources(10, 27)),
                listed(1, 0, sources(28, 29)),
                listed(4, 0, sources(30, 31)),
                listed(5, 0, sources(32, 39)),
            ],
        ),
    ]
}

fn exceptions() -> Vec<Case> {
    vec![
        case(
            "only the exception is at fault, accept asked but for it",
            vec![accept(sources(10, 29))],
            vec![ask_accept(sources(10, 29))],
            vec![except(1, sources(15, 16))],
            at([2, 1, 0, 1], from(15)),
            vec![listed(2, 1, sources(15, 16))],
        ),
        case(
            "01.24: only the exception is at fault, deny asked but for it",
            vec![deny(sources(10, 29))],
            vec![ask_deny(sources(10, 29))],
            vec![except(1, sources(15, 16))],
            at([2, 1, 1, 0], from(15)),
            vec![listed(2, 1, sources(15, 16))],
        ),
        case(
            "an exception asks for the opposite action, not for nothing",
            vec![],
            vec![ask_accept(sources(10, 29))],
            vec![except(1, sources(15, 16))],
            at([4, 0, 1, 0], from(10)),
            vec![
                listed(4, 0, sources(10, 14)),
                listed(5, 0, sources(15, 16)),
                listed(4, 0, sources(17, 29)),
            ],
        ),
        case(
            "only the exception is unmet",
            vec![accept(sources(10, 14)), accept(sources(17, 29))],
            vec![ask_accept(sources(10, 29))],
            vec![except(1, sources(15, 16))],
            at([5, 0, 0, 1], from(15)),
            vec![listed(5, 0, sources(15, 16))],
        ),
        case(
            "exceptions of one directive may overlap, repeat and touch",
            vec![],
            vec![ask_accept(sources(10, 29))],
            vec![
                except(1, sources(14, 18)),
                except(1, sources(12, 15)),
                except(1, sources(14, 18)),
                except(1, sources(19, 20)),
            ],
            at([4, 0, 1, 0], from(10)),
            vec![
                listed(4, 0, sources(10, 11)),
                listed(5, 0, sources(12, 20)),
                listed(4, 0, sources(21, 29)),
            ],
        ),
    ]
}

fn runs() -> Vec<Case> {
    vec![
        case(
            "01.28: adjacent runs of the same kind and different rules",
            vec![accept(sources(10, 19)), accept(sources(20, 29))],
            vec![],
            vec![],
            at([3, 1, 0, 0], from(10)),
            vec![listed(3, 1, sources(10, 19)), listed(3, 2, sources(20, 29))],
        ),
        case(
            "01.28: adjacent wrong runs of different rules, the higher rule first",
            vec![deny(sources(20, 29)), deny(sources(10, 29))],
            vec![ask_accept(sources(10, 29))],
            vec![],
            at([2, 1, 1, 0], from(20)),
            vec![listed(2, 2, sources(10, 19)), listed(2, 1, sources(20, 29))],
        ),
        case(
            "01.28: unmet packets of different directives are one run",
            vec![],
            vec![
                ask_accept(sources(20, 29)),
                ask_accept(sources(10, 19)),
                ask_accept(sources(15, 24)),
            ],
            vec![],
            at([4, 0, 2, 0], from(10)),
            vec![listed(4, 0, sources(10, 29))],
        ),
        case(
            "a run ends where another rule decides in the middle of it",
            vec![accept(sources(15, 15)), accept(sources(10, 19))],
            vec![],
            vec![],
            at([3, 1, 0, 0], from(15)),
            vec![
                listed(3, 2, sources(10, 14)),
                listed(3, 1, sources(15, 15)),
                listed(3, 2, sources(16, 19)),
            ],
        ),
        case(
            "a good packet in the middle of a run parts it",
            vec![deny(sources(15, 15)), accept(sources(10, 19))],
            vec![ask_deny(sources(15, 15))],
            vec![],
            at([3, 2, 0, 0], from(10)),
            vec![listed(3, 2, sources(10, 14)), listed(3, 2, sources(16, 19))],
        ),
    ]
}

/// Sources 10 to 19 and 20 to 29, with destinations as told.
fn several_fields() -> Vec<Case> {
    let block =
        |low, high, to: [u32; 2]| Block::from_numbers([low, high, to[0], to[1], 6, 6, 80, 80]);
    let deep = |protocol: [u32; 2], port: [u32; 2]| {
        Block::from_numbers([3, 3, 5, 5, protocol[0], protocol[1], port[0], port[1]])
    };
    vec![
        case(
            "01.29: the same block twice, side by side, for a difference below",
            vec![accept(block(10, 19, [8, 8])), deny(block(20, 29, [8, 8]))],
            vec![ask_accept(block(10, 29, [7, 8]))],
            vec![],
            at([2, 2, 1, 0], [20, 8, 6, 80]),
            vec![
                listed(4, 0, block(10, 19, [7, 7])),
                listed(4, 0, block(20, 29, [7, 7])),
                listed(2, 2, block(20, 29, [8, 8])),
            ],
        ),
        case(
            "the order is that of the low corners, sources before destinations",
            vec![],
            vec![
                ask_deny(block(20, 29, [1, 1])),
                ask_accept(block(10, 19, [8, 9])),
                ask_accept(block(10, 19, [3, 3])),
            ],
            vec![],
            at([4, 0, 3, 0], [10, 3, 6, 80]),
            vec![
                listed(4, 0, block(10, 19, [3, 3])),
                listed(4, 0, block(10, 19, [8, 9])),
                listed(5, 0, block(20, 29, [1, 1])),
            ],
        ),
        case(
            "protocols are one run only if all their ports agree",
            vec![],
            vec![
                ask_accept(deep([6, 9], [80, 81])),
                ask_accept(deep([8, 8], [90, 90])),
            ],
            vec![],
            at([4, 0, 1, 0], [3, 5, 6, 80]),
            vec![
                listed(4, 0, deep([6, 7], [80, 81])),
                listed(4, 0, deep([8, 8], [80, 81])),
                listed(4, 0, deep([8, 8], [90, 90])),
                listed(4, 0, deep([9, 9], [80, 81])),
            ],
        ),
        case(
            "blocks that touch in two fields at once stay apart",
            vec![accept(block(10, 19, [7, 7])), accept(block(20, 29, [8, 8]))],
            vec![],
            vec![],
            at([3, 1, 0, 0], [10, 7, 6, 80]),
            vec![
                listed(3, 1, block(10, 19, [7, 7])),
                listed(3, 2, block(20, 29, [8, 8])),
            ],
        ),
        case(
            "a rule cut by a higher one into the parts of a cross",
            vec![accept(block(14, 15, [4, 5])), accept(block(10, 19, [0, 9]))],
            vec![ask_accept(block(14, 15, [4, 5]))],
            vec![],
            at([3, 2, 0, 0], [10, 0, 6, 80]),
            vec![
                listed(3, 2, block(10, 13, [0, 9])),
                listed(3, 2, block(14, 15, [0, 3])),
                listed(3, 2, block(14, 15, [6, 9])),
                listed(3, 2, block(16, 19, [0, 9])),
            ],
        ),
    ]
}

/// All packets are asked to be accepted, and all but a strip of one field are.
fn ends_of_fields() -> Vec<Case> {
    let mut cases = vec![];
    for (field, largest) in LARGEST.into_iter().enumerate() {
        let strip = |low, high| {
            let mut block = Block::WIDEST;
            block.0[field] = Bounds::new(low, high);
            block
        };
        for (what, low, high) in [
            ("up to its last number but one", 0, largest - 1),
            ("from its second number on", 1, largest),
            ("up to its middle", 0, largest / 2),
            ("from its middle on", largest / 2, largest),
            ("at its first number", 0, 0),
            ("at its last number", largest, largest),
            ("in its middle", largest / 2, largest / 2 + 1),
            ("at all its numbers", 0, largest),
        ] {
            let mut left = vec![];
            if low > 0 {
                left.push(strip(0, low - 1));
            }
            if high < largest {
                left.push(strip(high + 1, largest));
            }
            let verdict = match left.first() {
                Some(block) => at([4, 0, 1, 0], block.0.map(|bounds| bounds.low)),
                None => CONFORMS,
            };
            cases.push(case(
                &format!("field {}: a rule {what}, all asked", field + 1),
                vec![accept(strip(low, high))],
                vec![ask_accept(Block::WIDEST)],
                vec![],
                verdict,
                left.iter().map(|block| listed(4, 0, *block)).collect(),
            ));
            let mut alone = sources(10, 19);
            alone.0[field] = Bounds::new(low, high);
            cases.push(case(
                &format!("field {}: a rule {what}, nothing asked", field + 1),
                vec![deny(alone)],
                vec![],
                vec![],
                at([3, 1, 0, 0], alone.0.map(|bounds| bounds.low)),
                vec![listed(3, 1, alone)],
            ));
        }
    }
    cases
}

fn one_number() -> Vec<Case> {
    let last = LARGEST[0];
    vec![
        case(
            "one-number blocks side by side at both ends of the sources",
            vec![
                accept(sources(last, last)),
                accept(sources(0, 0)),
                accept(sources(1, 1)),
                accept(sources(last - 1, last - 1)),
            ],
            vec![ask_accept(sources(1, 1)), ask_deny(sources(last, last))],
            vec![],
            at([2, 1, 0, 2], from(last)),
            vec![
                listed(3, 2, sources(0, 0)),
                listed(3, 4, sources(last - 1, last - 1)),
                listed(2, 1, sources(last, last)),
            ],
        ),
        case(
            "a rule, a directive and an exception of one and the same packet",
            vec![accept(sources(5, 5))],
            vec![ask_accept(sources(5, 5))],
            vec![except(1, sources(5, 5))],
            at([2, 1, 0, 1], from(5)),
            vec![listed(2, 1, sources(5, 5))],
        ),
    ]
}

fn nested() -> Vec<Case> {
    let onion = |depth: u32| sources(10 + depth, 29 - depth);
    vec![
        case(
            "nested rules, the innermost first",
            vec![
                accept(onion(3)),
                deny(onion(2)),
                accept(onion(1)),
                deny(onion(0)),
            ],
            vec![ask_accept(onion(0))],
            vec![],
            at([2, 2, 1, 0], from(12)),
            vec![
                listed(2, 4, sources(10, 10)),
                listed(2, 2, sources(12, 12)),
                listed(2, 2, sources(27, 27)),
                listed(2, 4, sources(29, 29)),
            ],
        ),
        case(
            "nested rules, the outermost first",
            vec![deny(onion(0)), accept(onion(1)), deny(onion(2))],
            vec![ask_accept(onion(2))],
            vec![],
            at([3, 1, 0, 0], from(10)),
            vec![
                listed(3, 1, sources(10, 11)),
                listed(2, 1, sources(12, 27)),
                listed(3, 1, sources(28, 29)),
            ],
        ),
        case(
            "overlapping rules and directives, shifted",
            vec![accept(sources(10, 19)), deny(sources(15, 24))],
            vec![ask_accept(sources(12, 17)), ask_deny(sources(20, 29))],
            vec![],
            at([3, 1, 0, 0], from(10)),
            vec![
                listed(3, 1, sources(10, 11)),
                listed(3, 1, sources(18, 19)),
                listed(5, 0, sources(25, 29)),
            ],
        ),
    ]
}

/// All records but the last say the same and are met.
fn last_records() -> Vec<Case> {
    let mut rules = vec![accept(sources(10, 29)); MOST_RULES];
    rules[MOST_RULES - 1] = deny(sources(40, 49));
    let mut asks_deny = vec![ask_accept(sources(10, 29)); MOST_DIRECTIVES];
    asks_deny[MOST_DIRECTIVES - 1] = ask_deny(sources(40, 49));
    let mut asks_accept = vec![ask_deny(sources(10, 29)); MOST_DIRECTIVES];
    asks_accept[MOST_DIRECTIVES - 1] = ask_accept(sources(40, 49));
    let mut conflict = asks_accept.clone();
    conflict[MOST_DIRECTIVES - 1] = ask_accept(sources(29, 29));
    let mut exceptions = vec![except(1, sources(10, 10)); MOST_EXCEPTIONS];
    exceptions[MOST_EXCEPTIONS - 1] = except(1, sources(20, 20));
    let of_last = |exception: &Exception| except(32, exception.block);
    let exceptions_of_last: Vec<Exception> = exceptions.iter().map(of_last).collect();
    let mut apart = vec![ask_accept(sources(40, 49)); MOST_DIRECTIVES];
    apart[MOST_DIRECTIVES - 1] = ask_accept(sources(10, 29));
    vec![
        case(
            "only the 64th rule is at fault",
            rules,
            vec![ask_accept(sources(10, 29))],
            vec![],
            at([3, 64, 0, 0], from(40)),
            vec![listed(3, 64, sources(40, 49))],
        ),
        case(
            "only the 32nd directive is unmet, deny",
            vec![accept(sources(10, 29))],
            asks_deny,
            vec![],
            at([5, 0, 0, 32], from(40)),
            vec![listed(5, 0, sources(40, 49))],
        ),
        case(
            "only the 32nd directive is unmet, accept",
            vec![deny(sources(10, 29))],
            asks_accept,
            vec![],
            at([4, 0, 32, 0], from(40)),
            vec![listed(4, 0, sources(40, 49))],
        ),
        case(
            "only the 32nd directive conflicts",
            vec![deny(sources(10, 29))],
            conflict,
            vec![],
            at([1, 0, 32, 1], from(29)),
            vec![listed(1, 0, sources(29, 29))],
        ),
        case(
            "only the 64th exception is at fault",
            vec![deny(sources(10, 10)), accept(sources(10, 29))],
            vec![ask_accept(sources(10, 29))],
            exceptions,
            at([2, 2, 0, 1], from(20)),
            vec![listed(2, 2, sources(20, 20))],
        ),
        case(
            "only the 64th exception is at fault, of the 32nd directive",
            vec![
                deny(sources(10, 10)),
                accept(sources(10, 29)),
                accept(sources(40, 49)),
            ],
            apart,
            exceptions_of_last,
            at([2, 2, 0, 32], from(20)),
            vec![listed(2, 2, sources(20, 20))],
        ),
    ]
}
