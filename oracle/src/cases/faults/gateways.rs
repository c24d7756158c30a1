//! Rule tables and policies as a gateway has them: services of hosts and subnets,
//! hosts shut out above their subnet, and a closing deny. Most pairs then differ a
//! little from what the policy asks.

use super::*;
use crate::cases::labels::following;
use crate::model::{Bounds, LARGEST};

/// Common services: protocol and ports.
const SERVICES: [(u32, u32, u32); 9] = [
    (6, 22, 22),
    (6, 25, 25),
    (6, 53, 53),
    (17, 53, 53),
    (6, 80, 80),
    (6, 443, 443),
    (6, 8443, 8443),
    (17, 500, 500),
    (6, 6000, 6063),
];

/// A rule table and a policy as they are made.
pub struct Draft {
    pub rules: Vec<Rule>,
    pub directives: Vec<Directive>,
    pub exceptions: Vec<Exception>,
}

impl Draft {
    pub fn sets(self) -> Sets {
        let policy = PolicySet::new(self.directives, self.exceptions);
        (RuleSet::new(self.rules), policy)
    }
}

/// A gateway that does what its policy asks, with up to three changes.
pub fn gateway(random: &mut Random) -> Sets {
    let mut draft = agreed(random, 5);
    for _ in 0..random.pick(&[0, 0, 1, 1, 2, 3]) {
        change(random, &mut draft);
    }
    draft.sets()
}

/// A gateway of at most so many services, before any change.
pub fn agreed(random: &mut Random, most: u32) -> Draft {
    if random.one_in(2) {
        shut_but_for_services(random, most)
    } else {
        services_but_for_hosts(random, most)
    }
}

/// All is asked to be denied but for services; the rules accept them one by one and
/// close with a deny. Hosts that a service leaves out have a deny above it, and the
/// policy has the addresses on both sides of the host.
fn shut_but_for_services(random: &mut Random, most: u32) -> Draft {
    let mut rules = vec![];
    let mut exceptions = vec![];
    for _ in 0..random.between(1, most) {
        let service = service(random);
        let Bounds { low, high } = service.0[0];
        if high - low >= 7 && random.one_in(2) {
            let host = random.between(low + 1, high - 1);
            rules.push(deny(with_sources(service, host, host)));
            exceptions.push(except(1, with_sources(service, low, host - 1)));
            exceptions.push(except(1, with_sources(service, host + 1, high)));
        } else {
            exceptions.push(except(1, service));
        }
        rules.push(accept(service));
    }
    rules.push(deny(Block::WIDEST));
    Draft {
        rules,
        directives: vec![ask_deny(Block::WIDEST)],
        exceptions,
    }
}

/// A directive for each service, with hosts that it leaves out; the rules have the
/// hosts above the subnets. Now and then a closing deny that nothing asks for, or
/// one of a subnet that is asked for.
fn services_but_for_hosts(random: &mut Random, most: u32) -> Draft {
    let mut directives = vec![];
    let mut exceptions = vec![];
    for number in 1..=random.between(1, most) {
        let service = service(random);
        directives.push(if random.one_in(4) {
            ask_deny(service)
        } else {
            ask_accept(service)
        });
        for _ in 0..random.between(0, 2) {
            let host = random.between(service.0[0].low, service.0[0].high);
            exceptions.push(except(number, with_sources(service, host, host)));
        }
    }
    let mut rules = following(&directives, &exceptions);
    match random.below(5) {
        0 => rules.push(deny(Block::WIDEST)),
        1 | 2 => {
            let mut closed = Block::WIDEST;
            closed.0[1] = subnet(random, 0xC0A8_0000);
            rules.push(deny(closed));
            directives.push(ask_deny(closed));
        }
        _ => {}
    }
    Draft {
        rules,
        directives,
        exceptions,
    }
}

/// From a subnet, a host or anywhere to a host or a small subnet.
fn service(random: &mut Random) -> Block {
    let (protocol, low, high) = random.pick(&SERVICES);
    let source = match random.below(6) {
        0 => Block::WIDEST.0[0],
        1 => host(random, 0x0A14_0000),
        _ => subnet(random, 0x0A14_0000),
    };
    let destination = match random.below(4) {
        0 => subnet(random, 0x0A1E_0000),
        _ => host(random, 0x0A1E_0000),
    };
    Block([
        source,
        destination,
        Bounds::new(protocol, protocol),
        Bounds::new(low, high),
    ])
}

fn host(random: &mut Random, base: u32) -> Bounds {
    let host = base + random.between(0, 40);
    Bounds::new(host, host)
}

/// One of a few subnets, the larger ones around the smaller ones.
fn subnet(random: &mut Random, base: u32) -> Bounds {
    let size = random.pick(&[8, 16, 256, 256, 65_536]);
    let low = base + size * random.between(0, 2).min(65_536 / size - 1);
    Bounds::new(low, low + size - 1)
}

fn with_sources(mut block: Block, low: u32, high: u32) -> Block {
    block.0[0] = Bounds::new(low, high);
    block
}

/// A slip as it happens in a table or a policy.
pub fn change(random: &mut Random, draft: &mut Draft) {
    let Draft {
        rules, exceptions, ..
    } = draft;
    if rules.is_empty() {
        return;
    }
    let place = random.below(rules.len());
    let next = (place + 1) % rules.len();
    let field = random.below(4);
    match random.below(9) {
        0 => drop(rules.remove(place)),
        1 => rules.swap(place, next),
        2 => rules[place].action = rules[place].action.opposite(),
        3 => {
            let bounds = &mut rules[place].block.0[field];
            bounds.high = bounds.high.saturating_add(1).min(LARGEST[field]);
        }
        4 => {
            let bounds = &mut rules[place].block.0[field];
            bounds.low = bounds.low.saturating_sub(1);
        }
        5 => {
            let bounds = &mut rules[place].block.0[field];
            bounds.low += (bounds.high - bounds.low) / 2;
        }
        6 => drop(exceptions.pop()),
        7 => rules.reverse(),
        _ => {
            let first = rules[place];
            if rules.len() < MOST_RULES {
                rules.insert(0, first);
            }
        }
    }
}
