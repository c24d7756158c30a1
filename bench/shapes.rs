//! Rule tables and policies of several shapes, for `tables.rs`. A table of n rules has up
//! to n / 2 directives and n exceptions. The same words give the same table on every
//! machine.

pub type Block = [(u64, u64); 4];

pub const LARGEST: [u64; 4] = [u32::MAX as u64, u32::MAX as u64, 255, 65_535];
const WIDEST: Block = [
    (0, LARGEST[0]),
    (0, LARGEST[1]),
    (0, LARGEST[2]),
    (0, LARGEST[3]),
];

const DENY: usize = 0;
pub const ACCEPT: usize = 1;

/// Action and block of each rule and directive; directive and block of each exception.
#[derive(Default)]
pub struct Table {
    pub rules: Vec<(usize, Block)>,
    pub directives: Vec<(usize, Block)>,
    pub exceptions: Vec<(usize, Block)>,
}

pub fn table(shape: &str, rules: usize) -> Option<Table> {
    let mut random = Random(rules as u64);
    Some(match shape {
        "empty" => Table::default(),
        "gateway" => gateway(&mut random, rules),
        "slips" => slips(&mut random, rules),
        "random" => drawn(&mut random, rules, anywhere, false),
        "random-agreed" => drawn(&mut random, rules, anywhere, true),
        "random-halved" => halved(&mut random, rules),
        "narrow" => drawn(&mut random, rules, narrow, false),
        "narrow-agreed" => drawn(&mut random, rules, narrow, true),
        "crossed" => crossed(rules, Faults::None),
        "crossed-ports" => crossed(rules, Faults::HighPorts),
        "crossed-wrong" => crossed(rules, Faults::Everywhere),
        _ => return None,
    })
}

/// splitmix64.
struct Random(u64);

impl Random {
    /// A number from low to high, both included.
    fn between(&mut self, low: u64, high: u64) -> u64 {
        self.0 = self.0.wrapping_add(0x9E37_79B9_7F4A_7C15);
        let mut mixed = self.0;
        mixed = (mixed ^ (mixed >> 30)).wrapping_mul(0xBF58_476D_1CE4_E5B9);
        mixed = (mixed ^ (mixed >> 27)).wrapping_mul(0x94D0_49BB_1331_11EB);
        low + (mixed ^ (mixed >> 31)) % (high - low + 1)
    }

    fn below(&mut self, end: usize) -> usize {
        self.between(0, end as u64 - 1) as usize
    }
}

/// Common services: protocol and ports.
const SERVICES: [(u64, u64, u64); 9] = [
    (6, 22, 22),
    (6, 25, 25),
    (6, 53, 53),
    (17, 53, 53),
    (6, 80, 80),
    (6, 443, 443),
    (6, 8443, 8443),
    (17, 500, 500),
    (6, 6000, 6063),
];

/// A gateway that does what its policy asks. The first directive denies all but the
/// services, and each other one accepts a service. Half of the services leave out a host,
/// which has a deny above them; some have an accept for a host above that of its subnet.
/// The last rule is the closing deny.
fn gateway(random: &mut Random, rules: usize) -> Table {
    let services = rules / 2 - 1;
    let shut = rules / 4;
    let let_in = rules - 1 - services - shut;
    let mut table = Table::default();
    table.directives.push((DENY, WIDEST));
    let mut left_out = vec![];
    for place in 0..services {
        let service = service(random, place);
        let (low, high) = service[0];
        if place < shut {
            let host = random.between(low + 1, high - 1);
            let shut = with_sources(service, (host, host));
            table.rules.push((DENY, shut));
            left_out.push((place + 2, shut));
            for side in [(low, host - 1), (host + 1, high)] {
                table.exceptions.push((1, with_sources(service, side)));
            }
        } else {
            table.exceptions.push((1, service));
        }
        if place >= services - let_in.min(services) {
            let host = random.between(low, high);
            table
                .rules
                .push((ACCEPT, with_sources(service, (host, host))));
        }
        table.rules.push((ACCEPT, service));
        table.directives.push((ACCEPT, service));
    }
    table.exceptions.extend(left_out);
    table.rules.push((DENY, WIDEST));
    table
}

/// From a subnet or anywhere to a server or a subnet. No two share a destination and a
/// service.
fn service(random: &mut Random, place: usize) -> Block {
    let source = match random.below(8) {
        0 => WIDEST[0],
        1 => subnet(0x0A14_0000, 65_536),
        2 => subnet(0x0A14_0000 + 512 * random.between(0, 3), 512),
        _ => subnet(0x0A14_0000 + 256 * random.between(0, 7), 256),
    };
    let number = place as u64;
    let destination = match place % 4 {
        3 => subnet(0x0A28_0000 + 256 * number, 256),
        _ => subnet(0x0A1E_000A + number / 3, 1),
    };
    let (protocol, low, high) = SERVICES[place % SERVICES.len()];
    [source, destination, (protocol, protocol), (low, high)]
}

fn subnet(low: u64, size: u64) -> (u64, u64) {
    (low, low + size - 1)
}

fn with_sources(mut block: Block, sources: (u64, u64)) -> Block {
    block[0] = sources;
    block
}

/// The gateway with a slip at every eighth rule.
fn slips(random: &mut Random, rules: usize) -> Table {
    let mut table = gateway(random, rules);
    for (slip, place) in (3..rules - 1).step_by(8).enumerate() {
        let (action, block) = &mut table.rules[place];
        match slip % 4 {
            0 => block[3].1 += 1,
            1 => *action = 1 - *action,
            2 => block[0].1 -= (block[0].1 - block[0].0) / 2,
            _ => table.rules.swap(place, place + 1),
        }
    }
    table
}

/// Blocks drawn field by field. Directives and their exceptions ask for drawn actions; or
/// all directives ask for accept, and there are no exceptions, so that no two conflict.
fn drawn(
    random: &mut Random,
    rules: usize,
    bounds: fn(&mut Random, usize) -> (u64, u64),
    agreed: bool,
) -> Table {
    let mut table = Table::default();
    for _ in 0..rules {
        let block = std::array::from_fn(|field| bounds(random, field));
        table.rules.push((random.below(2), block));
    }
    for _ in 0..rules / 2 {
        let block = std::array::from_fn(|field| bounds(random, field));
        let action = if agreed { ACCEPT } else { random.below(2) };
        table.directives.push((action, block));
    }
    let exceptions = if agreed { 0 } else { rules };
    for place in 0..exceptions {
        let number = place / 2;
        let block = table.directives[number].1;
        let block = block.map(|(low, high)| rising(random, low, high));
        table.exceptions.push((number + 1, block));
    }
    table
}

/// Directives with blocks drawn anywhere, which ask for accept, and for each two rules that
/// share its block at a drawn number of a drawn field; the rules stand in drawn order. The
/// table conforms.
fn halved(random: &mut Random, rules: usize) -> Table {
    let mut table = Table::default();
    for _ in 0..rules / 2 {
        let block = std::array::from_fn(|field| anywhere(random, field));
        table.directives.push((ACCEPT, block));
        let field = random.below(4);
        let (low, high) = block[field];
        let middle = random.between(low, high);
        for half in [(low, middle), (middle, high)] {
            let mut block = block;
            block[field] = half;
            let place = random.below(table.rules.len() + 1);
            table.rules.insert(place, (ACCEPT, block));
        }
    }
    table
}

/// Two numbers from low to high, the lower first.
fn rising(random: &mut Random, low: u64, high: u64) -> (u64, u64) {
    let one = random.between(low, high);
    let other = random.between(low, high);
    (one.min(other), one.max(other))
}

fn anywhere(random: &mut Random, field: usize) -> (u64, u64) {
    rising(random, 0, LARGEST[field])
}

/// At most 16 numbers, near the low end of the field.
fn narrow(random: &mut Random, _field: usize) -> (u64, u64) {
    let low = random.between(0, 239);
    (low, low + random.between(0, 15))
}

enum Faults {
    None,
    HighPorts,
    Everywhere,
}

/// Blocks with bounds of their own in every field, as far as it has the numbers. In each
/// field all of them begin before one ends, so that as many as can be are left at its
/// strips. They lie one inside the other, in the first field the other way round than in
/// the others: so the one block in which neighbouring sources differ holds in the other
/// fields whatever else is left. The first directive denies all but one exception, inside
/// which lie all others, all rules and all other directives, which accept: so nothing
/// conflicts. The rules accept, and the table conforms; or they deny and are wrong, at the
/// high ports only or everywhere.
fn crossed(rules: usize, faults: Faults) -> Table {
    let mut table = Table::default();
    let outer = frame(0);
    let inner = frame(1);
    table.directives.push((DENY, outer));
    table.exceptions.push((1, inner));
    let (above, below) = match faults {
        Faults::None => (0, 2),
        Faults::HighPorts => (1, 2),
        Faults::Everywhere => (0, 0),
    };
    let directives = rules / 2 - 1;
    let exceptions = rules - 1;
    let own = rules - above - below;
    let count = (directives + exceptions + own) as u64;
    let mut blocks = (0..count).map(|place| nested(place, count));
    for block in blocks.by_ref().take(directives) {
        table.directives.push((ACCEPT, block));
    }
    for block in blocks.by_ref().take(exceptions) {
        table.exceptions.push((1, block));
    }
    if above == 1 {
        let mut block = inner;
        block[3].1 -= (directives + exceptions + own / 2) as u64;
        table.rules.push((ACCEPT, block));
    }
    let action = match faults {
        Faults::None => ACCEPT,
        _ => DENY,
    };
    let own: Vec<Block> = blocks.collect();
    for block in own.into_iter().rev() {
        table.rules.push((action, block));
    }
    if below == 2 {
        table.rules.push((ACCEPT, inner));
        table.rules.push((DENY, outer));
    }
    table
}

/// All but the outermost numbers of each field; the deeper, the fewer.
fn frame(depth: u64) -> Block {
    LARGEST.map(|largest| (depth + 1, largest - depth - 1))
}

/// One of so many blocks, from the innermost in the first field, which is the outermost in
/// the others, on.
fn nested(place: u64, count: u64) -> Block {
    std::array::from_fn(|field| {
        let depth = if field == 0 { count - 1 - place } else { place };
        let (mut low, mut high) = (depth, depth);
        if field == 2 && count > 125 {
            low = depth * 125 / (count - 1);
            high = depth * 124 / (count - 1);
        }
        (3 + low, LARGEST[field] - 3 - high)
    })
}
