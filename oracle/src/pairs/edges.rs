//! Pairs with one field on either side of what reads.

use super::{sets, Entry, Pair};
use crate::model::FIELDS;
use crate::random::Random;

const ADDRESSES: [&str; 16] = [
    "10.20.0.0/24",
    "10.20.0.1/24",
    "0.0.0.0/32",
    "0.0.0.0/33",
    "0.0.0.0/0.0.0.0",
    "10.0.0.0/255.0.255.0",
    "255.0.0.0",
    "256.0.0.0",
    "010.0.0.0",
    "128.0.0.0/0",
    "255.255.255.255/32",
    "1.2.3.4-1.2.3.4",
    "1.2.3.4-1.2.3.3",
    "0.0.0.0/00",
    "*/0",
    "1.2.3",
];
const PROTOCOLS: [&str; 8] = [
    "255", "256", "tcp-udp", "6-5", "5-5", "0-255", "TCP", "300-5",
];
const PORTS: [&str; 8] = [
    "65535",
    "65536",
    "5-5",
    "6-5",
    "0-65535",
    "70000-5",
    "00",
    "4294967296",
];

/// All spellings, each with a place among the fields of a block where it may stand.
pub fn spellings() -> Vec<(usize, &'static str)> {
    let addresses = (0..)
        .zip(ADDRESSES)
        .map(|(number, spelling)| (number % 2, spelling));
    let protocols = PROTOCOLS.map(|spelling| (2, spelling));
    let ports = PORTS.map(|spelling| (3, spelling));
    addresses.chain(protocols).chain(ports).collect()
}

/// A line with the spelling in a rule, a directive or an exception that is open in all
/// other fields; the other file is one that is read.
pub fn edges(random: &mut Random) -> Pair {
    let (place, spelling) = random.pick(&spellings());
    let mut fields = ["*"; FIELDS];
    fields[place] = spelling;
    let block = fields.join("\t");
    let action = random.pick(&["accept", "deny"]);
    let mut pair = sets::tiny(random);
    let (file, text) = match random.below(4) {
        0 | 1 => (0, format!("rule\t{action}\t{block}\n")),
        2 => (1, format!("ask\t{action}\t{block}\n")),
        _ => (1, format!("ask\t{action}\t*\t*\t*\t*\nbut\t{block}\n")),
    };
    pair[file] = Entry::Text(text.into_bytes());
    pair
}
