//! The 33 lengths and the 33 masks, and every mask that differs in one number.

use super::*;

/// The masks of the lengths 0 to 32 and the sizes of their prefixes.
const MASKS: [(&str, u64); 33] = [
    ("0.0.0.0", 4_294_967_296),
    ("128.0.0.0", 2_147_483_648),
    ("192.0.0.0", 1_073_741_824),
    ("224.0.0.0", 536_870_912),
    ("240.0.0.0", 268_435_456),
    ("248.0.0.0", 134_217_728),
    ("252.0.0.0", 67_108_864),
    ("254.0.0.0", 33_554_432),
    ("255.0.0.0", 16_777_216),
    ("255.128.0.0", 8_388_608),
    ("255.192.0.0", 4_194_304),
    ("255.224.0.0", 2_097_152),
    ("255.240.0.0", 1_048_576),
    ("255.248.0.0", 524_288),
    ("255.252.0.0", 262_144),
    ("255.254.0.0", 131_072),
    ("255.255.0.0", 65_536),
    ("255.255.128.0", 32_768),
    ("255.255.192.0", 16_384),
    ("255.255.224.0", 8_192),
    ("255.255.240.0", 4_096),
    ("255.255.248.0", 2_048),
    ("255.255.252.0", 1_024),
    ("255.255.254.0", 512),
    ("255.255.255.0", 256),
    ("255.255.255.128", 128),
    ("255.255.255.192", 64),
    ("255.255.255.224", 32),
    ("255.255.255.240", 16),
    ("255.255.255.248", 8),
    ("255.255.255.252", 4),
    ("255.255.255.254", 2),
    ("255.255.255.255", 1),
];

pub fn cases() -> Vec<Case> {
    let lengths = 0..MASKS.len();
    let each = lengths.flat_map(|length| {
        let (mask, _) = MASKS[length];
        [by(length, &length.to_string()), by(length, mask)].concat()
    });
    each.chain(masks_beside()).chain(lengths_beside()).collect()
}

/// The lowest and the highest prefix of a length, and a bit just past the length
/// and at the end; the length written as itself or as its mask.
fn by(length: usize, written: &str) -> Vec<Case> {
    let why = format!("document 01: High is low plus size less 1; length {length}");
    let (mask, size) = MASKS[length];
    let size_less_one = (size - 1) as u32;
    let top = Ok((u32::MAX - size_less_one, u32::MAX));
    let mut cases = vec![];
    for place in [SOURCE, DESTINATION] {
        let mut case = |start: &str, meant| {
            cases.extend(spelled(&why, place, format!("{start}/{written}"), meant));
        };
        case("0.0.0.0", Ok((0, size_less_one)));
        case(mask, top);
        // The next mask has one bit more, and that one lies past the length.
        if let Some((next, _)) = MASKS.get(length + 1) {
            case(next, Err(7));
            case("0.0.0.1", Err(7));
            case("255.255.255.255", Err(7));
        }
    }
    cases
}

/// Every number in each place of a mask, ones before it and zeros behind it.
fn masks_beside() -> Vec<Case> {
    let why = "document 01: a mask must be ones followed by zeros";
    let mut cases = vec![];
    for place in 0..4 {
        for number in 0..=257 {
            let mut numbers = [0; 4];
            numbers[..place].fill(255);
            numbers[place] = number;
            let mask = numbers.map(|number| number.to_string()).join(".");
            let known = MASKS.iter().find(|(known, _)| *known == mask);
            let meant = match known {
                Some((_, size)) => Ok((0, (size - 1) as u32)),
                None if number > 255 => Err(6),
                None => Err(7),
            };
            cases.push(spelled(why, SOURCE, format!("0.0.0.0/{mask}"), meant)[0].clone());
        }
    }
    cases
}

/// Every length of one and of two digits, and some of three.
fn lengths_beside() -> Vec<Case> {
    let why = "document 01: length 0 to 32";
    let meant = |length: usize| match MASKS.get(length) {
        Some((_, size)) => Ok((0, (size - 1) as u32)),
        None => Err(6),
    };
    let lengths = 0..=130;
    let cases =
        lengths.map(|length| spelled(why, SOURCE, format!("0.0.0.0/{length}"), meant(length)));
    cases.map(|cases| cases[0].clone()).collect()
}
