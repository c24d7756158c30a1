//! What the calls that print put, each for arguments that are given as bytes.

use crate::faults::Verdict;
use crate::model::{Block, Kind, Label, Packet, Refusal};
use crate::printing;

#[derive(Clone, Copy, Debug, PartialEq, Eq, PartialOrd, Ord)]
pub enum Call {
    Byte,
    Bytes,
    Decimal,
    Quad,
    Verdict,
    Total,
    Block,
    Refused,
    Unreadable,
}

/// By number.
const KINDS: [Kind; 6] = [
    Kind::Good,
    Kind::Conflict,
    Kind::Wrong,
    Kind::Unasked,
    Kind::UnmetAccept,
    Kind::UnmetDeny,
];

impl Call {
    /// In the order of the numbers by which requests name them.
    pub const ALL: [Call; 9] = [
        Call::Byte,
        Call::Bytes,
        Call::Decimal,
        Call::Quad,
        Call::Verdict,
        Call::Total,
        Call::Block,
        Call::Refused,
        Call::Unreadable,
    ];

    /// What is put if there is room for all of it.
    pub fn spelled(self, payload: &[u8]) -> Vec<u8> {
        match self {
            Call::Byte => vec![payload.first().copied().unwrap_or(0)],
            Call::Bytes => payload.to_vec(),
            Call::Decimal => long_number(payload).to_string().into_bytes(),
            Call::Quad => {
                let [address] = numbers(payload);
                printing::quad(address).into_bytes()
            }
            Call::Verdict => ended(verdict(numbers(payload))),
            Call::Total => ended(printing::total(long_number(payload))),
            Call::Block => {
                let [kind, rule, bounds @ ..] = numbers::<10>(payload);
                ended(printing::block(kind, rule, Block::from_numbers(bounds)))
            }
            Call::Refused => refused(payload),
            Call::Unreadable => bytes(&printing::unreadable(&letters(payload))),
        }
    }
}

/// A packet of any kind but wrong and unasked has rule 0 in its label.
fn verdict([kind, rule, accept, deny, packet @ ..]: [u32; 8]) -> String {
    let kind = KINDS[kind as usize % KINDS.len()];
    let rule = match kind {
        Kind::Wrong | Kind::Unasked => rule,
        _ => 0,
    };
    printing::verdict(&Verdict {
        label: Label { kind, rule },
        accept,
        deny,
        packet: Packet(packet),
    })
}

fn refused(payload: &[u8]) -> Vec<u8> {
    let [number, line, field] = numbers(payload);
    let refusal = Refusal {
        number,
        line,
        field,
    };
    let name = payload.get(12..).unwrap_or_default();
    bytes(&printing::refused(&letters(name), refusal))
}

/// The first numbers of a payload, each of four bytes, the lowest first. Bytes that it
/// lacks count as 0.
fn numbers<const COUNT: usize>(payload: &[u8]) -> [u32; COUNT] {
    let mut padded = payload.to_vec();
    padded.resize(payload.len().max(4 * COUNT), 0);
    let mut four = padded.chunks_exact(4);
    [(); COUNT].map(|()| u32::from_le_bytes(four.next().unwrap().try_into().unwrap()))
}

/// The low half of 64 bits goes first.
fn long_number(payload: &[u8]) -> u64 {
    let [low, high] = numbers(payload);
    u64::from(high) << 32 | u64::from(low)
}

fn ended(line: String) -> Vec<u8> {
    (line + "\n").into_bytes()
}

/// A name of any bytes as a string, with the letter of each byte's number, and back.
fn letters(name: &[u8]) -> String {
    name.iter().copied().map(char::from).collect()
}

fn bytes(letters: &str) -> Vec<u8> {
    letters.chars().map(|letter| letter as u8).collect()
}

#[cfg(test)]
mod tests {
    use super::*;

    fn spelled(call: Call, numbers: &[u32]) -> String {
        let payload: Vec<u8> = numbers.iter().flat_map(|n| n.to_le_bytes()).collect();
        String::from_utf8(call.spelled(&payload)).unwrap()
    }

    #[test]
    fn numbers_have_their_lowest_byte_first() {
        assert_eq!(numbers(&[1, 2, 3, 4, 5]), [0x0403_0201, 5, 0]);
        assert_eq!(Call::Quad.spelled(&[9, 0, 20, 10]), b"10.20.0.9");
        assert_eq!(spelled(Call::Decimal, &[3, 1]), "4294967299");
        assert_eq!(
            spelled(Call::Total, &[u32::MAX; 2]),
            "blocks 18446744073709551615\n"
        );
        assert_eq!(Call::Decimal.spelled(b""), b"0");
        assert_eq!(Call::Byte.spelled(b""), b"\0");
    }

    #[test]
    fn a_kind_counts_modulo_six_and_some_have_no_rule() {
        let packet = "0.0.0.1 0.0.0.2 3 4\n";
        for (kind, start) in [
            (0, "verdict conforms\n".to_string()),
            (1, format!("verdict conflict 0 8 9 {packet}")),
            (2, format!("verdict wrong 7 8 9 {packet}")),
            (3, format!("verdict unasked 7 8 9 {packet}")),
            (4, format!("verdict unmet-accept 0 8 9 {packet}")),
            (5, format!("verdict unmet-deny 0 8 9 {packet}")),
        ] {
            for kind in [kind, kind + 6, kind + 600] {
                assert_eq!(spelled(Call::Verdict, &[kind, 7, 8, 9, 1, 2, 3, 4]), start);
            }
        }
    }

    #[test]
    fn a_name_may_have_any_bytes() {
        let payload = [
            &[7, 0, 0, 0, 2, 0, 0, 0, 3, 0, 0, 0][..],
            &[0, 200, b' ', 255],
        ]
        .concat();
        assert_eq!(
            Call::Refused.spelled(&payload),
            b"refused \0\xc8 \xff 7 2 3\n"
        );
        assert_eq!(Call::Refused.spelled(&payload[..5]), b"refused  7 2 0\n");
        assert_eq!(Call::Unreadable.spelled(&[255]), b"unreadable \xff\n");
    }
}
