//! The calls that print, one by one.

use super::*;
use crate::texts::calls::Call;

const DRAWN: usize = 324;

/// Each start with room, with some, with none, and past the array.
pub const STARTS: [u64; 8] = [0, 1, 150, 198, 199, 200, 201, u64::MAX];

/// On both sides of where a number, an octet or a half has one more digit.
pub const NUMBERS: [u64; 14] = [
    0,
    1,
    9,
    10,
    99,
    100,
    255,
    256,
    1 << 16,
    1 << 24,
    u32::MAX as u64,
    1 << 32,
    u64::MAX - 9,
    u64::MAX,
];

pub fn cases() -> Vec<Case> {
    let mut cases = vec![];
    for (call, payload, text) in [document(), document_blocks(), by_hand()].concat() {
        for start in STARTS {
            let why = format!("{call:?} from {start} on");
            let payload = payload.clone();
            let request = Request::Put {
                call,
                start,
                payload,
            };
            let answer = lent("put", [216, 200], start, text);
            cases.push(Case::new(&why, request, answer));
        }
    }
    cases
}

type Putting = (Call, Vec<u8>, &'static [u8]);

/// The lines of document 01's run, and one of each kind that it names beside.
fn document() -> Vec<Putting> {
    let verdict = numbers(&[2, 2, 0, 1, FROM + 9, TO + 6, 6, 8_443]);
    let refused = [numbers(&[12, 345, 0]), b"policy.txt".to_vec()].concat();
    vec![
        (
            Call::Verdict,
            verdict,
            b"verdict wrong 2 0 1 10.20.0.9 10.30.0.6 6 8443\n",
        ),
        (Call::Total, numbers(&[4]), b"blocks 4\n"),
        (Call::Verdict, vec![], b"verdict conforms\n"),
        (Call::Total, vec![], b"blocks 0\n"),
        (
            Call::Unreadable,
            b"rules.txt".to_vec(),
            b"unreadable rules.txt\n",
        ),
        (Call::Refused, refused, b"refused policy.txt 12 345 0\n"),
    ]
}

/// 10.20.0.0 and 10.30.0.0.
const FROM: u32 = 169_082_880;
const TO: u32 = 169_738_240;

/// The block lines of the same run.
fn document_blocks() -> Vec<Putting> {
    let block = |kind, rule, [low, high]: [u32; 2], to: u32| {
        let (low, high, to) = (FROM + low, FROM + high, TO + to);
        numbers(&[kind, rule, low, high, to, to, 6, 6, 8_443, 8_443])
    };
    vec![
        (
            Call::Block,
            block(4, 0, [0, 8], 7),
            b"block 4 0 10.20.0.0 10.20.0.8 10.30.0.7 10.30.0.7 6 6 8443 8443\n",
        ),
        (
            Call::Block,
            block(2, 2, [9, 9], 6),
            b"block 2 2 10.20.0.9 10.20.0.9 10.30.0.6 10.30.0.6 6 6 8443 8443\n",
        ),
        (
            Call::Block,
            block(4, 0, [9, 9], 7),
            b"block 4 0 10.20.0.9 10.20.0.9 10.30.0.7 10.30.0.7 6 6 8443 8443\n",
        ),
        (
            Call::Block,
            block(4, 0, [10, 255], 7),
            b"block 4 0 10.20.0.10 10.20.0.255 10.30.0.7 10.30.0.7 6 6 8443 8443\n",
        ),
    ]
}

fn by_hand() -> Vec<Putting> {
    vec![
        (Call::Byte, vec![255, 1], b"\xff"),
        (Call::Byte, vec![], b"\0"),
        (Call::Bytes, b"a\nb".to_vec(), b"a\nb"),
        (Call::Bytes, vec![], b""),
        (Call::Decimal, vec![255; 8], b"18446744073709551615"),
        (Call::Decimal, vec![0, 1], b"256"),
        (Call::Total, vec![255; 9], b"blocks 18446744073709551615\n"),
        (Call::Quad, vec![255; 4], b"255.255.255.255"),
        (Call::Quad, vec![9, 0, 20, 10], b"10.20.0.9"),
        (Call::Unreadable, vec![], b"unreadable \n"),
        (Call::Refused, vec![7], b"refused  7 0 0\n"),
    ]
}

pub fn drawn(random: &mut Random) -> Vec<Request> {
    let mut requests = vec![];
    for call in Call::ALL {
        for start in STARTS {
            for number in NUMBERS {
                let payload = payload(random, call, number);
                requests.push(put(call, start, payload));
            }
        }
    }
    for _ in 0..DRAWN {
        let (call, start) = (random.pick(&Call::ALL), start(random));
        let number = number(random);
        let payload = payload(random, call, number);
        requests.push(put(call, start, payload));
    }
    requests
}

fn put(call: Call, start: u64, payload: Vec<u8>) -> Request {
    Request::Put {
        call,
        start,
        payload,
    }
}

fn start(random: &mut Random) -> u64 {
    match random.below(4) {
        0 => random.pick(&STARTS),
        1 => random.between(180, 220).into(),
        _ => random.between(0, 180).into(),
    }
}

fn number(random: &mut Random) -> u64 {
    match random.below(3) {
        0 => random.pick(&NUMBERS),
        1 => random.between(0, 70_000).into(),
        _ => {
            let [high, low] = [0, 0].map(|_| u64::from(random.between(0, u32::MAX)));
            high << 32 | low
        }
    }
}

/// Arguments that begin with a number, and where more are asked for go on with drawn
/// ones. Some payloads are cut short and some are too long.
fn payload(random: &mut Random, call: Call, first: u64) -> Vec<u8> {
    let mut payload = match call {
        Call::Bytes | Call::Unreadable => name(random, first),
        Call::Refused => [several(random, first, 3), name(random, first)].concat(),
        Call::Verdict => several(random, first, 8),
        Call::Block => several(random, first, 10),
        Call::Byte | Call::Decimal | Call::Quad | Call::Total => first.to_le_bytes().to_vec(),
    };
    match random.below(20) {
        0 => payload.truncate(random.below(payload.len() + 1)),
        1 => payload.extend([7; 50]),
        _ => {}
    }
    payload
}

/// The low half of the number stands somewhere among drawn ones.
fn several(random: &mut Random, number: u64, count: usize) -> Vec<u8> {
    let mut drawn: Vec<u32> = (0..count).map(|_| self::number(random) as u32).collect();
    drawn[random.below(count)] = number as u32;
    numbers(&drawn)
}

/// Bytes of any kind, up to as many as are lent and some more.
fn name(random: &mut Random, number: u64) -> Vec<u8> {
    let length = match number {
        0..=256 => number as usize,
        _ => random.below(40),
    };
    let names: [&[u8]; 3] = [b"rules.txt", b"policy.txt", b"\xff\0 \n\x80"];
    let name = random.pick(&names);
    name.iter().copied().cycle().take(length).collect()
}

fn numbers(numbers: &[u32]) -> Vec<u8> {
    numbers
        .iter()
        .flat_map(|number| number.to_le_bytes())
        .collect()
}
