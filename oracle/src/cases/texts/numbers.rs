//! Protocols and ports: numbers, words and ranges; what does not read (8, 9) and
//! what falls (10).

use super::*;

pub fn cases() -> Vec<Case> {
    [
        protocols(),
        words(),
        ports(),
        falling(),
        long_numbers(),
        odd_spellings(),
        every_protocol(),
    ]
    .concat()
}

fn protocols() -> Vec<Case> {
    let why = "document 01: Protocol; 01.16: a full range is the same record as `*`";
    spelled_in(
        why,
        PROTOCOL,
        &[
            ("*", Ok((0, 255))),
            ("0-255", Ok((0, 255))),
            ("tcp", Ok((6, 6))),
            ("udp", Ok((17, 17))),
            ("icmp", Ok((1, 1))),
            ("0", Ok((0, 0))),
            ("6", Ok((6, 6))),
            ("254-255", Ok((254, 255))),
            ("0-0", Ok((0, 0))),
            ("9-10", Ok((9, 10))),
            ("99-100", Ok((99, 100))),
            ("0-256", Err(8)),
            ("256-257", Err(8)),
        ],
    )
}

fn words() -> Vec<Case> {
    let why = "01.15: bounds are decimal numbers, words are lower case only";
    let unread = "tcp-udp icmp-tcp tcp-17 6-udp TCP Tcp UDP ICMP tc tcpp udpp icmpp icm tcp/udp \
        tcp,udp ip any all igmp icmp6 tcp\r tcp\0";
    let mut cases = unread_in(why, PROTOCOL, 8, unread.split(' '));
    cases.extend(unread_in(why, PROTOCOL, 8, ["tcp ", " tcp", "tcp 6"]));
    let why = "document 01: Port: `*`, a number, or `low-high`";
    let unread = "tcp udp icmp http ssh any";
    cases.extend(unread_in(why, PORT, 9, unread.split(' ')));
    cases
}

fn ports() -> Vec<Case> {
    let why = "document 01: Port; 01.16: a full range is the same record as `*`";
    spelled_in(
        why,
        PORT,
        &[
            ("*", Ok((0, 65_535))),
            ("0-65535", Ok((0, 65_535))),
            ("0", Ok((0, 0))),
            ("80", Ok((80, 80))),
            ("255", Ok((255, 255))),
            ("256", Ok((256, 256))),
            ("65534", Ok((65_534, 65_534))),
            ("65535-65535", Ok((65_535, 65_535))),
            ("9-10", Ok((9, 10))),
            ("9999-10000", Ok((9_999, 10_000))),
            ("0-1", Ok((0, 1))),
            ("0-65536", Err(9)),
            ("65536-65537", Err(9)),
        ],
    )
}

fn falling() -> Vec<Case> {
    let why = "01.11: 10 only for a range whose bounds read";
    [
        spelled_in(
            why,
            PROTOCOL,
            &[
                ("300-5", Err(8)),
                ("300-256", Err(8)),
                ("5-300", Err(8)),
                ("6-05", Err(8)),
                ("06-5", Err(8)),
                ("255-0", Err(10)),
                ("1-0", Err(10)),
                ("10-9", Err(10)),
                ("100-99", Err(10)),
            ],
        ),
        spelled_in(
            why,
            PORT,
            &[
                ("70000-5", Err(9)),
                ("70000-65536", Err(9)),
                ("6-05", Err(9)),
                ("06-5", Err(9)),
                ("65535-0", Err(10)),
                ("1-0", Err(10)),
                ("10-9", Err(10)),
                ("10000-9999", Err(10)),
            ],
        ),
    ]
    .concat()
}

/// A number the field can hold, plus 2^8, 2^16, 2^32, 2^64 or 2^128.
fn long_numbers() -> Vec<Case> {
    let why = "01.12: no wrapping at 2^16, 2^32 or 2^64";
    let protocols = "262 65542 4294967302 18446744073709551622 \
        340282366920938463463374607431768211462 65536 4294967296 18446744073709551616 \
        18446744073709551615 5-18446744073709551622 4294967301-6 \
        18446744073709551621-18446744073709551622 99999999999999999999 1000 2550";
    let ports = "65616 4294967376 18446744073709551696 340282366920938463463374607431768211536 \
        4294967296 18446744073709551616 18446744073709551615 79-18446744073709551696 \
        4294967375-80 18446744073709551695-18446744073709551696 99999999999999999999 100000 \
        655350";
    let mut cases = unread_in(why, PROTOCOL, 8, protocols.split(' '));
    cases.extend(unread_in(why, PORT, 9, ports.split(' ')));
    let ones = "1".repeat(5_000);
    cases.extend(spelled(why, PROTOCOL, &ones, Err(8)));
    cases.extend(spelled(why, PORT, &ones, Err(9)));
    cases.extend(spelled(why, PORT, format!("0-{ones}"), Err(9)));
    cases.extend(spelled(why, PORT, "0".repeat(5_000), Err(9)));
    cases
}

fn odd_spellings() -> Vec<Case> {
    let why = "document 01: no sign and no leading zero, except 0 itself; 01.14: `*` is whole";
    let unread = "- + 00 01 000 +6 -6 6- -6-7 5--6 5-6-7 5-6- 5-06 00-6 0-00 +5-6 5-+6 ** *-* \
        *-6 6-* 0x6 6.0 6/6 1e1 6\r *\r 6\0 1,2 1_0 #";
    let spaced = ["", " ", " 6", "6 ", "5 - 6", "5 -6", " *", "* "];
    let mut cases = vec![];
    for (place, number) in [(PROTOCOL, 8), (PORT, 9)] {
        cases.extend(unread_in(why, place, number, unread.split(' ')));
        cases.extend(unread_in(why, place, number, spaced));
    }
    let why = "01.4: bytes above 127 are bytes like others";
    let odd: [&[u8]; 5] = [
        b"\xb2",
        b"6\xff",
        b"\xd9\xa6",
        b"\xe2\x88\x97",
        b"6\xc2\xa0",
    ];
    for spelling in odd {
        cases.extend(spelled(why, PROTOCOL, spelling, Err(8)));
        cases.extend(spelled(why, PORT, spelling, Err(9)));
    }
    cases
}

/// Every number of one to three digits as protocol, with and without a zero
/// before it.
fn every_protocol() -> Vec<Case> {
    let why = "document 01: protocol 0 to 255";
    let mut cases = vec![];
    for number in 0..1_000 {
        let meant = if number <= 255 {
            Ok((number, number))
        } else {
            Err(8)
        };
        cases.push(spelled(why, PROTOCOL, number.to_string(), meant)[0].clone());
        cases.push(spelled(why, PROTOCOL, format!("0{number}"), Err(8))[0].clone());
    }
    cases
}

fn unread_in<'a>(
    why: &str,
    place: usize,
    number: u32,
    spellings: impl IntoIterator<Item = &'a str>,
) -> Vec<Case> {
    let unread = |text| (text, Err(number));
    let table: Vec<(&str, Spelled)> = spellings.into_iter().map(unread).collect();
    spelled_in(why, place, &table)
}
