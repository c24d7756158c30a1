//! Addresses: the five forms, and what is near to them but does not read (6) or is
//! out of order (7).

use super::*;

pub fn cases() -> Vec<Case> {
    [
        forms(),
        quads(),
        long_numbers(),
        lengths(),
        masks(),
        stars(),
        ranges(),
        odd_bytes(),
    ]
    .concat()
}

fn forms() -> Vec<Case> {
    let why = "document 01: Address; 01.16: a full range is the same record as `*`";
    spelled_addresses(
        why,
        &[
            ("0.0.0.0", Ok((0, 0))),
            ("0.0.0.1", Ok((1, 1))),
            ("1.2.3.4", Ok((16_909_060, 16_909_060))),
            ("255.255.255.255", Ok((4_294_967_295, 4_294_967_295))),
            ("10.0.0.0/8", Ok((167_772_160, 184_549_375))),
            ("10.0.0.0/255.0.0.0", Ok((167_772_160, 184_549_375))),
            ("1.2.3.4-1.2.3.4", Ok((16_909_060, 16_909_060))),
            ("0.0.0.255-0.0.1.0", Ok((255, 256))),
            ("1.0.0.0-2.0.0.0", Ok((16_777_216, 33_554_432))),
            ("0.0.0.0-255.255.255.255", Ok((0, 4_294_967_295))),
            ("0.0.0.0/0", Ok((0, 4_294_967_295))),
            (
                "127.255.255.255-128.0.0.0",
                Ok((2_147_483_647, 2_147_483_648)),
            ),
        ],
    )
}

fn quads() -> Vec<Case> {
    let why = "document 01: a dotted quad; no sign and no leading zero";
    let unread = ". ... 1 1.2 1.2.3 1.2.3. .1.2.3 1..2.3 1.2.3.4. 1.2.3.4.5 .1.2.3.4 00.0.0.0 \
        0.00.0.0 0.0.0.00 0.0.0.01 +1.0.0.0 -1.0.0.0 1.2.3.-4 1,2,3,4 0.0.0.256 0.0.256.0 \
        0.256.0.0 256.0.0.0 0.0.0.1000 999.0.0.0 0x0.0.0.0 a.b.c.d 0.0.0.a :: ::1 16909060 \
        4294967295 tcp any 1.2.3.4# 1.2.3.4\r 1.2.3.4\0";
    let mut cases = unread_addresses(why, unread.split(' '));
    let spaced = ["", "1.2.3.4 ", " 1.2.3.4", "1. 2.3.4", " "];
    cases.extend(unread_addresses(why, spaced));
    cases
}

/// Each is a small number plus 2^8, 2^16, 2^32, 2^64 or 2^128, or has many digits.
fn long_numbers() -> Vec<Case> {
    let why = "01.12: a number too large does not read, however many digits it has";
    let unread = "266.0.0.0 65546.0.0.0 4294967306.0.0.0 18446744073709551626.0.0.0 \
        0.0.0.340282366920938463463374607431768211457 10.0.0.0/264 10.0.0.0/65544 \
        10.0.0.0/4294967304 10.0.0.0/18446744073709551624 \
        10.0.0.0/340282366920938463463374607431768211464 10.0.0.0/4294967296 \
        10.0.0.0/18446744073709551616 10.0.0.0/511.0.0.0 10.0.0.0/65791.0.0.0 \
        10.0.0.0/4294967551.0.0.0 10.0.0.0/18446744073709551871.0.0.0 1.0.0.0-258.0.0.0 \
        1.0.0.0-18446744073709551618.0.0.0 18446744073709551617.0.0.0-2.0.0.0";
    let mut cases = unread_addresses(why, unread.split(' '));
    let many = format!("{}.0.0.0", "1".repeat(5_000));
    cases.extend(spelled(why, SOURCE, many, Err(6)));
    let zeros = format!("10.0.0.0/{}8", "0".repeat(5_000));
    cases.extend(spelled(why, DESTINATION, zeros, Err(6)));
    cases
}

fn lengths() -> Vec<Case> {
    let why = "document 01: `quad/length`, length 0 to 32; 01.12: no sign, no leading zero";
    let unread = "10.0.0.0/08 10.0.0.0/00 0.0.0.0/00 10.0.0.0/+8 10.0.0.0/-8 10.0.0.0/ \
        10.0.0.0/8/8 10.0.0.0//8 /8 / 10/8 10.0.0/8 10.0.0.0/33 10.0.0.0/34 10.0.0.0/99 \
        10.0.0.0/100 10.0.0.0/032 10.0.0.0/8. 10.0.0.0/a 10.0.0.0\\8 10.0.0.0/8\r 10.0.0.0/* \
        10.0.0.0/8,";
    let mut cases = unread_addresses(why, unread.split(' '));
    cases.extend(unread_addresses(
        why,
        ["10.0.0.0/8 ", "10.0.0.0/ 8", "10.0.0.0 /8"],
    ));
    let why = "01.10: 7 only for what reads in one of the five forms";
    cases.extend(unread_addresses(why, ["10.0.0.1/33", "256.0.0.1/8"]));
    cases
}

fn masks() -> Vec<Case> {
    let why = "document 01: `quad/mask`; 01.12: its numbers have no sign and no leading zero";
    let unread = "10.0.0.0/255 10.0.0.0/255.0 10.0.0.0/255.0.0 10.0.0.0/255.0.0.0.0 \
        10.0.0.0/255.0.0. 10.0.0.0/.255.0.0 10.0.0.0/256.0.0.0 10.0.0.0/255.00.0.0 \
        10.0.0.0/0255.0.0.0 10.0.0.0/+255.0.0.0 10.0.0.0/255.0.0.0/8 10.0.0.0/8/255.0.0.0 \
        /255.0.0.0 256.0.0.0/255.0.255.0 10.0.0.0/255.0.256.0 10.0.0.0/255.0.0.0\r";
    let mut cases = unread_addresses(why, unread.split(' '));
    let why = "01.13: no ones and only ones are masks";
    cases.extend(spelled_addresses(
        why,
        &[
            ("0.0.0.0/0.0.0.0", Ok((0, 4_294_967_295))),
            ("0.0.0.1/0.0.0.0", Err(7)),
            ("128.0.0.0/0.0.0.0", Err(7)),
            ("0.0.0.1/255.255.255.255", Ok((1, 1))),
            ("0.0.0.0/255.255.255.255", Ok((0, 0))),
        ],
    ));
    let why = "document 01: a mask must be ones followed by zeros";
    let masks = "255.0.255.0 0.0.0.1 0.0.0.255 0.255.255.255 127.0.0.0 127.255.255.255 64.0.0.0 \
        160.0.0.0 255.255.255.253 255.255.255.127 255.255.254.255 255.0.0.1 254.255.0.0 \
        255.255.0.128 1.0.0.0 85.85.85.85 170.170.170.170";
    for mask in masks.split(' ') {
        cases.extend(spelled(why, SOURCE, format!("0.0.0.0/{mask}"), Err(7)));
    }
    cases
}

fn stars() -> Vec<Case> {
    let why = "01.14: `*` only as the whole field";
    let unread = "*/0 */0.0.0.0 *-* ** *.0.0.0 10.*.0.0 *.*.*.* *\r 0.0.0.0-* *-255.255.255.255 \
        0.0.0.0/* *#";
    let mut cases = unread_addresses(why, unread.split(' '));
    cases.extend(unread_addresses(why, [" *", "* "]));
    cases
}

fn ranges() -> Vec<Case> {
    let why = "01.10: 7 for a range that reads and falls, else 6";
    spelled_addresses(
        why,
        &[
            ("2.0.0.0-1.0.0.0", Err(7)),
            ("0.0.0.1-0.0.0.0", Err(7)),
            ("255.255.255.255-0.0.0.0", Err(7)),
            ("128.0.0.0-127.255.255.255", Err(7)),
            ("2.0.0.0-1.0.0.0/8", Err(6)),
            ("2.0.0.0/8-1.0.0.0", Err(6)),
            ("1.0.0.0/8-2.0.0.0/8", Err(6)),
            ("256.0.0.0-1.0.0.0", Err(6)),
            ("2.0.0.0-256.0.0.0", Err(6)),
            ("2.0.0.0-01.0.0.0", Err(6)),
            ("1.0.0.0-", Err(6)),
            ("-1.0.0.0", Err(6)),
            ("-", Err(6)),
            ("1.0.0.0--2.0.0.0", Err(6)),
            ("1.0.0.0-2.0.0.0-3.0.0.0", Err(6)),
            ("1.0.0.0 - 2.0.0.0", Err(6)),
            ("1.0.0.0-2", Err(6)),
            ("1-2", Err(6)),
            ("1.0.0.0-255.0.0.0/8", Err(6)),
        ],
    )
}

fn odd_bytes() -> Vec<Case> {
    let why = "01.4: byte 13, byte 0 and bytes above 127 are bytes like others";
    let unread: [&[u8]; 6] = [
        b"10.0.0.\xb2",
        b"\xff",
        b"\0",
        b"10.0.0.0\xa0",
        b"\xef\xbc\x91.0.0.0",
        b"10.0.0.0\x00/8",
    ];
    let both = |spelling: &&[u8]| {
        let source = spelled(why, SOURCE, spelling, Err(6));
        [source, spelled(why, DESTINATION, spelling, Err(6))].concat()
    };
    unread.iter().flat_map(both).collect()
}

fn unread_addresses<'a>(why: &str, spellings: impl IntoIterator<Item = &'a str>) -> Vec<Case> {
    let table: Vec<(&str, Spelled)> = spellings.into_iter().map(|text| (text, Err(6))).collect();
    spelled_addresses(why, &table)
}
