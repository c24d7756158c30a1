//! The sets that document 01 itself shows: its one whole run, and the sets of the
//! twelve labels.

use super::*;
use crate::cases::twelve;

/// 10.20.0.0, 10.30.0.0, and the first address behind 10.20.0.0/24.
const BAY: u32 = 169_082_880;
const YARD: u32 = 169_738_240;
const PAST: u32 = BAY + 256;

pub fn cases() -> Vec<Case> {
    vec![whole_run(), second_directive(), fourth_rule()]
}

/// A block of the listing with protocol 6 and port 8443, its sources and
/// destinations told by how far they are from these addresses.
fn line(kind: u32, rule: u32, source: [u32; 2], destination: [u32; 2]) -> [u32; 10] {
    let [low, high] = source.map(|last| BAY + last);
    let [to_low, to_high] = destination.map(|last| YARD + last);
    [kind, rule, low, high, to_low, to_high, 6, 6, 8443, 8443]
}

fn whole_run() -> Case {
    Case {
        why: "document 01: One whole run".to_string(),
        sets: twelve::first_sets(),
        verdict: [2, 2, 0, 1, BAY + 9, YARD + 6, 6, 8443],
        listing: vec![
            line(4, 0, [0, 8], [7, 7]),
            line(2, 2, [9, 9], [6, 6]),
            line(4, 0, [9, 9], [7, 7]),
            line(4, 0, [10, 255], [7, 7]),
        ],
    }
}

/// Deny is asked to 10.30.0.5 from anywhere: a conflict inside 10.20.0.0/24, unmet
/// outside.
fn second_directive() -> Case {
    let unmet_deny = |low, high| [5, 0, low, high, YARD + 5, YARD + 5, 6, 6, 8443, 8443];
    Case {
        why: "document 01: the sets of L9 and L10".to_string(),
        sets: twelve::with_second_directive(),
        verdict: [1, 0, 1, 2, BAY, YARD + 5, 6, 8443],
        listing: vec![
            unmet_deny(0, BAY - 1),
            line(1, 0, [0, 8], [5, 5]),
            line(4, 0, [0, 8], [7, 7]),
            line(1, 0, [9, 9], [5, 5]),
            line(2, 2, [9, 9], [6, 6]),
            line(4, 0, [9, 9], [7, 7]),
            line(1, 0, [10, 255], [5, 5]),
            line(4, 0, [10, 255], [7, 7]),
            unmet_deny(PAST, u32::MAX),
        ],
    }
}

/// Rule 4 denies all that no rule decided before: wrong for 10.30.0.7, unasked
/// elsewhere. Inside 10.20.0.0/24 the unasked packets lie before the destinations
/// asked about, beside protocol 6 and port 8443 there, and behind them.
fn fourth_rule() -> Case {
    let open = [0, 255, 0, 65_535];
    let block = |low: u32, high: u32, to: [u32; 2], rest: [u32; 4]| {
        let [p, q, r, s] = rest;
        [3, 4, low, high, to[0], to[1], p, q, r, s]
    };
    let around = |low: u32, high: u32, to: [u32; 2], here: Option<[u32; 10]>| {
        let ports = [[6, 6, 0, 8442], [6, 6, 8444, 65_535]];
        let mut blocks = vec![
            block(low, high, to, [0, 5, 0, 65_535]),
            block(low, high, to, ports[0]),
        ];
        blocks.extend(here);
        blocks.push(block(low, high, to, ports[1]));
        blocks.push(block(low, high, to, [7, 255, 0, 65_535]));
        blocks
    };
    let mut listing = vec![block(0, BAY - 1, [0, u32::MAX], open)];
    for (low, high, wrong_by_2) in [(0, 8, false), (9, 9, true), (10, 255, false)] {
        let (from, to) = (BAY + low, BAY + high);
        listing.push(block(from, to, [0, YARD + 3], open));
        if wrong_by_2 {
            listing.extend(around(from, to, [YARD + 4, YARD + 5], None));
            let wrong = line(2, 2, [low, high], [6, 6]);
            listing.extend(around(from, to, [YARD + 6, YARD + 6], Some(wrong)));
        } else {
            listing.extend(around(from, to, [YARD + 4, YARD + 6], None));
        }
        let wrong = line(2, 4, [low, high], [7, 7]);
        listing.extend(around(from, to, [YARD + 7, YARD + 7], Some(wrong)));
        listing.push(block(from, to, [YARD + 8, u32::MAX], open));
    }
    listing.push(block(PAST, u32::MAX, [0, u32::MAX], open));
    Case {
        why: "document 01: the sets of L11 and L12".to_string(),
        sets: twelve::with_fourth_rule(),
        verdict: [2, 2, 0, 1, BAY + 9, YARD + 6, 6, 8443],
        listing,
    }
}
