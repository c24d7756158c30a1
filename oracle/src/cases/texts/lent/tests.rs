//! That the cases hold, and that the drawn requests meet every call and every way in which
//! a text has room or not.

use super::*;
use crate::run;
use crate::texts::calls::Call;
use std::collections::{BTreeMap, BTreeSet};

#[test]
fn the_cases_have_the_answers_of_the_papers() {
    cases().iter().for_each(Case::assert);
}

#[test]
fn there_are_enough_requests() {
    let cases = cases().into_iter().map(|case| case.request);
    let (puts, reports): (Vec<_>, Vec<_>) = cases
        .chain(drawn())
        .partition(|request| matches!(request, Request::Put { .. }));
    assert_eq!((reports.len(), puts.len()), (700, 1_500));
    let rooms = reports.iter().filter_map(|request| match request {
        Request::Report { room, .. } => Some(*room),
        _ => None,
    });
    let rooms: BTreeSet<u64> = rooms.collect();
    assert!((0..=400).all(|room| rooms.contains(&room)));
}

#[test]
fn an_array_is_made_place_by_place() {
    assert_eq!(lent("put", [4, 2], 1, b"ab"), b"put 2\n\x01a\x0f\x16\n");
    assert_eq!(lent("put", [3, 2], 0, b"a"), b"put 1\na\x08\x0f\n");
    assert_eq!(lent("put", [3, 2], 2, b"a"), b"put 2\n\x01\x08\x0f\n");
    assert_eq!(lent("put", [3, 2], 3, b"a"), b"put 3\n\x01\x08\x0f\n");
}

/// Whether a text is put whole, in part or not at all.
fn fit(room: u64, length: usize) -> &'static str {
    match room {
        0 => "none",
        _ if room < length as u64 => "part",
        _ => "whole",
    }
}

#[test]
fn reports_of_every_kind_are_cut_and_whole() {
    let mut met: BTreeMap<(String, &str), usize> = BTreeMap::new();
    for request in drawn() {
        if let Request::Report {
            readable: [first, second],
            room,
            rules,
            policy,
        } = request
        {
            let files = [first.then_some(rules), second.then_some(policy)];
            let printed = run::answer(&files[0], &files[1], 20_000).unwrap();
            let words = printed.split([' ', '\n']).take(2);
            let words: Vec<&str> = words.collect();
            let fit = fit(room.min(4_096), printed.len());
            *met.entry((words.join(" "), fit)).or_default() += 1;
        }
    }
    println!("{met:?}");
    for words in [
        "unreadable rules.txt",
        "unreadable policy.txt",
        "refused rules.txt",
        "refused policy.txt",
        "verdict conforms",
        "verdict conflict",
        "verdict wrong",
        "verdict unasked",
        "verdict unmet-accept",
        "verdict unmet-deny",
    ] {
        for fit in ["part", "whole"] {
            let count = met.get(&(words.to_string(), fit)).copied();
            assert!(count.unwrap_or(0) >= 1, "{words}, {fit}");
        }
    }
}

#[test]
fn every_call_is_met_with_every_room() {
    let mut met: BTreeMap<(Call, &str), usize> = BTreeMap::new();
    for request in drawn() {
        if let Request::Put {
            call,
            start,
            payload,
        } = request
        {
            let length = call.spelled(&payload).len();
            let fit = fit(200_u64.saturating_sub(start), length);
            *met.entry((call, fit)).or_default() += 1;
        }
    }
    println!("{met:?}");
    for call in Call::ALL {
        let fits: &[&str] = match call {
            Call::Byte => &["none", "whole"],
            _ => &["none", "part", "whole"],
        };
        for fit in fits {
            assert!(
                met.get(&(call, *fit)).copied().unwrap_or(0) >= 20,
                "{call:?}, {fit}"
            );
        }
    }
}
