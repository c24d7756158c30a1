//! That the drawn texts reach every refusal, in every place where it can be.

use super::*;
use crate::model::Refusal;
use crate::texts::reading;
use std::collections::{BTreeMap, BTreeSet};

/// Where a refusal was met: in which kind of line, and its line and field. Refusals
/// of the whole text have no kind of line.
type Met = (Option<&'static str>, u32, u32);

/// All drawn texts, each with what refused it.
fn readings() -> Vec<(Vec<u8>, Option<Refusal>)> {
    let requests = texts(&mut Random::new(SEED)).into_iter();
    let readings = requests.map(|request| match request {
        Request::Rules(text) => {
            let refusal = reading::rules(&text).err();
            (text, refusal)
        }
        Request::Policy(text) => {
            let refusal = reading::policy(&text).err();
            (text, refusal)
        }
        _ => unreachable!(),
    });
    readings.collect()
}

fn met() -> BTreeMap<u32, Vec<Met>> {
    let mut met: BTreeMap<u32, Vec<Met>> = BTreeMap::new();
    for (text, refusal) in readings() {
        let (number, place) = match refusal {
            None => (0, (None, 0, 0)),
            Some(refused) => {
                let word = word(&text, refused.line);
                (refused.number, (word, refused.line, refused.field))
            }
        };
        met.entry(number).or_default().push(place);
    }
    met
}

/// The word that the refused line begins with, if it is a known one.
fn word(text: &[u8], number: u32) -> Option<&'static str> {
    let place = (number as usize).checked_sub(1)?;
    let line = text.split(|byte| *byte == b'\n').nth(place)?;
    let first = line.split(|byte| *byte == b'\t').next()?;
    let known = ["rule", "ask", "but"];
    known.into_iter().find(|word| word.as_bytes() == first)
}

#[test]
fn there_are_enough_texts() {
    let drawn = texts(&mut Random::new(SEED));
    let rules = drawn
        .iter()
        .filter(|text| matches!(text, Request::Rules(_)));
    assert_eq!((drawn.len(), rules.count()), (TEXTS, TEXTS / 2));
    let different: BTreeSet<Vec<u8>> = readings().into_iter().map(|(text, _)| text).collect();
    assert!(different.len() >= 20_000, "{}", different.len());
}

#[test]
fn a_fifth_of_the_texts_is_read() {
    let read = readings()
        .iter()
        .filter(|(_, refusal)| refusal.is_none())
        .count();
    assert!(read >= TEXTS / 5, "{read}");
}

#[test]
fn every_refusal_is_met_and_at_several_lines() {
    let met = met();
    for (number, places) in &met {
        println!("refusal {number}: {} texts", places.len());
    }
    assert!(met.keys().copied().eq(0..=13));
    for number in 2..=13 {
        let lines: BTreeSet<u32> = met[&number].iter().map(|(_, line, _)| *line).collect();
        println!("refusal {number}: {} different lines", lines.len());
        assert!(lines.len() >= 3, "{number}");
    }
}

#[test]
fn fields_are_refused_wherever_they_can_be() {
    let met = met();
    for (word, first) in [("rule", 3), ("ask", 3), ("but", 2)] {
        for (number, places) in [
            (6, &[0, 1][..]),
            (7, &[0, 1]),
            (8, &[2]),
            (9, &[3]),
            (10, &[2, 3]),
        ] {
            let own = met[&number].iter().filter(|(met, _, _)| *met == Some(word));
            let fields: BTreeSet<u32> = own.map(|(_, _, field)| *field).collect();
            let meant: BTreeSet<u32> = places.iter().map(|place| place + first).collect();
            assert_eq!(fields, meant, "{number} in {word}");
        }
    }
}
