//! The requests that lend bytes to what prints: cases with the lines of document 01, then
//! drawn ones with a fixed seed. The expected arrays are made here place by place.

mod puts;
mod reports;

use super::*;
use crate::random::Random;

const SEED: u64 = 2_026;

pub fn cases() -> Vec<Case> {
    [reports::cases(), puts::cases()].concat()
}

pub fn drawn() -> Vec<Request> {
    let mut random = Random::new(SEED);
    [reports::drawn(&mut random), puts::drawn(&mut random)].concat()
}

/// The answer if a text is put from a place on into the first bytes of an array, where it
/// may have no room, or none for all of it.
fn lent(word: &str, [all, room]: [u64; 2], start: u64, text: &[u8]) -> Vec<u8> {
    let falls_on = |place: u64| {
        let behind = place.checked_sub(start)?;
        text.get(behind as usize).filter(|_| place < room).copied()
    };
    let byte = |place: u64| falls_on(place).unwrap_or(((place * 7 + 1) % 256) as u8);
    let count = (0..all).filter_map(falls_on).count() as u64;
    let header = format!("{word} {}\n", start + count).into_bytes();
    let array = (0..all).map(byte);
    header.into_iter().chain(array).chain([b'\n']).collect()
}

#[cfg(test)]
mod tests;
