//! Draws pairs of files, has the program answer each in a scratch folder, and compares
//! what it prints, byte for byte, with the answer of this program.

mod report;
mod scratch;
mod shrink;

use crate::faults::MOST_CELLS_DRAWN;
use crate::pairs::{self, Pair, SHAPES};
use crate::run;
use report::Found;
use scratch::Scratch;
use std::io;
use std::path::Path;
use std::time::{Duration, Instant};

/// A line of progress is told so often.
const PROGRESS: Duration = Duration::from_secs(10);

/// Compares the pairs 1 to the count of a seed, and tells whether all agree. Ends at the
/// first that does not, with the smallest files that show it.
pub fn compare(count: u64, seed: u64, words: &[&str]) -> io::Result<bool> {
    let scratch = Scratch::new()?;
    let begun = Instant::now();
    let mut told = begun;
    for number in 1..=count {
        let pair = pairs::draw(seed, number);
        if difference(&scratch, words, &pair)?.is_some() {
            let shown = smallest(&scratch, words, pair)?;
            print!("{}", report::difference(number, seed, &shown));
            return Ok(false);
        }
        if told.elapsed() >= PROGRESS {
            told = Instant::now();
            eprintln!("{number} pairs, {} seconds", begun.elapsed().as_secs());
        }
    }
    println!("{count} pairs agree: {}", shares(count));
    Ok(true)
}

/// Writes a drawn pair to a folder, which must be there.
pub fn write(number: u64, seed: u64, folder: &Path) -> io::Result<()> {
    scratch::write(&pairs::draw(seed, number), folder, folder)
}

/// How many pairs have each shape.
fn shares(count: u64) -> String {
    let mut counts = [0; SHAPES.len()];
    for number in 1..=count {
        counts[pairs::shape(number)] += 1;
    }
    let named = SHAPES.iter().zip(counts);
    let words: Vec<String> = named
        .map(|((name, _, _), count): (_, u64)| format!("{count} {name}"))
        .collect();
    words.join(", ")
}

/// What was found if the program does not answer the pair as this one does. A pair that
/// this program cannot answer shows no difference.
fn difference(scratch: &Scratch, words: &[&str], pair: &Pair) -> io::Result<Option<Found>> {
    let [rules, policy] = pair;
    let answer = run::answer(&rules.content(), &policy.content(), MOST_CELLS_DRAWN);
    let Ok(expected) = answer else {
        return Ok(None);
    };
    let ran = scratch.run(pair, words)?;
    let agree = ran.well && ran.printed == expected.as_bytes();
    let found = Found {
        pair: pair.clone(),
        ran,
        expected,
    };
    Ok((!agree).then_some(found))
}

fn smallest(scratch: &Scratch, words: &[&str], pair: Pair) -> io::Result<Found> {
    let differs = |pair: &Pair| Ok(difference(scratch, words, pair)?.is_some());
    let smallest = shrink::smallest(pair.clone(), differs)?;
    let found = difference(scratch, words, &smallest)?;
    // A program that answers now so and now so may agree at the second time.
    Ok(found.unwrap_or_else(|| Found::gone(smallest)))
}
