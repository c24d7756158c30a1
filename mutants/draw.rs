//! Draws small edits of Rattle sources for `mutants/run`:
//!
//!     draw lines FILE...         how many lines have code that an edit could change
//!     draw edits SEED FILE...    the edits, in the order in which they are to be tried
//!
//! An edit is another token for one in a function's body or in a constant's value, and keeps the
//! control flow. It is a line of text: file, line number, `body` or `constant`, old and new line.
//! Nothing is known of types but what is written down, so some edits do not compile.
//! The same words give the same edits on every machine.

mod edits;
mod regions;
mod tokens;

use edits::{edits_of, Edit, Kind};
use std::collections::{HashMap, HashSet};
use std::process::ExitCode;

/// splitmix64.
struct Random(u64);

impl Random {
    fn next(&mut self) -> u64 {
        self.0 = self.0.wrapping_add(0x9E37_79B9_7F4A_7C15);
        let mut mixed = self.0;
        mixed = (mixed ^ (mixed >> 30)).wrapping_mul(0xBF58_476D_1CE4_E5B9);
        mixed = (mixed ^ (mixed >> 27)).wrapping_mul(0x94D0_49BB_1331_11EB);
        mixed ^ (mixed >> 31)
    }
}

/// Puts the edits into the order in which they are tried: one of each kind in turn, and no token a second time before
/// every token of its kind has had its first.
fn shuffled(sites: Vec<Vec<Edit>>, random: &mut Random) -> Vec<Edit> {
    let mut drawn: Vec<(Kind, usize, u64, Edit)> = Vec::new();
    for site in sites {
        let mut keyed: Vec<(u64, Edit)> =
            site.into_iter().map(|edit| (random.next(), edit)).collect();
        keyed.sort_by_key(|(key, _)| *key);
        for (round, (_, edit)) in keyed.into_iter().enumerate() {
            drawn.push((edit.kind, round, random.next(), edit));
        }
    }
    drawn.sort_by_key(|(kind, round, key, _)| (*kind, *round, *key));
    let mut met: HashMap<Kind, usize> = HashMap::new();
    let mut ranked: Vec<(usize, u64, Edit)> = Vec::new();
    for (kind, _, key, edit) in drawn {
        let rank = met.entry(kind).or_default();
        ranked.push((*rank, key, edit));
        *rank += 1;
    }
    ranked.sort_by_key(|(rank, key, _)| (*rank, *key));
    ranked.into_iter().map(|(_, _, edit)| edit).collect()
}

/// The lines that an edit could change.
fn lines_with_code(text: &str) -> HashSet<usize> {
    edits_of(0, text)
        .iter()
        .flatten()
        .map(|edit| edit.line)
        .collect()
}

fn print_edits(seed: u64, files: &[(String, String)]) {
    let mut sites = Vec::new();
    for (i, (_, text)) in files.iter().enumerate() {
        sites.extend(edits_of(i, text));
    }
    let lines: Vec<Vec<&str>> = files
        .iter()
        .map(|(_, text)| text.lines().collect())
        .collect();
    for edit in shuffled(sites, &mut Random(seed)) {
        let old = lines[edit.file][edit.line];
        let (front, back) = (&old[..edit.start], &old[edit.start + edit.old.len()..]);
        let place = if edit.in_constant { "constant" } else { "body" };
        let (file, line, new) = (&files[edit.file].0, edit.line + 1, &edit.new);
        println!("{file}\t{line}\t{place}\t{old}\t{front}{new}{back}");
    }
}

fn read_all(names: &[String]) -> Option<Vec<(String, String)>> {
    let mut files = Vec::new();
    for name in names {
        match std::fs::read_to_string(name) {
            Ok(text) => files.push((name.clone(), text)),
            Err(error) => {
                eprintln!("draw: {name}: {error}");
                return None;
            }
        }
    }
    Some(files)
}

fn run(words: &[String]) -> Option<()> {
    let (command, rest) = words.split_first()?;
    match command.as_str() {
        "lines" => {
            let files = read_all(rest)?;
            let count: usize = files
                .iter()
                .map(|(_, text)| lines_with_code(text).len())
                .sum();
            println!("{count}");
        }
        "edits" => {
            let (seed, names) = rest.split_first()?;
            print_edits(seed.parse().ok()?, &read_all(names)?);
        }
        _ => return None,
    }
    Some(())
}

fn main() -> ExitCode {
    let words: Vec<String> = std::env::args().skip(1).collect();
    if run(&words).is_some() {
        return ExitCode::SUCCESS;
    }
    eprintln!("usage: draw lines FILE... | draw edits SEED FILE...");
    ExitCode::from(2)
}
