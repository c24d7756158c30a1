//! Makes a pair smaller for as long as the programs differ on it: lines are dropped, then
//! fields are opened to `*`, then numbers and long lines are cut short; over and over,
//! until nothing of that can be done.

use crate::pairs::{Entry, Pair};
use std::io;
use std::time::{Duration, Instant};

/// A slow program, or one that does not end, is not run for ever.
const MOST_TRIES: usize = 4_000;
const LONGEST: Duration = Duration::from_secs(120);

/// So many pieces of a text are tried to be dropped one by one.
const MOST_PIECES: usize = 256;

/// Lines that are longer are cut by pieces, not by numbers.
const LONG: usize = 120;

pub fn smallest<D>(pair: Pair, differs: D) -> io::Result<Pair>
where
    D: FnMut(&Pair) -> io::Result<bool>,
{
    let mut shrinking = Shrinking {
        pair,
        differs,
        tries: 0,
        begun: Instant::now(),
    };
    while shrinking.pass()? {}
    Ok(shrinking.pair)
}

struct Shrinking<D> {
    pair: Pair,
    differs: D,
    tries: usize,
    begun: Instant,
}

impl<D: FnMut(&Pair) -> io::Result<bool>> Shrinking<D> {
    /// One try of everything; whether anything became smaller.
    fn pass(&mut self) -> io::Result<bool> {
        let mut smaller = false;
        for place in 0..2 {
            smaller |= self.empty(place)?;
            smaller |= self.drop_lines(place)?;
        }
        for place in 0..2 {
            smaller |= self.open_fields(place)?;
            smaller |= self.cut_long_lines(place)?;
            smaller |= self.shorten_numbers(place)?;
        }
        Ok(smaller)
    }

    /// Takes the entry in place of the old one if the programs still differ.
    fn offer(&mut self, place: usize, entry: Entry) -> io::Result<bool> {
        if self.tries >= MOST_TRIES || self.begun.elapsed() >= LONGEST {
            return Ok(false);
        }
        self.tries += 1;
        let mut pair = self.pair.clone();
        pair[place] = entry;
        let taken = pair != self.pair && (self.differs)(&pair)?;
        if taken {
            self.pair = pair;
        }
        Ok(taken)
    }

    fn offer_lines(&mut self, place: usize, lines: &[Vec<u8>]) -> io::Result<bool> {
        self.offer(place, Entry::Text(lines.concat()))
    }

    /// The lines of a text with their ends; none for what is no text.
    fn lines(&self, place: usize) -> Vec<Vec<u8>> {
        let Entry::Text(text) = &self.pair[place] else {
            return vec![];
        };
        let lines = text.split_inclusive(|byte| *byte == b'\n');
        lines.map(<[u8]>::to_vec).collect()
    }

    /// An empty file, or a plain one in place of a link.
    fn empty(&mut self, place: usize) -> io::Result<bool> {
        let linked = match &self.pair[place] {
            Entry::Text(text) if text.is_empty() => return Ok(false),
            Entry::Linked(text) => Some(Entry::Text(text.clone())),
            _ => None,
        };
        let plain = match linked {
            Some(entry) => self.offer(place, entry)?,
            None => false,
        };
        Ok(self.offer(place, Entry::Text(vec![]))? || plain)
    }

    /// Half of the lines at once at first, in the end one by one; of very many lines no
    /// fewer at once than can be tried in a short time.
    fn drop_lines(&mut self, place: usize) -> io::Result<bool> {
        let mut lines = self.lines(place);
        let mut smaller = false;
        let fewest = lines.len().div_ceil(MOST_PIECES).max(1);
        let mut count = lines.len().div_ceil(2);
        while count >= fewest {
            let mut first = 0;
            while first < lines.len() {
                let past = lines.len().min(first + count);
                let fewer = [lines[..first].concat(), lines[past..].concat()].concat();
                if self.offer(place, Entry::Text(fewer))? {
                    lines.drain(first..past);
                    smaller = true;
                } else {
                    first = past;
                }
            }
            count /= 2;
        }
        Ok(smaller)
    }

    fn open_fields(&mut self, place: usize) -> io::Result<bool> {
        let mut lines = self.lines(place);
        let mut smaller = false;
        for line in 0..lines.len() {
            let old = lines[line].clone();
            let (words, end) = unended(&old);
            let mut fields: Vec<Vec<u8>> = words
                .split(|byte| *byte == b'\t')
                .map(<[u8]>::to_vec)
                .collect();
            for field in 1..fields.len() {
                let kept = std::mem::replace(&mut fields[field], b"*".to_vec());
                lines[line] = [&fields.join(&b'\t')[..], end].concat();
                if self.offer_lines(place, &lines)? {
                    smaller = true;
                } else {
                    fields[field] = kept;
                }
            }
            lines[line] = [&fields.join(&b'\t')[..], end].concat();
        }
        Ok(smaller)
    }

    /// Pieces of long lines are dropped, the large ones first.
    fn cut_long_lines(&mut self, place: usize) -> io::Result<bool> {
        let mut lines = self.lines(place);
        let mut smaller = false;
        for line in 0..lines.len() {
            let mut count = lines[line].len() / 2;
            while lines[line].len() > LONG && count > 0 {
                let kept = lines[line].clone();
                lines[line].drain(1..=count.min(kept.len() - 2));
                if self.offer_lines(place, &lines)? {
                    smaller = true;
                } else {
                    lines[line] = kept;
                    count /= 2;
                }
            }
        }
        Ok(smaller)
    }

    /// Each number becomes 0 or 1, or loses digits.
    fn shorten_numbers(&mut self, place: usize) -> io::Result<bool> {
        let mut lines = self.lines(place);
        let mut smaller = false;
        for line in 0..lines.len() {
            if lines[line].len() > LONG {
                continue;
            }
            let mut start = 0;
            while let Some((first, past)) = number_from(&lines[line], start) {
                let shorter = shorter(&lines[line][first..past]);
                start = past;
                for digits in shorter {
                    let kept = lines[line].clone();
                    lines[line].splice(first..past, digits.iter().copied());
                    if self.offer_lines(place, &lines)? {
                        smaller = true;
                        start = first;
                        break;
                    }
                    lines[line] = kept;
                }
            }
        }
        Ok(smaller)
    }
}

/// The line and its end apart.
fn unended(line: &[u8]) -> (&[u8], &[u8]) {
    match line.strip_suffix(b"\n") {
        Some(words) => (words, b"\n"),
        None => (line, b""),
    }
}

/// Where the first number behind a place begins and has ended.
fn number_from(line: &[u8], start: usize) -> Option<(usize, usize)> {
    let digits = line[start..].iter().position(u8::is_ascii_digit)? + start;
    let length = line[digits..]
        .iter()
        .take_while(|byte| byte.is_ascii_digit());
    Some((digits, digits + length.count()))
}

/// Smaller numbers to be tried in its place, the smallest first. All are smaller or have
/// fewer digits, so that shortening ends.
fn shorter(number: &[u8]) -> Vec<Vec<u8>> {
    let tried = [
        &b"0"[..],
        b"1",
        &number[..number.len().div_ceil(2)],
        &number[..number.len() - 1],
    ];
    let smaller =
        |digits: &&[u8]| !digits.is_empty() && (digits.len(), *digits) < (number.len(), number);
    tried
        .into_iter()
        .filter(smaller)
        .map(<[u8]>::to_vec)
        .collect()
}

#[cfg(test)]
mod tests {
    use super::*;
    use crate::pairs::Unreadable;

    fn text(text: &str) -> Entry {
        Entry::Text(text.as_bytes().to_vec())
    }

    /// Shrinks as long as both files have these words in their texts.
    fn kept(pair: Pair, words: [&str; 2]) -> Pair {
        let has = |entry: &Entry, word: &str| {
            let text = String::from_utf8(entry.content().unwrap_or_default()).unwrap();
            text.contains(word)
        };
        smallest(pair, |pair| {
            Ok(has(&pair[0], words[0]) && has(&pair[1], words[1]))
        })
        .unwrap()
    }

    #[test]
    fn only_what_shows_the_difference_is_left() {
        let rules =
            text("# a note\nrule\taccept\t10.0.0.0/8\t*\ttcp\t8443\nrule\tdeny\t*\t*\t*\t*\n");
        let policy = text("ask\taccept\t*\t*\t*\t*\nbut\t1.2.3.4\t*\t*\t*\n");
        let pair = kept([rules, policy], ["\ttcp\t8", ""]);
        assert_eq!(pair, [text("rule\t*\t*\t*\ttcp\t8\n"), text("")]);
    }

    #[test]
    fn numbers_become_small_and_long_lines_short() {
        let long = format!("#{}\n", "x".repeat(30_000));
        let pair = kept([text("5 77-800 19\n"), text(&long)], ["-8", "#x"]);
        assert_eq!(pair[0], text("0 0-8 0\n"));
        let Entry::Text(left) = &pair[1] else {
            panic!("a text becomes a text");
        };
        assert!(left.len() <= LONG, "{}", left.len());
    }

    /// The tries for a text of which every byte is needed stay few.
    #[test]
    fn a_text_that_cannot_shrink_is_soon_given_up() {
        let mut tries = 0;
        let long = text(&"\n".repeat(32_768));
        let pair = smallest([long.clone(), text("")], |pair| {
            tries += 1;
            Ok(pair[0] == long)
        });
        assert_eq!(pair.unwrap(), [long.clone(), text("")]);
        assert!(tries <= 600, "{tries}");
    }

    #[test]
    fn what_is_not_needed_becomes_an_empty_file() {
        let linked = Entry::Linked(b"rule\n".to_vec());
        let pair = kept(
            [linked.clone(), Entry::Unreadable(Unreadable::Socket)],
            ["rule", ""],
        );
        assert_eq!(pair, [text("rule\n"), text("")]);
    }
}
