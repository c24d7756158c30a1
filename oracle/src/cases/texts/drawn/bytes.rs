//! Damage to the bytes of a text, and texts that are bytes and words in no order.

use crate::random::Random;

/// Bytes that mean something somewhere, and a few that never do.
const ALPHABET: &[u8] = b"\t\t\n\n##**//--..00112345678 \r\0\xffrulaskbtdenyAx+";

const WORDS: [&str; 28] = [
    "rule",
    "ask",
    "but",
    "accept",
    "deny",
    "*",
    "*",
    "10.0.0.0/8",
    "1.2.3.4",
    "tcp",
    "6",
    "80",
    "5-6",
    "6-5",
    "\t",
    "\t",
    "\t",
    "\t",
    "\t",
    "\n",
    "\n",
    "\n",
    "#",
    " ",
    "rule\taccept",
    "ask\tdeny",
    "\t*\t*\t*\t*\n",
    "but\t*\t*\t*\t*\n",
];

/// A byte changed, dropped, doubled, put in, or exchanged with the next.
pub fn change_one(random: &mut Random, text: &mut Vec<u8>) {
    if text.is_empty() {
        text.push(random.pick(ALPHABET));
        return;
    }
    let place = random.below(text.len());
    match random.below(7) {
        0 | 1 => text[place] = random.pick(ALPHABET),
        2 => {
            text.remove(place);
        }
        3 => text.insert(place, text[place]),
        4 => text.insert(place, random.pick(ALPHABET)),
        5 => {
            let next = (place + 1) % text.len();
            text.swap(place, next);
        }
        // Any byte at all, but for one bit it is what it was.
        _ => text[place] ^= 1 << random.below(8),
    }
}

pub fn tab_to_space(random: &mut Random, text: &mut [u8]) {
    let places: Vec<usize> = (0..text.len())
        .filter(|place| text[*place] == b'\t')
        .collect();
    if !places.is_empty() {
        text[random.pick(&places)] = b' ';
    }
}

/// Without its last byte, which is byte 10 in a text that is ended.
pub fn unend(text: &mut Vec<u8>) {
    text.pop();
}

pub fn in_no_order(random: &mut Random) -> Vec<u8> {
    let length = random.below(30);
    if random.one_in(2) {
        return (0..length).map(|_| random.pick(ALPHABET)).collect();
    }
    let words: String = (0..length).map(|_| random.pick(&WORDS)).collect();
    words.into_bytes()
}

/// The ended text with one `#` line put before it or behind it, so that it comes
/// to 32,766 to 32,770 bytes; now and then it loses its end.
pub fn near_the_limit(random: &mut Random, text: Vec<u8>) -> Vec<u8> {
    let length = random.between(32_766, 32_770) as usize;
    let mut note = vec![b'#'; length - 1 - text.len()];
    note.push(b'\n');
    let parts = if random.one_in(2) {
        [text, note]
    } else {
        [note, text]
    };
    let mut text = parts.concat();
    if random.one_in(5) {
        unend(&mut text);
    }
    text
}
