//! Arrays of which the first bytes are lent to a call that puts a text there. What has no
//! room is left out, and the bytes behind those lent stay.

use super::calls::Call;
use crate::faults::MOST_CELLS;
use crate::run;

/// An array's length, and how many of its bytes are lent.
struct Lent {
    all: usize,
    room: usize,
}

/// The most bytes lent for what a run prints; there are 64 more behind them.
const MOST_ROOM: u64 = 4_096;

/// What is printed for two files, with so many bytes lent.
pub fn report(readable: [bool; 2], room: u64, texts: [&[u8]; 2]) -> Vec<u8> {
    let [rules, policy] = [0, 1].map(|place| readable[place].then(|| texts[place].to_vec()));
    let printed = run::answer(&rules, &policy, MOST_CELLS).expect("no more cells than that");
    let room = room.min(MOST_ROOM) as usize;
    let lent = Lent { all: 4_160, room };
    told("report", &lent, 0, printed.as_bytes())
}

/// What a call puts from a place on.
pub fn put(call: Call, start: u64, payload: &[u8]) -> Vec<u8> {
    let lent = Lent {
        all: 216,
        room: 200,
    };
    told("put", &lent, start, &call.spelled(payload))
}

/// The place behind the text, and on the next line the array. Before the call the byte
/// at place i is 7 * i + 1 modulo 256.
fn told(word: &str, lent: &Lent, start: u64, text: &[u8]) -> Vec<u8> {
    let mut array: Vec<u8> = (0..lent.all).map(|place| (7 * place + 1) as u8).collect();
    let from = start.min(lent.room as u64) as usize;
    let count = text.len().min(lent.room - from);
    array[from..from + count].copy_from_slice(&text[..count]);
    let place = start + count as u64;
    [format!("{word} {place}\n").as_bytes(), &array, b"\n"].concat()
}
