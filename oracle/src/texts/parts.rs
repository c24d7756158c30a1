//! The parts that are shown of a line and of the two texts: a field, and the line
//! of a record asked for again.

/// Which of the two texts is named.
#[derive(Clone, Copy, Debug, PartialEq, Eq)]
pub enum Named {
    Rules,
    Policy,
}

/// The field with this number, counted from 1. One that is lacking is empty, and
/// so is field 0.
pub fn field(line: &[u8], number: u64) -> &[u8] {
    counted(line.split(|byte| *byte == b'\t'), number)
}

/// The line of the record with this number, counted from 1, or the empty part.
pub fn line<'a>(rules: &'a [u8], policy: &'a [u8], named: Named, number: u64) -> &'a [u8] {
    let (text, word): (_, &[u8]) = match named {
        Named::Rules => (rules, b"rule"),
        Named::Policy => (policy, b"ask"),
    };
    let lines = text.split(|byte| *byte == b'\n');
    counted(lines.filter(|line| field(line, 1) == word), number)
}

/// The item with this number, counted from 1; the empty part if there is none.
fn counted<'a>(mut items: impl Iterator<Item = &'a [u8]>, number: u64) -> &'a [u8] {
    number
        .checked_sub(1)
        .and_then(|place| items.nth(usize::try_from(place).ok()?))
        .unwrap_or(b"")
}
