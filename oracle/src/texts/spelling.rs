//! How a field is spelled: decimal numbers, addresses, protocols and ports.
//!
//! Numbers are compared as strings of digits, and prefixes are worked out on
//! strings of ones and zeros, so that nothing here can wrap.

use crate::model::{Bounds, LARGEST};

const UNREAD_ADDRESS: u32 = 6;
const ADDRESS_OUT_OF_ORDER: u32 = 7;
const UNREAD_PROTOCOL: u32 = 8;
const UNREAD_PORT: u32 = 9;
const FALLING_NUMBERS: u32 = 10;

const BITS: usize = 32;

/// Bounds, or the number of the refusal.
type Spelled = Result<Bounds, u32>;

/// The five forms exclude each other, so at most one of them reads the field.
pub fn address(field: &[u8]) -> Spelled {
    let forms = [
        any_address,
        one_address,
        prefix_by_length,
        prefix_by_mask,
        address_range,
    ];
    forms
        .iter()
        .find_map(|form| form(field))
        .unwrap_or(Err(UNREAD_ADDRESS))
}

pub fn protocol(field: &[u8]) -> Spelled {
    match field {
        b"icmp" => Ok(Bounds::new(1, 1)),
        b"tcp" => Ok(Bounds::new(6, 6)),
        b"udp" => Ok(Bounds::new(17, 17)),
        _ => numbers(field, LARGEST[2], UNREAD_PROTOCOL),
    }
}

pub fn port(field: &[u8]) -> Spelled {
    numbers(field, LARGEST[3], UNREAD_PORT)
}

/// `*`, a number, or two numbers.
fn numbers(field: &[u8], largest: u32, unread: u32) -> Spelled {
    if field == b"*" {
        return Ok(Bounds::new(0, largest));
    }
    if let Some(only) = number(field, largest) {
        return Ok(Bounds::new(only, only));
    }
    let ends = pair(field, b'-')
        .and_then(|(low, high)| Some((number(low, largest)?, number(high, largest)?)));
    match ends {
        Some((low, high)) => rising(low, high, FALLING_NUMBERS),
        None => Err(unread),
    }
}

/// None if the field is not of this form, as in the four forms that follow.
fn any_address(field: &[u8]) -> Option<Spelled> {
    (field == b"*").then_some(Ok(Bounds::new(0, u32::MAX)))
}

fn one_address(field: &[u8]) -> Option<Spelled> {
    let only = quad(field)?;
    Some(Ok(Bounds::new(only, only)))
}

fn prefix_by_length(field: &[u8]) -> Option<Spelled> {
    let (start, length) = pair(field, b'/')?;
    let length = number(length, BITS as u32)?;
    Some(prefix(quad(start)?, length as usize))
}

fn prefix_by_mask(field: &[u8]) -> Option<Spelled> {
    let (start, mask) = pair(field, b'/')?;
    let (start, mask) = (quad(start)?, quad(mask)?);
    Some(match mask_length(mask) {
        Some(length) => prefix(start, length),
        None => Err(ADDRESS_OUT_OF_ORDER),
    })
}

fn address_range(field: &[u8]) -> Option<Spelled> {
    let (low, high) = pair(field, b'-')?;
    Some(rising(quad(low)?, quad(high)?, ADDRESS_OUT_OF_ORDER))
}

fn rising(low: u32, high: u32, refusal: u32) -> Spelled {
    let bounds = Bounds::new(low, high);
    if bounds.rise() {
        Ok(bounds)
    } else {
        Err(refusal)
    }
}

/// The addresses that begin with the first so many bits of the start, whose other
/// bits must be zero.
fn prefix(start: u32, length: usize) -> Spelled {
    let bits = bits(start);
    let (kept, past) = bits.split_at(length);
    if past.contains('1') {
        return Err(ADDRESS_OUT_OF_ORDER);
    }
    let last = format!("{kept}{}", "1".repeat(past.len()));
    let high = u32::from_str_radix(&last, 2).expect("32 bits");
    Ok(Bounds::new(start, high))
}

/// The length whose mask, written out in ones and then zeros, is this one.
fn mask_length(mask: u32) -> Option<usize> {
    let mask = bits(mask);
    (0..=BITS).find(|ones| mask == "1".repeat(*ones) + &"0".repeat(BITS - ones))
}

fn bits(address: u32) -> String {
    format!("{address:032b}")
}

/// Four numbers with a dot between each two.
fn quad(field: &[u8]) -> Option<u32> {
    let pieces: Vec<&[u8]> = field.split(|byte| *byte == b'.').collect();
    let [first, second, third, fourth] = pieces[..] else {
        return None;
    };
    let mut address = 0;
    for piece in [first, second, third, fourth] {
        address = address * 256 + number(piece, 255)?;
    }
    Some(address)
}

/// The two sides of a mark that stands in the field just once.
fn pair(field: &[u8], mark: u8) -> Option<(&[u8], &[u8])> {
    let sides: Vec<&[u8]> = field.split(|byte| *byte == mark).collect();
    match sides[..] {
        [left, right] => Some((left, right)),
        _ => None,
    }
}

/// A decimal number not above the largest. Of two that have no leading zero, the
/// longer is the larger, and of equally long ones the first different digit tells.
fn number(digits: &[u8], largest: u32) -> Option<u32> {
    let text = std::str::from_utf8(digits).ok()?;
    let decimal = !text.is_empty() && text.bytes().all(|byte| byte.is_ascii_digit());
    let leading_zero = text.len() > 1 && text.starts_with('0');
    let most = largest.to_string();
    if !decimal || leading_zero || (text.len(), text) > (most.len(), &most) {
        return None;
    }
    text.parse().ok()
}

#[cfg(test)]
mod tests {
    use super::*;

    #[test]
    fn numbers_are_those_that_the_machine_writes() {
        for largest in [0, 9, 10, 32, 99, 255, 999] {
            for value in 0..1_200 {
                let read = number(value.to_string().as_bytes(), largest);
                assert_eq!(read, (value <= largest).then_some(value));
                assert_eq!(number(format!("0{value}").as_bytes(), largest), None);
            }
        }
    }

    #[test]
    fn prefixes_share_their_first_bits() {
        for length in 0..=BITS {
            let start = u32::MAX.checked_shl((BITS - length) as u32).unwrap_or(0);
            assert_eq!(mask_length(start), Some(length));
            assert_eq!(prefix(start, length), Ok(Bounds::new(start, u32::MAX)));
            assert_eq!(prefix(0, length), Ok(Bounds::new(0, u32::MAX - start)));
        }
    }

    #[test]
    fn nine_numbers_can_stand_where_ones_end() {
        for place in 0..4 {
            let mut mask = [0; 4];
            mask[..place].fill(255);
            let fits = |number: &u8| {
                let mut mask = mask;
                mask[place] = *number;
                mask_length(u32::from_be_bytes(mask)).is_some()
            };
            let numbers: Vec<u8> = (0..=255).filter(fits).collect();
            assert_eq!(numbers, [0, 128, 192, 224, 240, 248, 252, 254, 255]);
        }
    }
}
