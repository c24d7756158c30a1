//! The two texts, as far as they are in form.

use std::fs;
use std::path::Path;

/// Low and high of source, destination, protocol and port.
pub type Block = [(u64, u64); 4];

pub const LARGEST: [u64; 4] = [u32::MAX as u64, u32::MAX as u64, 255, 65_535];

pub struct Rule {
    pub accept: bool,
    pub block: Block,
}

pub struct Directive {
    pub accept: bool,
    pub block: Block,
    pub exceptions: Vec<Block>,
}

pub struct Table {
    pub rules: Vec<Rule>,
    pub directives: Vec<Directive>,
}

pub fn read(folder: &Path) -> Result<Table, String> {
    let mut table = Table {
        rules: vec![],
        directives: vec![],
    };
    for name in ["rules.txt", "policy.txt"] {
        let text = fs::read_to_string(folder.join(name)).map_err(|why| format!("{name}: {why}"))?;
        for (number, line) in (1..).zip(text.lines()) {
            if line.is_empty() || line.starts_with('#') {
                continue;
            }
            add(&mut table, line).ok_or(format!("{name}: line {number} does not read"))?;
        }
    }
    Ok(table)
}

fn add(table: &mut Table, line: &str) -> Option<()> {
    let fields: Vec<&str> = line.split('\t').collect();
    match fields[..] {
        ["rule", action, ref four @ ..] => table.rules.push(Rule {
            accept: accepts(action)?,
            block: block(four)?,
        }),
        ["ask", action, ref four @ ..] => table.directives.push(Directive {
            accept: accepts(action)?,
            block: block(four)?,
            exceptions: vec![],
        }),
        ["but", ref four @ ..] => {
            let directive = table.directives.last_mut()?;
            directive.exceptions.push(block(four)?);
        }
        _ => return None,
    }
    Some(())
}

fn accepts(action: &str) -> Option<bool> {
    match action {
        "accept" => Some(true),
        "deny" => Some(false),
        _ => None,
    }
}

fn block(fields: &[&str]) -> Option<Block> {
    let [source, destination, protocol, port] = fields else {
        return None;
    };
    Some([
        addresses(source)?,
        addresses(destination)?,
        numbers(protocol, LARGEST[2])?,
        numbers(port, LARGEST[3])?,
    ])
}

fn addresses(field: &str) -> Option<(u64, u64)> {
    if field == "*" {
        return Some((0, LARGEST[0]));
    }
    if let Some((low, length)) = field.split_once('/') {
        let low = quad(low)?;
        let size = match quad(length) {
            Some(mask) => LARGEST[0] - mask + 1,
            None => 1 << 32_u32.checked_sub(length.parse().ok()?)?,
        };
        return Some((low, low + size - 1));
    }
    range(field, quad)
}

fn numbers(field: &str, largest: u64) -> Option<(u64, u64)> {
    match field {
        "*" => Some((0, largest)),
        "tcp" => Some((6, 6)),
        "udp" => Some((17, 17)),
        "icmp" => Some((1, 1)),
        _ => range(field, |number| number.parse().ok()),
    }
}

/// One number, or two with a minus sign between them.
fn range(field: &str, number: fn(&str) -> Option<u64>) -> Option<(u64, u64)> {
    let (low, high) = field.split_once('-').unwrap_or((field, field));
    Some((number(low)?, number(high)?))
}

fn quad(field: &str) -> Option<u64> {
    let octets: Vec<&str> = field.split('.').collect();
    if octets.len() != 4 {
        return None;
    }
    octets.iter().try_fold(0, |number, octet| {
        let octet: u8 = octet.parse().ok()?;
        Some(number << 8 | octet as u64)
    })
}
