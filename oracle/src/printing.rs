//! What the program prints, as document 01's "One whole run" shows it: fields parted
//! by one space, each line ended by byte 10.

use crate::faults::{Faults, Verdict};
use crate::model::{Block, Bounds, Kind, Packet, Refusal};
use std::net::Ipv4Addr;

/// At most so many block lines are printed; the total is printed in any case.
pub const MOST_LINES: usize = 512;

pub fn unreadable(name: &str) -> String {
    format!("unreadable {name}\n")
}

pub fn refused(name: &str, refusal: Refusal) -> String {
    let Refusal {
        number,
        line,
        field,
    } = refusal;
    format!("refused {name} {number} {line} {field}\n")
}

pub fn faults(faults: &Faults) -> String {
    let mut lines = vec![verdict(&faults.verdict)];
    lines.push(total(faults.listing.len() as u64));
    for listed in faults.listing.iter().take(MOST_LINES) {
        let label = listed.label;
        lines.push(block(label.kind as u32, label.rule, listed.block));
    }
    lines.join("\n") + "\n"
}

pub fn total(count: u64) -> String {
    format!("blocks {count}")
}

/// The word, rule, accept directive, deny directive and packet; nothing stands behind
/// `conforms`.
pub fn verdict(verdict: &Verdict) -> String {
    let word = match verdict.label.kind {
        Kind::Good => return "verdict conforms".to_string(),
        Kind::Conflict => "conflict",
        Kind::Wrong => "wrong",
        Kind::Unasked => "unasked",
        Kind::UnmetAccept => "unmet-accept",
        Kind::UnmetDeny => "unmet-deny",
    };
    let Packet([source, destination, protocol, port]) = verdict.packet;
    let (source, destination) = (quad(source), quad(destination));
    let (rule, accept, deny) = (verdict.label.rule, verdict.accept, verdict.deny);
    format!("verdict {word} {rule} {accept} {deny} {source} {destination} {protocol} {port}")
}

/// Kind and rule by number, then four pairs of bounds.
pub fn block(kind: u32, rule: u32, block: Block) -> String {
    let [source, destination, protocol, port] = block.0;
    let addresses =
        [source, destination].map(|Bounds { low, high }| format!("{} {}", quad(low), quad(high)));
    let numbers = [protocol, port].map(|Bounds { low, high }| format!("{low} {high}"));
    format!(
        "block {kind} {rule} {} {}",
        addresses.join(" "),
        numbers.join(" ")
    )
}

pub fn quad(address: u32) -> String {
    Ipv4Addr::from(address).to_string()
}

#[cfg(test)]
mod tests {
    use super::*;
    use crate::faults::Listed;
    use crate::model::Label;

    fn told(kind: Kind, rule: u32, directives: [u32; 2], packet: [u32; 4]) -> String {
        verdict(&Verdict {
            label: Label { kind, rule },
            accept: directives[0],
            deny: directives[1],
            packet: Packet(packet),
        })
    }

    #[test]
    fn each_verdict_has_its_word() {
        let top = [u32::MAX, u32::MAX, 255, 65_535];
        let last = "255.255.255.255 255.255.255.255 255 65535";
        for (kind, rule, directives, line) in [
            (
                Kind::Conflict,
                0,
                [3, 32],
                format!("verdict conflict 0 3 32 {last}"),
            ),
            (
                Kind::Wrong,
                64,
                [0, 7],
                format!("verdict wrong 64 0 7 {last}"),
            ),
            (
                Kind::Unasked,
                10,
                [0, 0],
                format!("verdict unasked 10 0 0 {last}"),
            ),
            (
                Kind::UnmetAccept,
                0,
                [9, 0],
                format!("verdict unmet-accept 0 9 0 {last}"),
            ),
            (
                Kind::UnmetDeny,
                0,
                [0, 1],
                format!("verdict unmet-deny 0 0 1 {last}"),
            ),
        ] {
            assert_eq!(told(kind, rule, directives, top), line);
        }
        let conforms = told(Kind::Good, 0, [0, 0], [0, 0, 0, 0]);
        assert_eq!(conforms, "verdict conforms");
    }

    #[test]
    fn addresses_are_quads_without_leading_zeros() {
        let packet = [0x0A14_0009, 0x0100_00FF, 0, 100];
        let line = "verdict unasked 1 0 0 10.20.0.9 1.0.0.255 0 100";
        assert_eq!(told(Kind::Unasked, 1, [0, 0], packet), line);
    }

    #[test]
    fn a_block_has_its_kind_by_number_and_all_bounds() {
        let line = "block 5 0 0.0.0.0 255.255.255.255 0.0.0.0 255.255.255.255 0 255 0 65535";
        assert_eq!(block(Kind::UnmetDeny as u32, 0, Block::WIDEST), line);
    }

    #[test]
    fn no_more_than_512_blocks_are_printed_but_all_are_counted() {
        for total in [0, 1, 511, 512, 513, 2_000] {
            let verdict = Verdict {
                label: Label {
                    kind: Kind::Unasked,
                    rule: 1,
                },
                accept: 0,
                deny: 0,
                packet: Packet::LOWEST,
            };
            let listed = |port: u32| Listed {
                label: verdict.label,
                block: Block::only(Packet([0, 0, 0, port])),
            };
            let listing = (0..total).map(listed).collect();
            let printed = faults(&Faults { verdict, listing });
            let lines: Vec<&str> = printed.lines().collect();
            assert_eq!(lines[1], format!("blocks {total}"));
            assert_eq!(lines.len(), 2 + total.min(512) as usize);
            if let Some(last) = lines[2..].last() {
                let port = total.min(512) - 1;
                let line = format!("block 3 1 0.0.0.0 0.0.0.0 0.0.0.0 0.0.0.0 0 0 {port} {port}");
                assert_eq!(*last, line);
            }
        }
    }

    #[test]
    fn a_refusal_is_one_line_with_the_file_and_its_three_numbers() {
        let refusal = Refusal {
            number: 12,
            line: 345,
            field: 6,
        };
        assert_eq!(
            refused("policy.txt", refusal),
            "refused policy.txt 12 345 6\n"
        );
        assert_eq!(unreadable("rules.txt"), "unreadable rules.txt\n");
    }
}
