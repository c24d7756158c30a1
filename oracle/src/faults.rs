//! The verdict and the listing, as document 01 says them, read off one whole table
//! of labels.
//!
//! The bounds of all blocks cut each field into strips of numbers that no block
//! tells apart. A cell is a strip for each field, and all its packets have the
//! label of its low corner. The table has the label of every cell, in the order of
//! the low corners.

#[cfg(test)]
mod tests;

use crate::model::{
    label_in_form, Action, Block, Bounds, Kind, Label, Packet, PolicySet, Refusal, RuleSet, FIELDS,
    LARGEST,
};

/// How many numbers a block of the listing takes.
pub const NUMBERS: usize = 2 + 2 * FIELDS;

/// A table of more cells would take too long, and too much memory.
pub const MOST_CELLS: usize = 16_000_000;

/// No pair of sets that is drawn has more, so that each is answered at once.
pub const MOST_CELLS_DRAWN: usize = 400_000;

/// What the verdict tells: the label of its packet, the lowest directives that ask
/// for accept and for deny there, or 0, and the packet. All zeros for conforms.
#[derive(Clone, Copy, Debug, PartialEq, Eq)]
pub struct Verdict {
    pub label: Label,
    pub accept: u32,
    pub deny: u32,
    pub packet: Packet,
}

/// A block of the listing, with the label of all its packets.
#[derive(Clone, Copy, Debug, PartialEq, Eq)]
pub struct Listed {
    pub label: Label,
    pub block: Block,
}

impl Listed {
    /// Kind, rule, then low and high of source, destination, protocol and port.
    pub fn numbers(self) -> [u32; NUMBERS] {
        let block = self.block.numbers();
        std::array::from_fn(|place| match place {
            0 => self.label.kind as u32,
            1 => self.label.rule,
            _ => block[place - 2],
        })
    }
}

/// The verdict and the whole listing of a pair of sets.
#[derive(Debug, PartialEq, Eq)]
pub struct Faults {
    pub verdict: Verdict,
    pub listing: Vec<Listed>,
}

impl Faults {
    /// The rules are looked at first, then the policy.
    pub fn new(rules: &RuleSet, policy: &PolicySet) -> Result<Faults, Refusal> {
        rules.form()?;
        policy.form()?;
        let table = Table::new(rules, policy);
        Ok(Faults {
            verdict: table.verdict(policy),
            listing: table.listing(),
        })
    }

    /// Writes the first blocks that fit to the front of the buffer, and gives the
    /// total.
    pub fn write(&self, buffer: &mut [u32]) -> u64 {
        for (room, listed) in buffer.chunks_exact_mut(NUMBERS).zip(&self.listing) {
            room.copy_from_slice(&listed.numbers());
        }
        self.listing.len() as u64
    }
}

/// How many cells the table of labels of sets in form has.
pub fn cells(rules: &RuleSet, policy: &PolicySet) -> usize {
    let starts = starts(&blocks(rules, policy));
    starts.iter().map(Vec::len).product()
}

struct Table {
    /// The first number of each strip of each field, rising.
    starts: [Vec<u32>; FIELDS],
    labels: Vec<Label>,
}

impl Table {
    fn new(rules: &RuleSet, policy: &PolicySet) -> Table {
        let starts = starts(&blocks(rules, policy));
        let cells = starts.iter().map(Vec::len).product();
        assert!(cells <= MOST_CELLS, "{cells} cells");
        let labels = (0..cells)
            .map(|cell| label_in_form(rules, policy, corner(&starts, cell)))
            .collect();
        Table { starts, labels }
    }

    /// The four cases of the verdict, one after another.
    fn verdict(&self, policy: &PolicySet) -> Verdict {
        let conflict = |label: Label| label.kind == Kind::Conflict;
        let decided = |label: Label| matches!(label.kind, Kind::Wrong | Kind::Unasked);
        let unmet = |label: Label| matches!(label.kind, Kind::UnmetAccept | Kind::UnmetDeny);
        let faulty_rules = self.labels.iter().filter(|label| decided(**label));
        let lowest_rule = faulty_rules.map(|label| label.rule).min();
        let cell = if let Some(cell) = self.first(conflict) {
            cell
        } else if let Some(rule) = lowest_rule {
            self.first(|label| decided(label) && label.rule == rule)
                .unwrap()
        } else if let Some(cell) = self.first(unmet) {
            cell
        } else {
            return CONFORMS;
        };
        let packet = corner(&self.starts, cell);
        let lowest_asking = |action| policy.lowest_asking(action, packet).unwrap_or(0);
        Verdict {
            label: self.labels[cell],
            accept: lowest_asking(Action::Accept),
            deny: lowest_asking(Action::Deny),
            packet,
        }
    }

    /// The first cell with such a label. Its low corner is the least packet with
    /// such a label.
    fn first(&self, wanted: impl Fn(Label) -> bool) -> Option<usize> {
        self.labels.iter().position(|label| wanted(*label))
    }

    fn listing(&self) -> Vec<Listed> {
        let mut listing = vec![];
        self.gather(0, Block::WIDEST, &self.labels, &mut listing);
        listing
    }

    /// Gathers the runs of a field inside a run of each field before it. The labels
    /// are those of its first number in each field before; all its other numbers
    /// have the same.
    fn gather(&self, field: usize, block: Block, labels: &[Label], listing: &mut Vec<Listed>) {
        if field == FIELDS {
            let label = labels[0];
            if label.kind != Kind::Good {
                listing.push(Listed { label, block });
            }
            return;
        }
        let starts = &self.starts[field];
        let strips: Vec<&[Label]> = labels.chunks(labels.len() / starts.len()).collect();
        let mut first = 0;
        for run in strips.chunk_by(|strip, next| strip == next) {
            let past = first + run.len();
            let high = starts.get(past).map_or(LARGEST[field], |start| start - 1);
            let mut inner = block;
            inner.0[field] = Bounds::new(starts[first], high);
            self.gather(field + 1, inner, run[0], listing);
            first = past;
        }
    }
}

const CONFORMS: Verdict = Verdict {
    label: Label {
        kind: Kind::Good,
        rule: 0,
    },
    accept: 0,
    deny: 0,
    packet: Packet::LOWEST,
};

/// All blocks within the counts of sets in form.
pub fn blocks(rules: &RuleSet, policy: &PolicySet) -> Vec<Block> {
    let rules = &rules.records[..rules.count as usize];
    let directives = &policy.directives[..policy.directive_count as usize];
    let exceptions = &policy.exceptions[..policy.exception_count as usize];
    let mut blocks: Vec<Block> = rules.iter().map(|rule| rule.block).collect();
    blocks.extend(directives.iter().map(|directive| directive.block));
    blocks.extend(exceptions.iter().map(|exception| exception.block));
    blocks
}

/// For each field the first numbers of its strips: 0, where a block begins, and
/// where one has just ended.
fn starts(blocks: &[Block]) -> [Vec<u32>; FIELDS] {
    std::array::from_fn(|field| {
        let mut starts = vec![0];
        for block in blocks {
            let Bounds { low, high } = block.0[field];
            starts.push(low);
            if high < LARGEST[field] {
                starts.push(high + 1);
            }
        }
        starts.sort();
        starts.dedup();
        starts
    })
}

/// The low corner of a cell. Cells are numbered in the order of their low corners.
fn corner(starts: &[Vec<u32>; FIELDS], cell: usize) -> Packet {
    let mut left = cell;
    let mut numbers = [0; FIELDS];
    for field in (0..FIELDS).rev() {
        let count = starts[field].len();
        numbers[field] = starts[field][left % count];
        left /= count;
    }
    Packet(numbers)
}
