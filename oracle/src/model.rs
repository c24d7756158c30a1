//! Packets, blocks, rules and policies, what is in form, and the label of a
//! packet, each as document 01 says it.

pub const FIELDS: usize = 4;

/// The largest number of source, destination, protocol and port.
pub const LARGEST: [u32; FIELDS] = [u32::MAX, u32::MAX, 255, 65_535];

pub const MOST_RULES: usize = 64;
pub const MOST_DIRECTIVES: usize = 32;
pub const MOST_EXCEPTIONS: usize = 64;

/// Source, destination, protocol, port. Packets are ordered in this order too.
#[derive(Clone, Copy, Debug, PartialEq, Eq, PartialOrd, Ord)]
pub struct Packet(pub [u32; FIELDS]);

impl Packet {
    pub const LOWEST: Packet = Packet([0; FIELDS]);

    pub fn form(self) -> Result<(), Refusal> {
        let in_form = (0..FIELDS).all(|field| self.0[field] <= LARGEST[field]);
        refuse_unless(in_form, PACKET)
    }
}

/// A low and a high bound, both included. If they fall, they hold no number.
#[derive(Clone, Copy, Debug, PartialEq, Eq)]
pub struct Bounds {
    pub low: u32,
    pub high: u32,
}

impl Bounds {
    pub const fn new(low: u32, high: u32) -> Bounds {
        Bounds { low, high }
    }

    pub fn hold(self, number: u32) -> bool {
        self.low <= number && number <= self.high
    }

    pub fn rise(self) -> bool {
        self.low <= self.high
    }

    pub fn lie_inside(self, other: Bounds) -> bool {
        self.low >= other.low && self.high <= other.high
    }

    /// The numbers held by both, if there are any.
    pub fn shared(self, other: Bounds) -> Option<Bounds> {
        let shared = Bounds::new(self.low.max(other.low), self.high.min(other.high));
        shared.rise().then_some(shared)
    }
}

/// Bounds for each field of a packet.
#[derive(Clone, Copy, Debug, PartialEq, Eq)]
pub struct Block(pub [Bounds; FIELDS]);

impl Block {
    pub const WIDEST: Block = Block([
        Bounds::new(0, LARGEST[0]),
        Bounds::new(0, LARGEST[1]),
        Bounds::new(0, LARGEST[2]),
        Bounds::new(0, LARGEST[3]),
    ]);

    pub const ZERO: Block = Block([Bounds::new(0, 0); FIELDS]);

    /// The block that holds this packet and no other.
    pub fn only(packet: Packet) -> Block {
        Block(packet.0.map(|number| Bounds::new(number, number)))
    }

    /// Low and high of source, destination, protocol and port.
    pub fn from_numbers(numbers: [u32; 2 * FIELDS]) -> Block {
        Block(std::array::from_fn(|field| {
            Bounds::new(numbers[2 * field], numbers[2 * field + 1])
        }))
    }

    pub fn numbers(self) -> [u32; 2 * FIELDS] {
        std::array::from_fn(|place| {
            let bounds = self.0[place / 2];
            [bounds.low, bounds.high][place % 2]
        })
    }

    pub fn holds(self, packet: Packet) -> bool {
        (0..FIELDS).all(|field| self.0[field].hold(packet.0[field]))
    }

    pub fn lies_inside(self, other: Block) -> bool {
        (0..FIELDS).all(|field| self.0[field].lie_inside(other.0[field]))
    }

    /// Whether numbers were shared, and the narrowed block; the block as it was
    /// if none were. The field is counted from 0 here.
    pub fn narrowed(self, field: usize, bounds: Bounds) -> (bool, Block) {
        match self.0[field].shared(bounds) {
            Some(shared) => {
                let mut narrowed = self;
                narrowed.0[field] = shared;
                (true, narrowed)
            }
            None => (false, self),
        }
    }

    /// No falling bounds, and no number past its field's largest.
    pub fn in_form(self) -> bool {
        (0..FIELDS).all(|field| {
            let bounds = self.0[field];
            bounds.rise() && bounds.low <= LARGEST[field] && bounds.high <= LARGEST[field]
        })
    }
}

#[derive(Clone, Copy, Debug, PartialEq, Eq)]
pub enum Action {
    Deny,
    Accept,
}

impl Action {
    pub fn opposite(self) -> Action {
        match self {
            Action::Deny => Action::Accept,
            Action::Accept => Action::Deny,
        }
    }
}

#[derive(Clone, Copy, Debug, PartialEq, Eq)]
pub struct Rule {
    pub action: Action,
    pub block: Block,
}

impl Rule {
    pub const ZERO: Rule = Rule {
        action: Action::Deny,
        block: Block::ZERO,
    };
}

#[derive(Clone, Copy, Debug, PartialEq, Eq)]
pub struct Directive {
    pub action: Action,
    pub block: Block,
}

impl Directive {
    pub const ZERO: Directive = Directive {
        action: Action::Deny,
        block: Block::ZERO,
    };
}

#[derive(Clone, Copy, Debug, PartialEq, Eq)]
pub struct Exception {
    /// The number of its directive, counted from 1.
    pub directive: u32,
    pub block: Block,
}

impl Exception {
    pub const ZERO: Exception = Exception {
        directive: 0,
        block: Block::ZERO,
    };
}

/// A count and 64 records. The count of a set made by a caller may be anything.
#[derive(Clone, Debug, PartialEq, Eq)]
pub struct RuleSet {
    pub count: u32,
    pub records: Vec<Rule>,
}

impl RuleSet {
    pub fn new(rules: Vec<Rule>) -> RuleSet {
        RuleSet {
            count: rules.len() as u32,
            records: padded(rules, Rule::ZERO, MOST_RULES),
        }
    }

    /// The rules within the count; none at all if the count is above its limit.
    fn counted(&self) -> Option<&[Rule]> {
        self.records.get(..self.count as usize)
    }

    pub fn form(&self) -> Result<(), Refusal> {
        let in_form = self
            .counted()
            .is_some_and(|rules| rules.iter().all(|rule| rule.block.in_form()));
        refuse_unless(in_form, RULES)
    }

    /// The lowest-numbered rule that holds the packet, with its number, by the
    /// records within the count, as far as there are records.
    pub fn deciding(&self, packet: Packet) -> Option<(u32, Rule)> {
        (1..)
            .zip(self.records.iter().take(self.count as usize))
            .find(|(_, rule)| rule.block.holds(packet))
            .map(|(number, rule)| (number, *rule))
    }
}

/// Two counts, 32 directive records and 64 exception records.
#[derive(Clone, Debug, PartialEq, Eq)]
pub struct PolicySet {
    pub directive_count: u32,
    pub directives: Vec<Directive>,
    pub exception_count: u32,
    pub exceptions: Vec<Exception>,
}

impl PolicySet {
    pub fn new(directives: Vec<Directive>, exceptions: Vec<Exception>) -> PolicySet {
        PolicySet {
            directive_count: directives.len() as u32,
            directives: padded(directives, Directive::ZERO, MOST_DIRECTIVES),
            exception_count: exceptions.len() as u32,
            exceptions: padded(exceptions, Exception::ZERO, MOST_EXCEPTIONS),
        }
    }

    /// The directives and exceptions within the counts; nothing if a count is
    /// above its limit.
    fn counted(&self) -> Option<(&[Directive], &[Exception])> {
        let directives = self.directives.get(..self.directive_count as usize)?;
        let exceptions = self.exceptions.get(..self.exception_count as usize)?;
        Some((directives, exceptions))
    }

    pub fn form(&self) -> Result<(), Refusal> {
        let in_form = self.counted().is_some_and(|(directives, exceptions)| {
            directives.iter().all(|directive| directive.block.in_form())
                && exceptions
                    .iter()
                    .all(|exception| exception_in_form(exception, directives))
                && exceptions
                    .windows(2)
                    .all(|pair| pair[0].directive <= pair[1].directive)
        });
        refuse_unless(in_form, POLICY)
    }

    /// The lowest directive that asks for this action on the packet, by the
    /// records within the counts, as far as there are records.
    pub fn lowest_asking(&self, action: Action, packet: Packet) -> Option<u32> {
        let directives = self.directives.iter().take(self.directive_count as usize);
        let exceptions = || self.exceptions.iter().take(self.exception_count as usize);
        (1..)
            .zip(directives)
            .find(|(number, directive)| {
                let excepted = exceptions().any(|exception| {
                    exception.directive == *number && exception.block.holds(packet)
                });
                if excepted {
                    action == directive.action.opposite()
                } else {
                    directive.block.holds(packet) && action == directive.action
                }
            })
            .map(|(number, _)| number)
    }
}

fn exception_in_form(exception: &Exception, directives: &[Directive]) -> bool {
    let named = (1..)
        .zip(directives)
        .find(|(number, _)| *number == exception.directive);
    named.is_some_and(|(_, directive)| {
        exception.block.in_form() && exception.block.lies_inside(directive.block)
    })
}

fn padded<T: Clone>(mut records: Vec<T>, zero: T, most: usize) -> Vec<T> {
    assert!(records.len() <= most);
    records.resize(most, zero);
    records
}

#[derive(Clone, Copy, Debug, PartialEq, Eq)]
pub struct Refusal {
    pub number: u32,
    pub line: u32,
    pub field: u32,
}

const NOT_IN_FORM: u32 = 14;

/// What stands in the place of the line when 14 is told.
const RULES: u32 = 1;
const POLICY: u32 = 2;
const PACKET: u32 = 3;

fn refuse_unless(in_form: bool, part: u32) -> Result<(), Refusal> {
    if in_form {
        Ok(())
    } else {
        Err(Refusal {
            number: NOT_IN_FORM,
            line: part,
            field: 0,
        })
    }
}

#[derive(Clone, Copy, Debug, PartialEq, Eq)]
pub enum Kind {
    Good = 0,
    Conflict = 1,
    Wrong = 2,
    Unasked = 3,
    UnmetAccept = 4,
    UnmetDeny = 5,
}

#[derive(Clone, Copy, Debug, PartialEq, Eq)]
pub struct Label {
    pub kind: Kind,
    pub rule: u32,
}

/// The label of a packet. The rules are looked at first, then the policy, then
/// the packet.
pub fn label(rules: &RuleSet, policy: &PolicySet, packet: Packet) -> Result<Label, Refusal> {
    rules.form()?;
    policy.form()?;
    packet.form()?;
    Ok(label_in_form(rules, policy, packet))
}

/// The label where the sets and the packet are in form.
pub fn label_in_form(rules: &RuleSet, policy: &PolicySet, packet: Packet) -> Label {
    let accept = policy.lowest_asking(Action::Accept, packet).is_some();
    let deny = policy.lowest_asking(Action::Deny, packet).is_some();
    let deciding = rules
        .deciding(packet)
        .map(|(number, rule)| (number, rule.action));
    let (kind, rule) = match (accept, deny, deciding) {
        (true, true, _) => (Kind::Conflict, 0),
        (true, false, Some((number, Action::Deny))) => (Kind::Wrong, number),
        (false, true, Some((number, Action::Accept))) => (Kind::Wrong, number),
        (false, false, Some((number, _))) => (Kind::Unasked, number),
        (true, false, None) => (Kind::UnmetAccept, 0),
        (false, true, None) => (Kind::UnmetDeny, 0),
        _ => (Kind::Good, 0),
    };
    Label { kind, rule }
}

#[cfg(test)]
mod tests {
    use super::*;
    use crate::cases::labels;
    use crate::random::Random;
    use std::collections::BTreeSet;

    #[test]
    fn narrowing_keeps_the_numbers_in_both() {
        for (low, high, given_low, given_high) in quadruples(6) {
            let own: BTreeSet<u32> = (low..=high).collect();
            let given: BTreeSet<u32> = (given_low..=given_high).collect();
            let both: Vec<u32> = own.intersection(&given).copied().collect();
            for field in 0..FIELDS {
                let mut block = Block::from_numbers([1, 2, 3, 4, 5, 6, 7, 8]);
                block.0[field] = Bounds::new(low, high);
                let mut expected = block;
                if let (Some(first), Some(last)) = (both.first(), both.last()) {
                    expected.0[field] = Bounds::new(*first, *last);
                }
                let narrowed = block.narrowed(field, Bounds::new(given_low, given_high));
                assert_eq!(narrowed, (!both.is_empty(), expected));
            }
        }
    }

    #[test]
    fn numbers_of_a_block_go_there_and_back() {
        let numbers = [8, 7, 6, 5, 4, 3, 2, 1];
        assert_eq!(Block::from_numbers(numbers).numbers(), numbers);
    }

    /// Accepting and denying by sets of packets instead of by questions about
    /// one packet.
    #[derive(Default)]
    struct Sets {
        accept: BTreeSet<Packet>,
        deny: BTreeSet<Packet>,
    }

    impl Sets {
        fn of(&mut self, action: Action) -> &mut BTreeSet<Packet> {
            match action {
                Action::Accept => &mut self.accept,
                Action::Deny => &mut self.deny,
            }
        }
    }

    #[test]
    fn labels_agree_with_the_sets_of_definitions_1_and_2() {
        let mut random = Random::new(7);
        let (mut sound_seen, mut complete_seen, mut faulty_seen) = (0, 0, 0);
        for round in 0..160 {
            let (rules, policy) = if round % 4 == 0 {
                labels::nearly_conforming(&mut random, round / 4)
            } else {
                labels::random_sets(&mut random, labels::corner, 5, 3, 4)
            };
            let asked = asked_sets(&policy);
            let (decided, deciding) = decided_sets(&rules);
            let universe: BTreeSet<Packet> = asked
                .accept
                .iter()
                .chain(&asked.deny)
                .chain(deciding.iter().flat_map(|(_, packets)| packets))
                .chain(&members(Block::from_numbers([0, 4, 0, 4, 0, 3, 0, 3])))
                .copied()
                .collect();
            let mut kinds = [0; 6];
            for packet in &universe {
                let label = label(&rules, &policy, *packet).unwrap();
                assert_eq!(label, label_by_sets(&asked, &decided, &deciding, *packet));
                kinds[label.kind as usize] += 1;
            }
            if !asked.accept.is_disjoint(&asked.deny) {
                assert!(kinds[1] > 0);
                continue;
            }
            let sound =
                decided.accept.is_subset(&asked.accept) && decided.deny.is_subset(&asked.deny);
            let complete =
                asked.accept.is_subset(&decided.accept) && asked.deny.is_subset(&decided.deny);
            assert_eq!(kinds[1], 0);
            assert_eq!(sound, kinds[2] + kinds[3] == 0);
            assert_eq!(complete, kinds[2] + kinds[4] + kinds[5] == 0);
            sound_seen += usize::from(sound);
            complete_seen += usize::from(complete);
            faulty_seen += usize::from(!sound && !complete);
        }
        assert!(sound_seen > 15 && complete_seen > 15 && faulty_seen > 15);
    }

    /// The packets for which accept, and those for which deny, is asked.
    fn asked_sets(policy: &PolicySet) -> Sets {
        let mut asked = Sets::default();
        for number in 1..=policy.directive_count {
            let directive = policy.directives[number as usize - 1];
            let mut kept = members(directive.block);
            for exception in &policy.exceptions[..policy.exception_count as usize] {
                if exception.directive == number {
                    let excepted = members(exception.block);
                    kept = &kept - &excepted;
                    asked.of(directive.action.opposite()).extend(excepted);
                }
            }
            asked.of(directive.action).extend(kept);
        }
        asked
    }

    /// The packets accepted and denied by the table, and those each rule decides:
    /// its own without those of all earlier rules.
    fn decided_sets(rules: &RuleSet) -> (Sets, Vec<(u32, BTreeSet<Packet>)>) {
        let mut decided = Sets::default();
        let mut earlier = BTreeSet::new();
        let mut deciding = Vec::new();
        for number in 1..=rules.count {
            let rule = rules.records[number as usize - 1];
            let own = &members(rule.block) - &earlier;
            earlier.extend(own.iter().copied());
            decided.of(rule.action).extend(own.iter().copied());
            deciding.push((number, own));
        }
        (decided, deciding)
    }

    fn label_by_sets(
        asked: &Sets,
        decided: &Sets,
        deciding: &[(u32, BTreeSet<Packet>)],
        packet: Packet,
    ) -> Label {
        let rule = deciding
            .iter()
            .find(|(_, own)| own.contains(&packet))
            .map_or(0, |(number, _)| *number);
        let accept = asked.accept.contains(&packet);
        let deny = asked.deny.contains(&packet);
        let against = (accept && decided.deny.contains(&packet))
            || (deny && decided.accept.contains(&packet));
        let (kind, rule) = if accept && deny {
            (Kind::Conflict, 0)
        } else if against {
            (Kind::Wrong, rule)
        } else if rule != 0 && !accept && !deny {
            (Kind::Unasked, rule)
        } else if rule == 0 && accept {
            (Kind::UnmetAccept, 0)
        } else if rule == 0 && deny {
            (Kind::UnmetDeny, 0)
        } else {
            (Kind::Good, 0)
        };
        Label { kind, rule }
    }

    /// Every packet of a small block.
    fn members(block: Block) -> BTreeSet<Packet> {
        let [source, destination, protocol, port] = block.0.map(|bounds| bounds.low..=bounds.high);
        let mut packets = BTreeSet::new();
        for source in source {
            for destination in destination.clone() {
                for protocol in protocol.clone() {
                    for port in port.clone() {
                        packets.insert(Packet([source, destination, protocol, port]));
                    }
                }
            }
        }
        packets
    }

    fn quadruples(end: u32) -> impl Iterator<Item = (u32, u32, u32, u32)> {
        (0..end.pow(4)).map(move |number| {
            let digit = |place| number / end.pow(place) % end;
            (digit(0), digit(1), digit(2), digit(3))
        })
    }
}
