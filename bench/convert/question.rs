//! The question, once for every logic that can be asked: is there a packet at fault?

use crate::texts::{Block, Directive, Table, LARGEST};

/// What a logic can say of a packet.
pub trait Logic {
    type Claim: Clone;

    /// The field's number is from low to high, both included.
    fn between(&mut self, field: usize, low: u64, high: u64) -> Self::Claim;
    fn not(&mut self, claim: &Self::Claim) -> Self::Claim;
    /// Of no claims: what is always so.
    fn all(&mut self, claims: &[Self::Claim]) -> Self::Claim;

    /// Of no claims: what is never so.
    fn any(&mut self, claims: &[Self::Claim]) -> Self::Claim {
        let opposites: Vec<_> = claims.iter().map(|claim| self.not(claim)).collect();
        let none = self.all(&opposites);
        self.not(&none)
    }
}

/// The packet has a kind from 1 to 5. Both actions are asked for (1); or accept is asked
/// for and the table does not accept (2, 4), or the other way round (2, 3); or the same
/// for deny (2, 5; 2, 3). A packet that meets none of these is good.
pub fn fault<L: Logic>(logic: &mut L, table: &Table) -> L::Claim {
    let (asked_accept, asked_deny) = asked(logic, &table.directives);
    let (accepted, denied) = decided(logic, table);
    let conflict = logic.all(&[asked_accept.clone(), asked_deny.clone()]);
    let accept = differ(logic, &asked_accept, &accepted);
    let deny = differ(logic, &asked_deny, &denied);
    logic.any(&[conflict, accept, deny])
}

/// Whether the deciding rule accepts, and whether it denies. From the last rule to the
/// first, each that holds the packet has its way over those below it.
fn decided<L: Logic>(logic: &mut L, table: &Table) -> (L::Claim, L::Claim) {
    let mut held = vec![];
    let mut accepted = logic.any(&[]);
    for rule in table.rules.iter().rev() {
        let holds = holds(logic, &rule.block);
        accepted = if rule.accept {
            logic.any(&[holds.clone(), accepted])
        } else {
            let passes = logic.not(&holds);
            logic.all(&[passes, accepted])
        };
        held.push(holds);
    }
    let decided = logic.any(&held);
    let not_accepted = logic.not(&accepted);
    let denied = logic.all(&[decided, not_accepted]);
    (accepted, denied)
}

/// Whether accept is asked for, and whether deny is.
fn asked<L: Logic>(logic: &mut L, directives: &[Directive]) -> (L::Claim, L::Claim) {
    let (mut accept, mut deny) = (vec![], vec![]);
    for directive in directives {
        let blocks = directive.exceptions.iter();
        let excepted: Vec<_> = blocks.map(|block| holds(logic, block)).collect();
        let excepted = logic.any(&excepted);
        let not_excepted = logic.not(&excepted);
        let held = holds(logic, &directive.block);
        let kept = logic.all(&[held, not_excepted]);
        if directive.accept {
            accept.push(kept);
            deny.push(excepted);
        } else {
            deny.push(kept);
            accept.push(excepted);
        }
    }
    (logic.any(&accept), logic.any(&deny))
}

fn holds<L: Logic>(logic: &mut L, block: &Block) -> L::Claim {
    let mut claims = vec![];
    for (field, (low, high)) in block.iter().enumerate() {
        if (*low, *high) != (0, LARGEST[field]) {
            claims.push(logic.between(field, *low, *high));
        }
    }
    logic.all(&claims)
}

fn differ<L: Logic>(logic: &mut L, one: &L::Claim, other: &L::Claim) -> L::Claim {
    let not_one = logic.not(one);
    let not_other = logic.not(other);
    let first = logic.all(&[one.clone(), not_other]);
    let second = logic.all(&[not_one, other.clone()]);
    logic.any(&[first, second])
}
