//! Wrong readings of the turn rule. They serve only to choose flows on which
//! a program with such a fault gives another answer than the right one.

use reference::lts::Lts;
use reference::relation::{Preorder, Relation};
use reference::state_set::StateSet;

/// A fault in the turn rule.
#[derive(Clone, Copy, PartialEq, Eq, Debug)]
pub enum Fault {
    /// Y and N are taken anew for each action, from the row of B's name.
    FreshYAndN,
    /// Y is taken anew for each action in the same way, N is not.
    FreshY,
    /// Y and N are taken anew for each action, from the rows of all of B.
    FreshUnionYAndN,
    /// Y is taken anew for each action in the same way, N is not.
    FreshUnionY,
    /// Step 3 drops single pairs and not whole blocks.
    SinglePairs,
    /// Step 3 uses the blocks from before step 2.
    OldBlocks,
    /// Step 3 uses the block that B's name has by then.
    CurrentB,
    /// There is no step 2.
    NoSplit,
    /// Step 3 is left out for the block of B's name itself.
    NotItself,
    /// The actions are taken in falling order.
    ActionsDown,
    /// V becomes what K is at the end of the turn.
    LateView,
    /// A number is used up only where there is a choice.
    UsedWhenChoice,
    /// After the end of the list its last number goes on.
    LastGoesOn,
    /// After the end of the list it begins again.
    ListAgain,
    /// Only the low byte of a number counts.
    LowByte,
}

/// All faults.
pub const FAULTS: [Fault; 15] = [
    Fault::FreshYAndN,
    Fault::FreshY,
    Fault::FreshUnionYAndN,
    Fault::FreshUnionY,
    Fault::SinglePairs,
    Fault::OldBlocks,
    Fault::CurrentB,
    Fault::NoSplit,
    Fault::NotItself,
    Fault::ActionsDown,
    Fault::LateView,
    Fault::UsedWhenChoice,
    Fault::LastGoesOn,
    Fault::ListAgain,
    Fault::LowByte,
];

/// The turns and kept pairs that the fault leads to; none if it goes astray.
pub fn run(
    lts: &Lts,
    start: &Preorder,
    schedule: &[u16],
    fault: Fault,
) -> Option<(usize, Relation)> {
    let n = lts.states();
    let lacks = |p, q| (1..=lts.actions()).any(|a| lts.can(p, a) && !lts.can(q, a));
    let mut k = Relation::from_fn(n, |p, q| start.contains(p, q) && !lacks(p, q));
    let mut v = Relation::full(n);
    let mut used = 0;
    for turns in 0..=n * n {
        let pending: Vec<StateSet> = k
            .blocks()
            .into_iter()
            .filter(|b| v.row(lowest(b)) != k.row(lowest(b)))
            .collect();
        if pending.is_empty() {
            return Some((turns, k));
        }
        let e = match schedule.get(used) {
            Some(&e) => e,
            None if fault == Fault::LastGoesOn => schedule.last().copied().unwrap_or(0),
            None if fault == Fault::ListAgain && !schedule.is_empty() => {
                schedule[used % schedule.len()]
            }
            None => 0,
        };
        let e = if fault == Fault::LowByte { e & 255 } else { e };
        if fault != Fault::UsedWhenChoice || pending.len() > 1 {
            used += 1;
        }
        let b = pending[usize::from(e) % pending.len()];
        turn(lts, &mut k, &mut v, b, fault);
        if (0..n).any(|p| k.block(p).is_empty()) {
            return None;
        }
    }
    None
}

/// The lowest page of a block, its name.
fn lowest(block: &StateSet) -> usize {
    block.first().expect("a block has a member")
}

/// One turn with the fault.
fn turn(lts: &Lts, k: &mut Relation, v: &mut Relation, b: StateSet, fault: Fault) {
    let name = lowest(&b);
    let seen = *v.row(name);
    let mut y = *k.row(name);
    let mut n = seen.without(&y);
    for p in b.iter() {
        v.set_row(p, y);
    }
    let mut actions: Vec<usize> = (1..=lts.actions()).collect();
    if fault == Fault::ActionsDown {
        actions.reverse();
    }
    for a in actions {
        if matches!(fault, Fault::FreshY | Fault::FreshYAndN) {
            y = *k.row(name);
        }
        if matches!(fault, Fault::FreshUnionY | Fault::FreshUnionYAndN) {
            y = b
                .iter()
                .fold(StateSet::empty(), |sum, p| sum.union(k.row(p)));
        }
        if matches!(fault, Fault::FreshYAndN | Fault::FreshUnionYAndN) {
            n = seen.without(&y);
        }
        let rem = lts.sources(a, &n).without(&lts.sources(a, &y));
        let before = k.blocks();
        if fault != Fault::NoSplit {
            for block in &before {
                for g in block.without(&rem).iter() {
                    k.set_row(g, k.row(g).without(&block.intersection(&rem)));
                }
            }
        }
        let blocks = if fault == Fault::OldBlocks {
            before
        } else {
            k.blocks()
        };
        let target = if fault == Fault::CurrentB {
            k.block(name)
        } else {
            b
        };
        let into_b = lts.sources(a, &target);
        for c in blocks.iter().filter(|c| c.meets(&into_b)) {
            if fault == Fault::NotItself && c.contains(name) {
                continue;
            }
            let members = if fault == Fault::SinglePairs {
                c.intersection(&into_b)
            } else {
                *c
            };
            for d in blocks.iter().filter(|d| d.is_subset(&rem)) {
                for p in members.iter() {
                    k.set_row(p, k.row(p).without(d));
                }
            }
        }
    }
    if fault == Fault::LateView {
        for p in b.iter() {
            v.set_row(p, *k.row(p));
        }
    }
}
