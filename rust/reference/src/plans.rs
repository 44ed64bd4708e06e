//! Rounds and plans. A plan is the challenger's winning strategy for a pair.
//! Depths are those of request L8 of document 02.

use crate::grid;
use crate::lts::{Action, Lts, State, Transition};
use crate::refusal::Refusal;
use crate::relation::{Preorder, Relation};
use crate::sheet;
use std::collections::BTreeMap;

/// The 16-bit numbers that carry one entry.
pub const ENTRY_NUMBERS: usize = 4;

/// One entry of a plan: the pair (p, q) and the move p, a, t that beats it,
/// or a = t = 0 for a pair outside the start.
#[derive(Clone, Copy, PartialEq, Eq, Debug)]
pub struct Entry {
    /// The page that the challenger moves from.
    pub p: u16,
    /// The page that the defender replies from.
    pub q: u16,
    /// The action of the move, or 0.
    pub a: u16,
    /// The target of the move, or 0.
    pub t: u16,
}

/// A plan: a list of entries.
#[derive(Clone, PartialEq, Eq, Debug, Default)]
pub struct Strategy {
    /// The entries, in order.
    pub entries: Vec<Entry>,
}

impl Strategy {
    /// Reads the whole entries; numbers past the last one count for nothing.
    pub fn read(numbers: &[u16]) -> Strategy {
        let entries = numbers
            .chunks_exact(ENTRY_NUMBERS)
            .map(|e| Entry {
                p: e[0],
                q: e[1],
                a: e[2],
                t: e[3],
            })
            .collect();
        Strategy { entries }
    }

    /// The numbers that carry the plan.
    pub fn numbers(&self) -> Vec<u16> {
        self.entries
            .iter()
            .flat_map(|e| [e.p, e.q, e.a, e.t])
            .collect()
    }

    /// Is there an entry, and is each one sound?
    pub fn is_accepted(&self, lts: &Lts, start: &Preorder) -> bool {
        !self.entries.is_empty()
            && (0..self.entries.len())
                .all(|i| is_sound(lts, start, &self.entries[..i], &self.entries[i]))
    }

    /// The depth of each entry of an accepted plan, in order.
    pub fn depths(&self, lts: &Lts) -> Vec<usize> {
        let mut least = LeastDepths::default();
        self.entries
            .iter()
            .map(|entry| {
                let depth = least.depth(lts, entry).expect("a sound entry");
                least.add(entry, depth);
                depth
            })
            .collect()
    }
}

/// The least depth of each pair that the entries so far hold.
#[derive(Clone, Debug, Default)]
pub struct LeastDepths {
    of_pair: BTreeMap<(u16, u16), usize>,
}

impl LeastDepths {
    /// The depth of the next entry: 0 for a = 0, 1 where q has no a-move, else
    /// one more than the largest of its replies' least depths. None if a
    /// reply's pair is not held.
    pub fn depth(&self, lts: &Lts, entry: &Entry) -> Option<usize> {
        if entry.a == 0 {
            return Some(0);
        }
        let replies = lts.replies(entry.q.into(), entry.a.into());
        let least: Option<Vec<usize>> = replies
            .iter()
            .map(|reply| self.of(entry.t, reply.target as u16))
            .collect();
        Some(least?.iter().max().map_or(1, |largest| largest + 1))
    }

    /// The least depth of the pair (p, q), if it is held.
    pub fn of(&self, p: u16, q: u16) -> Option<usize> {
        self.of_pair.get(&(p, q)).copied()
    }

    /// Takes in an entry with its depth.
    pub fn add(&mut self, entry: &Entry, depth: usize) {
        let least = self.of_pair.entry((entry.p, entry.q)).or_insert(depth);
        *least = depth.min(*least);
    }
}

/// Is the entry sound after the earlier ones?
fn is_sound(lts: &Lts, start: &Preorder, earlier: &[Entry], entry: &Entry) -> bool {
    let [p, q, a, t] = [entry.p, entry.q, entry.a, entry.t].map(usize::from);
    if p >= lts.states() || q >= lts.states() {
        return false;
    }
    let outside = a == 0 && t == 0 && !start.contains(p, q);
    let is_move = lts.has(Transition {
        source: p,
        action: a,
        target: t,
    });
    let held = |r: State| {
        earlier
            .iter()
            .any(|e| usize::from(e.p) == t && usize::from(e.q) == r)
    };
    outside || (is_move && lts.replies(q, a).iter().all(|reply| held(reply.target)))
}

/// The rounds W0, W1, ... up to the first that the next one equals.
pub struct Rounds {
    /// `w[j]` is W(j); the last one is all kept pairs.
    pub w: Vec<Relation>,
}

impl Rounds {
    /// Makes the rounds of a flow from a start.
    pub fn of(lts: &Lts, start: &Preorder) -> Rounds {
        let mut w = vec![start.relation().clone()];
        loop {
            let last = &w[w.len() - 1];
            let next = Relation::from_fn(lts.states(), |p, q| {
                last.contains(p, q) && beating_move(lts, last, p, q).is_none()
            });
            if next == *last {
                return Rounds { w };
            }
            w.push(next);
        }
    }

    /// W(j), for any j.
    pub fn at(&self, j: usize) -> &Relation {
        &self.w[j.min(self.w.len() - 1)]
    }

    /// The round at which (p, q) falls, or none if it is kept.
    pub fn falls_at(&self, p: State, q: State) -> Option<usize> {
        self.w.iter().position(|w| !w.contains(p, q))
    }

    /// The plan for (p, q), or none if the pair is kept.
    pub fn strategy(&self, lts: &Lts, p: State, q: State) -> Option<Strategy> {
        let own = self.falls_at(p, q)?;
        let n = lts.states();
        let mut entries = Vec::new();
        for round in 0..own {
            for g in 0..n {
                for h in 0..n {
                    if self.falls_at(g, h) == Some(round) {
                        entries.push(self.entry(lts, round, g, h));
                    }
                }
            }
        }
        entries.push(self.entry(lts, own, p, q));
        Some(Strategy { entries })
    }

    /// The entry for a pair that falls at `round`.
    fn entry(&self, lts: &Lts, round: usize, p: State, q: State) -> Entry {
        let (a, t) = if round == 0 {
            (0, 0)
        } else {
            beating_move(lts, self.at(round - 1), p, q).expect("a pair that falls has such a move")
        };
        Entry {
            p: p as u16,
            q: q as u16,
            a: a as u16,
            t: t as u16,
        }
    }
}

/// The lowest action, then the lowest target, of a move of p for which no
/// answer of q lies in `w`.
fn beating_move(lts: &Lts, w: &Relation, p: State, q: State) -> Option<(Action, State)> {
    lts.moves_of(p)
        .iter()
        .find(|step| {
            !lts.replies(q, step.action)
                .iter()
                .any(|reply| w.contains(step.target, reply.target))
        })
        .map(|step| (step.action, step.target))
}

/// What check plan gives for a plan that it accepts.
#[derive(Clone, Copy, PartialEq, Eq, Debug)]
pub struct Checked {
    /// The challenger's page of the last pair.
    pub p: u16,
    /// The defender's page of the last pair.
    pub q: u16,
    /// The depth of the last entry.
    pub depth: usize,
}

/// Check plan: the last pair of a non-empty list of sound entries, and the
/// depth of the last one.
pub fn check_plan(sheet: &[u8], start: &[u64], plan: &[u16]) -> Result<Checked, Refusal> {
    let lts = sheet::read(sheet)?;
    let start = grid::read_start(start, lts.states())?;
    let strategy = Strategy::read(plan);
    if !strategy.is_accepted(&lts, &start) {
        return Err(Refusal::UNSOUND);
    }
    let last = strategy.entries.len() - 1;
    Ok(Checked {
        p: strategy.entries[last].p,
        q: strategy.entries[last].q,
        depth: strategy.depths(&lts)[last],
    })
}

/// Write plan: writes the plan for a dropped pair and gives its entry count.
/// A refusal leaves the plan as it is, and numbers past the count stay.
pub fn write_plan(
    sheet: &[u8],
    start: &[u64],
    p: u16,
    q: u16,
    plan: &mut [u16],
) -> Result<usize, Refusal> {
    let lts = sheet::read(sheet)?;
    let start = grid::read_start(start, lts.states())?;
    let (p, q) = (usize::from(p), usize::from(q));
    if p >= lts.states() || q >= lts.states() {
        return Err(Refusal::PAGE_ARGUMENT);
    }
    let strategy = Rounds::of(&lts, &start)
        .strategy(&lts, p, q)
        .ok_or(Refusal::KEPT_PAIR)?;
    let count = strategy.entries.len();
    if plan.len() / ENTRY_NUMBERS < count {
        return Err(Refusal::BUFFER);
    }
    plan[..ENTRY_NUMBERS * count].copy_from_slice(&strategy.numbers());
    Ok(count)
}
