//! The plain fixed point by rounds, on bit sets.
//!
//! Each round drops the pairs (p, q) for which some move p, a, t has no
//! answer in the relation of the round before, until nothing is dropped. Only
//! moves into states whose row shrank in the round before can drop anything,
//! so only those are looked at.

use crate::lts::Lts;
use crate::relation::{Preorder, Relation};
use crate::state_set::StateSet;

/// The coarsest simulation inside the start.
pub fn coarsest(lts: &Lts, start: &Preorder) -> Relation {
    let n = lts.states();
    let into = Incoming::new(lts);
    let mut rows: Vec<StateSet> = (0..n).map(|p| *start.relation().row(p)).collect();
    let mut changed = StateSet::all(n);
    while !changed.is_empty() {
        let old = rows.clone();
        let mut next = StateSet::empty();
        for t in changed.iter() {
            for edge in &into.by_target[t] {
                let can_answer = into.sources_into(edge.letter, &old[t]);
                for &p in &edge.sources {
                    let row = rows[p].intersection(&can_answer);
                    if row != rows[p] {
                        rows[p] = row;
                        next.insert(p);
                    }
                }
            }
        }
        changed = next;
    }
    Relation::from_rows(rows)
}

/// The moves that enter one state with one action.
struct Edge {
    letter: usize,
    sources: Vec<usize>,
}

/// The moves by action and target.
struct Incoming {
    /// Per target, its incoming moves, one edge for each action.
    by_target: Vec<Vec<Edge>>,
    /// Per action, the states that it enters.
    targets: Vec<StateSet>,
    /// Per action and target, the sources as a set.
    sources: Vec<Vec<StateSet>>,
}

impl Incoming {
    /// The moves of a flow.
    fn new(lts: &Lts) -> Incoming {
        let n = lts.states();
        let letters = lts.actions() + 1;
        let mut targets = vec![StateSet::empty(); letters];
        let mut sources = vec![Vec::new(); letters];
        for t in lts.transitions() {
            if sources[t.action].is_empty() {
                sources[t.action] = vec![StateSet::empty(); n];
            }
            targets[t.action].insert(t.target);
            sources[t.action][t.target].insert(t.source);
        }
        let mut by_target: Vec<Vec<Edge>> = (0..n).map(|_| Vec::new()).collect();
        for (letter, entered) in targets.iter().enumerate() {
            for t in entered.iter() {
                by_target[t].push(Edge {
                    letter,
                    sources: sources[letter][t].iter().collect(),
                });
            }
        }
        Incoming {
            by_target,
            targets,
            sources,
        }
    }

    /// The states with a move of this action into `set`.
    fn sources_into(&self, letter: usize, set: &StateSet) -> StateSet {
        set.intersection(&self.targets[letter])
            .iter()
            .fold(StateSet::empty(), |sum, r| {
                sum.union(&self.sources[letter][r])
            })
    }
}
