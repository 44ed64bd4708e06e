//! Labelled transition systems, called flows in document 01.

use crate::state_set::{StateSet, MOST_STATES};
use std::collections::BTreeSet;

/// A state, called a page in document 01.
pub type State = usize;

/// An action, from 1 to m.
pub type Action = usize;

/// A transition, called a move in document 01.
#[derive(Clone, Copy, PartialEq, Eq, PartialOrd, Ord, Debug)]
pub struct Transition {
    /// The state that the transition leaves.
    pub source: State,
    /// Its action.
    pub action: Action,
    /// The state that it enters.
    pub target: State,
}

/// A labelled transition system with end marks.
///
/// The transitions are distinct and ordered by source, then action, then
/// target, so that two systems are the same flow exactly if they are equal.
#[derive(Clone, PartialEq, Eq, Debug)]
pub struct Lts {
    actions: usize,
    end_marks: Vec<bool>,
    transitions: Vec<Transition>,
    /// Per state, where its transitions begin; and the end of the last.
    rows: Vec<usize>,
}

impl Lts {
    /// A system with one end mark per state and the given transitions, in any order.
    pub fn new(actions: usize, end_marks: Vec<bool>, mut transitions: Vec<Transition>) -> Lts {
        let n = end_marks.len();
        assert!(n <= MOST_STATES, "too many states");
        for t in &transitions {
            assert!(t.source < n && t.target < n, "no such state");
            assert!(1 <= t.action && t.action <= actions, "no such action");
        }
        transitions.sort();
        transitions.dedup();
        let mut rows = vec![0; n + 1];
        for t in &transitions {
            rows[t.source + 1] += 1;
        }
        for p in 0..n {
            rows[p + 1] += rows[p];
        }
        Lts {
            actions,
            end_marks,
            transitions,
            rows,
        }
    }

    /// A system without end marks, from triples (source, action, target).
    pub fn of(states: usize, actions: usize, moves: &[(State, Action, State)]) -> Lts {
        let transitions = moves
            .iter()
            .map(|&(source, action, target)| Transition {
                source,
                action,
                target,
            })
            .collect();
        Lts::new(actions, vec![false; states], transitions)
    }

    /// n, the number of states.
    pub fn states(&self) -> usize {
        self.end_marks.len()
    }

    /// m, the number of actions.
    pub fn actions(&self) -> usize {
        self.actions
    }

    /// Has the state the end mark?
    pub fn has_end_mark(&self, s: State) -> bool {
        self.end_marks[s]
    }

    /// The end marks, one per state.
    pub fn end_marks(&self) -> &[bool] {
        &self.end_marks
    }

    /// All transitions, in order.
    pub fn transitions(&self) -> &[Transition] {
        &self.transitions
    }

    /// The transitions that leave `p`, by action, then target.
    pub fn moves_of(&self, p: State) -> &[Transition] {
        &self.transitions[self.rows[p]..self.rows[p + 1]]
    }

    /// The actions of the transitions that leave `p`.
    pub fn actions_of(&self, p: State) -> BTreeSet<Action> {
        self.moves_of(p).iter().map(|t| t.action).collect()
    }

    /// The transitions that leave `q` with action `a`, by target.
    pub fn replies(&self, q: State, a: Action) -> &[Transition] {
        let moves = self.moves_of(q);
        let from = moves.partition_point(|t| t.action < a);
        let to = moves.partition_point(|t| t.action <= a);
        &moves[from..to]
    }

    /// Is this a transition of the system?
    pub fn has(&self, transition: Transition) -> bool {
        self.transitions.binary_search(&transition).is_ok()
    }

    /// Has `p` a transition with action `a`?
    pub fn can(&self, p: State, a: Action) -> bool {
        !self.replies(p, a).is_empty()
    }

    /// The states with an `a`-transition into `targets`.
    pub fn sources(&self, a: Action, targets: &StateSet) -> StateSet {
        self.transitions
            .iter()
            .filter(|t| t.action == a && targets.contains(t.target))
            .map(|t| t.source)
            .collect()
    }
}
