//! The moves of flows with a plain shape, as [`Lts::of`](crate::lts::Lts::of)
//! takes them.

use crate::lts::{Action, State};
use crate::prng::Prng;

/// A move: source, action, target.
pub type Move = (State, Action, State);

/// A chain of `n` states, with action 1.
pub fn path(n: usize) -> Vec<Move> {
    (1..n).map(|p| (p - 1, 1, p)).collect()
}

/// A cycle through the `length` states from `first` on, with action 1.
pub fn cycle(first: State, length: usize) -> Vec<Move> {
    (0..length)
        .map(|p| (first + p, 1, first + (p + 1) % length))
        .collect()
}

/// A binary tree of `n` states whose children have the actions in turn.
pub fn tree(n: usize, actions: usize) -> Vec<Move> {
    (1..n).map(|p| ((p - 1) / 2, 1 + p % actions, p)).collect()
}

/// Each of `n` states loops with `each` different random actions.
pub fn loops(rng: &mut Prng, n: usize, actions: usize, each: usize) -> Vec<Move> {
    let mut all: Vec<Action> = (1..=actions).collect();
    let mut moves = Vec::new();
    for p in 0..n {
        rng.shuffle(&mut all);
        moves.extend(all[..each].iter().map(|&a| (p, a, p)));
    }
    moves
}
