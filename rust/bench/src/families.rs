//! The sheets that are timed. Each builder gives a flow of at most `n` states
//! and `k` transitions, so that the same families serve for one sheet at the
//! limits and for two sheets of half the size.

use reference::lts::{Lts, State};
use reference::prng::Prng;
use reference::random;
use reference::shapes::{cycle, loops, path, tree, Move};

/// A family: its name, what it is, and its flow within the given limits.
pub struct Family {
    pub name: &'static str,
    pub about: &'static str,
    pub build: fn(usize, usize) -> Lts,
}

/// All families.
pub const FAMILIES: &[Family] = &[
    Family {
        name: "chain",
        about: "one action, each state to the next",
        build: |n, _| Lts::of(n, 1, &path(n)),
    },
    Family {
        name: "two cycles",
        about: "cycles of n/2 and n/2 - 1 states, one action, one end mark on each",
        build: |n, _| marked(n - 1, 1, &two_cycles(n), |p| p == 0 || p == n / 2),
    },
    Family {
        name: "tree",
        about: "a binary tree, one action",
        build: |n, _| Lts::of(n - 1, 1, &tree(n - 1, 1)),
    },
    Family {
        name: "tree, two actions",
        about: "a binary tree, one action to the left and one to the right",
        build: |n, _| Lts::of(n - 1, 2, &tree(n - 1, 2)),
    },
    Family {
        name: "dense random",
        about: "half of all moves of 45 states at k = 1,024, one action",
        build: |_, k| random_flow((2 * k).isqrt(), 1, k, 0),
    },
    Family {
        name: "dense random, two actions",
        about: "n/2 states, two actions, k moves",
        build: |n, k| random_flow(n / 2, 2, k, 0),
    },
    Family {
        name: "sparse random",
        about: "n states, one action, 3n/2 moves",
        build: |n, _| random_flow(n, 1, n + n / 2, 0),
    },
    Family {
        name: "random",
        about: "n states, four actions, k moves",
        build: |n, k| random_flow(n, 4, k, 0),
    },
    Family {
        name: "random, one action",
        about: "n states, one action, k moves",
        build: |n, k| random_flow(n, 1, k, 0),
    },
    Family {
        name: "random, two actions",
        about: "n states, two actions, k moves",
        build: |n, k| random_flow(n, 2, k, 0),
    },
    Family {
        name: "random, end marks",
        about: "n states, two actions, k moves, every other state marked at random",
        build: |n, k| random_flow(n, 2, k, 50),
    },
    Family {
        name: "many actions",
        about: "n states, 64 actions, k moves",
        build: |n, k| random_flow(n, 64, k, 0),
    },
    Family {
        name: "self-loops",
        about: "each state loops with four random actions of 16",
        build: |n, k| Lts::of(n, 16, &loops(&mut Prng::new(3), n, 16, k / n)),
    },
    Family {
        name: "chain, end marks",
        about: "a chain with every 16th state marked",
        build: |n, _| marked(n, 1, &path(n), |p| p % 16 == 0),
    },
    Family {
        name: "forward",
        about:
            "each state to some of the next three, two actions, so that pairs fall in many rounds",
        build: |n, _| random::forward(&mut Prng::new(5), n, 2, 0),
    },
    Family {
        name: "ladder",
        about:
            "a chain whose states also loop: action 1 onward, action 2 in place on the upper half",
        build: |n, _| {
            let mut moves = path(n);
            moves.extend((n / 2..n).map(|p| (p, 2, p)));
            Lts::of(n, 2, &moves)
        },
    },
    Family {
        name: "chain, four actions",
        about: "a chain, each step with as many of four actions as k allows",
        build: |n, k| {
            let actions = k / n;
            let moves = (1..n).flat_map(|p| (1..=actions).map(move |a| (p - 1, a, p)));
            Lts::of(n, actions, &moves.collect::<Vec<Move>>())
        },
    },
    Family {
        name: "chain, last states loop",
        about: "a chain; its last states loop with 63 further actions as far as k allows",
        build: |n, k| chain_with_loops(n, |loops| n - loops, k),
    },
    Family {
        name: "chain, first states loop",
        about: "a chain; its first states loop with 63 further actions as far as k allows",
        build: |n, k| chain_with_loops(n, |_| 0, k),
    },
    Family {
        name: "small",
        about: "F3 of document 01: three states, two moves",
        build: |_, _| Lts::of(3, 1, &[(0, 1, 1), (2, 1, 2)]),
    },
];

/// A cycle of n/2 states, and after it one of n/2 - 1.
fn two_cycles(n: usize) -> Vec<Move> {
    [cycle(0, n / 2), cycle(n / 2, n / 2 - 1)].concat()
}

/// A chain of `n` states where some states, from `first` of their number on,
/// loop with actions 2 to 64, so many that there are at most `k` moves.
fn chain_with_loops(n: usize, first: impl Fn(usize) -> State, k: usize) -> Lts {
    let mut moves = path(n);
    let looping = (k - moves.len()) / 63;
    for p in first(looping)..first(looping) + looping {
        moves.extend((2..=64).map(|a| (p, a, p)));
    }
    Lts::of(n, 64, &moves)
}

/// A random flow, the same one for the same numbers.
fn random_flow(n: usize, m: usize, k: usize, marks: usize) -> Lts {
    random::lts_exact(&mut Prng::new(7), n, m, k, marks)
}

/// A flow with the end mark on some states.
fn marked(n: usize, m: usize, moves: &[Move], mark: impl Fn(State) -> bool) -> Lts {
    let flow = Lts::of(n, m, moves);
    Lts::new(m, (0..n).map(mark).collect(), flow.transitions().to_vec())
}
