//! Plans made by hand, each with the depth of its last entry that request L8
//! of document 02 has for it.

use crate::lts::Lts;
use crate::plans::Strategy;
use crate::relation::{Preorder, Relation};
use crate::shapes::{self, Move};

/// An accepted plan and the depth of its last entry.
#[derive(Clone, PartialEq, Eq, Debug)]
pub struct Worked {
    /// The flow.
    pub lts: Lts,
    /// The start.
    pub start: Preorder,
    /// The plan.
    pub plan: Strategy,
    /// What check plan gives as its depth.
    pub depth: usize,
}

/// The pages of the flow of the small plans.
const PAGES: usize = 7;

/// Its moves. Page 2 has none, page 4 answers action 1 by page 1, and page 5
/// by the pages 1, 2 and 4.
const MOVES: [Move; 9] = [
    (0, 1, 0),
    (0, 2, 0),
    (1, 2, 2),
    (3, 1, 0),
    (4, 1, 1),
    (5, 1, 1),
    (5, 1, 2),
    (5, 1, 4),
    (6, 1, 3),
];

/// The four numbers of an entry.
type Numbers = [u16; 4];

/// (0, 1), where page 1 has no 1-move: 1.
const SHORT: Numbers = [0, 1, 1, 0];
/// (0, 1), where page 2 is the only reply: one more than (0, 2).
const LONG: Numbers = [0, 1, 2, 0];
/// (0, 2), where page 2 has no 1-move: 1.
const LEAF: Numbers = [0, 2, 1, 0];
/// (0, 4), where page 4 has no 2-move: 1.
const SIDE: Numbers = [0, 4, 2, 0];
/// (0, 4), where page 1 is the only reply: one more than (0, 1).
const LONG_SIDE: Numbers = [0, 4, 1, 0];
/// (3, 4), where page 1 is the only reply: one more than (0, 1).
const ONE: Numbers = [3, 4, 1, 0];
/// (3, 5), where the replies are 1, 2 and 4: one more than the largest of
/// (0, 1), (0, 2) and (0, 4).
const THREE: Numbers = [3, 5, 1, 0];
/// (3, 1), where page 1 has no 1-move: 1.
const LEFT: Numbers = [3, 1, 1, 0];
/// (3, 2), where page 2 has no 1-move: 1.
const RIGHT: Numbers = [3, 2, 1, 0];
/// (6, 5), where the replies are 1, 2 and 4: one more than the largest of
/// (3, 1), (3, 2) and (3, 4).
const TOP: Numbers = [6, 5, 1, 3];
/// (0, 1), (0, 2), (0, 4) and (3, 4) outside the start: 0.
const OUTSIDE: [Numbers; 4] = [[0, 1, 0, 0], [0, 2, 0, 0], [0, 4, 0, 0], [3, 4, 0, 0]];

/// Plans with all pairs as the start, and the depth of the last entry. The
/// depths of all entries stand beside them.
const IN_START: [(&[Numbers], usize); 17] = [
    (&[SHORT], 1),
    (&[SHORT, ONE], 2), // 1 2
    // Detours: (0, 1) falls at 1, as above, and (3, 4) at 2.
    (&[LEAF, LONG], 2),      // 1 2
    (&[LEAF, LONG, ONE], 3), // 1 2 3
    // (0, 1) twice: the last entry's own depth counts at the end.
    (&[SHORT, LEAF, LONG], 2), // 1 1 2
    (&[LEAF, LONG, SHORT], 1), // 1 2 1
    // (0, 1) twice: the least counts for a later entry, in either order.
    (&[SHORT, LEAF, LONG, ONE], 2), // 1 1 2 2
    (&[LEAF, LONG, SHORT, ONE], 2), // 1 2 1 2
    // It does not count for an entry before it, which may come again.
    (&[LEAF, LONG, ONE, SHORT], 1),                        // 1 2 3 1
    (&[LEAF, LONG, ONE, SHORT, ONE], 2),                   // 1 2 3 1 2
    (&[LEAF, LONG, ONE, SHORT, LEFT, RIGHT, TOP], 4),      // 1 2 3 1 1 1 4
    (&[LEAF, LONG, ONE, SHORT, ONE, LEFT, RIGHT, TOP], 3), // 1 2 3 1 2 1 1 3
    // Three replies: all alike, the first, the last, both of them deeper.
    (&[SHORT, LEAF, SIDE, THREE], 2),      // 1 1 1 2
    (&[LEAF, LONG, SIDE, THREE], 3),       // 1 2 1 3
    (&[SHORT, LEAF, LONG_SIDE, THREE], 3), // 1 1 2 3
    (&[LEAF, LONG, LONG_SIDE, THREE], 4),  // 1 2 3 4
    (&[LEAF, LONG, LONG_SIDE, SHORT, LONG_SIDE, THREE], 3), // 1 2 3 1 2 3
];

/// The same with the diagonal as the start.
const ON_DIAGONAL: [(&[Numbers], usize); 12] = [
    (&[OUTSIDE[0]], 0),
    // A move for a pair outside the start, which is then held twice.
    (&[OUTSIDE[0], SHORT], 1),      // 0 1
    (&[SHORT, OUTSIDE[0]], 0),      // 1 0
    (&[OUTSIDE[0], SHORT, ONE], 1), // 0 1 1
    (&[SHORT, OUTSIDE[0], ONE], 1), // 1 0 1
    // One entry with (0, 2) at 0, and twice, with (0, 2) at 1 and then at 0.
    (&[OUTSIDE[1], LONG], 1),             // 0 1
    (&[LEAF, LONG, OUTSIDE[1], LONG], 1), // 1 2 0 1
    // (0, 1) at three depths.
    (&[LEAF, LONG, SHORT, OUTSIDE[0], ONE], 1), // 1 2 1 0 1
    (&[OUTSIDE[0], SHORT, LEAF, LONG], 2),      // 0 1 1 2
    // 0 after all others.
    (&[LEAF, LONG, ONE, OUTSIDE[3]], 0), // 1 2 3 0
    // Three replies: none deeper, and the middle one.
    (&[OUTSIDE[0], OUTSIDE[1], OUTSIDE[2], THREE], 1), // 0 0 0 1
    (&[OUTSIDE[0], LEAF, OUTSIDE[2], THREE], 2),       // 0 1 0 2
];

/// The small plans.
pub fn small() -> Vec<Worked> {
    let worked = |start: &Relation, plans: &[(&[Numbers], usize)]| -> Vec<Worked> {
        plans
            .iter()
            .map(|&(plan, depth)| Worked {
                lts: Lts::of(PAGES, 2, &MOVES),
                start: Preorder::closure(start),
                plan: Strategy::read(&plan.concat()),
                depth,
            })
            .collect()
    };
    [
        worked(&Relation::full(PAGES), &IN_START),
        worked(&Relation::identity(PAGES), &ON_DIAGONAL),
    ]
    .concat()
}

/// A plan that goes back around two cycles, from the one pair of their pages
/// that is outside the start. Each entry's only reply is held by the entry
/// before it, so that the depths are 0, 1, 2 and so on. The lengths of the
/// cycles have no common divisor, and each pair has one entry at most.
pub fn around(first: usize, second: usize, entries: usize) -> Worked {
    assert!(entries <= first * second);
    let moves = [shapes::cycle(0, first), shapes::cycle(first, second)].concat();
    let n = first + second;
    // The page of a cycle that is so many moves before its first one.
    let before = |length: usize, away: usize| (length - away % length) % length;
    let entry = |away: usize| {
        let (p, q) = (before(first, away), first + before(second, away));
        let (a, t) = if away == 0 {
            (0, 0)
        } else {
            (1, (p + 1) % first)
        };
        [p, q, a, t].map(|number| number as u16)
    };
    Worked {
        lts: Lts::of(n, 1, &moves),
        start: Preorder::of_mark(n, |p| p == 0 || p > first),
        plan: Strategy::read(&(0..entries).flat_map(entry).collect::<Vec<u16>>()),
        depth: entries - 1,
    }
}
