//! Flows and pairs of flows for request L6 of document 02, by hand and random:
//! what the ready start holds, and what compare says in its two forms.

use crate::labels::LabelledLts;
use crate::lts::{Action, Lts, State, Transition};
use crate::prng::Prng;
use crate::random;
use crate::relation::Relation;
use crate::shapes::Move;
use crate::sheet::MOST_ACTIONS;

/// A flow and its ready start.
pub struct Worked {
    /// The flow.
    pub lts: Lts,
    /// The pairs that the ready start holds.
    pub alike: Relation,
}

/// Two flows and what compare says.
pub struct Compared {
    /// The first flow and the second.
    pub flows: [Lts; 2],
    /// What compare says in the older form.
    pub yes: bool,
    /// What compare ready says.
    pub ready: bool,
}

/// Per page, the actions of its moves.
type Actions = &'static [&'static [Action]];

/// The pairs of two different pages that a ready start holds.
type Pairs = &'static [(State, State)];

/// Both pairs of the pages 0 and 1.
const BOTH: Pairs = &[(0, 1), (1, 0)];

/// All pairs of the pages 0, 1 and 2.
const THREE: Pairs = &[(0, 1), (0, 2), (1, 0), (1, 2), (2, 0), (2, 1)];

/// Flows without end marks.
const UNMARKED: [(Actions, Pairs); 44] = [
    // The actions of F1 to F4 of document 01.
    (&[&[]], &[]),
    (&[&[1], &[1]], BOTH),
    (&[&[1], &[], &[1]], &[(0, 2), (2, 0)]),
    (&[&[1], &[1], &[1], &[]], THREE),
    // Pages without moves: the same, empty set.
    (&[&[], &[]], BOTH),
    (&[&[], &[], &[]], THREE),
    (&[&[], &[], &[1]], BOTH),
    (&[&[], &[1], &[]], &[(0, 2), (2, 0)]),
    // A page without moves and one with.
    (&[&[1], &[]], &[]),
    (&[&[], &[1]], &[]),
    (&[&[], &[1, 2, 3]], &[]),
    // Equal sets.
    (&[&[2], &[2]], BOTH),
    (&[&[1, 2], &[1, 2]], BOTH),
    (&[&[1, 2], &[2, 1]], BOTH),
    (&[&[3, 1], &[1, 3]], BOTH),
    (&[&[1, 2, 3], &[3, 1, 2], &[2, 1, 3]], THREE),
    // Inclusion, one way only.
    (&[&[1], &[1, 2]], &[]),
    (&[&[2], &[1, 2]], &[]),
    (&[&[1, 2], &[1]], &[]),
    (&[&[1, 2], &[2]], &[]),
    (&[&[1, 3], &[1, 2, 3]], &[]),
    (&[&[], &[1], &[1, 2]], &[]),
    // As many actions, but other ones.
    (&[&[1], &[2]], &[]),
    (&[&[1, 2], &[1, 3]], &[]),
    (&[&[1, 3], &[2, 3]], &[]),
    (&[&[1, 2], &[3, 4]], &[]),
    // With the same sum, or with the same product.
    (&[&[1, 4], &[2, 3]], &[]),
    (&[&[1, 6], &[2, 3]], &[]),
    (&[&[1, 2], &[3]], &[]),
    // Several moves by the same action count once.
    (&[&[1, 1], &[1]], BOTH),
    (&[&[1], &[1, 1]], BOTH),
    (&[&[1, 1, 2], &[1, 2, 2]], BOTH),
    (&[&[1, 1, 1], &[1, 1], &[1]], THREE),
    // As many moves, but other actions; and one action twice beside none.
    (&[&[1, 1], &[1, 2]], &[]),
    (&[&[1, 1], &[2, 2]], &[]),
    (&[&[1, 1], &[]], &[]),
    (&[&[1, 1, 2], &[2]], &[]),
    // Action 64 beside none, beside itself and beside others.
    (&[&[64], &[]], &[]),
    (&[&[64], &[64]], BOTH),
    (&[&[1], &[64]], &[]),
    (&[&[32], &[64]], &[]),
    (&[&[1], &[33]], &[]),
    (&[&[1, 64], &[1]], &[]),
    (&[&[1, 64], &[64]], &[]),
];

/// Flows with end marks.
const MARKED: [(&[bool], Actions, Pairs); 12] = [
    // The same set, with the end mark of one page, of the other, of both.
    (&[false, true], &[&[], &[]], &[(0, 1)]),
    (&[true, false], &[&[], &[]], &[(1, 0)]),
    (&[true, true], &[&[], &[]], BOTH),
    (&[false, true], &[&[1], &[1]], &[(0, 1)]),
    (&[true, false], &[&[1], &[1]], &[(1, 0)]),
    (&[true, true], &[&[1], &[1]], BOTH),
    // Other sets: inclusion in the end mark's direction, and against it.
    (&[false, true], &[&[1], &[1, 2]], &[]),
    (&[false, true], &[&[1, 2], &[1]], &[]),
    (&[true, true], &[&[1], &[1, 2]], &[]),
    (&[false, true], &[&[], &[1]], &[]),
    // One set and two sets, each with the end mark and without.
    (
        &[false, true, false],
        &[&[1], &[1], &[1]],
        &[(0, 1), (0, 2), (2, 0), (2, 1)],
    ),
    (
        &[false, true, false, true],
        &[&[1], &[1], &[2], &[2]],
        &[(0, 1), (2, 3)],
    ),
];

/// The flow whose pages have moves by these actions. Those of page p go to
/// the pages p, p + 1 and so on.
fn with_actions(end_marks: &[bool], actions: &[&[Action]]) -> Lts {
    let mut transitions = Vec::new();
    for (source, list) in actions.iter().enumerate() {
        transitions.extend(list.iter().enumerate().map(|(i, &action)| Transition {
            source,
            action,
            target: (source + i) % actions.len(),
        }));
    }
    let m = actions.concat().into_iter().max().unwrap_or(0);
    let moves = transitions.len();
    let lts = Lts::new(m, end_marks.to_vec(), transitions);
    assert_eq!(lts.transitions().len(), moves, "a move twice");
    lts
}

/// The flows by hand.
pub fn small() -> Vec<Worked> {
    let unmarked = UNMARKED.map(|(actions, pairs)| {
        let end_marks = vec![false; actions.len()];
        (with_actions(&end_marks, actions), pairs)
    });
    let marked = MARKED.map(|(marks, actions, pairs)| (with_actions(marks, actions), pairs));
    let worked = |(lts, pairs): (Lts, Pairs)| {
        let mut alike = Relation::identity(lts.states());
        for &(p, q) in pairs {
            alike.insert(p, q);
        }
        Worked { lts, alike }
    };
    unmarked.into_iter().chain(marked).map(worked).collect()
}

/// The number of pages, those with the end mark, and the moves.
type Flow = (usize, &'static [State], &'static [Move]);

/// A page without moves, and the same with the end mark.
const DEAD_END: Flow = (1, &[], &[]);
const ENDED: Flow = (1, &[0], &[]);
/// A page without moves, and another one that moves to it.
const NOT_FIRST: Flow = (2, &[], &[(1, 1, 0)]);
/// A page that loops with action 1, and the same with the end mark.
const LOOP: Flow = (1, &[], &[(0, 1, 0)]);
const ENDED_LOOP: Flow = (1, &[0], &[(0, 1, 0)]);
/// A page that loops with other actions, or with more.
const LOOP_2: Flow = (1, &[], &[(0, 2, 0)]);
const LOOP_1_2: Flow = (1, &[], &[(0, 1, 0), (0, 2, 0)]);
const LOOP_1_3: Flow = (1, &[], &[(0, 1, 0), (0, 3, 0)]);
const LOOP_64: Flow = (1, &[], &[(0, 64, 0)]);
const LOOP_1_64: Flow = (1, &[], &[(0, 1, 0), (0, 64, 0)]);
/// Two pages with action 1 in a ring, and with all such moves but one.
const RING: Flow = (2, &[], &[(0, 1, 1), (1, 1, 0)]);
const RING_AND_LOOP: Flow = (2, &[], &[(0, 1, 0), (0, 1, 1), (1, 1, 0)]);
/// One, two and three moves by action 1 in a row.
const STEP: Flow = (2, &[], &[(0, 1, 1)]);
const STEPS: Flow = (3, &[], &[(0, 1, 1), (1, 1, 2)]);
const MORE_STEPS: Flow = (4, &[], &[(0, 1, 1), (1, 1, 2), (2, 1, 3)]);
/// A move by 1 to a page with the end mark.
const STEP_TO_END: Flow = (2, &[1], &[(0, 1, 1)]);
/// A move by 1, then one by 2 back; or a move by 1 to a dead end.
const BACK: Flow = (2, &[], &[(0, 1, 1), (1, 2, 0)]);
const BACK_OR_DEAD: Flow = (3, &[], &[(0, 1, 1), (0, 1, 2), (1, 2, 0)]);
/// A move by 1, then one by 2; or a move by 1 to a dead end.
const ONE: Flow = (3, &[], &[(0, 1, 1), (1, 2, 2)]);
const ONE_OR_DEAD: Flow = (3, &[], &[(0, 1, 1), (0, 1, 2), (1, 2, 2)]);
/// A move by 1, then the choice of 2 and 3; or without that choice.
const LATE: Flow = (3, &[], &[(0, 1, 1), (1, 2, 2), (1, 3, 2)]);
const LATE_OR_ONE: Flow = (
    4,
    &[],
    &[(0, 1, 1), (0, 1, 3), (1, 2, 2), (1, 3, 2), (3, 2, 2)],
);
/// The choice before the move by 1.
const EARLY: Flow = (4, &[], &[(0, 1, 1), (0, 1, 2), (1, 2, 3), (2, 3, 3)]);

/// Two flows, what compare says and what compare ready says.
const COMPARED: [(Flow, Flow, bool, bool); 59] = [
    // Without moves.
    (DEAD_END, DEAD_END, true, true),
    (DEAD_END, ENDED, true, true),
    (ENDED, DEAD_END, false, false),
    (ENDED, ENDED, true, true),
    // The other pages are of no account.
    (DEAD_END, NOT_FIRST, true, true),
    (NOT_FIRST, DEAD_END, true, true),
    (NOT_FIRST, ENDED, true, true),
    (NOT_FIRST, NOT_FIRST, true, true),
    // A dead end and a page with a button.
    (DEAD_END, LOOP, true, false),
    (DEAD_END, ENDED_LOOP, true, false),
    (DEAD_END, LOOP_64, true, false),
    (ENDED, LOOP, false, false),
    (ENDED, ENDED_LOOP, true, false),
    (LOOP, DEAD_END, false, false),
    (LOOP, ENDED, false, false),
    // The same button, with the end mark and without.
    (LOOP, LOOP, true, true),
    (LOOP, ENDED_LOOP, true, true),
    (ENDED_LOOP, LOOP, false, false),
    (ENDED_LOOP, ENDED_LOOP, true, true),
    // Other buttons, and more.
    (LOOP, LOOP_2, false, false),
    (LOOP, LOOP_64, false, false),
    (LOOP_64, LOOP, false, false),
    (LOOP_64, LOOP_64, true, true),
    (LOOP, LOOP_1_2, true, false),
    (LOOP_1_2, LOOP, false, false),
    (LOOP_2, LOOP_1_2, true, false),
    (LOOP_1_2, LOOP_1_2, true, true),
    (LOOP_1_2, LOOP_1_3, false, false),
    (LOOP, LOOP_1_64, true, false),
    (LOOP_64, LOOP_1_64, true, false),
    (LOOP_1_64, LOOP_64, false, false),
    // The same button for ever, by several moves or by one.
    (LOOP, RING, true, true),
    (RING, LOOP, true, true),
    (LOOP, RING_AND_LOOP, true, true),
    (RING_AND_LOOP, RING, true, true),
    // A dead end later on.
    (STEP, STEP, true, true),
    (STEP, LOOP, true, false),
    (STEP, STEPS, true, false),
    (STEPS, STEP, false, false),
    (STEPS, MORE_STEPS, true, false),
    (MORE_STEPS, RING, true, false),
    (RING, MORE_STEPS, false, false),
    (STEP, STEP_TO_END, true, true),
    (STEP_TO_END, STEP, false, false),
    // Another page is the answer to the dead end.
    (STEP, BACK, true, false),
    (STEP, BACK_OR_DEAD, true, true),
    (BACK_OR_DEAD, STEP, false, false),
    (BACK, BACK_OR_DEAD, true, true),
    (BACK_OR_DEAD, BACK, true, false),
    // Alike in the older form both ways, but not so here.
    (ONE, ONE_OR_DEAD, true, true),
    (ONE_OR_DEAD, ONE, true, false),
    // A choice that is made late, early or both.
    (EARLY, LATE, true, false),
    (LATE, EARLY, false, false),
    (ONE, EARLY, true, true),
    (ONE, LATE, true, false),
    (EARLY, ONE, false, false),
    (LATE, LATE_OR_ONE, true, true),
    (LATE_OR_ONE, LATE, true, false),
    (EARLY, LATE_OR_ONE, true, false),
];

/// The pairs of flows by hand.
pub fn pairs() -> Vec<Compared> {
    let flow = |(n, ended, moves): Flow| {
        let m = moves.iter().map(|&(_, action, _)| action).max();
        let lts = Lts::of(n, m.unwrap_or(0), moves);
        let end_marks = (0..n).map(|p| ended.contains(&p)).collect();
        Lts::new(lts.actions(), end_marks, lts.transitions().to_vec())
    };
    let compared = COMPARED.map(|(first, second, yes, ready)| Compared {
        flows: [first, second].map(flow),
        yes,
        ready,
    });
    compared.into()
}

/// Each set of the actions 1 to m, without the end mark and with it: page p
/// has action a where bit a - 1 of p is set, and the end mark where bit m is.
pub fn every_set(m: usize) -> Worked {
    let (sets, n) = (1 << m, 2 << m);
    let set = |p: State| (1..=m).filter(|a| p >> (a - 1) & 1 == 1).collect();
    let actions: Vec<Vec<Action>> = (0..n).map(set).collect();
    let end_marks: Vec<bool> = (0..n).map(|p| p >= sets).collect();
    Worked {
        lts: with_actions(&end_marks, &slices(&actions)),
        alike: Relation::from_fn(n, |p, q| p == q || p + sets == q),
    }
}

/// Page p has a move by action p + 1 alone, and none where that is above 64.
pub fn single_actions(n: usize) -> Worked {
    let action = |p: State| (p + 1..=MOST_ACTIONS).take(1).collect();
    let actions: Vec<Vec<Action>> = (0..n).map(action).collect();
    let has_none = |p: State| p >= MOST_ACTIONS;
    Worked {
        lts: with_actions(&vec![false; n], &slices(&actions)),
        alike: Relation::from_fn(n, |p, q| p == q || has_none(p) && has_none(q)),
    }
}

/// As many pages with all 64 actions each.
pub fn all_actions(n: usize) -> Worked {
    let all: Vec<Action> = (1..=MOST_ACTIONS).collect();
    Worked {
        lts: with_actions(&vec![false; n], &vec![&all[..]; n]),
        alike: Relation::full(n),
    }
}

/// 16 pages, of which page p has action 4p + 1 not at all, action 64 twice
/// and the others once, which makes 1,024 moves.
pub fn all_actions_but_one() -> Worked {
    let list = |p: State| {
        let others = (1..=MOST_ACTIONS).filter(|&a| a != 4 * p + 1);
        others.chain([MOST_ACTIONS]).collect()
    };
    let actions: Vec<Vec<Action>> = (0..16).map(list).collect();
    Worked {
        lts: with_actions(&[false; 16], &slices(&actions)),
        alike: Relation::identity(16),
    }
}

/// The lists as slices.
fn slices(lists: &[Vec<Action>]) -> Vec<&[Action]> {
    lists.iter().map(Vec::as_slice).collect()
}

/// A flow in which each state has one of a few sets of two actions at most,
/// with one or two moves by each action.
pub fn few_sets(rng: &mut Prng, n: usize, m: usize, sets: usize, marks: usize) -> Lts {
    let mut set = || {
        let most = [0, 1, 1, 2, 2][rng.below(5)];
        (0..most).map(|_| rng.between(1, m)).collect()
    };
    let sets: Vec<Vec<Action>> = (0..sets).map(|_| set()).collect();
    let mut transitions = Vec::new();
    for source in 0..n {
        for &action in &sets[rng.below(sets.len())] {
            let targets = (0..rng.between(1, 2)).map(|_| rng.below(n));
            transitions.extend(targets.map(|target| Transition {
                source,
                action,
                target,
            }));
        }
    }
    let end_marks = (0..n).map(|_| rng.chance(marks)).collect();
    Lts::new(m, end_marks, transitions)
}

/// The flow with some transitions more, `most` at most, each by an action
/// that its source has already.
pub fn more_alike(rng: &mut Prng, lts: &Lts, most: usize) -> Lts {
    let mut transitions = lts.transitions().to_vec();
    for _ in 0..rng.between(0, most) {
        if !transitions.is_empty() {
            let other = transitions[rng.below(transitions.len())];
            let target = rng.below(lts.states());
            transitions.push(Transition { target, ..other });
        }
    }
    Lts::new(lts.actions(), lts.end_marks().to_vec(), transitions)
}

/// Two small flows, often with the same sets of actions at most pages, so
/// that each answer of compare and of compare ready comes often.
pub fn two(rng: &mut Prng) -> [Lts; 2] {
    let (n, marks) = (rng.between(2, 7), [0, 0, 20][rng.below(3)]);
    let first = few_sets(rng, n, 3, 3, marks);
    let second = match rng.below(8) {
        0 => random::small(rng, 7, 4),
        1..=4 => random::fewer(rng, &first, n),
        _ => more_alike(rng, &first, 3),
    };
    if rng.chance(50) {
        [first, second]
    } else {
        [second, first]
    }
}

/// The two flows with the same labels for the same actions: both plain, one
/// plain, or both named, where a named one has its actions in another order.
pub fn kinds(rng: &mut Prng, flows: &[Lts; 2]) -> [LabelledLts; 2] {
    let [first, second] = flows.clone().map(LabelledLts::plain);
    match rng.below(4) {
        0 => [first, second],
        1 => [first, random::renumbered(rng, &second)],
        2 => [random::renumbered(rng, &first), second],
        _ => {
            let labels = random::labels(rng, MOST_ACTIONS);
            [first, second].map(|one| {
                let own = labels[..one.lts().actions()].to_vec();
                let named = LabelledLts::named(one.lts().clone(), own);
                random::renumbered(rng, &named)
            })
        }
    }
}
