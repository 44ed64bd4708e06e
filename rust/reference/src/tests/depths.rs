//! Depths of plans: F5, the plans made by hand, and the sentence of request
//! L8 of document 02 word by word.

use super::document::F3;
use super::{accepted, refused};
use crate::grid;
use crate::lts::Lts;
use crate::plan_depths::{self, Worked};
use crate::plans::{check_plan, Rounds, Strategy};
use crate::prng::Prng;
use crate::random;
use crate::sheet;
use std::collections::BTreeMap;

/// The plan of F5.
const F5: [u16; 12] = [0, 1, 1, 1, 2, 1, 1, 2, 2, 0, 1, 2];

/// Check plan gives the last pair and the depth.
fn check(worked: &Worked) {
    let Worked {
        lts,
        start,
        plan,
        depth,
    } = worked;
    let last = plan.entries[plan.entries.len() - 1];
    let (sheet, words) = (sheet::write(lts), grid::write(start.relation()));
    let checked = check_plan(&sheet, &words, &plan.numbers());
    assert_eq!(checked, accepted(last.p, last.q, *depth), "{plan:?}");
    let round = Rounds::of(lts, start).falls_at(last.p.into(), last.q.into());
    assert!(round.unwrap() <= *depth, "{plan:?}");
}

/// The depth of the entry at a place, by the sentence.
fn depth_at(lts: &Lts, plan: &Strategy, depths: &[usize], place: usize) -> usize {
    let entry = plan.entries[place];
    let replies = lts.replies(entry.q.into(), entry.a.into());
    if entry.a == 0 {
        0
    } else if replies.is_empty() {
        1
    } else {
        let mut largest = 0;
        for reply in replies {
            let holds = |i: &usize| {
                let earlier = plan.entries[*i];
                (earlier.p, usize::from(earlier.q)) == (entry.t, reply.target)
            };
            let least = (0..place).filter(holds).map(|i| depths[i]).min();
            largest = largest.max(least.unwrap());
        }
        largest + 1
    }
}

#[test]
fn f5_and_its_first_entries() {
    // Page 1 has no 1-move: 1 and 1. Page 0's only reply is page 1, and the
    // second entry holds (2, 1): 2.
    let start = [7; 3];
    assert_eq!(check_plan(&F3, &start, &F5[..4]), accepted(0, 1, 1));
    assert_eq!(check_plan(&F3, &start, &F5[..8]), accepted(2, 1, 1));
    assert_eq!(check_plan(&F3, &start, &F5), accepted(2, 0, 2));
    // The first entry once more at the end: 1.
    let again = [&F5[..], &F5[..4]].concat();
    assert_eq!(check_plan(&F3, &start, &again), accepted(0, 1, 1));
    assert_eq!(
        Strategy::read(&F5).depths(&sheet::read(&F3).unwrap()),
        [1, 1, 2]
    );
}

#[test]
fn f5_on_the_diagonal() {
    let start = [1, 2, 4];
    // Outside the start by a = 0: 0.
    assert_eq!(check_plan(&F3, &start, &[2, 0, 0, 0]), accepted(2, 0, 0));
    // By a move, with the only reply's pair (2, 1) at 0: 1.
    let cited = [2, 1, 0, 0, 2, 0, 1, 2];
    assert_eq!(check_plan(&F3, &start, &cited), accepted(2, 0, 1));
    // With (2, 1) at 1, and at 1 and then 0.
    assert_eq!(check_plan(&F3, &start, &F5[4..]), accepted(2, 0, 2));
    let twice = [&F5[4..8], &cited].concat();
    assert_eq!(check_plan(&F3, &start, &twice), accepted(2, 0, 1));
    // a = 0 within the start is refused, whatever the depths.
    assert_eq!(check_plan(&F3, &[7; 3], &[2, 0, 0, 0]), refused(14));
}

#[test]
fn plans_made_by_hand() {
    plan_depths::small().iter().for_each(check);
}

#[test]
fn depths_beside_the_plans_made_by_hand() {
    // The two longest, and the one with (0, 1) at the depths 2, 1 and 0.
    let all = plan_depths::small();
    let of = |place: usize| all[place].plan.depths(&all[place].lts);
    assert_eq!(of(11), [1, 2, 3, 1, 2, 1, 1, 3]);
    assert_eq!(of(16), [1, 2, 3, 1, 2, 3]);
    assert_eq!(of(17 + 7), [1, 2, 1, 0, 1]);
}

#[test]
fn plans_beside_the_written_ones() {
    // Depths and rounds of a few of them, by the comments beside them.
    let all = plan_depths::small();
    for (place, depth, round) in [(1, 2, 2), (2, 2, 1), (3, 3, 2), (4, 2, 1), (10, 4, 3)] {
        let Worked {
            lts, start, plan, ..
        } = &all[place];
        let rounds = Rounds::of(lts, start);
        let last = plan.entries[plan.entries.len() - 1];
        assert_eq!(all[place].depth, depth);
        assert_eq!(rounds.falls_at(last.p.into(), last.q.into()), Some(round));
        let written = rounds.strategy(lts, last.p.into(), last.q.into()).unwrap();
        assert_eq!(written.depths(lts).last(), Some(&round));
        assert_ne!(written, *plan);
    }
}

#[test]
fn plans_around_two_cycles() {
    for (first, second, entries) in [(1, 1, 1), (2, 3, 6), (3, 4, 11), (16, 17, 272)] {
        let worked = plan_depths::around(first, second, entries);
        check(&worked);
        let each: Vec<usize> = (0..entries).collect();
        assert_eq!(worked.plan.depths(&worked.lts), each);
    }
    check(&plan_depths::around(31, 33, 1_023));
}

#[test]
fn depths_are_those_of_the_sentence() {
    let mut rng = Prng::new(50);
    for _ in 0..1_000 {
        let lts = random::small(&mut rng, 8, 4);
        let start = random::preorder(&mut rng, lts.states());
        let entries = rng.between(1, 40);
        let plan = random::sound_plan(&mut rng, &lts, &start, entries);
        let depths = plan.depths(&lts);
        for (place, &depth) in depths.iter().enumerate() {
            assert_eq!(depth, depth_at(&lts, &plan, &depths, place));
        }
    }
}

#[test]
fn sound_plans_take_detours() {
    let mut rng = Prng::new(51);
    let (mut plans, mut twice, mut deeper, mut shallower) = (0, 0, 0, 0);
    for _ in 0..1_000 {
        let n = rng.between(3, 8);
        let lts = random::lts(&mut rng, n, 2, 2 * n, 10);
        let start = grid::end_start_of(&lts);
        let plan = random::sound_plan(&mut rng, &lts, &start, 12);
        let Some(last) = plan.entries.last() else {
            continue;
        };
        plans += 1;
        let depths = plan.depths(&lts);
        let depth = depths[depths.len() - 1];
        let mut of_pair = BTreeMap::new();
        let pairs = plan.entries.iter().map(|e| (e.p, e.q));
        let differs = |(pair, &depth)| *of_pair.entry(pair).or_insert(depth) != depth;
        twice += usize::from(pairs.zip(&depths).any(differs));
        let round = Rounds::of(&lts, &start).falls_at(last.p.into(), last.q.into());
        deeper += usize::from(depth > round.unwrap());
        shallower += usize::from(depths.iter().any(|&d| d > depth));
    }
    assert!(plans > 500);
    assert!(4 * twice > plans && 4 * deeper > plans && 4 * shallower > plans);
}
