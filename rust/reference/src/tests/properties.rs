//! Property tests with a fixed seed: the turn rule against the two other
//! ways to the coarsest simulation, and plans, their depths and play against
//! the rounds.

use super::{accepted, refused};
use crate::base;
use crate::compare;
use crate::fixpoint;
use crate::game::{hand_play, Game};
use crate::grid;
use crate::lts::Lts;
use crate::plans::{check_plan, write_plan, Checked, LeastDepths, Rounds, Strategy};
use crate::prng::Prng;
use crate::random;
use crate::refusal::Refusal;
use crate::relation::{Preorder, Relation};
use crate::sheet;
use crate::turns::{self, Turns};

/// A random flow with a random start.
fn sample(rng: &mut Prng, most_states: usize) -> (Lts, Preorder) {
    let lts = random::small(rng, most_states, 4);
    let start = if rng.chance(40) {
        grid::end_start_of(&lts)
    } else {
        random::preorder(rng, lts.states())
    };
    (lts, start)
}

/// The three ways agree, on every schedule tried; gives the relation.
pub fn agree(rng: &mut Prng, lts: &Lts, start: &Preorder) -> Relation {
    let n = lts.states();
    let kept = base::coarsest(lts, start);
    assert_eq!(kept, fixpoint::coarsest(lts, start), "{lts:?} {start:?}");
    for round in 0..4 {
        let schedule = if round == 0 {
            Vec::new()
        } else {
            random::schedule(rng, 3 * n)
        };
        let outcome = turns::run(lts, start, &schedule);
        assert_eq!(outcome.kept, kept, "{lts:?} {start:?} {schedule:?}");
        assert!(outcome.turns <= n * (n - 1));
    }
    kept
}

#[test]
fn three_ways_agree_on_small_flows() {
    let mut rng = Prng::new(1);
    for _ in 0..4000 {
        let (lts, start) = sample(&mut rng, 9);
        let kept = agree(&mut rng, &lts, &start);
        assert!(grid::is_simulation(&lts, &kept));
        assert!(kept.is_inside(start.relation()));
        assert!(Preorder::new(kept.clone()).is_ok());
        let rounds = Rounds::of(&lts, &start);
        assert_eq!(rounds.w[rounds.w.len() - 1], kept);
    }
}

#[test]
fn three_ways_agree_on_middle_flows() {
    let mut rng = Prng::new(2);
    for _ in 0..150 {
        let (lts, start) = sample(&mut rng, 70);
        agree(&mut rng, &lts, &start);
    }
}

#[test]
fn three_ways_agree_on_large_flows() {
    let mut rng = Prng::new(3);
    for (m, k) in [(1, 300), (2, 400), (3, 600), (8, 1024), (64, 1024)] {
        let lts = random::lts(&mut rng, 256, m, k, 10);
        agree(&mut rng, &lts, &grid::end_start_of(&lts));
    }
    let lts = random::forward(&mut rng, 256, 2, 5);
    let start = random::preorder(&mut rng, 256);
    agree(&mut rng, &lts, &start);
}

#[test]
fn coarsest_is_the_union_of_all_simulations() {
    // All relations on up to 3 states are tried.
    let mut rng = Prng::new(4);
    for _ in 0..60 {
        let (lts, start) = sample(&mut rng, 3);
        let n = lts.states();
        let mut union = Relation::empty(n);
        for bits in 0..1usize << (n * n) {
            let claim = Relation::from_fn(n, |p, q| bits >> (p * n + q) & 1 == 1);
            if claim.is_inside(start.relation()) && grid::is_simulation(&lts, &claim) {
                for (p, q) in claim.pairs() {
                    union.insert(p, q);
                }
            }
        }
        assert_eq!(turns::run(&lts, &start, &[]).kept, union);
    }
}

#[test]
fn one_row_serves_each_block_in_every_turn() {
    let mut rng = Prng::new(6);
    for _ in 0..600 {
        let (lts, start) = sample(&mut rng, 10);
        let n = lts.states();
        let mut turns = Turns::begin(&lts, &start);
        loop {
            for p in 0..n {
                let block = turns.kept().block(p);
                assert!(block.contains(p));
                for r in block.iter() {
                    assert_eq!(turns.kept().block(r), block);
                    assert_eq!(turns.kept().row(r), turns.kept().row(p));
                    assert_eq!(turns.viewed().row(r), turns.viewed().row(p));
                }
                assert!(turns.kept().row(p).is_subset(turns.viewed().row(p)));
            }
            if !turns.turn(rng.bits() as u16) {
                break;
            }
        }
    }
}

#[test]
fn written_plans_are_accepted() {
    let mut rng = Prng::new(7);
    for _ in 0..400 {
        let (lts, start) = sample(&mut rng, 7);
        let n = lts.states();
        let sheet = sheet::write(&lts);
        let words = grid::write(start.relation());
        let rounds = Rounds::of(&lts, &start);
        for p in 0..n {
            for q in 0..n {
                let mut plan = vec![77; 4 * (n * n + 1) + rng.below(4)];
                let before = plan.clone();
                match write_plan(&sheet, &words, p as u16, q as u16, &mut plan) {
                    Ok(count) => {
                        let own = rounds.falls_at(p, q).unwrap();
                        let w = |j: usize| n * n - rounds.at(j).len();
                        assert_eq!(count, 1 + if own == 0 { 0 } else { w(own - 1) });
                        assert_eq!(plan[4 * count..], before[4 * count..]);
                        let end = 4 * count + rng.below(4);
                        assert_eq!(
                            check_plan(&sheet, &words, &plan[..end.min(plan.len())]),
                            accepted(p as u16, q as u16, own)
                        );
                        let mut short = vec![77; 4 * count - 1];
                        assert_eq!(
                            write_plan(&sheet, &words, p as u16, q as u16, &mut short),
                            refused(15)
                        );
                        assert_eq!(short, vec![77; 4 * count - 1]);
                    }
                    Err(refusal) => {
                        assert_eq!(refusal, Refusal::KEPT_PAIR);
                        assert_eq!(rounds.falls_at(p, q), None);
                        assert_eq!(plan, before);
                    }
                }
            }
        }
    }
}

#[test]
fn accepted_plans_are_about_dropped_pairs() {
    let mut rng = Prng::new(8);
    let mut accepted = 0;
    for _ in 0..20_000 {
        let (lts, start) = sample(&mut rng, 5);
        let n = lts.states();
        let rounds = Rounds::of(&lts, &start);
        let (p, q) = (rng.below(n), rng.below(n));
        let Some(strategy) = rounds.strategy(&lts, p, q) else {
            continue;
        };
        let mut numbers = strategy.numbers();
        let at = rng.below(numbers.len());
        numbers[at] = rng.below(n + 1) as u16;
        let strategy = Strategy::read(&numbers);
        if strategy.is_accepted(&lts, &start) {
            accepted += 1;
            for (entry, depth) in strategy.entries.iter().zip(strategy.depths(&lts)) {
                let round = rounds.falls_at(entry.p.into(), entry.q.into());
                assert!(round.is_some_and(|round| round <= depth));
            }
        }
    }
    assert!(accepted > 100);
}

#[test]
fn no_accepted_plan_is_less_deep_than_the_written_one() {
    let mut rng = Prng::new(12);
    let (mut as_deep, mut deeper) = (0, 0);
    for _ in 0..800 {
        let (lts, start) = sample(&mut rng, 8);
        let (sheet, words) = (sheet::write(&lts), grid::write(start.relation()));
        let rounds = Rounds::of(&lts, &start);
        let entries = rng.between(1, 20);
        let numbers = random::sound_plan(&mut rng, &lts, &start, entries).numbers();
        // Each entry is the last one of the plan up to it.
        for to in (4..=numbers.len()).step_by(4) {
            let Checked { p, q, depth } = check_plan(&sheet, &words, &numbers[..to]).unwrap();
            assert_eq!([p, q], numbers[to - 4..to - 2]);
            let round = rounds.falls_at(p.into(), q.into()).unwrap();
            assert!(round <= depth);
            let written = rounds.strategy(&lts, p.into(), q.into()).unwrap();
            let checked = check_plan(&sheet, &words, &written.numbers());
            assert_eq!(checked, accepted(p, q, round));
            as_deep += usize::from(round == depth);
            deeper += usize::from(round < depth);
            // The challenger wins in as many rounds as the plan is deep.
            if let Ok(k @ 0..=6) = u16::try_from(depth) {
                assert_eq!(hand_play(&sheet, &words, p, q, k), Ok(true));
            }
        }
    }
    assert!(as_deep > 1_000 && deeper > 1_000);
}

/// The entries of a plan in a random order in which each is sound, but for
/// the last one, which stays.
fn reordered(rng: &mut Prng, lts: &Lts, plan: &Strategy) -> Strategy {
    let mut rest = plan.entries.clone();
    let last = rest.pop().expect("a last entry");
    let mut least = LeastDepths::default();
    let mut entries = Vec::new();
    while !rest.is_empty() {
        rng.shuffle(&mut rest);
        let mut places = rest.iter().enumerate();
        let (place, depth) = places
            .find_map(|(i, entry)| Some((i, least.depth(lts, entry)?)))
            .expect("a sound entry");
        let entry = rest.swap_remove(place);
        least.add(&entry, depth);
        entries.push(entry);
    }
    entries.push(last);
    Strategy { entries }
}

#[test]
fn written_entries_are_as_deep_in_another_order() {
    // A pair has one entry alone, so that the order makes no difference.
    let mut rng = Prng::new(13);
    let mut others = 0;
    for _ in 0..1_500 {
        let (lts, start) = sample(&mut rng, 7);
        let rounds = Rounds::of(&lts, &start);
        let pairs = Relation::full(lts.states());
        let latest = pairs.pairs().max_by_key(|&(p, q)| rounds.falls_at(p, q));
        let (p, q) = latest.expect("there are pairs");
        let Some(written) = rounds.strategy(&lts, p, q) else {
            continue;
        };
        let other = reordered(&mut rng, &lts, &written);
        others += usize::from(other != written);
        assert!(other.is_accepted(&lts, &start));
        for (entry, depth) in other.entries.iter().zip(other.depths(&lts)) {
            let round = rounds.falls_at(entry.p.into(), entry.q.into());
            assert_eq!(round, Some(depth));
        }
    }
    assert!(others > 400);
}

#[test]
fn hand_play_is_won_exactly_from_the_round_on() {
    let mut rng = Prng::new(14);
    for _ in 0..100 {
        let (lts, start) = sample(&mut rng, 6);
        let (sheet, words) = (sheet::write(&lts), grid::write(start.relation()));
        let rounds = Rounds::of(&lts, &start);
        for (p, q) in Relation::full(lts.states()).pairs() {
            for k in 0..=6 {
                let falls = rounds.falls_at(p, q).is_some_and(|round| round <= k);
                let won = hand_play(&sheet, &words, p as u16, q as u16, k as u16);
                assert_eq!(won, Ok(falls));
            }
        }
    }
}

#[test]
fn hand_play_is_won_exactly_outside_the_rounds() {
    let mut rng = Prng::new(9);
    for _ in 0..600 {
        let (lts, start) = sample(&mut rng, 9);
        let n = lts.states();
        let rounds = Rounds::of(&lts, &start);
        let mut game = Game::new(&lts, &start, 6);
        for k in 0..=6 {
            for p in 0..n {
                for q in 0..n {
                    assert_eq!(game.challenger_wins(p, q, k), !rounds.at(k).contains(p, q));
                }
            }
        }
    }
}

#[test]
fn compare_is_the_kept_pair_of_the_joined_flow() {
    let mut rng = Prng::new(10);
    for _ in 0..400 {
        let first = random::small(&mut rng, 6, 3);
        let second = random::small(&mut rng, 6, 3);
        let joined = compare::join(&first, &second).unwrap();
        let kept = fixpoint::coarsest(&joined, &grid::end_start_of(&joined));
        let (yes, turns) = compare::compare(&sheet::write(&first), &sheet::write(&second)).unwrap();
        assert_eq!(yes, kept.contains(0, first.states()));
        assert_eq!(
            turns,
            turns::run(&joined, &grid::end_start_of(&joined), &[]).turns
        );
    }
}

#[test]
fn grids_read_what_they_write() {
    let mut rng = Prng::new(11);
    for n in [1, 2, 63, 64, 65, 127, 128, 129, 255, 256] {
        let mut relation = Relation::empty(n);
        for _ in 0..4 * n {
            relation.insert(rng.below(n), rng.below(n));
        }
        let words = grid::write(&relation);
        assert_eq!(words.len(), n * n.div_ceil(64));
        assert_eq!(grid::read(&words, n), Ok(relation));
    }
}
