//! Hand play (op 7), compare (op 8) and join (op 15).

use crate::case::Case;
use crate::make::{self, diagonal_words, filled_bytes, full_words, start_words};
use reference::compare;
use reference::grid;
use reference::lts::{Lts, Transition};
use reference::plans::Rounds;
use reference::prng::Prng;
use reference::random;
use reference::relation::{Preorder, Relation};
use reference::sheet;

/// The most calls of the challenger's function that a hand play may need
/// when nothing is remembered and no search stops early.
const MOST_CALLS: u64 = 1_000_000;

/// The cases.
pub fn cases() -> Vec<Case> {
    let mut cases = Vec::new();
    document_play(&mut cases);
    chain_play(&mut cases);
    branching_play(&mut cases);
    random_play(&mut cases);
    telling_play(&mut cases);
    play_refusals(&mut cases);
    document_compare(&mut cases);
    random_compare(&mut cases);
    joins(&mut cases);
    compare_refusals(&mut cases);
    joined(&mut cases);
    cases
}

/// F6 and every other pair of F1 to F3, with 0 to 7 rounds.
fn document_play(cases: &mut Vec<Case>) {
    for f in [make::f1(), make::f2(), make::f3()] {
        let n = u16::from(f[0]);
        let start = full_words(usize::from(n));
        for p in 0..n {
            for q in 0..n {
                for rounds in 0..=7 {
                    cases.push(Case::hand_play(&f, &start, p, q, rounds));
                }
            }
        }
    }
    let f4 = make::f4();
    for p in 0..4 {
        for q in 0..4 {
            for rounds in 0..=4 {
                cases.push(Case::hand_play(&f4, &full_words(4), p, q, rounds));
            }
            cases.push(Case::hand_play(&f4, &diagonal_words(4), p, q, 0));
        }
    }
}

/// Chains long enough that 6 rounds win or just do not.
fn chain_play(cases: &mut Vec<Case>) {
    let n = 9;
    let sheet = sheet::write(&make::chain(n));
    for q in 0..n as u16 {
        for rounds in 0..=7 {
            cases.push(Case::hand_play(&sheet, &full_words(n), 0, q, rounds));
        }
    }
    // A ring and a chain, as in F3 but longer.
    let moves: Vec<_> = (1..7)
        .map(|p| (p - 1, 1, p))
        .chain([(7, 1, 8), (8, 1, 7)])
        .collect();
    let sheet = sheet::write(&Lts::of(9, 1, &moves));
    for q in 0..7 {
        for rounds in [0, 1, 5, 6] {
            cases.push(Case::hand_play(&sheet, &full_words(9), 7, q, rounds));
        }
    }
}

/// Two moves and two replies at each page, to the last round.
fn branching_play(cases: &mut Vec<Case>) {
    let moves: Vec<_> = (0..6)
        .flat_map(|p| [(p, 1, (2 * p) % 6), (p, 1, (2 * p + 1) % 6)])
        .collect();
    let lts = Lts::of(6, 1, &moves);
    let start = Preorder::new(Relation::from_fn(6, |p, q| p != 5 || q == 5));
    let start = start.expect("a preorder");
    for q in 0..6 {
        for rounds in 0..=6 {
            add_play(cases, &lts, &start, 0, q, rounds);
            add_play(cases, &lts, &start, 5, q, rounds);
        }
    }
}

/// The calls of a hand play in which nothing is remembered.
fn plain_calls(lts: &Lts, start: &Preorder, p: usize, q: usize, rounds: usize) -> u64 {
    let n = lts.states();
    let mut calls = vec![1u64; n * n];
    for _ in 0..rounds {
        let before = calls;
        calls = (0..n * n)
            .map(|pair| {
                let (p, q) = (pair / n, pair % n);
                if !start.contains(p, q) {
                    return 1;
                }
                let replies = |step: &Transition| {
                    lts.replies(q, step.action)
                        .iter()
                        .map(|reply| before[step.target * n + reply.target])
                        .fold(0u64, u64::saturating_add)
                };
                lts.moves_of(p)
                    .iter()
                    .map(replies)
                    .fold(1u64, u64::saturating_add)
            })
            .collect();
    }
    calls[p * n + q]
}

/// A hand play, unless it would take too long for a plain player.
fn add_play(cases: &mut Vec<Case>, lts: &Lts, start: &Preorder, p: usize, q: usize, rounds: usize) {
    if plain_calls(lts, start, p, q, rounds) <= MOST_CALLS {
        let (p, q, rounds) = (p as u16, q as u16, rounds as u16);
        cases.push(Case::hand_play(
            &sheet::write(lts),
            &start_words(start),
            p,
            q,
            rounds,
        ));
    }
}

/// Random flows, starts, pairs and rounds.
fn random_play(cases: &mut Vec<Case>) {
    let mut rng = Prng::new(501);
    for round in 0..50 {
        let lts = if round % 3 == 0 {
            let n = rng.between(6, 14);
            random::forward(&mut rng, n, 2, 10)
        } else {
            random::small(&mut rng, 9, 3)
        };
        let n = lts.states();
        let start = if rng.chance(50) {
            grid::end_start_of(&lts)
        } else {
            random::preorder(&mut rng, n)
        };
        for _ in 0..4 {
            let (p, q, rounds) = (rng.below(n), rng.below(n), rng.below(7));
            add_play(cases, &lts, &start, p, q, rounds);
        }
    }
    for n in [64, 65, 130] {
        let lts = random::forward(&mut rng, n, 2, 5);
        let start = grid::end_start_of(&lts);
        let (p, q) = (rng.below(n), rng.below(n));
        add_play(cases, &lts, &start, p, q, 6);
        // The last pages, whose bits are in the last word.
        add_play(cases, &lts, &start, n - 1, n - 2, 6);
        add_play(cases, &lts, &start, n - 3, n - 1, 6);
    }
}

/// Pairs inside the start that fall at a round from 1 to 6 and would not
/// have fallen by then with all pairs as the start: here a later pair
/// outside the start decides. Played with one round too few, and just enough.
fn telling_play(cases: &mut Vec<Case>) {
    let mut rng = Prng::new(504);
    let mut found = 0;
    while found < 40 {
        let n = rng.between(4, 9);
        let m = rng.between(1, 2);
        let lts = random::lts(&mut rng, n, m, 2 * n, 25);
        let start = if rng.chance(50) {
            grid::end_start_of(&lts)
        } else {
            random::preorder(&mut rng, n)
        };
        let rounds = Rounds::of(&lts, &start);
        let plain = Rounds::of(&lts, &Preorder::closure(&Relation::full(n)));
        let (p, q) = (rng.below(n), rng.below(n));
        let Some(round) = rounds.falls_at(p, q) else {
            continue;
        };
        // Most pairs fall at round 1: take fewer of those.
        let few = round == 1 && found % 4 != 0;
        if round == 0 || round > 6 || few || !plain.at(round).contains(p, q) {
            continue;
        }
        found += 1;
        add_play(cases, &lts, &start, p, q, round - 1);
        add_play(cases, &lts, &start, p, q, round);
        add_play(cases, &lts, &start, p, q, 6);
    }
}

/// Refusals of hand play, and those that would hold at the same time.
fn play_refusals(cases: &mut Vec<Case>) {
    let f3 = make::f3();
    let good = &make::F3_START;
    make::refused_inputs(cases, |sheet, start| {
        [(2, 0, 2), (3, 0, 2), (2, 0, 7)]
            .map(|(p, q, rounds)| Case::hand_play(sheet, start, p, q, rounds))
            .to_vec()
    });
    for (p, q) in [
        (3, 0),
        (0, 3),
        (3, 3),
        (65535, 0),
        (0, 65535),
        (256, 0),
        (0, 257),
    ] {
        for rounds in [0, 6, 7] {
            cases.push(Case::hand_play(&f3, good, p, q, rounds));
        }
    }
    for rounds in [6, 7, 8, 255, 256, 257, 258, 65535] {
        cases.push(Case::hand_play(&f3, good, 2, 0, rounds));
        // Outside the start: won without a move, but not above 6 rounds.
        cases.push(Case::hand_play(&f3, &[1, 2, 4], 2, 0, rounds));
    }
}

/// F1 to F4 with each other, plain and with end marks.
pub fn document_compare(cases: &mut Vec<Case>) {
    let flows = [make::f1(), make::f2(), make::f3(), make::f4()];
    for first in &flows {
        for second in &flows {
            cases.push(Case::compare(first, second));
            // Page 0 of the first, of the second, of both has the end mark.
            cases.push(Case::compare(&make::with_byte(first, 6, 1), second));
            cases.push(Case::compare(first, &make::with_byte(second, 6, 1)));
            cases.push(Case::compare(
                &make::with_byte(first, 6, 1),
                &make::with_byte(second, 6, 1),
            ));
        }
    }
}

/// Random flows, half of them with one move more than the other.
fn random_compare(cases: &mut Vec<Case>) {
    let mut rng = Prng::new(502);
    for round in 0..100 {
        let first = random::small(&mut rng, 8, 3);
        // Often the same flow with one move more, so that the answer is yes.
        let second = if round % 2 == 0 {
            let n = first.states();
            let m = first.actions().max(1);
            let mut transitions = first.transitions().to_vec();
            transitions.push(Transition {
                source: rng.below(n),
                action: rng.between(1, m),
                target: rng.below(n),
            });
            Lts::new(m, first.end_marks().to_vec(), transitions)
        } else {
            random::small(&mut rng, 8, 5)
        };
        let first_sheet = random::shuffled_sheet(&mut rng, &first);
        let second_sheet = random::shuffled_sheet(&mut rng, &second);
        cases.push(Case::compare(&first_sheet, &second_sheet));
        cases.push(Case::compare(&second_sheet, &first_sheet));
    }
    // Actions up to 64 on one side.
    let few = Lts::of(3, 2, &[(0, 1, 1), (1, 2, 2)]);
    let many = Lts::of(3, 64, &[(0, 1, 1), (0, 64, 0), (1, 2, 2), (1, 63, 1)]);
    cases.push(Case::compare(&sheet::write(&few), &sheet::write(&many)));
    cases.push(Case::compare(&sheet::write(&many), &sheet::write(&few)));
    // Flows around 64 pages together.
    for (a, b) in [(31, 32), (32, 32), (32, 33), (64, 64), (64, 65)] {
        let first = random::forward(&mut rng, a, 2, 5);
        let second = random::forward(&mut rng, b, 2, 5);
        cases.push(Case::compare(&sheet::write(&first), &sheet::write(&second)));
    }
}

/// Joined flows at 256 and 257 pages and at 1,024 and 1,025 moves.
fn joins(cases: &mut Vec<Case>) {
    let mut rng = Prng::new(503);
    for (a, b) in [
        (128, 128),
        (128, 129),
        (255, 1),
        (1, 256),
        (255, 2),
        (256, 256),
    ] {
        let first = random::lts(&mut rng, a, 3, a + 20, 10);
        let second = random::lts(&mut rng, b, 3, b + 20, 10);
        cases.push(Case::compare(&sheet::write(&first), &sheet::write(&second)));
    }
    // Chains of 128 pages, which take many turns.
    cases.push(Case::compare(
        &sheet::write(&make::chain(128)),
        &sheet::write(&make::chain(128)),
    ));
    cases.push(Case::compare(
        &sheet::write(&make::chain(100)),
        &sheet::write(&make::chain(99)),
    ));
    cases.push(Case::compare(
        &sheet::write(&make::chain(99)),
        &sheet::write(&make::chain(100)),
    ));
    for (a, b) in [(512, 512), (512, 513), (1024, 0), (1, 1024)] {
        let first = random::lts_exact(&mut rng, 40, 8, a, 10);
        let second = random::lts_exact(&mut rng, 40, 8, b, 10);
        cases.push(Case::compare(&sheet::write(&first), &sheet::write(&second)));
    }
    // The largest flow that is not too large.
    let first = random::lts_exact(&mut rng, 128, 4, 512, 10);
    let second = random::lts_exact(&mut rng, 128, 6, 512, 10);
    assert!(compare::join(&first, &second).is_ok());
    cases.push(Case::compare(&sheet::write(&first), &sheet::write(&second)));
}

/// Sheets that are refused, on either side.
pub fn compare_refusals(cases: &mut Vec<Case>) {
    let bad = make::refused_sheets();
    for sheet in &bad {
        cases.push(Case::compare(sheet, &make::f3()));
        cases.push(Case::compare(&make::f3(), sheet));
    }
    // Both refused: the first one's number counts, even if it is higher.
    for first in &bad {
        for second in &bad {
            cases.push(Case::compare(first, second));
        }
    }
    // The second refused, and too large together if its counts are believed.
    let large = sheet::write(&Lts::of(256, 1, &[]));
    for sheet in &bad {
        cases.push(Case::compare(&large, sheet));
        cases.push(Case::compare(sheet, &large));
    }
    cases.push(Case::compare(&[], &[]));
    cases.push(Case::compare(&make::f1(), &[]));
    cases.push(Case::compare(&[], &make::f1()));
}

/// Some of the same sheets joined, in buffers of all lengths around the
/// joined sheet's.
fn joined(cases: &mut Vec<Case>) {
    let pairs: Vec<(Vec<u8>, Vec<u8>)> = cases
        .iter()
        .filter(|case| case.op == 8)
        .map(|case| (case.fields[0].clone(), case.fields[1].clone()))
        .collect();
    let small = |pair: &&(Vec<u8>, Vec<u8>)| pair.0.len() + pair.1.len() <= 300;
    let lengths = |first: &[u8], second: &[u8]| {
        let length = (first.len() + second.len()).saturating_sub(6);
        [length, length.saturating_sub(1), length + 1, 0, length + 9]
    };
    for (i, (first, second)) in pairs.iter().filter(small).step_by(2).enumerate() {
        let length = lengths(first, second)[[0, 1, 0, 2, 3, 0, 4][i % 7]];
        cases.push(Case::join(first, second, &filled_bytes(length)));
    }
    // The first two pairs in every buffer.
    for (first, second) in &pairs[..2] {
        for length in lengths(first, second) {
            cases.push(Case::join(first, second, &filled_bytes(length)));
        }
    }
    // At and over the most pages and moves.
    for (a, b) in [(128, 128), (128, 129), (1, 256)] {
        let (first, second) = (sheet::write(&make::chain(a)), sheet::write(&make::chain(b)));
        cases.push(Case::join(&first, &second, &filled_bytes(2_600)));
    }
    let mut rng = Prng::new(505);
    for k in [512, 513] {
        let first = random::lts_exact(&mut rng, 40, 64, 512, 10);
        let second = random::lts_exact(&mut rng, 41, 8, k, 10);
        let (first, second) = (sheet::write(&first), sheet::write(&second));
        let length = if k == 512 { 7_176 } else { 9 };
        cases.push(Case::join(&first, &second, &filled_bytes(length)));
    }
}
