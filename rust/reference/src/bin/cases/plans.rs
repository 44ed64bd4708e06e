//! Check plan and write plan, on numbers (ops 5 and 6), on entries (10 and 11)
//! and on bytes (12 and 13).

use crate::case::Case;
use crate::make::{
    self, diagonal_words, end_words, filled_numbers, full_words, start_words, F3_START,
};
use reference::grid;
use reference::lts::Lts;
use reference::plans::{Entry, Rounds, Strategy};
use reference::prng::Prng;
use reference::random;
use reference::relation::{Preorder, Relation};
use reference::sheet;

/// The cases.
pub fn cases() -> Vec<Case> {
    let mut cases = Vec::new();
    f5(&mut cases);
    all_pairs(&mut cases);
    damaged(&mut cases);
    by_hand(&mut cases);
    random_flows(&mut cases);
    missing_reply(&mut cases);
    buffers(&mut cases);
    refusals(&mut cases);
    long(&mut cases);
    carried(&mut cases);
    cases
}

/// The plan of F5.
const F5: [u16; 12] = [0, 1, 1, 1, 2, 1, 1, 2, 2, 0, 1, 2];

/// F5 and its parts.
fn f5(cases: &mut Vec<Case>) {
    let f3 = make::f3();
    cases.push(Case::write_plan(&f3, &F3_START, &filled_numbers(12), 2, 0));
    cases.push(Case::check_plan(&f3, &F3_START, &F5));
    // Its parts: the first entries, the last ones, with numbers past the last.
    for to in 0..=12 {
        cases.push(Case::check_plan(&f3, &F3_START, &F5[..to]));
    }
    for from in 1..12 {
        cases.push(Case::check_plan(&f3, &F3_START, &F5[from..]));
    }
    for more in 1..=9 {
        let plan = [F5.to_vec(), vec![9; more]].concat();
        cases.push(Case::check_plan(&f3, &F3_START, &plan));
    }
    // Its entries in every order, left out and doubled.
    let e: Vec<&[u16]> = F5.chunks(4).collect();
    for order in [[0, 2, 1], [1, 0, 2], [1, 2, 0], [2, 0, 1], [2, 1, 0]] {
        cases.push(Case::check_plan(
            &f3,
            &F3_START,
            &order.map(|i| e[i]).concat(),
        ));
    }
    for kept in [
        vec![0, 2],
        vec![1, 2],
        vec![2],
        vec![2, 2],
        vec![0, 0],
        vec![0, 1, 1, 2, 0, 2],
    ] {
        let plan: Vec<u16> = kept.iter().flat_map(|&i| e[i].to_vec()).collect();
        cases.push(Case::check_plan(&f3, &F3_START, &plan));
    }
}

/// Write plan for every pair of F1 to F4, each also with a short buffer.
fn all_pairs(cases: &mut Vec<Case>) {
    for f in [make::f1(), make::f2(), make::f3(), make::f4()] {
        let lts = sheet::read(&f).unwrap();
        let n = lts.states();
        for start in [full_words(n), diagonal_words(n)] {
            for p in 0..n as u16 {
                for q in 0..n as u16 {
                    cases.push(Case::write_plan(
                        &f,
                        &start,
                        &filled_numbers(4 * 7 + 2),
                        p,
                        q,
                    ));
                }
            }
        }
    }
}

/// Plans with one number changed, at each place.
fn damaged(cases: &mut Vec<Case>) {
    let f3 = make::f3();
    for at in 0..F5.len() {
        let old = F5[at];
        for value in [0, 1, 2, 3, old + 256, u16::MAX] {
            if value != old {
                let mut plan = F5;
                plan[at] = value;
                cases.push(Case::check_plan(&f3, &F3_START, &plan));
            }
        }
    }
    // A plan with entries of round 0 and later rounds.
    let mut rng = Prng::new(401);
    let mut found = 0;
    while found < 2 {
        let lts = random::lts(&mut rng, 5, 2, 8, 20);
        let start = random::preorder(&mut rng, 5);
        let rounds = Rounds::of(&lts, &start);
        let pairs: Vec<_> = Relation::full(5).pairs().collect();
        let (p, q) = pairs[rng.below(25)];
        if rounds.falls_at(p, q).is_none_or(|round| round < 2) {
            continue;
        }
        let strategy = rounds.strategy(&lts, p, q).unwrap();
        let numbers = strategy.numbers();
        if numbers.len() > 60 || strategy.entries[0].a != 0 {
            continue;
        }
        found += 1;
        let (sheet, words) = (sheet::write(&lts), start_words(&start));
        cases.push(Case::check_plan(&sheet, &words, &numbers));
        for at in 0..numbers.len() {
            for value in [numbers[at] + 1, numbers[at].wrapping_sub(1)] {
                let mut plan = numbers.clone();
                plan[at] = value;
                cases.push(Case::check_plan(&sheet, &words, &plan));
            }
        }
        for left_out in 0..strategy.entries.len() {
            let mut entries = strategy.entries.clone();
            entries.remove(left_out);
            cases.push(Case::check_plan(
                &sheet,
                &words,
                &Strategy { entries }.numbers(),
            ));
        }
    }
}

/// Plans made by hand for one rule each.
fn by_hand(cases: &mut Vec<Case>) {
    // Two pages that go to themselves: no plan, and none that cites itself.
    let loops = sheet::write(&Lts::of(2, 1, &[(0, 1, 0), (1, 1, 1)]));
    for start in [[3, 3], [1, 2], [3, 2]] {
        for plan in [
            vec![0, 1, 1, 0],
            vec![0, 1, 1, 0, 0, 1, 1, 0],
            vec![1, 0, 1, 1],
            vec![0, 1, 0, 0],
            vec![1, 0, 0, 0],
            vec![1, 0, 0, 0, 1, 0, 1, 1],
            vec![0, 1, 0, 0, 0, 1, 1, 0],
            vec![0, 0, 1, 0],
        ] {
            cases.push(Case::check_plan(&loops, &start, &plan));
        }
    }
    // Two entries that cite each other.
    let ring = sheet::write(&Lts::of(2, 1, &[(0, 1, 1), (1, 1, 0)]));
    for plan in [
        vec![0, 1, 1, 1, 1, 0, 1, 0],
        vec![1, 0, 1, 0, 0, 1, 1, 1],
        vec![0, 0, 1, 1],
    ] {
        cases.push(Case::check_plan(&ring, &[3, 3], &plan));
    }
    // Page 0 moves by action 2 to page 1; page 2 has two replies, 3 and 4.
    let lts = Lts::of(
        6,
        3,
        &[
            (0, 2, 1),
            (1, 1, 1),
            (1, 3, 1),
            (2, 2, 3),
            (2, 2, 4),
            (3, 1, 3),
            (4, 3, 4),
            (5, 1, 5),
        ],
    );
    let sheet = sheet::write(&lts);
    let full = full_words(6);
    let first: [u16; 4] = [1, 3, 3, 1];
    let second: [u16; 4] = [1, 4, 1, 1];
    let last: [u16; 4] = [0, 2, 2, 1];
    for plan in [
        [&first[..], &second, &last].concat(),
        [&second[..], &first, &last].concat(),
        [&first[..], &last].concat(),
        [&second[..], &last].concat(),
        [&first[..], &last, &second].concat(),
        [&first[..], &second, &second, &first, &last].concat(),
        [&first[..], &second, &last, &last].concat(),
        vec![1, 3, 1, 1],
        vec![0, 5, 2, 1],
        vec![0, 1, 2, 1],
        vec![0, 5, 2, 0],
        vec![0, 5, 1, 1],
        vec![5, 0, 1, 5],
        vec![5, 0, 2, 5],
        vec![0, 5, 258, 1],
        vec![0, 5, 2, 257],
        vec![256, 5, 2, 1],
        vec![0, 261, 2, 1],
        vec![0, 6, 2, 1],
        vec![6, 0, 2, 1],
        vec![0, 65535, 2, 1],
    ] {
        cases.push(Case::check_plan(&sheet, &full, &plan));
    }
    // Entries with a = 0.
    let diagonal = diagonal_words(6);
    for plan in [
        vec![0, 1, 0, 0],
        vec![0, 0, 0, 0],
        vec![5, 4, 0, 0],
        vec![0, 1, 0, 1],
        vec![0, 6, 0, 0],
        vec![6, 0, 0, 0],
        vec![0, 65535, 0, 0],
        vec![65535, 65535, 0, 0],
        vec![0, 1, 1, 0],
        vec![0, 1, 0, 0, 0, 0],
        vec![1, 3, 0, 0, 1, 4, 0, 0, 0, 2, 2, 1],
        // A move given for a pair that is outside the start.
        vec![0, 5, 2, 1],
        vec![0, 2, 2, 1],
    ] {
        cases.push(Case::check_plan(&sheet, &diagonal, &plan));
        cases.push(Case::check_plan(&sheet, &full, &plan));
    }
    // Two lowest moves to choose from: the lowest action, then target.
    let lts = Lts::of(
        4,
        3,
        &[(0, 3, 1), (0, 2, 3), (0, 2, 2), (0, 1, 0), (1, 1, 1)],
    );
    let sheet = sheet::write(&lts);
    for p in 0..4 {
        for q in 0..4 {
            cases.push(Case::write_plan(
                &sheet,
                &full_words(4),
                &filled_numbers(50),
                p,
                q,
            ));
        }
    }
}

/// Plans of random flows: written, checked, damaged.
fn random_flows(cases: &mut Vec<Case>) {
    let mut rng = Prng::new(402);
    for _ in 0..60 {
        let lts = random::small(&mut rng, 7, 3);
        let n = lts.states();
        let start = if rng.chance(50) {
            grid::end_start_of(&lts)
        } else {
            random::preorder(&mut rng, n)
        };
        let rounds = Rounds::of(&lts, &start);
        let sheet = random::shuffled_sheet(&mut rng, &lts);
        let words = start_words(&start);
        for _ in 0..2 {
            let (p, q) = latest_of(&mut rng, &rounds, n);
            let strategy = rounds.strategy(&lts, p, q);
            let count = strategy.as_ref().map_or(3, |s| s.entries.len());
            let size = (4 * count + rng.below(9)).saturating_sub(rng.below(3));
            cases.push(Case::write_plan(
                &sheet,
                &words,
                &filled_numbers(size),
                p as u16,
                q as u16,
            ));
            let Some(strategy) = strategy else { continue };
            cases.push(Case::check_plan(&sheet, &words, &strategy.numbers()));
            let mut entries = strategy.entries;
            change(&mut rng, &mut entries, n);
            cases.push(Case::check_plan(
                &sheet,
                &words,
                &Strategy { entries }.numbers(),
            ));
        }
    }
}

/// Plans in which exactly one of several replies of the last entry is not
/// held, and the same plans with it.
fn missing_reply(cases: &mut Vec<Case>) {
    let mut rng = Prng::new(404);
    let mut found = 0;
    while found < 20 {
        let n = rng.between(3, 6);
        let lts = random::lts(&mut rng, n, 2, 3 * n, 15);
        let start = random::preorder(&mut rng, n);
        let (p, q) = (rng.below(n), rng.below(n));
        let Some(strategy) = Rounds::of(&lts, &start).strategy(&lts, p, q) else {
            continue;
        };
        let numbers = strategy.numbers();
        let last = strategy.entries[strategy.entries.len() - 1];
        let replies = lts.replies(q, last.a.into());
        if replies.len() < 2 {
            continue;
        }
        let reply = replies[rng.below(replies.len())].target as u16;
        let mut entries = strategy.entries;
        entries.retain(|e| (e.p, e.q) != (last.t, reply));
        // The entries that the left-out one served are no longer sound; only
        // plans where none of them comes before the last are of use here.
        let before = Strategy {
            entries: entries[..entries.len() - 1].to_vec(),
        };
        if !before.is_accepted(&lts, &start) {
            continue;
        }
        found += 1;
        let (sheet, words) = (sheet::write(&lts), start_words(&start));
        cases.push(Case::check_plan(&sheet, &words, &numbers));
        cases.push(Case::check_plan(
            &sheet,
            &words,
            &Strategy { entries }.numbers(),
        ));
    }
}

/// Of a few random pairs, the one that falls at the latest round.
fn latest_of(rng: &mut Prng, rounds: &Rounds, n: usize) -> (usize, usize) {
    (0..4)
        .map(|_| (rng.below(n), rng.below(n)))
        .max_by_key(|&(p, q)| rounds.falls_at(p, q))
        .expect("there are four")
}

/// Changes a plan in one place.
fn change(rng: &mut Prng, entries: &mut Vec<Entry>, n: usize) {
    let at = rng.below(entries.len());
    match rng.below(6) {
        0 => drop(entries.remove(at)),
        1 => {
            let other = rng.below(entries.len());
            entries.swap(at, other);
        }
        2 => entries[at].p = rng.below(n + 1) as u16,
        3 => entries[at].q = rng.below(n + 1) as u16,
        4 => entries[at].a = rng.below(4) as u16,
        _ => entries[at].t = rng.below(n + 1) as u16,
    }
}

/// Buffers of all lengths around the plan's.
fn buffers(cases: &mut Vec<Case>) {
    let f3 = make::f3();
    for length in 0..=20 {
        cases.push(Case::write_plan(
            &f3,
            &F3_START,
            &filled_numbers(length),
            2,
            0,
        ));
    }
    for length in 0..=9 {
        cases.push(Case::write_plan(
            &f3,
            &F3_START,
            &filled_numbers(length),
            0,
            1,
        ));
        cases.push(Case::write_plan(
            &f3,
            &[1, 2, 4],
            &filled_numbers(length),
            2,
            0,
        ));
    }
    let f4 = make::f4();
    for length in [0, 3, 4, 20, 23, 24, 25, 27, 28] {
        cases.push(Case::write_plan(
            &f4,
            &full_words(4),
            &filled_numbers(length),
            0,
            1,
        ));
    }
}

/// Refusals, and those that would hold at the same time.
fn refusals(cases: &mut Vec<Case>) {
    let f3 = make::f3();
    let plan = filled_numbers(12);
    make::refused_inputs(cases, |sheet, start| {
        vec![
            Case::check_plan(sheet, start, &F5),
            Case::check_plan(sheet, start, &[]),
            Case::write_plan(sheet, start, &plan, 2, 0),
            Case::write_plan(sheet, start, &plan, 3, 0),
            Case::write_plan(sheet, start, &plan[..3], 0, 0),
        ]
    });
    // A page argument at or above n, with a short buffer too.
    for (p, q) in [
        (3, 0),
        (0, 3),
        (3, 3),
        (65535, 0),
        (0, 65535),
        (256, 0),
        (0, 258),
        (258, 256),
    ] {
        cases.push(Case::write_plan(&f3, &F3_START, &plan, p, q));
        cases.push(Case::write_plan(&f3, &F3_START, &[], p, q));
    }
    // Kept pairs, with a short buffer too.
    for (p, q) in [(0, 0), (0, 2), (1, 0), (1, 1), (1, 2), (2, 2)] {
        cases.push(Case::write_plan(&f3, &F3_START, &plan, p, q));
        cases.push(Case::write_plan(&f3, &F3_START, &plan[..3], p, q));
        cases.push(Case::write_plan(&f3, &F3_START, &[], p, q));
    }
    // n = 256, so that no page number below 256 is refused.
    let lts = Lts::of(256, 1, &[(255, 1, 0)]);
    let sheet = sheet::write(&lts);
    let words = full_words(256);
    cases.push(Case::write_plan(
        &sheet,
        &words,
        &filled_numbers(8),
        255,
        254,
    ));
    cases.push(Case::write_plan(
        &sheet,
        &words,
        &filled_numbers(8),
        255,
        256,
    ));
    cases.push(Case::check_plan(&sheet, &words, &[255, 254, 1, 0]));
}

/// Long plans.
fn long(cases: &mut Vec<Case>) {
    // A chain of 45 pages: each pair (p, q) with p before q is dropped.
    let lts = make::chain(45);
    let (sheet, words) = (sheet::write(&lts), end_words(&lts));
    let rounds = Rounds::of(&lts, &grid::end_start_of(&lts));
    let numbers = rounds.strategy(&lts, 0, 1).unwrap().numbers();
    cases.push(Case::write_plan(
        &sheet,
        &words,
        &filled_numbers(numbers.len()),
        0,
        1,
    ));
    cases.push(Case::check_plan(&sheet, &words, &numbers));
    // A chain of 40, with one number too few.
    let lts = make::chain(40);
    let buffer = filled_numbers(4 * 780 - 1);
    cases.push(Case::write_plan(
        &sheet::write(&lts),
        &end_words(&lts),
        &buffer,
        0,
        1,
    ));
    // Starts with round 0 entries in many places.
    let mut rng = Prng::new(403);
    for n in [20, 33] {
        let lts = random::forward(&mut rng, n, 2, 20);
        let start = Preorder::closure(&Relation::from_fn(n, |p, q| (p + 2 * q) % 11 == 0));
        let rounds = Rounds::of(&lts, &start);
        let (p, q) = Relation::full(n)
            .pairs()
            .max_by_key(|&(p, q)| rounds.falls_at(p, q))
            .expect("there are pairs");
        let numbers = rounds.strategy(&lts, p, q).unwrap().numbers();
        let (sheet, words) = (sheet::write(&lts), start_words(&start));
        let buffer = filled_numbers(numbers.len() + 5);
        cases.push(Case::write_plan(
            &sheet, &words, &buffer, p as u16, q as u16,
        ));
        cases.push(Case::check_plan(&sheet, &words, &numbers));
    }
    // A buffer of the largest size for a plan of one entry.
    let f3 = make::f3();
    let buffer = filled_numbers(4_096);
    cases.push(Case::write_plan(&f3, &F3_START, &buffer, 0, 1));
}

/// The same calls on entries, where the plan has no part of one, and on bytes,
/// also with bytes past the last entry.
fn carried(cases: &mut Vec<Case>) {
    let (small, large): (Vec<Case>, Vec<Case>) = cases
        .iter()
        .cloned()
        .partition(|case| case.encode().len() <= 220);
    for (i, case) in small.iter().chain(large.iter().step_by(20)).enumerate() {
        let plan = case.fields[2].len();
        if plan % 8 == 0 && plan <= 8_192 {
            cases.push(case.on(case.op + 5, 2, &[]));
        }
        if i % 2 == 0 {
            cases.push(case.on(case.op + 7, 2, &[9; 7][..i / 2 % 8]));
        }
    }
    // As many entries as the reader has room for.
    let f3 = make::f3();
    let most = [&F5[..8], &F5[8..].repeat(1_022)].concat();
    cases.push(Case::check_plan(&f3, &F3_START, &most).on(10, 2, &[]));
    let buffer = Case::write_plan(&f3, &F3_START, &filled_numbers(4_096), 2, 0);
    cases.push(buffer.on(11, 2, &[]));
    // A chain of 45 pages: 990 entries.
    let lts = make::chain(45);
    let (sheet, words) = (sheet::write(&lts), end_words(&lts));
    let rounds = Rounds::of(&lts, &grid::end_start_of(&lts));
    let numbers = rounds.strategy(&lts, 0, 1).unwrap().numbers();
    cases.push(Case::check_plan(&sheet, &words, &numbers).on(10, 2, &[]));
    cases.push(Case::check_plan(&sheet, &words, &numbers).on(12, 2, &[1]));
    let buffer = Case::write_plan(&sheet, &words, &filled_numbers(numbers.len()), 0, 1);
    cases.push(buffer.on(11, 2, &[]));
    cases.push(buffer.on(13, 2, &[1; 5]));
}
