//! Coarsest: the turn rule, on words (op 4) and on bytes (op 14).

use crate::case::Case;
use crate::make::{
    self, diagonal_words, end_words, filled_numbers, filled_words, flipped, full_words, longer,
    shorter, start_words,
};
use crate::wrong::{self, FAULTS};
use reference::grid;
use reference::lts::{Lts, Transition};
use reference::prng::Prng;
use reference::random;
use reference::relation::{Preorder, Relation};
use reference::sheet;
use reference::turns;

/// The cases.
pub fn cases() -> Vec<Case> {
    let mut cases = Vec::new();
    document(&mut cases);
    two_pages(&mut cases);
    small(&mut cases);
    one_flow_many_schedules(&mut cases);
    telling(&mut cases);
    chains_and_cycles(&mut cases);
    middle(&mut cases);
    large(&mut cases);
    refusals(&mut cases);
    bytes(&mut cases);
    cases
}

/// A case with buffers of the right lengths.
fn add(cases: &mut Vec<Case>, lts: &Lts, start: &[u64], schedule: &[u16]) {
    add_sheet(cases, &sheet::write(lts), lts.states(), start, schedule);
}

/// The same for a sheet of `n` pages.
fn add_sheet(cases: &mut Vec<Case>, sheet: &[u8], n: usize, start: &[u64], schedule: &[u16]) {
    let grid = filled_words(grid::length(n));
    cases.push(Case::coarsest(
        sheet,
        start,
        schedule,
        &grid,
        &filled_numbers(n),
    ));
}

/// F1 to F4, with other starts, schedules and end marks.
fn document(cases: &mut Vec<Case>) {
    let flows = [make::f1(), make::f2(), make::f3(), make::f4()];
    for f in &flows {
        let lts = sheet::read(f).unwrap();
        add(cases, &lts, &end_words(&lts), &[]);
    }
    for f in &flows {
        let lts = sheet::read(f).unwrap();
        let n = lts.states();
        for start in [diagonal_words(n), full_words(n)] {
            for schedule in [&[][..], &[1], &[0, 1, 2, 3], &[u16::MAX; 40]] {
                add(cases, &lts, &start, schedule);
            }
        }
        // Every choice of end marks.
        for marks in 1..1usize << n {
            let marked = Lts::new(
                lts.actions(),
                (0..n).map(|p| marks >> p & 1 == 1).collect(),
                lts.transitions().to_vec(),
            );
            add(cases, &marked, &end_words(&marked), &[]);
        }
    }
}

/// Every flow of two pages and one action, with each of the four preorders.
fn two_pages(cases: &mut Vec<Case>) {
    for moves in 0..16usize {
        let transitions = (0..4)
            .filter(|i| moves >> i & 1 == 1)
            .map(|i| Transition {
                source: i / 2,
                action: 1,
                target: i % 2,
            })
            .collect();
        let lts = Lts::new(1, vec![false; 2], transitions);
        for start in [[1, 2], [3, 2], [1, 3], [3, 3]] {
            add(cases, &lts, &start, &[]);
        }
    }
}

/// Random small flows, starts and schedules.
fn small(cases: &mut Vec<Case>) {
    let mut rng = Prng::new(301);
    for round in 0..280 {
        // Most of them so small that they can be followed by hand.
        let most = if round % 3 == 0 { 5 } else { 10 };
        let lts = random::small(&mut rng, most, 4);
        let n = lts.states();
        let start = if rng.chance(40) {
            end_words(&lts)
        } else {
            start_words(&random::preorder(&mut rng, n))
        };
        let schedule = random::schedule(&mut rng, 3 * n);
        let sheet = random::shuffled_sheet(&mut rng, &lts);
        add_sheet(cases, &sheet, n, &start, &schedule);
    }
}

/// Small flows that tell the turn rule from each fault of the module `wrong`.
fn telling(cases: &mut Vec<Case>) {
    for (seed, fault) in FAULTS.into_iter().enumerate() {
        let mut rng = Prng::new(310 + seed as u64);
        let mut found = 0;
        let mut tries = 0;
        while found < 8 {
            tries += 1;
            assert!(tries <= 100_000, "no flow tells {fault:?}");
            let n = rng.between(3, 9);
            let m = rng.between(1, 3);
            let k = rng.between(n, 4 * n);
            let lts = random::lts(&mut rng, n, m, k, 10);
            let start = if rng.chance(50) {
                grid::end_start_of(&lts)
            } else {
                random::preorder(&mut rng, n)
            };
            let schedule = random::schedule(&mut rng, n);
            let right = turns::run(&lts, &start, &schedule);
            if wrong::run(&lts, &start, &schedule, fault) != Some((right.turns, right.kept)) {
                found += 1;
                add(cases, &lts, &start_words(&start), &schedule);
            }
        }
    }
}

/// Flows whose number of turns depends on the schedule.
fn one_flow_many_schedules(cases: &mut Vec<Case>) {
    let mut rng = Prng::new(302);
    let mut found = 0;
    while found < 3 {
        let lts = random::lts(&mut rng, 12, 3, 26, 15);
        let start = grid::end_start_of(&lts);
        let schedules: Vec<Vec<u16>> = (0..16).map(|_| random::schedule(&mut rng, 40)).collect();
        let mut counts: Vec<usize> = schedules
            .iter()
            .map(|s| turns::run(&lts, &start, s).turns)
            .collect();
        counts.sort();
        counts.dedup();
        if counts.len() < 4 {
            continue;
        }
        found += 1;
        let words = start_words(&start);
        for schedule in &schedules {
            add(cases, &lts, &words, schedule);
        }
        // Numbers beyond 8 bits, and a list that ends in the middle.
        add(
            cases,
            &lts,
            &words,
            &[256, 257, 511, 512, 513, 65534, 65535],
        );
        add(cases, &lts, &words, &[2, 1]);
        add(cases, &lts, &words, &[u16::MAX; 200]);
    }
}

/// Flows of a regular shape with many turns.
fn chains_and_cycles(cases: &mut Vec<Case>) {
    for n in [2, 5, 9, 17] {
        let lts = make::chain(n);
        for schedule in [vec![], vec![u16::MAX; n * n], (0..n as u16 * 2).collect()] {
            add(cases, &lts, &full_words(n), &schedule);
        }
        // The last page goes back to the first, or to itself.
        for back in [0, n - 1] {
            let mut moves: Vec<_> = (1..n).map(|p| (p - 1, 1, p)).collect();
            moves.push((n - 1, 1, back));
            add(cases, &Lts::of(n, 1, &moves), &full_words(n), &[]);
        }
        // A second action at one page in the middle.
        let mut moves: Vec<_> = (0..n).map(|p| (p, 1, (p + 1) % n)).collect();
        moves.push((n / 2, 2, 0));
        add(
            cases,
            &Lts::of(n, 2, &moves),
            &full_words(n),
            &[3, 1, 4, 1, 5, 9, 2, 6],
        );
    }
    // Actions out of order: action 3 matters before action 1.
    let lts = Lts::of(
        6,
        3,
        &[
            (0, 3, 1),
            (0, 1, 2),
            (1, 2, 3),
            (2, 2, 4),
            (3, 1, 3),
            (4, 3, 4),
            (5, 1, 5),
            (5, 3, 0),
        ],
    );
    for schedule in [vec![], vec![1; 30], vec![2; 30], vec![u16::MAX; 30]] {
        add(cases, &lts, &full_words(6), &schedule);
        add(cases, &lts, &diagonal_words(6), &schedule);
    }
}

/// n at and next to the multiples of 64.
fn middle(cases: &mut Vec<Case>) {
    let mut rng = Prng::new(303);
    for n in [63, 64, 65, 129] {
        let lts = random::lts(&mut rng, n, 3, 2 * n, 10);
        let schedule = random::schedule(&mut rng, 100);
        add(cases, &lts, &end_words(&lts), &schedule);
    }
    for n in [64, 65] {
        let lts = random::forward(&mut rng, n, 2, 5);
        let start = start_words(&random::preorder(&mut rng, n));
        let schedule = random::schedule(&mut rng, 300);
        add(cases, &lts, &start, &schedule);
        add(cases, &lts, &full_words(n), &[]);
    }
    // The longest turn list, and a flow with 64 actions.
    let lts = random::forward(&mut rng, 70, 2, 5);
    let schedule: Vec<u16> = (0..2048).map(|_| rng.bits() as u16).collect();
    add(cases, &lts, &end_words(&lts), &schedule);
    let lts = random::lts(&mut rng, 60, 64, 240, 5);
    add(cases, &lts, &end_words(&lts), &[u16::MAX; 500]);
    add(cases, &make::chain(100), &full_words(100), &[]);
}

/// The largest flows.
fn large(cases: &mut Vec<Case>) {
    let mut rng = Prng::new(304);
    let lts = random::lts_exact(&mut rng, 256, 8, 1024, 10);
    add(cases, &lts, &end_words(&lts), &[]);
    // Blocks of many pages: each page has three others of the same kind.
    let small = random::lts(&mut rng, 30, 2, 50, 10);
    let moves: Vec<_> = small
        .transitions()
        .iter()
        .flat_map(|t| {
            (0..4).map(|i| {
                (
                    t.source + 30 * i,
                    t.action,
                    t.target + 30 * ((i + t.action) % 4),
                )
            })
        })
        .collect();
    let lts = Lts::of(120, 2, &moves);
    add(cases, &lts, &full_words(120), &[5, 500, 50_000]);
}

/// Refusals, and those that would hold at the same time.
fn refusals(cases: &mut Vec<Case>) {
    let (grid, names) = (filled_words(3), filled_numbers(3));
    make::refused_inputs(cases, |sheet, start| {
        [(3, 3), (2, 3), (3, 1)]
            .map(|(g, m)| Case::coarsest(sheet, start, &[1, 2, 3], &grid[..g], &names[..m]))
            .to_vec()
    });
    let f3 = make::f3();
    let good = &make::F3_START;
    let mut add = |sheet: &[u8], start: &[u64], grid: &[u64], names: &[u16]| {
        cases.push(Case::coarsest(sheet, start, &[1, 2, 3], grid, names));
    };
    // The buffers.
    for (g, m) in [
        (0, 3),
        (2, 3),
        (4, 3),
        (6, 3),
        (3, 0),
        (3, 2),
        (3, 4),
        (2, 2),
        (4, 4),
        (1025, 260),
    ] {
        add(&f3, good, &filled_words(g), &filled_numbers(m));
    }
    // Wider rows.
    for n in [64, 65] {
        let lts = make::chain(n);
        let sheet = sheet::write(&lts);
        let start = full_words(n);
        let grid = filled_words(start.len());
        let names = filled_numbers(n);
        add(&sheet, &start, &shorter(&grid), &names);
        add(&sheet, &start, &longer(&grid, 1), &names);
        add(&sheet, &start, &grid, &shorter(&names));
        add(&sheet, &start, &grid, &longer(&names, 1));
        add(&sheet, &shorter(&start), &grid, &names);
        add(&sheet, &flipped(&start, n, 1, n - 1), &grid, &names);
        add(&sheet, &flipped(&start, n, n - 1, n - 1), &grid, &names);
        if n == 65 {
            add(&sheet, &flipped(&start, n, 64, 65), &grid, &names);
            add(&sheet, &flipped(&start, n, 0, 127), &grid, &names);
        }
    }
    // A start with a long way round: each page goes to the next two only.
    let near = Relation::from_fn(9, |p, q| p <= q && q <= p + 2);
    add(
        &sheet::write(&make::chain(9)),
        &grid::write(&near),
        &filled_words(9),
        &filled_numbers(9),
    );
    let closed = Preorder::closure(&near);
    let closed = start_words(&closed);
    add(
        &sheet::write(&make::chain(9)),
        &closed,
        &filled_words(9),
        &filled_numbers(9),
    );
}

/// The same calls on bytes: small ones as they are and with bytes that carry
/// nothing, and some that are larger.
fn bytes(cases: &mut Vec<Case>) {
    let (small, large): (Vec<Case>, Vec<Case>) = cases
        .iter()
        .cloned()
        .partition(|case| case.encode().len() <= 250);
    for (i, case) in small.iter().enumerate() {
        // One byte more in one of the four fields after the sheet, or none.
        match i % 7 {
            0 | 1 => cases.push(case.on(14, 1, &[])),
            at @ 2..=5 => cases.push(case.on(14, at - 1, &[255])),
            _ => {}
        }
    }
    let large = large.iter().filter(|case| case.encode().len() <= 3_000);
    cases.extend(large.step_by(20).map(|case| case.on(14, 1, &[])));
    // A flow of the largest size, a long turn list, and buffers over all sizes.
    let lts = Lts::of(256, 2, &[(0, 1, 255), (255, 2, 0), (7, 1, 8)]);
    let sheet = sheet::write(&lts);
    let schedule: Vec<u16> = (0..300).map(|i| i * 219).collect();
    let (grid, names) = (filled_words(1024), filled_numbers(256));
    let case = Case::coarsest(&sheet, &end_words(&lts), &schedule, &grid, &names);
    cases.push(case.on(14, 1, &[]));
    let (f3, start) = (make::f3(), make::F3_START);
    let case = Case::coarsest(&f3, &start, &schedule, &grid[..3], &names[..3]);
    cases.push(case.on(14, 2, &[1]));
    for at in [1, 3, 4] {
        cases.push(case.on(14, at, &[0; 8]));
        cases.push(case.on(14, at, &[0; 2]));
        cases.push(case.on(14, at, &[0; 7]));
    }
    cases.push(case.on(14, 1, &[0; 8184]));
    cases.push(case.on(14, 3, &[0; 8184]));
    cases.push(case.on(14, 4, &[0; 514]));
}
