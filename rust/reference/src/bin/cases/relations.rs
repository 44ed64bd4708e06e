//! End start (op 2) and test simulation (op 3).

use crate::case::Case;
use crate::make::{
    self, diagonal_words, filled_words, flipped, full_words, longer, shorter, start_words,
};
use reference::fixpoint;
use reference::grid;
use reference::lts::Lts;
use reference::prng::Prng;
use reference::random;
use reference::relation::{Preorder, Relation};
use reference::sheet;

/// The cases.
pub fn cases() -> Vec<Case> {
    let mut cases = Vec::new();
    end_starts(&mut cases);
    end_start_refusals(&mut cases);
    f3_claims(&mut cases);
    small_claims(&mut cases);
    word_borders(&mut cases);
    start_refusals(&mut cases);
    orders(&mut cases);
    cases
}

/// A flow of `n` pages without moves, with these end marks.
fn marked(n: usize, mark: impl Fn(usize) -> bool) -> Lts {
    Lts::new(0, (0..n).map(mark).collect(), Vec::new())
}

/// End start with a grid of the right length.
fn add_end_start(cases: &mut Vec<Case>, lts: &Lts) {
    let n = lts.states();
    cases.push(Case::end_start(
        &sheet::write(lts),
        &filled_words(grid::length(n)),
    ));
}

/// End start of flows with all kinds of end marks.
pub fn end_starts(cases: &mut Vec<Case>) {
    for f in [make::f1(), make::f2(), make::f3(), make::f4()] {
        let n = usize::from(f[0]);
        cases.push(Case::end_start(&f, &filled_words(n)));
    }
    // All end marks of up to 4 pages.
    for n in 1..=4 {
        for marks in 0..1usize << n {
            add_end_start(cases, &marked(n, |p| marks >> p & 1 == 1));
        }
    }
    for n in [64, 65, 129] {
        add_end_start(cases, &marked(n, |p| p + 1 == n));
        add_end_start(cases, &marked(n, |p| p % 3 == 0));
    }
    for n in [63, 65] {
        add_end_start(cases, &marked(n, |_| false));
        add_end_start(cases, &marked(n, |_| true));
        add_end_start(cases, &marked(n, |p| p != 0));
    }
    add_end_start(cases, &marked(256, |p| p % 5 == 0));
    let mut rng = Prng::new(201);
    for _ in 0..20 {
        let lts = random::small(&mut rng, 12, 4);
        let sheet = random::shuffled_sheet(&mut rng, &lts);
        cases.push(Case::end_start(&sheet, &filled_words(lts.states())));
    }
}

/// End start refused for the sheet or for the buffer.
pub fn end_start_refusals(cases: &mut Vec<Case>) {
    for sheet in make::refused_sheets() {
        cases.push(Case::end_start(&sheet, &filled_words(3)));
        cases.push(Case::end_start(&sheet, &filled_words(2)));
    }
    for length in [0, 1, 2, 4, 6, 1025] {
        cases.push(Case::end_start(&make::f3(), &filled_words(length)));
    }
    for n in [64, 65] {
        let sheet = sheet::write(&marked(n, |p| p % 2 == 1));
        let length = grid::length(n);
        for wrong in [length - 1, length + 1, n, 2 * n] {
            if wrong != length {
                cases.push(Case::end_start(&sheet, &filled_words(wrong)));
            }
        }
    }
}

/// Every pair of F3 turned over in its coarsest simulation, and starts that
/// leave out pairs of the claim.
fn f3_claims(cases: &mut Vec<Case>) {
    let f3 = make::f3();
    let coarsest = [5, 7, 4];
    for start in [
        full_words(3),
        diagonal_words(3),
        vec![5, 7, 4],
        vec![5, 7, 5],
        vec![7, 2, 4],
    ] {
        cases.push(Case::test_simulation(&f3, &start, &[0; 3]));
        cases.push(Case::test_simulation(&f3, &start, &coarsest));
        for p in 0..3 {
            for q in 0..3 {
                cases.push(Case::test_simulation(
                    &f3,
                    &start,
                    &flipped(&coarsest, 3, p, q),
                ));
            }
        }
    }
    for claim in [
        full_words(3),
        diagonal_words(3),
        vec![0, 0, 4],
        vec![4, 0, 0],
        vec![0, 1, 0],
    ] {
        cases.push(Case::test_simulation(&f3, &full_words(3), &claim));
    }
    // F2: the pair (0, 1) needs (1, 0).
    for claim in [[2, 0], [2, 1], [3, 0], [1, 2], [0, 1], [3, 3]] {
        cases.push(Case::test_simulation(&make::f2(), &full_words(2), &claim));
    }
}

/// Claims about a flow: simulations, and claims that fail in exactly one pair.
fn claims_of(cases: &mut Vec<Case>, rng: &mut Prng, lts: &Lts, start: &Preorder, most: usize) {
    let n = lts.states();
    let sheet = random::shuffled_sheet(rng, lts);
    let start_grid = start_words(start);
    let coarsest = fixpoint::coarsest(lts, start);
    let claim = grid::write(&coarsest);
    cases.push(Case::test_simulation(&sheet, &start_grid, &claim));
    // The coarsest simulation with one pair more fails in that pair alone.
    let mut others: Vec<_> = Relation::full(n)
        .pairs()
        .filter(|&(p, q)| !coarsest.contains(p, q))
        .collect();
    rng.shuffle(&mut others);
    for &(p, q) in others.iter().take(most) {
        cases.push(Case::test_simulation(
            &sheet,
            &start_grid,
            &flipped(&claim, n, p, q),
        ));
    }
    // With one pair less it may or may not be a simulation.
    let mut pairs: Vec<_> = coarsest.pairs().collect();
    rng.shuffle(&mut pairs);
    for &(p, q) in pairs.iter().take(most) {
        cases.push(Case::test_simulation(
            &sheet,
            &start_grid,
            &flipped(&claim, n, p, q),
        ));
    }
}

/// Claims about random small flows.
fn small_claims(cases: &mut Vec<Case>) {
    let mut rng = Prng::new(202);
    for _ in 0..50 {
        let lts = random::small(&mut rng, 7, 3);
        let start = if rng.chance(50) {
            grid::end_start_of(&lts)
        } else {
            random::preorder(&mut rng, lts.states())
        };
        claims_of(cases, &mut rng, &lts, &start, 2);
        // A random claim.
        let n = lts.states();
        let relation = Relation::from_fn(n, |p, q| (p * 7 + q * 3 + p * q) % 5 < 2);
        cases.push(Case::test_simulation(
            &sheet::write(&lts),
            &full_words(n),
            &grid::write(&relation),
        ));
    }
}

/// n at and next to the multiples of 64.
fn word_borders(cases: &mut Vec<Case>) {
    let mut rng = Prng::new(203);
    for n in [1, 64, 65, 128] {
        let lts = random::lts(&mut rng, n, 2, 2 * n, 10);
        claims_of(cases, &mut rng, &lts, &grid::end_start_of(&lts), 1);
        if n < 65 {
            let start = random::preorder(&mut rng, n);
            claims_of(cases, &mut rng, &lts, &start, 1);
        }
    }
    // Page 0 and the last page in a claim of two pairs: the last page's
    // column is in the last word.
    for n in [64, 65] {
        let last = n - 1;
        let lts = Lts::of(n, 1, &[(0, 1, last), (last, 1, 0)]);
        let sheet = sheet::write(&lts);
        for pairs in [vec![(0, last)], vec![(0, last), (last, 0)], vec![(last, 0)]] {
            let mut claim = Relation::empty(n);
            for (p, q) in pairs {
                claim.insert(p, q);
            }
            cases.push(Case::test_simulation(
                &sheet,
                &full_words(n),
                &grid::write(&claim),
            ));
        }
    }
    // 256 pages: yes, one pair outside the start, one stray pair.
    let lts = random::lts(&mut rng, 256, 3, 700, 20);
    let start = grid::end_start_of(&lts);
    let coarsest = fixpoint::coarsest(&lts, &start);
    let sheet = sheet::write(&lts);
    let words = start_words(&start);
    let claim = grid::write(&coarsest);
    cases.push(Case::test_simulation(&sheet, &words, &claim));
    let (p, q) = start
        .relation()
        .pairs()
        .filter(|&(p, q)| !coarsest.contains(p, q))
        .last()
        .unwrap();
    cases.push(Case::test_simulation(
        &sheet,
        &words,
        &flipped(&claim, 256, p, q),
    ));
}

/// Length, stray bits, reflexive and transitive, at their edges.
fn start_refusals(cases: &mut Vec<Case>) {
    for n in [1, 2, 3, 64, 65] {
        let lts = Lts::of(n, 1, &[]);
        let sheet = sheet::write(&lts);
        let end = full_words(n);
        let diagonal = diagonal_words(n);
        let width = 64 * grid::words_per_row(n);
        let mut add = |start: &[u64], claim: &[u64]| {
            cases.push(Case::test_simulation(&sheet, start, claim));
        };
        // Lengths.
        add(&shorter(&end), &diagonal);
        add(&longer(&end, 0), &diagonal);
        add(&end, &shorter(&diagonal));
        add(&end, &longer(&diagonal, 0));
        if n <= 3 {
            add(&[], &diagonal);
            add(&end, &[]);
        }
        // Stray bits: the first one past n and the last of the row.
        if n % 64 != 0 {
            for q in [n, width - 1] {
                add(&flipped(&end, n, 0, q), &[]);
                add(&flipped(&diagonal, n, n - 1, q), &diagonal);
                add(&diagonal, &flipped(&diagonal, n, n - 1, q));
            }
        }
        // Not reflexive.
        for p in [0, n - 1] {
            add(&flipped(&diagonal, n, p, p), &[]);
            add(&diagonal, &flipped(&diagonal, n, p, p));
        }
        // Not transitive: (0, middle) and (middle, last) without (0, last).
        if n >= 3 {
            let last = n - 1;
            let claim = if n < 64 { &diagonal[..] } else { &[] };
            let two = flipped(&flipped(&diagonal, n, 0, 1), n, 1, last);
            add(&two, claim);
            add(&flipped(&two, n, 0, last), claim);
            let back = flipped(&flipped(&diagonal, n, last, n - 2), n, n - 2, 0);
            add(&back, claim);
            add(&flipped(&back, n, last, 0), claim);
            // All pairs without one.
            add(&flipped(&end, n, 0, last), claim);
            add(&flipped(&end, n, last, 0), claim);
        }
        if n == 2 {
            add(&[3, 2], &[3, 3]);
            add(&[1, 3], &[3, 3]);
        }
    }
}

/// Refusals that would hold at the same time.
fn orders(cases: &mut Vec<Case>) {
    let claims: [&[u64]; 3] = [&[1, 2, 4], &[1, 2], &[9, 2, 4]];
    make::refused_inputs(cases, |sheet, start| {
        claims
            .map(|claim| Case::test_simulation(sheet, start, claim))
            .to_vec()
    });
    // Good starts, and a stray bit in one that is also not reflexive.
    for start in [[7, 7, 7], [8, 2, 4], [1, 2, 12], [0, 0, 8]] {
        for claim in claims {
            cases.push(Case::test_simulation(&make::f3(), &start, claim));
        }
    }
}
