//! Ready start (op 19), compare ready (op 20), and coarsest under the ready
//! start.

use crate::case::Case;
use crate::games;
use crate::labels;
use crate::make::{self, filled_numbers, filled_words, start_words};
use crate::relations;
use reference::grid::{self, ready_start_of};
use reference::labels::LabelledLts;
use reference::lts::Lts;
use reference::prng::Prng;
use reference::random;
use reference::ready_flows::{self, Compared, Worked};
use reference::sheet;

/// The cases.
pub fn cases() -> Vec<Case> {
    let mut cases = Vec::new();
    starts_by_hand(&mut cases);
    sizes(&mut cases);
    random_starts(&mut cases);
    no_grid(&mut cases);
    coarsest(&mut cases);
    pairs_by_hand(&mut cases);
    random_pairs(&mut cases);
    sizes_together(&mut cases);
    limits(&mut cases);
    largest_pairs(&mut cases);
    many_labels(&mut cases);
    again(&mut cases, relations::end_starts, 800);
    again(&mut cases, relations::end_start_refusals, 800);
    again(&mut cases, games::document_compare, 800);
    again(&mut cases, games::compare_refusals, 800);
    again(&mut cases, labels::open_here_and_there, 800);
    again(&mut cases, labels::before_too_many_labels, 2_500);
    cases
}

/// Of the cases that `add` adds, those of end start and of compare with as
/// many bytes at most, with the ready start in the end start's place.
fn again(cases: &mut Vec<Case>, add: fn(&mut Vec<Case>), most: usize) {
    let mut older = Vec::new();
    add(&mut older);
    older.retain(|case| case.encode().len() <= most);
    cases.extend(older.iter().filter_map(|case| match case.op {
        2 => Some(case.on(19, 0, &[])),
        8 => Some(case.on(20, 0, &[])),
        _ => None,
    }));
}

/// Ready start on a sheet of `n` pages, with a grid of the right length.
fn add_start(cases: &mut Vec<Case>, sheet: &[u8], n: usize) {
    let words = filled_words(grid::length(n));
    cases.push(Case::ready_start(sheet, &words));
}

/// The flows by hand and those of a plain form; some of them also with
/// labels, and with records and chains in a random order.
fn starts_by_hand(cases: &mut Vec<Case>) {
    let mut rng = Prng::new(801);
    let mut flows = ready_flows::small();
    flows.extend([3, 5].map(ready_flows::every_set));
    flows.extend([64, 65, 66].map(ready_flows::single_actions));
    flows.push(ready_flows::all_actions(3));
    flows.push(ready_flows::all_actions_but_one());
    for (i, Worked { lts, alike }) in flows.iter().enumerate() {
        assert_eq!(ready_start_of(lts).relation(), alike);
        add_start(cases, &sheet::write(lts), lts.states());
        if i % 4 == 0 {
            let named = random::named(&mut rng, lts);
            let sheet = random::shuffled_labelled(&mut rng, &named);
            add_start(cases, &sheet, lts.states());
        }
    }
}

/// Many pages that share a few sets, at and next to the multiples of 64, the
/// last flow with 1,024 moves.
fn sizes(cases: &mut Vec<Case>) {
    let mut rng = Prng::new(802);
    for n in [1, 63, 64, 65, 128, 200, 256] {
        let mut lts = ready_flows::few_sets(&mut rng, n, 64, 6, 20);
        while n == 256 && lts.transitions().len() < 1_024 {
            lts = ready_flows::more_alike(&mut rng, &lts, 1);
        }
        add_start(cases, &random::shuffled_sheet(&mut rng, &lts), n);
    }
    // Two sets in turn, and the last page without moves.
    for n in [64, 65] {
        let moves: Vec<_> = (1..n).map(|p| (p - 1, 1 + p % 2, p)).collect();
        add_start(cases, &sheet::write(&Lts::of(n, 2, &moves)), n);
    }
}

/// A small flow in which often several pages have the same actions, and a
/// sheet of it.
fn sample(rng: &mut Prng) -> (Lts, Vec<u8>) {
    let n = rng.between(2, 12);
    let lts = if rng.chance(30) {
        random::small(rng, 12, 5)
    } else {
        ready_flows::few_sets(rng, n, 4, 4, 25)
    };
    let labelled = random::labelled(rng, &lts);
    let sheet = random::shuffled_labelled(rng, &labelled);
    (lts, sheet)
}

/// Random small flows.
fn random_starts(cases: &mut Vec<Case>) {
    let mut rng = Prng::new(803);
    for _ in 0..36 {
        let (lts, sheet) = sample(&mut rng);
        add_start(cases, &sheet, lts.states());
    }
}

/// Ready start with an empty grid: the refusals of a sheet go before 15.
fn no_grid(cases: &mut Vec<Case>) {
    for sheet in make::refused_sheets() {
        cases.push(Case::ready_start(&sheet, &[]));
    }
    cases.push(Case::ready_start(&make::named_f3(), &[]));
}

/// Coarsest under the ready start, on words.
fn coarsest(cases: &mut Vec<Case>) {
    let mut rng = Prng::new(804);
    for _ in 0..24 {
        let (lts, sheet) = sample(&mut rng);
        let n = lts.states();
        let start = start_words(&ready_start_of(&lts));
        let schedule = random::schedule(&mut rng, n);
        let (grid, names) = (filled_words(n), filled_numbers(n));
        cases.push(Case::coarsest(&sheet, &start, &schedule, &grid, &names));
    }
}

/// What compare says in the older form, and compare ready.
fn answers(first: &[u8], second: &[u8]) -> [bool; 2] {
    [
        Case::compare(first, second),
        Case::compare_ready(first, second),
    ]
    .map(|case| case.run().values[0] == 1)
}

/// Compare ready, where both forms have the answers that they should have.
fn add_pair(cases: &mut Vec<Case>, first: &[u8], second: &[u8], expected: [bool; 2]) {
    assert_eq!(answers(first, second), expected);
    cases.push(Case::compare_ready(first, second));
}

/// The pairs by hand, in both forms of compare.
fn pairs_by_hand(cases: &mut Vec<Case>) {
    for Compared { flows, yes, ready } in ready_flows::pairs() {
        let [first, second] = [&flows[0], &flows[1]].map(sheet::write);
        cases.push(Case::compare(&first, &second));
        add_pair(cases, &first, &second, [yes, ready]);
    }
}

/// Random small pairs of all kinds, as many with each two answers.
fn random_pairs(cases: &mut Vec<Case>) {
    let mut rng = Prng::new(805);
    for expected in [[true, true], [true, false], [false, false]] {
        let mut found = 0;
        while found < 20 {
            let flows = ready_flows::two(&mut rng);
            let [first, second] = ready_flows::kinds(&mut rng, &flows)
                .map(|one| random::shuffled_labelled(&mut rng, &one));
            if answers(&first, &second) == expected {
                found += 1;
                cases.push(Case::compare_ready(&first, &second));
            }
        }
    }
}

/// Flows around 64 and 256 pages together.
fn sizes_together(cases: &mut Vec<Case>) {
    let mut rng = Prng::new(806);
    for (a, b) in [(31, 32), (32, 33), (255, 1)] {
        let [first, second] = [a, b].map(|n| {
            let lts = ready_flows::few_sets(&mut rng, n, 3, 3, 10);
            sheet::write(&lts)
        });
        cases.push(Case::compare_ready(&first, &second));
    }
    // The second with more moves of the same actions, so that it is yes.
    for n in [32, 64, 128] {
        let lts = ready_flows::few_sets(&mut rng, n, 3, 3, 10);
        let more = ready_flows::more_alike(&mut rng, &lts, 9);
        let [first, second] = [&lts, &more].map(sheet::write);
        add_pair(cases, &first, &second, [true, true]);
        cases.push(Case::compare_ready(&second, &first));
    }
    // Rows of pages, which take many turns.
    for (first, expected) in [(99, [true, false]), (100, [true, true])] {
        let [first, second] = [first, 100].map(|n| sheet::write(&make::chain(n)));
        add_pair(cases, &first, &second, expected);
    }
}

/// 256 and 257 pages, and 1,025 moves together.
fn limits(cases: &mut Vec<Case>) {
    for n in [128, 129] {
        let [first, second] = [128, n].map(|n| sheet::write(&Lts::of(n, 0, &[])));
        cases.push(Case::compare_ready(&first, &second));
    }
    let mut rng = Prng::new(807);
    let [first, second] =
        [512, 513].map(|k| sheet::write(&random::lts_exact(&mut rng, 10, 12, k, 0)));
    cases.push(Case::compare_ready(&first, &second));
}

/// 256 pages, 1,024 moves and 64 names together: a flow with itself, and with
/// itself once page 0 has one action less.
fn largest_pairs(cases: &mut Vec<Case>) {
    let mut rng = Prng::new(808);
    let lts = random::lts_exact(&mut rng, 128, 64, 512, 10);
    let mut transitions = lts.transitions().to_vec();
    let last = lts.moves_of(0).last().expect("a move of page 0").action;
    transitions.retain(|t| (t.source, t.action) != (0, last));
    let fewer = Lts::new(64, lts.end_marks().to_vec(), transitions);
    let labels = random::labels(&mut rng, 64);
    let [lts, fewer] = [lts, fewer].map(|one| LabelledLts::named(one, labels.clone()));
    let other = random::renumbered(&mut rng, &lts);
    let [lts, fewer, other] = [lts, fewer, other].map(|one| sheet::write_labelled(&one));
    add_pair(cases, &lts, &other, [true, true]);
    add_pair(cases, &fewer, &other, [true, false]);
}

/// 64, 65 and more labels together.
fn many_labels(cases: &mut Vec<Case>) {
    for [first, second] in labels::many_together() {
        cases.push(Case::compare_ready(&first, &second));
    }
}
