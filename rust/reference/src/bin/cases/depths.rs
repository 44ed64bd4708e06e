//! Depths of plans, on numbers (op 5), on entries (10) and on bytes (12).

use crate::case::Case;
use crate::make::start_words;
use reference::grid;
use reference::plan_depths::{self, Worked};
use reference::plans::{Entry, Rounds};
use reference::prng::Prng;
use reference::random;
use reference::sheet;

/// The cases.
pub fn cases() -> Vec<Case> {
    let mut cases = Vec::new();
    by_hand(&mut cases);
    around(&mut cases);
    detours(&mut cases);
    cases
}

/// Check plan, on numbers.
fn check(worked: &Worked) -> Case {
    let (sheet, words) = (sheet::write(&worked.lts), start_words(&worked.start));
    let case = Case::check_plan(&sheet, &words, &worked.plan.numbers());
    let depth = case.run().values[2];
    assert_eq!(depth, worked.depth, "{:?}", worked.plan);
    case
}

/// The plans made by hand.
fn by_hand(cases: &mut Vec<Case>) {
    for (i, worked) in plan_depths::small().iter().enumerate() {
        let case = check(worked);
        let more = &[7; 7][..i % 8];
        cases.extend([case.on(10, 2, &[]), case.on(12, 2, more), case]);
    }
}

/// Plans deeper than 255, the last with as many entries as the reader has
/// room for: its first pair is held twice.
fn around(cases: &mut Vec<Case>) {
    let case = check(&plan_depths::around(16, 17, 272));
    cases.extend([case.on(12, 2, &[1; 3]), case]);
    let mut most = plan_depths::around(31, 33, 1_023);
    most.plan.entries.insert(0, most.plan.entries[0]);
    cases.push(check(&most).on(10, 2, &[]));
}

/// Random plans with an entry that is deeper than the round of its pair.
fn detours(cases: &mut Vec<Case>) {
    let mut rng = Prng::new(405);
    let mut found = 0;
    while found < 48 {
        let n = rng.between(3, 7);
        let lts = random::lts(&mut rng, n, 2, 2 * n, 15);
        let start = if rng.chance(50) {
            grid::end_start_of(&lts)
        } else {
            random::preorder(&mut rng, n)
        };
        let entries = rng.between(3, 24);
        let plan = random::sound_plan(&mut rng, &lts, &start, entries);
        let rounds = Rounds::of(&lts, &start);
        let deeper = |(entry, depth): (&Entry, usize)| {
            let round = rounds.falls_at(entry.p.into(), entry.q.into());
            Some(depth) > round
        };
        if !plan.entries.iter().zip(plan.depths(&lts)).any(deeper) {
            continue;
        }
        let sheet = random::shuffled_sheet(&mut rng, &lts);
        let case = Case::check_plan(&sheet, &start_words(&start), &plan.numbers());
        let other = if found % 2 == 0 {
            case.on(10, 2, &[])
        } else {
            case.on(12, 2, &[0; 7][..found / 2 % 8])
        };
        cases.extend([other, case]);
        found += 1;
    }
}
