//! A case from its seed.

use crate::case::{Call, Case};
use crate::damage::{sheet, wrong_length};
use crate::flows::{self, Sizes};
use crate::grids;
use crate::sides::{carried, carried16};
use reference::labels::{LabelledLts, LABEL};
use reference::lts::Lts;
use reference::plans::{Rounds, ENTRY_NUMBERS};
use reference::prng::Prng;
use reference::relation::{Preorder, Relation};
use reference::sheet::{length, named_length, write_labelled};
use reference::{compare, fixpoint, grid, random, ready_flows};

/// How many in a hundred sheets, starts and lengths are damaged.
const DAMAGED: usize = 15;
const BROKEN: usize = 12;
const MISSIZED: usize = 12;

/// Where the independent program takes long on large flows, few are large.
const FEW: Sizes = Sizes {
    large: 3,
    edges: 60,
};
const MANY: Sizes = Sizes {
    large: 100,
    edges: 300,
};

/// The case of a call and a seed.
pub fn case(call: Call, seed: u64) -> Case {
    let rng = &mut Prng::new(seed ^ (call as u64) << 56);
    let mut case = Case {
        call,
        bytes: Vec::new(),
        numbers: Vec::new(),
    };
    match call {
        Call::Coarsest => coarsest(rng, &mut case),
        Call::Compare => {
            two_sheets(rng, &mut case, |rng| two_flows(rng, FEW));
        }
        Call::CompareReady => {
            two_sheets(rng, &mut case, two_flows_for_ready);
        }
        Call::Normalise => {
            let lts = flows::flow(rng, MANY);
            let flow = labelled(rng, &lts, &mut case);
            let right = write_labelled(&flow).len();
            case.bytes.push(result_buffer(rng, right, 1));
        }
        Call::EndStart | Call::ReadyStart => start_to_write(rng, &mut case),
        Call::TestSimulation => {
            let (lts, start) = flow_and_start(rng, MANY, &mut case);
            let claim = claim(rng, &lts, &start);
            case.bytes.push(claim);
        }
        Call::CheckPlan => {
            let lts = flows::for_plans(rng, FEW);
            let start = start_of(rng, &lts, &mut case);
            let plan = plan_to_check(rng, &lts, &start);
            case.bytes.push(carried16(&plan));
            odd_byte(rng, &mut case);
        }
        Call::WritePlan => {
            let (lts, start) = flow_and_start(rng, FEW, &mut case);
            let (p, q) = pair(rng, &lts, &start);
            let plan = plan_buffer(rng, &lts, &start, p, q);
            case.bytes.push(carried16(&plan));
            odd_byte(rng, &mut case);
            case.numbers = vec![
                argument(rng, p, lts.states()),
                argument(rng, q, lts.states()),
            ];
        }
        Call::HandPlay => {
            let (lts, start) = flow_and_start(rng, MANY, &mut case);
            let (p, q) = pair(rng, &lts, &start);
            let rounds = rng.below(7);
            case.numbers = vec![
                argument(rng, p, lts.states()),
                argument(rng, q, lts.states()),
                argument(rng, rounds, 7),
            ];
        }
        Call::Join => {
            let right = two_sheets(rng, &mut case, |rng| two_flows(rng, MANY));
            let out = join_buffer(rng, right);
            case.bytes.push(out);
        }
        Call::ToNamed | Call::ToPlain => convert(rng, &mut case),
    }
    case
}

/// A sheet and a buffer for its start.
fn start_to_write(rng: &mut Prng, case: &mut Case) {
    let lts = match case.call {
        Call::ReadyStart => flows::for_ready(rng, MANY),
        _ => flows::flow(rng, MANY),
    };
    labelled(rng, &lts, case);
    let right = 8 * grid::length(lts.states());
    case.bytes.push(result_buffer(rng, right, 8));
}

/// The flow as one of either kind; its sheet is the case's first buffer.
fn labelled(rng: &mut Prng, lts: &Lts, case: &mut Case) -> LabelledLts {
    let flow = random::labelled(rng, lts);
    case.bytes.push(sheet(rng, &flow, DAMAGED));
    flow
}

/// A flow and a start; sheet and grid are the case's first buffers.
fn flow_and_start(rng: &mut Prng, sizes: Sizes, case: &mut Case) -> (Lts, Preorder) {
    let lts = flows::flow(rng, sizes);
    let start = start_of(rng, &lts, case);
    (lts, start)
}

/// A start for a flow; sheet and grid are the case's first buffers.
fn start_of(rng: &mut Prng, lts: &Lts, case: &mut Case) -> Preorder {
    labelled(rng, lts, case);
    let start = grids::preorder(rng, lts);
    case.bytes.push(grids::start(rng, &start, BROKEN));
    start
}

/// Random bytes.
fn any_bytes(rng: &mut Prng, count: usize) -> Vec<u8> {
    (0..count).map(|_| rng.bits() as u8).collect()
}

/// A buffer for a result, full of random bytes, now and then missized.
fn result_buffer(rng: &mut Prng, right: usize, unit: usize) -> Vec<u8> {
    let count = if rng.chance(MISSIZED) {
        wrong_length(rng, right, unit)
    } else {
        right
    };
    any_bytes(rng, count)
}

/// The rest of a coarsest.
fn coarsest(rng: &mut Prng, case: &mut Case) {
    let (lts, _) = flow_and_start(rng, FEW, case);
    let n = lts.states();
    let mut turns: Vec<u8> = if rng.chance(1) {
        // More than any run can use.
        let count = rng.between(130_558, 131_074);
        any_bytes(rng, count)
    } else {
        let most = [0, 3, 4 * n][rng.below(3)];
        let list = random::schedule(rng, most);
        carried16(&list)
    };
    if rng.chance(20) {
        turns.push(rng.bits() as u8);
    }
    case.bytes.push(turns);
    let grid = result_buffer(rng, 8 * grid::length(n), 8);
    let names = result_buffer(rng, 2 * n, 2);
    case.bytes.extend([grid, names]);
}

/// Two sheets, of one kind or of two: of two flows as they are made, and now and
/// then too large together. Gives the length of the joined sheet, 0 if there is
/// none.
fn two_sheets(
    rng: &mut Prng,
    case: &mut Case,
    two: impl FnOnce(&mut Prng) -> [LabelledLts; 2],
) -> usize {
    let (flows, damaged) = match rng.below(100) {
        0..=2 => (at_limits(rng), 0),
        3 | 4 => (flows::labels_at_limit(rng), 0),
        _ => (two(rng), DAMAGED),
    };
    for flow in &flows {
        case.bytes.push(sheet(rng, flow, damaged));
    }
    let joined = compare::join_labelled(&flows[0], &flows[1]);
    joined.map_or(0, |joined| write_labelled(&joined).len())
}

/// Two flows, unlike ones or like ones.
fn two_flows(rng: &mut Prng, sizes: Sizes) -> [LabelledLts; 2] {
    let first = flows::flow(rng, sizes);
    // The same flow with one move more or less, either way round.
    let second = match rng.below(2) {
        0 => flows::flow(rng, sizes),
        _ => random::fewer(rng, &first, 1),
    };
    match rng.below(2) {
        0 => flows::labelled(rng, [first, second]),
        _ => flows::labelled(rng, [second, first]),
    }
}

/// Two flows as above; two with few sets of actions; or a flow and its
/// unfolding, as it is, with a few moves less or with another end mark. So each
/// answer of both forms of compare comes often.
pub fn two_flows_for_ready(rng: &mut Prng) -> [LabelledLts; 2] {
    let flows = match rng.below(10) {
        0..=2 => return two_flows(rng, FEW),
        3..=5 => ready_flows::two(rng),
        _ => {
            let first = flows::for_ready(rng, FEW);
            let second = flows::unfolded(rng, &first);
            match rng.below(8) {
                0 => [first, second],
                1 => [second, first],
                2 => [first, flows::other_mark(rng, &second)],
                3 => [first, random::fewer(rng, &second, 3)],
                _ => [random::fewer(rng, &second, 3), first],
            }
        }
    };
    ready_flows::kinds(rng, &flows)
}

/// Pages or moves that together are at the limit or just above.
fn at_limits(rng: &mut Prng) -> [LabelledLts; 2] {
    let above = rng.below(2);
    let flows = if rng.chance(50) {
        let n = rng.between(1, 255);
        [n, 256 + above - n].map(|n| random::lts(rng, n, 1, 3, 0))
    } else {
        let k = rng.between(0, 1024);
        [k, 1024 + above - k].map(|k| random::lts_exact(rng, 24, 2, k, 0))
    };
    flows::labelled(rng, flows)
}

/// A buffer for a joined sheet: of its length, longer, one byte shorter,
/// empty or of any length.
fn join_buffer(rng: &mut Prng, right: usize) -> Vec<u8> {
    let count = match rng.below(10) {
        0..=2 => right,
        3..=5 => right + rng.between(1, 40),
        6 => right + rng.below(9000),
        7 => right.saturating_sub(1),
        8 => 0,
        _ => wrong_length(rng, right, 6),
    };
    any_bytes(rng, count)
}

/// A sheet to be converted, and a buffer of the new length, of the old one, or
/// missized.
fn convert(rng: &mut Prng, case: &mut Case) {
    let lts = flows::flow(rng, MANY);
    let (n, m, k) = (lts.states(), lts.actions(), lts.transitions().len());
    let flow = flows::to_convert(rng, lts);
    let sheet = sheet(rng, &flow, DAMAGED);
    let right = match case.call {
        Call::ToNamed => named_length(n, m, k),
        _ => length(n, k),
    };
    let out = if rng.chance(4) {
        any_bytes(rng, sheet.len())
    } else {
        result_buffer(rng, right, LABEL)
    };
    case.bytes.extend([sheet, out]);
}

/// A claim for test simulation: near the coarsest simulation, or anything.
fn claim(rng: &mut Prng, lts: &Lts, start: &Preorder) -> Vec<u8> {
    let n = lts.states();
    let mut claim = match rng.below(8) {
        0 => Relation::empty(n),
        1 => Relation::identity(n),
        2 => start.relation().clone(),
        _ => fixpoint::coarsest(lts, start),
    };
    if rng.chance(50) {
        grids::change_pair(rng, &mut claim);
    }
    if rng.chance(BROKEN) {
        return grids::broken_bytes(rng, &claim);
    }
    carried(&grid::write(&claim))
}

/// A pair of pages, most of the time one that falls.
fn pair(rng: &mut Prng, lts: &Lts, start: &Preorder) -> (usize, usize) {
    let n = lts.states();
    let (p, q) = (rng.below(n), rng.below(n));
    if rng.chance(30) {
        return (p, q);
    }
    let kept = fixpoint::coarsest(lts, start);
    let dropped: Vec<(usize, usize)> = Relation::full(n)
        .pairs()
        .filter(|&(p, q)| !kept.contains(p, q))
        .collect();
    if dropped.is_empty() {
        return (p, q);
    }
    dropped[rng.below(dropped.len())]
}

/// An argument that should be below `bound`: this one, or one outside, also
/// such that fewer bits of it would be inside.
fn argument(rng: &mut Prng, inside: usize, bound: usize) -> u64 {
    if rng.chance(94) {
        return inside as u64;
    }
    let (inside, bound) = (inside as u64, bound as u64);
    [
        bound,
        bound + 1,
        inside + (1 << 8),
        inside + (1 << 16),
        inside + (1 << 32),
        inside + (1 << 63),
        u64::from(u16::MAX),
        u64::MAX,
    ][rng.below(8)]
}

/// The numbers of the plan for a pair; none if the pair is kept.
fn plan_of(lts: &Lts, start: &Preorder, p: usize, q: usize) -> Option<Vec<u16>> {
    let strategy = Rounds::of(lts, start).strategy(lts, p, q)?;
    Some(strategy.numbers())
}

/// Random numbers, small enough to name pages and actions now and then.
fn any_numbers(rng: &mut Prng, count: usize, most: usize) -> Vec<u16> {
    (0..count).map(|_| rng.below(most + 1) as u16).collect()
}

/// Now and then one byte more at the end of the last buffer.
fn odd_byte(rng: &mut Prng, case: &mut Case) {
    if rng.chance(30) {
        let byte = rng.bits() as u8;
        case.bytes.last_mut().expect("a buffer").push(byte);
    }
}

/// A plan to be checked: one with detours, as it is or with one entry damaged; a
/// written one, as it is or changed; or anything.
fn plan_to_check(rng: &mut Prng, lts: &Lts, start: &Preorder) -> Vec<u16> {
    let n = lts.states();
    let mut plan = match rng.below(10) {
        0..=2 => detours(rng, lts, start),
        3 | 4 => {
            let mut plan = detours(rng, lts, start);
            damage_entry(rng, n, &mut plan);
            plan
        }
        5 => {
            let count = rng.below(12);
            any_numbers(rng, count, n)
        }
        _ => changed_plan(rng, lts, start),
    };
    let entries = plan.len() / ENTRY_NUMBERS;
    if (1..64).contains(&entries) && rng.below(500) == 0 {
        // More entries than there are pairs.
        plan = plan.repeat(65_537usize.div_ceil(entries));
    }
    let rest = rng.below(ENTRY_NUMBERS);
    plan.extend(any_numbers(rng, rest, n));
    plan
}

/// A plan of sound entries, in which pairs come again at other depths, and whose
/// last entry is often deeper than the written plan. On large flows it is short,
/// for the independent program takes long to make it.
fn detours(rng: &mut Prng, lts: &Lts, start: &Preorder) -> Vec<u16> {
    let most = match lts.states() {
        0..=20 => 40,
        21..=66 => 24,
        _ => 12,
    };
    let entries = rng.between(1, most);
    let mut plan = random::sound_plan(rng, lts, start, entries);
    if rng.chance(50) {
        // Up to its deepest entry.
        let depths = plan.depths(lts);
        let deepest = (0..depths.len()).max_by_key(|&at| depths[at]);
        plan.entries.truncate(deepest.map_or(0, |at| at + 1));
    }
    plan.numbers()
}

/// Damages one entry of a plan: its pair turned around, its move left out, another
/// number in it, or another entry in its place.
fn damage_entry(rng: &mut Prng, n: usize, plan: &mut [u16]) {
    let entries = plan.len() / ENTRY_NUMBERS;
    if entries == 0 {
        return;
    }
    let at = ENTRY_NUMBERS * rng.below(entries);
    match rng.below(5) {
        0 => plan.swap(at, at + 1),
        1 => plan[at + 2..at + ENTRY_NUMBERS].fill(0),
        2 => plan[at + rng.below(ENTRY_NUMBERS)] = rng.bits() as u16,
        3 => plan[at + rng.below(ENTRY_NUMBERS)] = any_numbers(rng, 1, n + 1)[0],
        _ => {
            let other = ENTRY_NUMBERS * rng.below(entries);
            plan.copy_within(other..other + ENTRY_NUMBERS, at);
        }
    }
}

/// A written plan, as it is or changed.
fn changed_plan(rng: &mut Prng, lts: &Lts, start: &Preorder) -> Vec<u16> {
    let n = lts.states();
    let (p, q) = pair(rng, lts, start);
    let mut plan = plan_of(lts, start, p, q).unwrap_or_default();
    let entries = plan.len() / ENTRY_NUMBERS;
    match rng.below(10) {
        0 if entries > 0 => {
            let at = rng.below(plan.len());
            plan[at] = any_numbers(rng, 1, n + 1)[0];
        }
        1 if entries > 0 => {
            let at = ENTRY_NUMBERS * rng.below(entries);
            plan.drain(at..at + ENTRY_NUMBERS);
        }
        2 if entries > 1 => {
            let at = ENTRY_NUMBERS * rng.below(entries - 1);
            plan[at..at + 2 * ENTRY_NUMBERS].rotate_left(ENTRY_NUMBERS);
        }
        3 if entries > 0 => {
            // An earlier entry once more, at the end.
            let at = ENTRY_NUMBERS * rng.below(entries);
            plan.extend_from_within(at..at + ENTRY_NUMBERS);
        }
        4 if entries > 0 => {
            let at = rng.below(plan.len());
            plan[at] = rng.bits() as u16;
        }
        5 if !lts.transitions().is_empty() => {
            // A move and any page to answer it.
            let t = lts.transitions()[rng.below(lts.transitions().len())];
            let numbers = [t.source, rng.below(n), t.action, t.target];
            plan.extend(numbers.map(|x| x as u16));
        }
        _ => {}
    }
    plan
}

/// A buffer for the plan of a pair, of every length around the right one.
fn plan_buffer(rng: &mut Prng, lts: &Lts, start: &Preorder, p: usize, q: usize) -> Vec<u16> {
    let right = match plan_of(lts, start, p, q) {
        Some(plan) => plan.len(),
        None => ENTRY_NUMBERS * rng.below(4),
    };
    let count = if rng.chance(MISSIZED) {
        wrong_length(rng, right, ENTRY_NUMBERS)
    } else if rng.below(2_000) == 0 {
        // More room than any plan needs.
        ENTRY_NUMBERS * 65_536 + rng.below(3 * ENTRY_NUMBERS)
    } else {
        right + rng.below(3 * ENTRY_NUMBERS)
    };
    any_numbers(rng, count, usize::from(u16::MAX))
}

#[cfg(test)]
mod tests {
    use super::{case, damage_entry, detours, two_flows_for_ready};
    use crate::case::Call;
    use crate::flows::{self, Sizes};
    use crate::grids;
    use crate::sides::expected;
    use reference::lts::Lts;
    use reference::plans::{Rounds, Strategy};
    use reference::prng::Prng;
    use reference::relation::Preorder;
    use reference::{compare, sheet};
    use std::collections::BTreeMap;

    /// No flow is large.
    const SMALL: Sizes = Sizes { large: 0, edges: 0 };

    /// Does a pair come again at another depth?
    fn is_again(lts: &Lts, plan: &Strategy) -> bool {
        let mut of_pair = BTreeMap::new();
        let pairs = plan.entries.iter().map(|entry| (entry.p, entry.q));
        pairs
            .zip(plan.depths(lts))
            .any(|(pair, depth)| *of_pair.entry(pair).or_insert(depth) != depth)
    }

    /// Is the last entry deeper than the round of its pair?
    fn is_deeper(lts: &Lts, start: &Preorder, plan: &Strategy) -> bool {
        let last = plan.entries[plan.entries.len() - 1];
        let round = Rounds::of(lts, start).falls_at(last.p.into(), last.q.into());
        plan.depths(lts).last().copied() > round
    }

    /// Of the plans with detours many have a pair at several depths, and many
    /// end deeper than the written plan; with an entry damaged most are refused.
    #[test]
    fn detours_and_damage() {
        let (mut plans, mut again, mut deeper, mut refused) = (0, 0, 0, 0);
        for seed in 0..2_000 {
            let rng = &mut Prng::new(seed);
            let lts = flows::for_plans(rng, SMALL);
            let start = grids::preorder(rng, &lts);
            let mut numbers = detours(rng, &lts, &start);
            if numbers.is_empty() {
                continue;
            }
            let plan = Strategy::read(&numbers);
            assert!(plan.is_accepted(&lts, &start));
            plans += 1;
            again += usize::from(is_again(&lts, &plan));
            deeper += usize::from(is_deeper(&lts, &start, &plan));
            damage_entry(rng, lts.states(), &mut numbers);
            let damaged = Strategy::read(&numbers);
            refused += usize::from(!damaged.is_accepted(&lts, &start));
        }
        assert!(plans > 1_000, "{plans}");
        assert!(3 * again > plans && 3 * deeper > plans, "{again} {deeper}");
        assert!(2 * refused > plans, "{refused}");
    }

    /// Plans are often accepted, also with a depth above 2, and often refused.
    #[test]
    fn plans_to_check() {
        let (mut accepted, mut unsound, mut deep) = (0, 0, 0);
        for seed in 0..2_000 {
            match expected(&case(Call::CheckPlan, seed)).answer {
                Ok(values) => {
                    accepted += 1;
                    deep += usize::from(values[2] > 2);
                }
                Err(refusal) => unsound += usize::from(refusal.number == 14),
            }
        }
        assert!(accepted > 500, "{accepted}");
        assert!(unsound > 500, "{unsound}");
        assert!(deep > 80, "{deep}");
    }
    /// What the independent program says of two sheets: compare, then compare
    /// ready; none where they are refused.
    fn answers(first: &[u8], second: &[u8]) -> Option<[bool; 2]> {
        let (yes, _) = compare::compare(first, second).ok()?;
        let (ready, _) = compare::compare_ready(first, second).ok()?;
        Some([yes, ready])
    }

    /// Of the pairs for compare ready many have each answer of both forms.
    #[test]
    fn pairs_for_ready() {
        let mut count = [[0; 2]; 2];
        for seed in 0..2_000 {
            let rng = &mut Prng::new(seed);
            let [first, second] = two_flows_for_ready(rng).map(|flow| sheet::write_labelled(&flow));
            if let Some([yes, ready]) = answers(&first, &second) {
                count[usize::from(yes)][usize::from(ready)] += 1;
            }
        }
        let [[neither, ready_alone], [yes_alone, both]] = count;
        assert_eq!(ready_alone, 0, "{count:?}");
        assert!(neither > 200 && yes_alone > 200 && both > 200, "{count:?}");
    }

    /// A flow and its unfolding are alike, either way round.
    #[test]
    fn unfoldings() {
        let (mut alike, mut larger) = (0, 0);
        for seed in 0..500 {
            let rng = &mut Prng::new(seed);
            let lts = flows::for_ready(rng, SMALL);
            let unfolded = flows::unfolded(rng, &lts);
            let [first, second] = [&lts, &unfolded].map(sheet::write);
            for (first, second) in [(&first, &second), (&second, &first)] {
                let Some(answers) = answers(first, second) else {
                    continue; // Too many moves together.
                };
                assert_eq!(answers, [true; 2], "{lts:?}");
                alike += 1;
            }
            larger += usize::from(unfolded.states() > lts.states());
        }
        assert!(alike > 900 && larger > 300, "{alike} {larger}");
    }
}
