//! The depth of a plan's last entry: plans with depths written by hand, checked
//! by the archive and by the independent program.

use differential::case::{Call, Case};
use differential::memory::{Heap, Slot, SLOTS};
use differential::sides::{archive, carried, carried16, expected};
use reference::plan_depths::{self, Worked};
use reference::{grid, sheet};

/// Both sides accept the plan with its last pair and its depth.
fn agrees<S: Slot>(worked: &Worked, slots: &mut [S; SLOTS]) {
    let start = grid::write(worked.start.relation());
    let plan = carried16(&worked.plan.numbers());
    let case = Case {
        call: Call::CheckPlan,
        bytes: vec![sheet::write(&worked.lts), carried(&start), plan],
        numbers: Vec::new(),
    };
    let last = worked.plan.entries.last().expect("an entry");
    let answer = vec![last.p.into(), last.q.into(), worked.depth as u64];
    for outcome in [archive(&case, slots), expected(&case)] {
        assert_eq!(outcome.answer.as_ref(), Ok(&answer), "{:?}", worked.plan);
        assert_eq!(outcome.bytes, case.bytes);
    }
}

/// Each plan, and its first entries alone.
fn by_hand<S: Slot>(slots: &mut [S; SLOTS]) {
    for worked in plan_depths::small() {
        agrees(&worked, slots);
        for (at, depth) in worked.plan.depths(&worked.lts).into_iter().enumerate() {
            let mut first = worked.clone();
            first.plan.entries.truncate(at + 1);
            agrees(&Worked { depth, ..first }, slots);
        }
    }
}

#[test]
fn by_hand_on_the_heap() {
    by_hand(&mut Heap::slots());
}

#[cfg(target_os = "linux")]
#[test]
fn by_hand_beside_pages_without_access() {
    use differential::memory::{Guarded, Side};
    by_hand(&mut Guarded::slots(Side::Begin));
    by_hand(&mut Guarded::slots(Side::End));
}

/// Depths around the ends of bytes, and one of 16,382.
#[test]
fn around_two_cycles() {
    let slots = &mut Heap::slots();
    for entries in [1, 2, 255, 256, 257, 258, 4_095] {
        agrees(&plan_depths::around(63, 65, entries), slots);
    }
    agrees(&plan_depths::around(127, 129, 16_383), slots);
}
