//! Cases of a sheet that is refused, in every operation that reads one.

use crate::case::Case;
use crate::convert::{converted, to_other_kind};
use crate::make::{self, filled_bytes, filled_numbers, filled_words, F3_START};
use reference::chain_faults::Fault;

/// Adds cases that are all refused as the fault is.
fn add(cases: &mut Vec<Case>, fault: &Fault, more: Vec<Case>) {
    for case in more {
        assert_eq!(case.run().refusal, Some(fault.refusal), "op {}", case.op);
        cases.push(case);
    }
}

/// Each call on one sheet, with nothing else to refuse, and the text.
pub fn one_sheet(cases: &mut Vec<Case>, fault: &Fault) {
    let sheet = &fault.sheet[..];
    let (words, numbers) = (filled_words(3), filled_numbers(4));
    let coarsest = Case::coarsest(sheet, &F3_START, &[], &words, &numbers[..3]);
    let check = Case::check_plan(sheet, &F3_START, &[0, 1, 1, 1]);
    let write = Case::write_plan(sheet, &F3_START, &numbers, 0, 1);
    let carried = vec![
        coarsest.on(14, 1, &[]),
        check.on(10, 2, &[]),
        check.on(12, 2, &[]),
        write.on(11, 2, &[]),
        write.on(13, 2, &[]),
    ];
    let calls = vec![
        Case::read(sheet),
        Case::normalise(sheet, &filled_bytes(sheet.len())),
        Case::end_start(sheet, &words),
        Case::ready_start(sheet, &words),
        Case::test_simulation(sheet, &F3_START, &F3_START),
        Case::hand_play(sheet, &F3_START, 2, 0, 1),
        coarsest,
        check,
        write,
    ];
    add(cases, fault, calls);
    add(cases, fault, carried);
    add(cases, fault, converted(sheet).to_vec());
    cases.push(Case::text(sheet));
}

/// Compare in either form and join, with the fault in the first sheet and in
/// the second.
pub fn first_and_second(cases: &mut Vec<Case>, fault: &Fault) {
    let (sheet, good) = (&fault.sheet[..], &make::f1()[..]);
    let out = filled_bytes(9);
    let calls = vec![
        Case::compare(sheet, good),
        Case::compare(good, sheet),
        Case::compare_ready(sheet, good),
        Case::compare_ready(good, sheet),
        Case::join(sheet, good, &out),
        Case::join(good, sheet, &out),
    ];
    add(cases, fault, calls);
}

/// Compare in either form and join where both sheets have a fault: the first
/// one's counts.
pub fn both_sheets(cases: &mut Vec<Case>, faults: &[Fault]) {
    for (first, second) in faults.iter().zip(faults.iter().rev()) {
        let calls = vec![
            Case::compare(&first.sheet, &second.sheet),
            Case::compare_ready(&first.sheet, &second.sheet),
            Case::join(&first.sheet, &second.sheet, &filled_bytes(9)),
        ];
        add(cases, first, calls);
    }
}

/// A longer sheet, read, normalised, made one of the other kind, and as the
/// second of two.
pub fn in_turn(cases: &mut Vec<Case>, fault: &Fault) {
    let sheet = &fault.sheet[..];
    let calls = vec![
        Case::read(sheet),
        Case::normalise(sheet, &filled_bytes(100)),
        to_other_kind(sheet, &filled_bytes(100)),
        Case::compare(&make::f3(), sheet),
    ];
    add(cases, fault, calls);
}
