//! The record that a refusal is about: every call on sheets with a fault in
//! their chains, the archive's and the independent program's, against answers
//! written by hand.

mod cases;
mod faults;

use cases::{calls_on, refused, right, wrong};
use differential::case::Call;
use differential::memory::{Heap, Slot, SLOTS};
use differential::sides::{archive, expected};
use faults::{sheet, Fault};
use reference::refusal::Refusal;

/// A sheet that is refused, in every call on one.
fn on_one<S: Slot>(fault: &Fault, slots: &mut [S; SLOTS]) {
    let pages = usize::from(fault.sheet[0]);
    for call in calls_on(1) {
        for make in [right, wrong] {
            let case = make(call, &[&fault.sheet], pages);
            refused(&case, fault.refusal, fault.about, slots);
        }
    }
}

/// Two sheets, the first of which, or else the second, is refused so, in every
/// call on two.
fn on_two<S: Slot>(sheets: [&[u8]; 2], fault: &Fault, slots: &mut [S; SLOTS]) {
    for call in calls_on(2) {
        for make in [right, wrong] {
            let case = make(call, &sheets, 2);
            refused(&case, fault.refusal, fault.about, slots);
        }
    }
}

/// Every fault in every call: in the one sheet; in the first, the second being
/// of any kind; in the second; and in both.
fn every_fault<S: Slot>(slots: &mut [S; SLOTS]) {
    let sound = sheet(&[1, 0], &[2, 3, 0], true);
    let many_pages = sheet(&[0; 256], &[], true);
    let faults = faults::all();
    for fault in &faults {
        on_one(fault, slots);
        for second in [&sound, &many_pages, &sound[..5], &[]] {
            on_two([&fault.sheet, second], fault, slots);
        }
        for first in [&sound, &many_pages] {
            on_two([first, &fault.sheet], fault, slots);
        }
        for other in &faults {
            on_two([&fault.sheet, &other.sheet], fault, slots);
        }
    }
}

#[test]
fn on_the_heap() {
    every_fault(&mut Heap::slots());
}

#[cfg(target_os = "linux")]
#[test]
fn beside_pages_without_access() {
    use differential::memory::{Guarded, Side};
    every_fault(&mut Guarded::slots(Side::Begin));
    every_fault(&mut Guarded::slots(Side::End));
}

/// The calls are every call, and it is the sheet that they refuse above.
#[test]
fn a_sound_sheet_is_answered() {
    let sound = sheet(&[1, 0], &[2, 3, 0], true);
    for call in Call::ALL {
        let sheets = &[&sound[..], &sound][..call.sheets()];
        let case = right(call, sheets, 2);
        let outcomes = [archive(&case, &mut Heap::slots()), expected(&case)];
        assert!(outcomes[0].answer.is_ok(), "{:?}", outcomes[0]);
        assert_eq!(outcomes[0], outcomes[1]);
        let takes_more = case.bytes.len() > call.sheets();
        if takes_more {
            let case = wrong(call, sheets, 2);
            let outcome = archive(&case, &mut Heap::slots());
            assert!(outcome.answer.is_err(), "{outcome:?}");
        }
    }
}

/// Before 5 come the header, the length and the records themselves; they and
/// 6, behind 16, are about no record.
#[test]
fn other_refusals_have_no_record() {
    let lone = sheet(&[1, 0], &[2, 0, 0], true);
    let with = |at: usize, byte: u8| {
        let mut sheet = lone.clone();
        sheet[at] = byte;
        sheet
    };
    let sheets = [
        (lone[..31].to_vec(), 1),
        (with(2, 65), 2),
        (with(6, 2), 3),
        (with(15, 1), 4),
        (sheet(&[1, 0], &[2, 3, 0], false), 6),
    ];
    for (sheet, number) in sheets {
        let fault = Fault {
            about: "no record",
            sheet,
            refusal: Refusal { number, record: 0 },
        };
        on_one(&fault, &mut Heap::slots());
        on_two([&fault.sheet, &lone], &fault, &mut Heap::slots());
    }
}
