//! Refusals 5 and 16 with their record, in every operation that reads a sheet.

use crate::case::Case;
use crate::refused::{both_sheets, first_and_second, in_turn, one_sheet};
use reference::chain_faults;

/// The cases.
pub fn cases() -> Vec<Case> {
    let mut cases = Vec::new();
    let small = chain_faults::small();
    for fault in &small {
        one_sheet(&mut cases, fault);
        first_and_second(&mut cases, fault);
    }
    both_sheets(&mut cases, &small);
    for fault in chain_faults::two_bytes() {
        in_turn(&mut cases, &fault);
        first_and_second(&mut cases, &fault);
    }
    for fault in chain_faults::last_of_most() {
        in_turn(&mut cases, &fault);
    }
    cases
}
