//! Cases of every call on given sheets: with everything else right, or wrong.

use differential::case::{Call, Case};
use differential::memory::{Slot, SLOTS};
use differential::sides::{archive, expected};
use flow::{Entry, Grid, LONGEST_SHEET};
use reference::refusal::Refusal;
use reference::sheet::{length, named_length};

/// The calls on so many sheets.
pub fn calls_on(sheets: usize) -> impl Iterator<Item = Call> {
    let on = move |call: &Call| call.sheets() == sheets;
    Call::ALL.into_iter().filter(on)
}

/// The call on these sheets. What else it takes is right for a first sheet of
/// this many pages, two at least.
pub fn right(call: Call, sheets: &[&[u8]], pages: usize) -> Case {
    let mut bytes: Vec<Vec<u8>> = sheets.iter().map(|sheet| sheet.to_vec()).collect();
    let start = Grid::diagonal(pages).bytes().to_vec();
    let result = |length: usize| vec![0xa5; length];
    // Outside the diagonal, so that it falls at round 0.
    let outside = Entry {
        p: 0,
        q: 1,
        a: 0,
        t: 0,
    };
    let (others, numbers) = match call {
        Call::Coarsest => {
            let (grid, names) = (result(start.len()), result(2 * pages));
            (vec![start, vec![1, 0], grid, names], vec![])
        }
        Call::Compare | Call::CompareReady => (vec![], vec![]),
        Call::Normalise => (vec![result(sheets[0].len())], vec![]),
        Call::ToNamed | Call::ToPlain => (vec![result(new_length(call, sheets[0]))], vec![]),
        Call::Join => (vec![result(LONGEST_SHEET)], vec![]),
        Call::EndStart | Call::ReadyStart => (vec![result(start.len())], vec![]),
        Call::TestSimulation => (vec![start.clone(), start], vec![]),
        Call::CheckPlan => (vec![start, outside.bytes().to_vec()], vec![]),
        Call::WritePlan => (vec![start, result(8)], vec![0, 1]),
        Call::HandPlay => (vec![start], vec![0, 1, 6]),
    };
    bytes.extend(others);
    Case {
        call,
        bytes,
        numbers,
    }
}

/// The length that a converted sheet has by its header; at most that of the
/// longest sheet, and 0 where there is no header.
pub fn new_length(call: Call, sheet: &[u8]) -> usize {
    let &[n, kind, m, m_high, k, k_high, ..] = sheet else {
        return 0;
    };
    let number = |low, high| usize::from(u16::from_le_bytes([low, high]));
    let (n, m, k) = (number(n, kind & 127), number(m, m_high), number(k, k_high));
    let length = match call {
        Call::ToNamed => named_length(n, m, k),
        _ => length(n, k),
    };
    length.min(LONGEST_SHEET)
}

/// The same with everything wrong that the call takes beside the sheets.
pub fn wrong(call: Call, sheets: &[&[u8]], pages: usize) -> Case {
    let mut case = right(call, sheets, pages);
    for buffer in &mut case.bytes[sheets.len()..] {
        buffer.truncate(1);
    }
    case.numbers.fill(u64::MAX);
    case
}

/// Both sides refuse with these numbers and leave every buffer.
pub fn refused<S: Slot>(case: &Case, refusal: Refusal, about: &str, slots: &mut [S; SLOTS]) {
    for outcome in [archive(case, slots), expected(case)] {
        assert_eq!(outcome.answer, Err(refusal), "{about}, given {case:?}");
        assert_eq!(outcome.bytes, case.bytes, "{about}, given {case:?}");
    }
}
