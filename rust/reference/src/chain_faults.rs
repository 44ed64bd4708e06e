//! Sheets made by hand whose records lie on no chain or are reached twice,
//! each with the refusal that request L1 of document 02 has for it.

use crate::refusal::Refusal;

/// A sheet and its refusal.
#[derive(Clone, PartialEq, Eq, Debug)]
pub struct Fault {
    /// The bytes of the sheet.
    pub sheet: Vec<u8>,
    /// What reading it gives.
    pub refusal: Refusal,
}

/// The first index of each page, the next index of each record, and the
/// record that is at fault.
type Links = ([u16; 3], &'static [u16], u16);

/// Links with a record on no chain.
const UNREACHED: [Links; 28] = [
    // No index names it.
    ([0, 0, 0], &[0], 1),
    ([1, 0, 0], &[0, 0], 2),
    ([2, 0, 0], &[0, 0], 1),
    ([1, 3, 0], &[0, 0, 0], 2),
    // It names itself, and nothing else names it.
    ([0, 0, 0], &[1], 1),
    ([1, 0, 0], &[0, 2], 2),
    ([0, 2, 0], &[1, 0], 1),
    // A cycle that no page reaches.
    ([1, 0, 0], &[0, 3, 2], 2),
    ([0, 0, 2], &[3, 0, 1], 1),
    ([0, 0, 0], &[2, 3, 1], 1),
    ([0, 2, 1], &[0, 0, 5, 3, 4], 3),
    // Such a cycle with a record before it.
    ([1, 0, 0], &[0, 3, 4, 3], 2),
    ([4, 0, 0], &[2, 1, 1, 0], 1),
    // Several, not all side by side.
    ([3, 1, 0], &[0, 0, 0, 0, 0], 2),
    ([5, 0, 0], &[0, 0, 1, 0, 3], 2),
    ([2, 0, 4], &[0, 1, 5, 0, 0], 3),
    // A lower record is reached twice: by two firsts, from a record on no
    // chain, by itself, and by a next at a first's record.
    ([1, 1, 0], &[0, 0], 2),
    ([1, 0, 0], &[0, 1], 2),
    ([1, 0, 0], &[1, 0], 2),
    ([1, 2, 0], &[2, 0, 0], 3),
    ([1, 0, 0], &[2, 1, 2, 0], 3),
    // A higher record is reached twice, in the same ways.
    ([2, 2, 0], &[0, 0], 1),
    ([2, 0, 0], &[2, 0], 1),
    ([2, 0, 0], &[0, 2], 1),
    ([3, 2, 0], &[0, 3, 0], 1),
    ([0, 3, 0], &[0, 3, 2], 1),
    // A lower one and a higher one are reached twice.
    ([1, 1, 3], &[0, 0, 3], 2),
    ([4, 1, 4], &[4, 3, 4, 1], 2),
];

/// Links with a record that two indices name, and all records on chains.
const REACHED_TWICE: [Links; 28] = [
    // Two firsts, or three, at one record.
    ([1, 1, 0], &[0], 1),
    ([1, 1, 1], &[0], 1),
    ([1, 2, 2], &[0, 0], 2),
    ([3, 1, 3], &[2, 0, 0], 3),
    // The same with records after it, which one index names.
    ([2, 2, 0], &[0, 1], 2),
    ([3, 3, 0], &[0, 1, 2], 3),
    ([3, 3, 3], &[2, 0, 1], 3),
    // A next at a first's record.
    ([1, 2, 0], &[2, 0], 2),
    ([2, 1, 0], &[0, 1], 1),
    ([1, 3, 0], &[3, 0, 2], 3),
    // Two nexts at one record.
    ([1, 2, 0], &[3, 3, 0], 3),
    ([3, 2, 0], &[0, 1, 1], 1),
    ([2, 3, 0], &[0, 4, 4, 1], 4),
    // A record that names itself; the second has the links of F9.
    ([1, 0, 0], &[1], 1),
    ([1, 0, 2], &[1, 0], 1),
    ([2, 0, 0], &[1, 1], 1),
    ([0, 1, 0], &[2, 2], 2),
    ([1, 0, 0], &[2, 3, 3], 3),
    // A chain that closes on a record of its own.
    ([1, 0, 0], &[2, 3, 1], 1),
    ([3, 0, 0], &[2, 3, 1], 3),
    ([1, 0, 0], &[2, 3, 2], 2),
    ([3, 0, 0], &[2, 1, 1], 1),
    ([4, 0, 0], &[2, 3, 1, 3], 3),
    // Several, the lowest met first or last along the chains.
    ([1, 1, 3], &[2, 3, 0], 1),
    ([4, 4, 2], &[0, 1, 2, 3], 2),
    ([5, 3, 5], &[0, 1, 4, 2, 3], 3),
    ([2, 3, 4], &[0, 1, 1, 4], 1),
    ([2, 4, 3], &[0, 3, 1, 4], 3),
];

/// Faults on three pages, with few records.
pub fn small() -> Vec<Fault> {
    let unreached = UNREACHED.map(|(firsts, nexts, record)| Fault {
        sheet: linked(&firsts, nexts),
        refusal: Refusal::unreached(record),
    });
    let reached_twice = REACHED_TWICE.map(|(firsts, nexts, record)| Fault {
        sheet: linked(&firsts, nexts),
        refusal: Refusal::reached_twice(record),
    });
    [&unreached[..], &reached_twice, &beside_repeats()].concat()
}

/// Faults in sheets that also hold an action and target twice in one chain.
fn beside_repeats() -> Vec<Fault> {
    let fault = |firsts: [u16; 3], records: &[(u8, u16, u16)], refusal| Fault {
        sheet: raw(2, &firsts, records),
        refusal,
    };
    let repeat_and_one = [(1, 1, 2), (1, 1, 0), (2, 0, 0)];
    vec![
        fault([1, 0, 0], &repeat_and_one, Refusal::unreached(3)),
        fault(
            [2, 2, 0],
            &[(1, 1, 0), (1, 1, 3), (1, 1, 0)],
            Refusal::unreached(1),
        ),
        fault(
            [1, 0, 0],
            &[(1, 1, 2), (1, 1, 2)],
            Refusal::reached_twice(2),
        ),
        fault(
            [1, 1, 0],
            &[(1, 1, 2), (1, 1, 0)],
            Refusal::reached_twice(1),
        ),
        fault([1, 3, 3], &repeat_and_one, Refusal::reached_twice(3)),
        fault([3, 3, 1], &repeat_and_one, Refusal::reached_twice(3)),
    ]
}

/// Faults at a record whose number takes two bytes: 259 of 260 records.
pub fn two_bytes() -> Vec<Fault> {
    let down: Vec<u16> = (0..260).collect();
    let mut past = down.clone();
    (past[259], past[258]) = (258, 0);
    vec![
        // 260, then 258 and down to 1.
        Fault {
            sheet: linked(&[260, 0, 0, 0, 0], &past),
            refusal: Refusal::unreached(259),
        },
        // 260 down to 1, and a second first at 259.
        Fault {
            sheet: linked(&[260, 0, 0, 0, 259], &down),
            refusal: Refusal::reached_twice(259),
        },
    ]
}

/// Faults at the last of 1,024 records, on 16 pages.
pub fn last_of_most() -> Vec<Fault> {
    let mut firsts = [0; 16];
    firsts[0] = 1;
    // Each record names the one after it, up to 1,022.
    let up: Vec<u16> = (2..1024).collect();
    let ends = |last: [u16; 2]| [&up[..], &last].concat();
    let fault = |last, refusal| Fault {
        sheet: linked(&firsts, &ends(last)),
        refusal,
    };
    vec![
        fault([0, 0], Refusal::unreached(1024)),
        fault([1024, 1024], Refusal::reached_twice(1024)),
    ]
}

/// The sheet with these links, in which all moves differ.
pub fn linked(firsts: &[u16], nexts: &[u16]) -> Vec<u8> {
    let n = firsts.len();
    let records: Vec<(u8, u16, u16)> = nexts
        .iter()
        .enumerate()
        .map(|(i, &next)| ((i / n) as u8 + 1, (i % n) as u16, next))
        .collect();
    raw(nexts.len().div_ceil(n) as u16, firsts, &records)
}

/// The sheet with m actions, each page's first index and each record's
/// action, target and next index, readable or not.
pub fn raw(m: u16, firsts: &[u16], records: &[(u8, u16, u16)]) -> Vec<u8> {
    let mut bytes = Vec::new();
    for count in [firsts.len() as u16, m, records.len() as u16] {
        bytes.extend(count.to_le_bytes());
    }
    for first in firsts {
        bytes.extend([0, 0]);
        bytes.extend(first.to_le_bytes());
    }
    for &(action, target, next) in records {
        bytes.extend([action, 0]);
        bytes.extend(target.to_le_bytes());
        bytes.extend(next.to_le_bytes());
    }
    bytes
}
