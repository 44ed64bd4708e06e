//! Sheets with a fault in their chains, and what they are refused with, both
//! written by hand.

use reference::labels::decimal;
use reference::refusal::Refusal;
use reference::sheet::with_labels;

/// A sheet and its refusal.
pub struct Fault {
    pub about: &'static str,
    pub sheet: Vec<u8>,
    pub refusal: Refusal,
}

/// A sheet's first indices and next indices, the number of its refusal and the
/// record's.
type Row = (&'static str, &'static [usize], &'static [usize], (u8, u16));

/// Small sheets.
const ROWS: [Row; 30] = [
    ("the only record is lone", &[0], &[0], (5, 1)),
    ("the first of two is lone", &[2], &[0, 0], (5, 1)),
    ("the last of three is lone", &[1, 0], &[2, 0, 0], (5, 3)),
    ("two and four are lone", &[1, 0], &[3, 0, 0, 0], (5, 2)),
    ("all are lone", &[0, 0], &[0, 0, 0], (5, 1)),
    ("three leads to two, lone", &[1], &[0, 0, 2], (5, 2)),
    ("the only record, lone, names itself", &[0], &[1], (5, 1)),
    ("a lone record names itself", &[1], &[0, 2], (5, 2)),
    ("a lone cycle of two", &[1, 0], &[0, 3, 2], (5, 2)),
    ("a lone cycle of three", &[0, 2], &[3, 0, 4, 1], (5, 1)),
    ("a lone cycle of all", &[0, 0], &[2, 3, 1], (5, 1)),
    ("two lone cycles", &[3], &[4, 5, 0, 1, 2], (5, 1)),
    (
        "a lone record leads to a lone cycle",
        &[1],
        &[0, 3, 4, 3],
        (5, 2),
    ),
    ("both: one twice, two lone", &[1, 1], &[0, 0], (5, 2)),
    ("both: two twice, one lone", &[2, 2], &[0, 0], (5, 1)),
    (
        "both: a lone record names one on a chain",
        &[1, 0],
        &[0, 1],
        (5, 2),
    ),
    (
        "both: one names itself, two and three lone",
        &[1],
        &[1, 3, 0],
        (5, 2),
    ),
    ("both: one twice, a lone cycle", &[1, 1], &[0, 3, 2], (5, 2)),
    (
        "both: one and two twice, three lone",
        &[1, 2, 2, 1],
        &[0, 0, 0],
        (5, 3),
    ),
    ("two firsts at one", &[1, 1], &[2, 0], (16, 1)),
    (
        "two firsts at two, which leads to one",
        &[2, 0, 2],
        &[0, 1],
        (16, 2),
    ),
    ("three firsts at two", &[2, 2, 2], &[0, 1], (16, 2)),
    (
        "two firsts at two and at four",
        &[4, 2, 4, 2],
        &[0, 1, 0, 3],
        (16, 2),
    ),
    ("a next at another page's first", &[1, 2], &[2, 0], (16, 2)),
    ("a next at its own page's first", &[2], &[2, 1], (16, 2)),
    ("two nexts at three", &[1, 2], &[3, 3, 0], (16, 3)),
    ("a next back into its own chain", &[3], &[2, 1, 1], (16, 1)),
    ("the only record names itself", &[1], &[1], (16, 1)),
    (
        "the last of a chain names itself",
        &[3, 1],
        &[0, 2, 2],
        (16, 2),
    ),
    ("F9", &[1, 0, 2], &[1, 0], (16, 1)),
];

/// All sheets: the small ones and those of 1,024 records.
pub fn all() -> Vec<Fault> {
    let small = ROWS
        .iter()
        .flat_map(|&(about, firsts, nexts, numbers)| faults(about, firsts, nexts, numbers));
    small.chain(largest()).collect()
}

/// The sheet with records that differ in action or target, plain and named, and
/// with records that are all the same: refusal 6 comes after 5 and 16.
fn faults(
    about: &'static str,
    firsts: &[usize],
    nexts: &[usize],
    (number, record): (u8, u16),
) -> [Fault; 3] {
    let plain = sheet(firsts, nexts, true);
    let named = with_labels(&plain, &decimal(64));
    [plain, named, sheet(firsts, nexts, false)].map(|sheet| Fault {
        about,
        sheet,
        refusal: Refusal { number, record },
    })
}

/// Sheets of 16 pages and 1,024 records.
fn largest() -> Vec<Fault> {
    let firsts = |first, last| [[first].as_slice(), &[0; 14], &[last]].concat();
    // The first page's chain goes through all records in order.
    let with = |about, changes: &[(usize, usize)], last, numbers| {
        let mut nexts: Vec<usize> = (2..=1_024).chain([0]).collect();
        for &(record, next) in changes {
            nexts[record - 1] = next;
        }
        faults(about, &firsts(1, last), &nexts, numbers)
    };
    let backwards: Vec<usize> = (0..=1_023).collect();
    [
        with("1,024 is lone", &[(1_023, 0)], 0, (5, 1_024)),
        with(
            "1,024, lone, names itself",
            &[(1_023, 0), (1_024, 1_024)],
            0,
            (5, 1_024),
        ),
        with(
            "both: 1,024, lone, names 1",
            &[(1_023, 0), (1_024, 1)],
            0,
            (5, 1_024),
        ),
        with(
            "1,023 and 1,024 are a lone cycle",
            &[(1_022, 0), (1_024, 1_023)],
            0,
            (5, 1_023),
        ),
        with("257 to 1,024 are lone", &[(256, 0)], 0, (5, 257)),
        with("1,024 names itself", &[(1_024, 1_024)], 0, (16, 1_024)),
        with("1,024 leads back to 256", &[(1_024, 256)], 0, (16, 256)),
        with("a first at a next, 1,024", &[], 1_024, (16, 1_024)),
        faults(
            "two firsts at 1,024, which leads to the rest",
            &firsts(1_024, 1_024),
            &backwards,
            (16, 1_024),
        ),
    ]
    .into_iter()
    .flatten()
    .collect()
}

/// A sheet with these first and next indices.
pub fn sheet(firsts: &[usize], nexts: &[usize], different: bool) -> Vec<u8> {
    let mut bytes = Vec::new();
    let put = |bytes: &mut Vec<u8>, number: usize| bytes.extend((number as u16).to_le_bytes());
    for count in [firsts.len(), 64, nexts.len()] {
        put(&mut bytes, count);
    }
    for &first in firsts {
        put(&mut bytes, 0);
        put(&mut bytes, first);
    }
    for (at, &next) in nexts.iter().enumerate() {
        let at = if different { at } else { 0 };
        put(&mut bytes, 1 + at % 64);
        put(&mut bytes, at / 64);
        put(&mut bytes, next);
    }
    bytes
}
