//! To named (op 17) and to plain (op 18).

use crate::case::Case;
use crate::labels::numbered;
use crate::make::{self, filled_bytes, with_byte, RawSheet, ORDERS};
use crate::sheets::base;
use reference::chain_faults;
use reference::label_faults::{labelled, other_faults};
use reference::labels::{decimal, LabelledLts, LABEL};
use reference::prng::Prng;
use reference::random;
use reference::sheet::{with_labels, MOST_ACTIONS};
use std::collections::BTreeSet;

/// The cases.
pub fn cases() -> Vec<Case> {
    let mut cases = Vec::new();
    document(&mut cases);
    header_and_length(&mut cases);
    records(&mut cases);
    chain_orders(&mut cases);
    other_names(&mut cases);
    no_names(&mut cases);
    order_of_refusals(&mut cases);
    out_lengths(&mut cases);
    digits(&mut cases);
    sixty_four_names(&mut cases);
    random_sheets(&mut cases);
    damaged_sheets(&mut cases);
    large(&mut cases);
    cases
}

/// Does the header say that the sheet is named?
fn is_named(sheet: &[u8]) -> bool {
    sheet.get(1).is_some_and(|&byte| byte >= 0x80)
}

/// The lengths of the plain and of the named sheet that a sheet becomes, if
/// its length is the one that its counts say.
fn new_lengths(sheet: &[u8]) -> [usize; 2] {
    let m = sheet.get(2).map_or(0, |&m| usize::from(m));
    let labels = if m <= MOST_ACTIONS { LABEL * m } else { 0 };
    if is_named(sheet) {
        [sheet.len().saturating_sub(labels), sheet.len()]
    } else {
        [sheet.len(), sheet.len() + labels]
    }
}

/// To plain for a named sheet, to named for a plain one.
pub fn to_other_kind(sheet: &[u8], out: &[u8]) -> Case {
    if is_named(sheet) {
        Case::to_plain(sheet, out)
    } else {
        Case::to_named(sheet, out)
    }
}

/// Both calls, each with a buffer of the length that it wants.
pub fn converted(sheet: &[u8]) -> [Case; 2] {
    let [plain, named] = new_lengths(sheet).map(filled_bytes);
    [Case::to_named(sheet, &named), Case::to_plain(sheet, &plain)]
}

/// The named sheet with the records of a plain one and decimal labels.
fn decimal_twin(plain: &[u8]) -> Vec<u8> {
    with_labels(plain, &decimal(usize::from(plain[2])))
}

/// Both calls on a plain sheet, on its decimal twin and on the named sheet
/// with the same records and other labels.
fn each_kind(cases: &mut Vec<Case>, plain: &[u8]) {
    let others = with_labels(plain, &numbered(1, usize::from(plain[2])));
    for sheet in [plain, &decimal_twin(plain), &others] {
        cases.extend(converted(sheet));
    }
}

/// The flows of document 01, and one sheet for each refusal of a sheet.
fn document(cases: &mut Vec<Case>) {
    for flow in [make::f1(), make::f2(), make::f4()] {
        cases.extend(converted(&flow));
    }
    each_kind(cases, &make::f3());
    each_kind(cases, &base().bytes());
    for sheet in make::refused_sheets() {
        cases.extend(converted(&sheet));
    }
}

/// Lengths around the one that the counts say, and other counts.
fn header_and_length(cases: &mut Vec<Case>) {
    cases.extend(converted(&[]));
    for sheet in [make::f3(), decimal_twin(&make::f3())] {
        for length in [5, 6, sheet.len() - 1] {
            cases.extend(converted(&sheet[..length]));
        }
        for more in [1, LABEL] {
            cases.extend(converted(&[&sheet[..], &vec![0; more]].concat()));
        }
        // n = 0, m = 65 and another m; n or k out of range by the high byte.
        for (at, byte) in [(0, 0), (2, 65), (2, 0), (2, 2), (5, 4)] {
            cases.extend(converted(&with_byte(&sheet, at, byte)));
        }
        cases.extend(converted(&with_byte(&sheet, 1, sheet[1] + 1)));
        // With the mark of the other kind.
        cases.extend(converted(&with_byte(&sheet, 1, sheet[1] ^ 0x80)));
    }
}

/// Page and move records that break a rule, and the same move twice.
fn records(cases: &mut Vec<Case>) {
    let faults: [fn(&mut RawSheet); 8] = [
        |s| s.pages[0].mark = 2,
        |s| s.pages[1].spare = 1,
        |s| s.pages[2].first = 5,
        |s| s.moves[0].action = 3,
        |s| s.moves[1].spare = 1,
        |s| s.moves[2].target = 3,
        |s| s.moves[3].next = 5,
        // Record 1, which is in the chain of record 3.
        |s| (s.moves[0].action, s.moves[0].target) = (2, 1),
    ];
    for fault in faults {
        each_kind(cases, &base().with(fault).bytes());
    }
    // A record whose number takes two bytes.
    for fault in chain_faults::two_bytes() {
        cases.push(Case::to_plain(&fault.sheet, &filled_bytes(100)));
    }
    // All pages with the end mark.
    let mut marked = base();
    for page in &mut marked.pages {
        page.mark = 1;
    }
    each_kind(cases, &marked.bytes());
}

/// A chain of three records in each order, on page 0 or 1.
fn chain_orders(cases: &mut Vec<Case>) {
    for (i, [first, second, third]) in ORDERS.into_iter().enumerate() {
        let mut firsts = [0; 2];
        firsts[i % 2] = first;
        let mut nexts = [0; 3];
        nexts[usize::from(first) - 1] = second;
        nexts[usize::from(second) - 1] = third;
        each_kind(cases, &chain_faults::linked(&firsts, &nexts));
    }
}

/// Names of three actions that a plain sheet can't carry.
const NOT_DECIMAL: [[&str; 3]; 44] = [
    // The first, a middle one, the last, several.
    ["x", "2", "3"],
    ["1", "x", "3"],
    ["1", "2", "x"],
    ["x", "y", "3"],
    ["1", "x", "y"],
    ["x", "2", "y"],
    ["x", "y", "z"],
    // Decimal digits at other places.
    ["1", "3", "2"],
    ["2", "1", "3"],
    ["2", "3", "1"],
    ["3", "1", "2"],
    ["3", "2", "1"],
    ["0", "1", "2"],
    ["2", "3", "4"],
    ["1", "2", "4"],
    ["0", "2", "3"],
    // A zero or a sign before the digits.
    ["01", "2", "3"],
    ["1", "02", "3"],
    ["1", "2", "03"],
    ["01", "02", "03"],
    ["+1", "2", "3"],
    ["1", "+2", "3"],
    ["1", "2", "-3"],
    ["0000000000000001", "2", "3"],
    ["1", "0000000000000002", "3"],
    ["1", "2", "0000000000000003"],
    // Something after them.
    ["10", "2", "3"],
    ["1", "20", "3"],
    ["1", "2", "30"],
    ["11", "2", "3"],
    ["1", "22", "3"],
    ["1", "2", "33"],
    ["1.", "2", "3"],
    ["1", "2x", "3"],
    ["1", "2", "3_"],
    ["1000000000000000", "2", "3"],
    ["1", "2!!!!!!!!!!!!!!!", "3"],
    ["1", "2", "333333333333333~"],
    // Other bytes, some a few bits away from the digits.
    ["!", "2", "3"],
    ["q", "2", "3"],
    ["1", "r", "3"],
    ["1", "2", "s"],
    ["1", "\"", "3"],
    ["one", "two", "three"],
];

/// Sheets of three pages with these names, some of them copied as well.
fn other_names(cases: &mut Vec<Case>) {
    for (i, names) in NOT_DECIMAL.iter().enumerate() {
        let sheet = labelled(&names.map(str::as_bytes));
        let [copied, refused] = converted(&sheet);
        assert_eq!(refused.run().numbers(), (19, 0));
        cases.push(refused);
        if i % 4 == 0 {
            cases.push(copied);
        }
    }
}

/// Fields beside the decimal ones that are no names, or come twice.
fn no_names(cases: &mut Vec<Case>) {
    let fields: [[&[u8]; 3]; 6] = [
        [b"1 ", b"2", b"3"],
        [b"1", b" 2", b"3"],
        [b"1", b"2", b"3\x003"],
        [b"1", b"2", b"2"],
        [b"x", b"2", b"2"],
        [b"x", b"2", b""],
    ];
    for fields in fields {
        cases.extend(converted(&labelled(&fields)));
    }
}

/// The refusals of a sheet, then 19, then 15.
fn order_of_refusals(cases: &mut Vec<Case>) {
    let others = labelled(&[b"x", b"2", b"3"]);
    for fault in other_faults(&others) {
        cases.push(Case::to_plain(&fault.sheet, &filled_bytes(9)));
    }
    // 6 and 5, in buffers that fit and in others.
    let twice = chain_faults::raw(1, &[1, 0, 0], &[(1, 1, 2), (1, 1, 0)]);
    let unreached = chain_faults::raw(1, &[1, 0, 0], &[(1, 1, 0), (1, 2, 0)]);
    for plain in [twice, unreached] {
        each_kind(cases, &plain);
        for sheet in [&plain, &with_labels(&plain, &numbered(1, 1))] {
            for length in [0, sheet.len() + 1] {
                let out = filled_bytes(length);
                cases.push(Case::to_named(sheet, &out));
                cases.push(Case::to_plain(sheet, &out));
            }
        }
    }
    // 19 by the first name, by a middle one and by the last.
    for names in &NOT_DECIMAL[..3] {
        let sheet = labelled(&names.map(str::as_bytes));
        let [plain, named] = new_lengths(&sheet);
        for length in other_lengths(plain, named) {
            cases.push(Case::to_plain(&sheet, &filled_bytes(length)));
        }
    }
}

/// Other lengths than the one that a buffer should have: none, shorter and
/// longer by one byte or one label, and the length for the other kind.
fn other_lengths(wanted: usize, other: usize) -> BTreeSet<usize> {
    let fewer = wanted.saturating_sub(LABEL);
    let lengths = [0, wanted - 1, wanted + 1, fewer, wanted + LABEL, other];
    let wrong = lengths.into_iter().filter(|&length| length != wanted);
    wrong.collect()
}

/// Buffers of other lengths.
fn out_lengths(cases: &mut Vec<Case>) {
    for flow in [make::f1(), make::f3(), base().bytes()] {
        for sheet in [&flow, &decimal_twin(&flow)] {
            let [plain, named] = new_lengths(sheet);
            for length in other_lengths(named, plain) {
                cases.push(Case::to_named(sheet, &filled_bytes(length)));
            }
            for length in other_lengths(plain, named) {
                cases.push(Case::to_plain(sheet, &filled_bytes(length)));
            }
        }
    }
}

/// Sheets with m actions, of one digit and of two.
fn digits(cases: &mut Vec<Case>) {
    for m in [0, 1, 9, 10, 11, 64] {
        let loops: &[_] = if m > 0 { &[(m as u8, 0, 0)] } else { &[] };
        let firsts = [0, loops.len() as u16];
        each_kind(cases, &chain_faults::raw(m, &firsts, loops));
    }
}

/// 64 names of which one or two are not at their place.
fn sixty_four_names(cases: &mut Vec<Case>) {
    let plain = chain_faults::raw(64, &[1], &[(64, 0, 0)]);
    let mut add = |labels: &[String]| {
        let [_, refused] = converted(&with_labels(&plain, labels));
        assert_eq!(refused.run().numbers(), (19, 0));
        cases.push(refused);
    };
    for (j, name) in [(1, "65"), (10, "0"), (33, "x"), (64, "064"), (64, "640")] {
        let mut labels = decimal(64);
        labels[j - 1] = name.to_string();
        add(&labels);
    }
    for (i, j) in [(9, 10), (12, 21), (11, 61), (63, 64)] {
        let mut labels = decimal(64);
        labels.swap(i - 1, j - 1);
        add(&labels);
    }
    // In the order of their bytes: "1", "10", "11" and so on.
    let mut labels = decimal(64);
    labels.sort();
    add(&labels);
}

/// Random flows with shuffled records: plain, with decimal labels, with
/// decimal labels in another order, and with any.
fn random_sheets(cases: &mut Vec<Case>) {
    let mut rng = Prng::new(701);
    for round in 0..20 {
        let lts = random::small(&mut rng, 9, 12);
        let plain = LabelledLts::plain(lts);
        let labelled = match round % 4 {
            0 => plain,
            1 => plain.as_named(),
            2 => random::renumbered(&mut rng, &plain),
            _ => random::named(&mut rng, plain.lts()),
        };
        let sheet = random::shuffled_labelled(&mut rng, &labelled);
        cases.extend(converted(&sheet));
    }
    let lts = random::lts(&mut rng, 65, 20, 150, 30);
    let sheet = random::shuffled_sheet(&mut rng, &lts);
    cases.extend(converted(&sheet));
    cases.extend(converted(&decimal_twin(&sheet)));
}

/// Shuffled sheets of both kinds with one or two bytes changed.
fn damaged_sheets(cases: &mut Vec<Case>) {
    let mut rng = Prng::new(702);
    for round in 0..20 {
        let lts = random::small(&mut rng, 4, 3);
        let mut sheet = random::shuffled_sheet(&mut rng, &lts);
        if round % 2 == 1 {
            sheet = decimal_twin(&sheet);
        }
        for _ in 0..rng.between(1, 2) {
            let at = rng.between(6, sheet.len() - 1);
            sheet[at] = rng.below(5) as u8;
        }
        cases.extend(converted(&sheet));
    }
}

/// The largest sheets.
fn large(cases: &mut Vec<Case>) {
    let mut rng = Prng::new(703);
    let lts = random::lts_exact(&mut rng, 256, 64, 1024, 40);
    let plain = random::shuffled_sheet(&mut rng, &lts);
    let named = decimal_twin(&plain);
    assert_eq!((plain.len(), named.len()), (7_174, 8_198));
    cases.extend(converted(&plain));
    cases.extend(converted(&named));
    cases.push(Case::to_named(&plain, &filled_bytes(8_199)));
    // 19 by the last name; 4 once the last byte is bad as well.
    let mut labels = decimal(64);
    labels[63] = "064".to_string();
    let others = with_labels(&plain, &labels);
    cases.push(Case::to_plain(&others, &filled_bytes(100)));
    let next = with_byte(&others, others.len() - 1, 0xff);
    cases.push(Case::to_plain(&next, &filled_bytes(100)));
}
