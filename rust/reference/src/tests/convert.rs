//! Tests of request L3: plain sheets to named ones and back, refusal 19.

use super::document::F3;
use super::refused;
use crate::chain_faults;
use crate::convert::{to_named, to_plain};
use crate::label_faults;
use crate::labels::{decimal, Kind, LabelledLts, LABEL};
use crate::lts::Lts;
use crate::prng::Prng;
use crate::random;
use crate::refusal::Refusal;
use crate::sheet::{self, normalise, read_labelled, with_labels};
use std::collections::BTreeSet;

/// F3 with its action named "1", byte by byte.
const NAMED_F3: [u8; 46] = [
    3, 0x80, 1, 0, 2, 0, // header
    0x31, 0, 0, 0, 0, 0, 0, 0, 0, 0, 0, 0, 0, 0, 0, 0, // name
    0, 0, 1, 0, 0, 0, 0, 0, 0, 0, 2, 0, // pages
    1, 0, 1, 0, 0, 0, 1, 0, 2, 0, 0, 0, // moves
];

/// Two pages, the second with the end mark, and three actions. The chain of
/// page 0 goes from record 2 to record 1.
const BACKWARDS: [u8; 32] = [
    2, 0, 3, 0, 3, 0, // header
    0, 0, 2, 0, 1, 0, 3, 0, // pages
    1, 0, 0, 0, 0, 0, 3, 0, 1, 0, 1, 0, 2, 0, 0, 0, 0, 0, // moves
];

/// The same with the names "1", "2" and "3".
const NAMED_BACKWARDS: [u8; 80] = [
    2, 0x80, 3, 0, 3, 0, // header
    0x31, 0, 0, 0, 0, 0, 0, 0, 0, 0, 0, 0, 0, 0, 0, 0, // first name
    0x32, 0, 0, 0, 0, 0, 0, 0, 0, 0, 0, 0, 0, 0, 0, 0, // second name
    0x33, 0, 0, 0, 0, 0, 0, 0, 0, 0, 0, 0, 0, 0, 0, 0, // third name
    0, 0, 2, 0, 1, 0, 3, 0, // pages
    1, 0, 0, 0, 0, 0, 3, 0, 1, 0, 1, 0, 2, 0, 0, 0, 0, 0, // moves
];

/// Either call.
type Call = fn(&[u8], &mut [u8]) -> Result<(), Refusal>;

/// Both calls.
const CALLS: [Call; 2] = [to_named, to_plain];

/// What a call writes into a buffer of this length; a refusal leaves it.
fn written(call: Call, sheet: &[u8], length: usize) -> Result<Vec<u8>, Refusal> {
    let before: Vec<u8> = (0..length).map(|i| (i * 29 + 165) as u8).collect();
    let mut out = before.clone();
    let result = call(sheet, &mut out);
    if result.is_err() {
        assert_eq!(out, before);
    }
    result.map(|()| out)
}

/// The sheet with these bytes from a place on.
fn with(sheet: &[u8], at: usize, bytes: &[u8]) -> Vec<u8> {
    let mut sheet = sheet.to_vec();
    sheet[at..at + bytes.len()].copy_from_slice(bytes);
    sheet
}

/// A named sheet with another name for action `j`.
fn with_name(sheet: &[u8], j: usize, name: &[u8]) -> Vec<u8> {
    let mut field = [0; 16];
    field[..name.len()].copy_from_slice(name);
    with(sheet, 6 + 16 * (j - 1), &field)
}

/// The second sheet above with these names.
fn with_names(names: [&str; 3]) -> Vec<u8> {
    let mut sheet = NAMED_BACKWARDS.to_vec();
    for (j, name) in (1..).zip(names) {
        sheet = with_name(&sheet, j, name.as_bytes());
    }
    sheet
}

#[test]
fn f3_to_named_and_back() {
    assert_eq!(written(to_named, &F3, 46), Ok(NAMED_F3.to_vec()));
    assert_eq!(written(to_plain, &NAMED_F3, 30), Ok(F3.to_vec()));
}

#[test]
fn a_chain_from_2_to_1_stays() {
    let (plain, named) = (BACKWARDS.to_vec(), NAMED_BACKWARDS.to_vec());
    assert_eq!(written(to_named, &plain, 80), Ok(named.clone()));
    assert_eq!(written(to_plain, &named, 32), Ok(plain.clone()));
    // Neither is in normal form.
    assert_ne!(written(normalise, &plain, 32), Ok(plain));
    assert_ne!(written(normalise, &named, 80), Ok(named));
}

#[test]
fn a_sheet_of_the_wanted_kind_is_copied() {
    for plain in [&F3[..], &BACKWARDS] {
        assert_eq!(written(to_plain, plain, plain.len()), Ok(plain.to_vec()));
    }
    let other = with_names(["open", "1", "0123456789abcdef"]);
    let swapped = with_names(["2", "1", "3"]);
    for named in [&NAMED_F3[..], &NAMED_BACKWARDS, &other, &swapped] {
        assert_eq!(written(to_named, named, named.len()), Ok(named.to_vec()));
    }
}

#[test]
fn without_actions() {
    let plain = vec![2, 0, 0, 0, 0, 0, 1, 0, 0, 0, 0, 0, 0, 0];
    let named = vec![2, 0x80, 0, 0, 0, 0, 1, 0, 0, 0, 0, 0, 0, 0];
    for sheet in [&plain, &named] {
        assert_eq!(written(to_named, sheet, 14), Ok(named.clone()));
        assert_eq!(written(to_plain, sheet, 14), Ok(plain.clone()));
        for length in [0, 13, 15, 30] {
            assert_eq!(written(to_named, sheet, length), refused(15));
            assert_eq!(written(to_plain, sheet, length), refused(15));
        }
    }
}

/// One page that loops with action 64: the plain sheet and the named one.
fn sixty_four() -> [Vec<u8>; 2] {
    let records = [0, 0, 1, 0, 64, 0, 0, 0, 0, 0];
    let mut named = vec![1, 0x80, 64, 0, 1, 0];
    for j in 1..=64 {
        let mut field = [0; 16];
        if j < 10 {
            field[0] = b'0' + j;
        } else {
            field[0] = b'0' + j / 10;
            field[1] = b'0' + j % 10;
        }
        named.extend(field);
    }
    named.extend(records);
    [[&[1, 0, 64, 0, 1, 0], &records[..]].concat(), named]
}

#[test]
fn sixty_four_actions() {
    let [plain, named] = sixty_four();
    assert_eq!((plain.len(), named.len()), (16, 1040));
    assert_eq!(written(to_named, &plain, 1040), Ok(named.clone()));
    assert_eq!(written(to_plain, &named, 16), Ok(plain.clone()));
    assert_eq!(written(to_plain, &plain, 16), Ok(plain));
    assert_eq!(written(to_named, &named, 1040), Ok(named.clone()));
    for j in 1..=64 {
        for name in ["65", "x", "0064"] {
            let sheet = with_name(&named, j, name.as_bytes());
            assert_eq!(written(to_plain, &sheet, 16), refused(19));
        }
    }
    // One digit of two gone, a digit more, a zero in front, digits swapped.
    for (j, name) in [(10, "0"), (64, "640"), (10, "010"), (10, "01")] {
        let sheet = with_name(&named, j, name.as_bytes());
        assert_eq!(written(to_plain, &sheet, 16), refused(19));
    }
    // Two that change places, with one digit and with two.
    for (i, j) in [(9, 10), (1, 64), (12, 21), (63, 64)] {
        let [a, b] = [i, j].map(|j| named[6 + 16 * (j - 1)..6 + 16 * j].to_vec());
        let sheet = with_name(&with_name(&named, i, &b), j, &a);
        assert_eq!(written(to_plain, &sheet, 16), refused(19));
        assert_eq!(written(to_named, &sheet, 1040), Ok(sheet));
    }
}

#[test]
fn the_first_a_middle_and_the_last_name() {
    for names in [
        ["x", "2", "3"],
        ["1", "x", "3"],
        ["1", "2", "x"],
        ["x", "y", "3"],
        ["1", "x", "y"],
        ["x", "2", "y"],
        ["x", "y", "z"],
    ] {
        let sheet = with_names(names);
        assert_eq!(written(to_plain, &sheet, 32), refused(19), "{names:?}");
        assert_eq!(written(to_named, &sheet, 80), Ok(sheet));
    }
}

#[test]
fn names_that_are_nearly_a_number() {
    let near_1 = [
        "01",
        "001",
        "+1",
        "-1",
        "10",
        "11",
        "100",
        "0",
        "4",
        "9",
        "!",
        "#1",
        "1.",
        "1.0",
        "1,",
        "1_",
        "1a",
        "a1",
        "l",
        "I",
        "one",
        "0x1",
        "0000000000000001",
        "1000000000000000",
        "257",
        "65537",
    ];
    for name in near_1 {
        for (j, digit) in [(1, "1"), (2, "2"), (3, "3")] {
            let name = name.replace('1', digit);
            let sheet = with_name(&NAMED_BACKWARDS, j, name.as_bytes());
            assert_eq!(written(to_plain, &sheet, 32), refused(19), "{name}");
            assert_eq!(written(to_named, &sheet, 80), Ok(sheet));
        }
    }
    // These are no names at all.
    for name in [
        &b"1 "[..],
        b" 1",
        b"1\t",
        b"1\x00 ",
        b"1\x001",
        b"\x001",
        b"\x01",
        b"1\x7f",
        b"",
    ] {
        let sheet = with_name(&NAMED_BACKWARDS, 1, name);
        assert_eq!(written(to_plain, &sheet, 32), refused(17), "{name:?}");
        assert_eq!(written(to_named, &sheet, 80), refused(17), "{name:?}");
    }
}

#[test]
fn decimal_names_at_other_places() {
    for names in [
        ["1", "3", "2"],
        ["2", "1", "3"],
        ["2", "3", "1"],
        ["3", "1", "2"],
        ["3", "2", "1"],
        ["0", "1", "2"],
        ["2", "3", "4"],
        ["10", "2", "3"],
        ["1", "10", "3"],
        ["1", "2", "4"],
        ["01", "02", "03"],
    ] {
        let sheet = with_names(names);
        assert_eq!(written(to_plain, &sheet, 32), refused(19), "{names:?}");
    }
    // A name that comes twice is a refusal of the sheet.
    let sheet = with_names(["1", "2", "2"]);
    assert_eq!(written(to_plain, &sheet, 32), refused(17));
    let sheet = with_names(["1", "2", "3"]);
    assert_eq!(written(to_plain, &sheet, 32), Ok(BACKWARDS.to_vec()));
}

/// The second sheet above, of either kind, with each fault of a sheet but
/// those of names; its page records begin at `pages`.
fn faults(sheet: &[u8], pages: usize) -> Vec<(Vec<u8>, Refusal)> {
    let moves = pages + 8;
    let mut faults = vec![
        (sheet[..5].to_vec(), Refusal::LENGTH),
        (sheet[..sheet.len() - 1].to_vec(), Refusal::LENGTH),
        ([sheet, &[0]].concat(), Refusal::LENGTH),
    ];
    for (at, bytes, refusal) in [
        // n = 0, m = 65 and k = 1,025; the counts of a shorter sheet.
        (0, [0, sheet[1]], Refusal::RANGE),
        (2, [65, 0], Refusal::RANGE),
        (4, [1, 4], Refusal::RANGE),
        (0, [1, sheet[1]], Refusal::LENGTH),
        (4, [2, 0], Refusal::LENGTH),
        // End mark, spare byte, first index.
        (pages, [2, 0], Refusal::PAGE_RECORD),
        (pages + 4, [1, 1], Refusal::PAGE_RECORD),
        (pages + 6, [4, 0], Refusal::PAGE_RECORD),
        // Action, spare byte, target, next index.
        (moves, [0, 0], Refusal::MOVE_RECORD),
        (moves + 6, [4, 0], Refusal::MOVE_RECORD),
        (moves + 12, [2, 1], Refusal::MOVE_RECORD),
        (moves + 2, [2, 0], Refusal::MOVE_RECORD),
        (moves + 16, [4, 0], Refusal::MOVE_RECORD),
        // No index names record 1, or 3; two name record 2, or 3.
        (moves + 10, [0, 0], Refusal::unreached(1)),
        (pages + 6, [0, 0], Refusal::unreached(3)),
        (moves + 16, [2, 0], Refusal::reached_twice(2)),
        (moves + 4, [3, 0], Refusal::reached_twice(3)),
    ] {
        faults.push((with(sheet, at, &bytes), refusal));
    }
    // Record 2 has the move of record 1.
    faults.push((with(sheet, moves + 6, &[1, 0, 0, 0]), Refusal::TWICE));
    faults
}

#[test]
fn each_refusal_of_a_sheet_before_19_and_15() {
    let other = with_names(["open", "2", "close"]);
    let swapped = with_names(["3", "2", "1"]);
    let sheets = [
        faults(&BACKWARDS, 6),
        faults(&NAMED_BACKWARDS, 54),
        faults(&other, 54),
        faults(&swapped, 54),
    ];
    for (sheet, refusal) in sheets.concat() {
        for call in CALLS {
            for length in [0, 6, 31, 32, 33, 48, 79, 80, 81, sheet.len()] {
                assert_eq!(written(call, &sheet, length), Err(refusal), "{sheet:?}");
            }
        }
    }
}

#[test]
fn a_bad_name_at_its_place() {
    // Before the records, and before 19 of an earlier name.
    for name in [&b"a b"[..], b"", b"2\x002", b"1"] {
        let bad = with_name(&with_names(["1", "2", "x"]), 2, name);
        let worse = with(&bad, 54, &[2]);
        for sheet in [bad, worse] {
            for call in CALLS {
                for length in [0, 32, 80] {
                    assert_eq!(written(call, &sheet, length), refused(17));
                }
            }
        }
    }
}

#[test]
fn each_fault_of_chains_and_names_in_both_calls() {
    for fault in [chain_faults::small(), label_faults::small()].concat() {
        for call in CALLS {
            for length in [0, fault.sheet.len()] {
                let result = written(call, &fault.sheet, length);
                assert_eq!(result, Err(fault.refusal), "{:?}", fault.sheet);
            }
        }
    }
    // The same chains below names that are not decimal.
    for fault in chain_faults::small() {
        let labels: Vec<String> = (0..fault.sheet[2]).map(|j| format!("a{j}")).collect();
        let sheet = with_labels(&fault.sheet, &labels);
        assert_eq!(written(to_plain, &sheet, 0), Err(fault.refusal));
    }
}

#[test]
fn buffers_of_other_lengths() {
    let other = with_names(["open", "2", "3"]);
    for length in 0..100 {
        let fits = |new: usize| if length == new { Ok(()) } else { refused(15) };
        let reply = |call, sheet: &[u8]| written(call, sheet, length).map(|_| ());
        assert_eq!(reply(to_named, &F3), fits(46));
        assert_eq!(reply(to_plain, &NAMED_F3), fits(30));
        assert_eq!(reply(to_named, &NAMED_F3), fits(46));
        assert_eq!(reply(to_plain, &F3), fits(30));
        assert_eq!(reply(to_named, &BACKWARDS), fits(80));
        assert_eq!(reply(to_plain, &NAMED_BACKWARDS), fits(32));
        assert_eq!(reply(to_named, &other), fits(80));
        // 19 before 15.
        assert_eq!(reply(to_plain, &other), refused(19));
    }
}

#[test]
fn the_largest_sheets() {
    let mut rng = Prng::new(51);
    let lts = random::lts_exact(&mut rng, 256, 64, 1024, 20);
    let plain = random::shuffled_sheet(&mut rng, &lts);
    assert_eq!(plain.len(), 7174);
    let names = sixty_four()[1][6..6 + 16 * 64].to_vec();
    let named = [&[0, 0x81], &plain[2..6], &names, &plain[6..]].concat();
    assert_eq!(named.len(), 8198);
    assert_eq!(written(to_named, &plain, 8198), Ok(named.clone()));
    assert_eq!(written(to_plain, &named, 7174), Ok(plain.clone()));
    assert_eq!(written(to_plain, &plain, 7174), Ok(plain.clone()));
    assert_eq!(written(to_named, &named, 8198), Ok(named.clone()));
    for length in [0, 7174, 8197, 8199] {
        assert_eq!(written(to_named, &plain, length), refused(15));
    }
    let last = with_name(&named, 64, b"46x");
    assert_eq!(written(to_plain, &last, 7174), refused(19));
}

#[test]
fn random_plain_sheets_there_and_back() {
    let mut rng = Prng::new(52);
    for _ in 0..1000 {
        let lts = random::small(&mut rng, 9, 12);
        let m = lts.actions();
        let plain = random::shuffled_sheet(&mut rng, &lts);
        let named = written(to_named, &plain, plain.len() + 16 * m).unwrap();
        assert_eq!(named[..2], [plain[0], plain[1] + 128]);
        assert_eq!(named[2..6], plain[2..6]);
        assert_eq!(named[6 + 16 * m..], plain[6..]);
        let labelled = LabelledLts::plain(lts);
        assert_eq!(read_labelled(&named), Ok(labelled.as_named()));
        assert_eq!(sheet::labels(&named), sheet::labels(&plain));
        assert_eq!(written(to_plain, &named, plain.len()), Ok(plain.clone()));
        assert_eq!(read_labelled(&plain), Ok(labelled));
        // Normal form before converting or after it.
        let mut normal = vec![0; plain.len()];
        normalise(&plain, &mut normal).unwrap();
        let mut named_normal = vec![0; named.len()];
        normalise(&named, &mut named_normal).unwrap();
        assert_eq!(
            written(to_named, &normal, named.len()),
            Ok(named_normal.clone())
        );
        assert_eq!(written(to_plain, &named_normal, plain.len()), Ok(normal));
    }
}

/// A random flow, plain, named in decimal but for a change or two, or with
/// any names.
fn sample(rng: &mut Prng) -> LabelledLts {
    let lts = random::small(rng, 6, 12);
    let m = lts.actions();
    let mut labels = decimal(m);
    match rng.below(5) {
        0 => return LabelledLts::plain(lts),
        1 => return random::named(rng, &lts),
        2 if m > 0 => labels.swap(rng.below(m), rng.below(m)),
        3 if m > 0 => labels[rng.below(m)] = ["01", "13", "x", "0"][rng.below(4)].to_string(),
        _ => (),
    }
    LabelledLts::named(lts, labels)
}

#[test]
fn random_sheets_of_both_kinds() {
    let mut rng = Prng::new(53);
    let mut met = [0; 3];
    for _ in 0..2000 {
        let labelled = sample(&mut rng);
        let sheet = random::shuffled_labelled(&mut rng, &labelled);
        let m = labelled.labels().len();
        let is_plain = labelled.kind() == Kind::Plain;
        let (short, long) = if is_plain {
            (sheet.len(), sheet.len() + 16 * m)
        } else {
            (sheet.len() - 16 * m, sheet.len())
        };
        let named = written(to_named, &sheet, long).unwrap();
        assert_eq!(read_labelled(&named), Ok(labelled.as_named()));
        assert!(is_plain || named == sheet);
        let at = |j: usize| labelled.labels()[j - 1].parse() == Ok(j);
        let digits = |j: usize| labelled.labels()[j - 1].len() == 1 + usize::from(j > 9);
        if is_plain || (1..=m).all(|j| at(j) && digits(j)) {
            let plain = written(to_plain, &sheet, short).unwrap();
            let expected = LabelledLts::plain(labelled.lts().clone());
            assert_eq!(read_labelled(&plain), Ok(expected));
            assert_eq!(written(to_named, &plain, long), Ok(named.clone()));
            assert_eq!(written(to_plain, &named, short), Ok(plain));
            met[usize::from(is_plain)] += 1;
        } else {
            assert_eq!(written(to_plain, &sheet, short), refused(19));
            assert_eq!(written(to_plain, &sheet, 0), refused(19));
            met[2] += 1;
        }
    }
    assert!(met.iter().all(|&times| times > 300), "{met:?}");
}

#[test]
fn any_bytes_are_converted_or_refused() {
    let mut rng = Prng::new(54);
    let mut met = BTreeSet::new();
    for _ in 0..20_000 {
        let labelled = sample(&mut rng);
        let mut sheet = random::shuffled_labelled(&mut rng, &labelled);
        for _ in 0..rng.between(1, 3) {
            let at = rng.below(sheet.len());
            sheet[at] = [rng.below(6) as u8, rng.bits() as u8][rng.below(2)];
        }
        let length = [0, sheet.len(), sheet.len() + LABEL][rng.below(3)];
        let calls: [(Call, &[u8]); 2] = [(to_named, &[15]), (to_plain, &[15, 19])];
        for (call, refusals) in calls {
            let result = written(call, &sheet, length);
            met.extend(result.as_ref().err().map(|refusal| refusal.number));
            match (read_labelled(&sheet), result) {
                (Err(refusal), result) => assert_eq!(result, Err(refusal)),
                (Ok(read), Ok(out)) => {
                    let again = read_labelled(&out).unwrap();
                    assert_eq!(again.as_named(), read.as_named());
                }
                (Ok(_), Err(refusal)) => {
                    assert!(refusals.contains(&refusal.number));
                    assert_eq!(refusal.record, 0);
                }
            }
        }
    }
    assert!(met.into_iter().eq([1, 2, 3, 4, 5, 6, 15, 16, 17, 19]));
}

#[test]
fn a_plain_sheet_never_gives_19() {
    for m in [0, 1, 9, 10, 64] {
        let plain = sheet::write(&Lts::of(1, m, &[]));
        for length in 0..20 {
            let result = written(to_plain, &plain, length).map(|_| ());
            let expected = if length == 10 { Ok(()) } else { refused(15) };
            assert_eq!(result, expected);
        }
    }
}
