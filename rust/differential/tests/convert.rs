//! To named and to plain, the archive's and the independent program's, against
//! answers written by hand; and the laws of the two calls.

mod cases;

use cases::{calls_on, new_length, refused, right, wrong};
use differential::case::{Call, Case};
use differential::memory::{Heap, Slot, SLOTS};
use differential::sides::{agreed, expected};
use differential::{flows, make};
use reference::labels::{decimal, Kind};
use reference::lts::Lts;
use reference::prng::Prng;
use reference::refusal::Refusal;
use reference::{random, sheet};
use std::collections::BTreeSet;

const BOTH: [Call; 2] = [Call::ToNamed, Call::ToPlain];

/// A sheet of two pages, three actions and the moves 0 -1-> 1, 0 -2-> 0 and
/// 1 -3-> 1. Page 0's chain goes from record 3 to record 1.
const PLAIN: [u8; 32] = [
    2, 0, 3, 0, 3, 0, 0, 0, 3, 0, 1, 0, 2, 0, 1, 0, 1, 0, 0, 0, 3, 0, 1, 0, 0, 0, 2, 0, 0, 0, 1, 0,
];

/// Where its page and move records begin in a named sheet.
const PAGES: usize = 6 + 3 * 16;
const MOVES: usize = PAGES + 2 * 4;

/// The named sheet with a plain sheet's records and these bytes as names.
fn named(plain: &[u8], labels: &[&[u8]]) -> Vec<u8> {
    let mut sheet = plain[..6].to_vec();
    sheet[1] += 128;
    for label in labels {
        sheet.extend_from_slice(label);
        sheet.resize(sheet.len() + 16 - label.len(), 0);
    }
    sheet.extend_from_slice(&plain[6..]);
    sheet
}

/// The sheet above with decimal names.
fn twin() -> Vec<u8> {
    named(&PLAIN, &[b"1", b"2", b"3"])
}

/// The bytes with some changed.
fn with(sheet: &[u8], changes: &[(usize, u8)]) -> Vec<u8> {
    let mut sheet = sheet.to_vec();
    for &(at, byte) in changes {
        sheet[at] = byte;
    }
    sheet
}

fn case(call: Call, sheet: &[u8], length: usize) -> Case {
    let out = (0..length).map(|at| at as u8 ^ 0xa5).collect();
    Case {
        call,
        bytes: vec![sheet.to_vec(), out],
        numbers: Vec::new(),
    }
}

/// The sheet is converted to this one; with a buffer of any other length it is
/// refused with 15.
fn converts<S: Slot>(call: Call, sheet: &[u8], converted: &[u8], slots: &mut [S; SLOTS]) {
    let outcome = agreed(&case(call, sheet, converted.len()), slots);
    assert_eq!(outcome.answer, Ok(vec![]), "{call:?} {sheet:?}");
    assert_eq!(outcome.bytes, [sheet, converted], "{call:?}");
    for length in other_lengths(sheet.len(), converted.len()) {
        let case = case(call, sheet, length);
        refused(&case, Refusal::BUFFER, "another length", slots);
    }
}

/// The call refuses the sheet, whatever the buffer.
fn refuses<S: Slot>(call: Call, sheet: &[u8], refusal: Refusal, slots: &mut [S; SLOTS]) {
    let right = new_length(call, sheet);
    for length in [vec![right], other_lengths(sheet.len(), right)].concat() {
        refused(&case(call, sheet, length), refusal, "the sheet", slots);
    }
}

/// Lengths around the old and the new one, without the new one.
fn other_lengths(old: usize, new: usize) -> Vec<usize> {
    let near = |length: usize| {
        let below = [1, 6, 16].map(|less| length.saturating_sub(less));
        let above = [0, 1, 6, 16].map(|more| length + more);
        [&below[..], &above].concat()
    };
    let mut lengths = [near(old), near(new), vec![0, 1, 2 * new, 9_000]].concat();
    lengths.retain(|&length| length != new);
    lengths
}

/// Sheets with the fault that each refusal of a sheet is for, each as a plain
/// one, with decimal names and with other names.
fn unreadable() -> Vec<(Vec<u8>, Refusal)> {
    let rows = [
        (with(&PLAIN, &[(0, 0)]), Refusal::RANGE),
        (with(&PLAIN, &[(2, 65)]), Refusal::RANGE),
        (with(&PLAIN, &[(6, 2)]), Refusal::PAGE_RECORD),
        (with(&PLAIN, &[(14, 4)]), Refusal::MOVE_RECORD),
        (with(&PLAIN, &[(12, 0)]), Refusal::unreached(2)),
        (with(&PLAIN, &[(30, 0)]), Refusal::unreached(1)),
        (with(&PLAIN, &[(18, 3)]), Refusal::reached_twice(3)),
        (with(&PLAIN, &[(24, 1)]), Refusal::reached_twice(1)),
        (with(&PLAIN, &[(26, 1), (28, 1)]), Refusal::TWICE),
        (PLAIN[..31].to_vec(), Refusal::LENGTH),
        ([&PLAIN[..], &[0]].concat(), Refusal::LENGTH),
    ];
    let mut sheets = vec![(Vec::new(), Refusal::LENGTH)];
    for (plain, refusal) in rows {
        let labels: [[&[u8]; 3]; 2] = [[b"1", b"2", b"3"], [b"in", b"out", b"1"]];
        sheets.extend(labels.map(|labels| (named(&plain, &labels), refusal)));
        sheets.push((plain, refusal));
    }
    for sheet in [&PLAIN[..5], &twin()[..5]] {
        sheets.push((sheet.to_vec(), Refusal::LENGTH));
    }
    // A bad name comes before the faults of the records.
    for labels in [
        [&b""[..], b"2", b"3"],
        [b"1", b"2", b"1"],
        [b"1", b"2 ", b"3"],
    ] {
        let bad = named(&PLAIN, &labels);
        for change in [(PAGES, 0), (PAGES, 2), (MOVES, 4), (PAGES + 2, 0)] {
            sheets.push((with(&bad, &[change]), Refusal::LABEL));
        }
    }
    sheets
}

/// Three names, not those of a plain sheet: by the first, the second, the
/// third, and by their places.
const NOT_DECIMAL: [[&[u8]; 3]; 19] = [
    [b"0", b"2", b"3"],
    [b"01", b"2", b"3"],
    [b"+1", b"2", b"3"],
    [b"10", b"2", b"3"],
    [b"1.", b"2", b"3"],
    [b"open", b"2", b"3"],
    [b"1000000000000000", b"2", b"3"],
    [b"0000000000000001", b"2", b"3"],
    [b"1", b"02", b"3"],
    [b"1", b"4", b"3"],
    [b"1", b"2!", b"3"],
    [b"1", b"~", b"3"],
    [b"1", b"2", b"33"],
    [b"1", b"2", b"4"],
    [b"1", b"2", b"0123456789abcde3"],
    [b"2", b"1", b"3"],
    [b"1", b"3", b"2"],
    [b"2", b"3", b"1"],
    [b"0", b"1", b"2"],
];

/// Every kind of sheet in both calls, with buffers of all lengths.
fn every_answer<S: Slot>(slots: &mut [S; SLOTS]) {
    for (sheet, refusal) in unreadable() {
        for call in BOTH {
            refuses(call, &sheet, refusal, slots);
        }
    }
    for labels in NOT_DECIMAL {
        let sheet = named(&PLAIN, &labels);
        refuses(Call::ToPlain, &sheet, Refusal::NOT_DECIMAL, slots);
        converts(Call::ToNamed, &sheet, &sheet, slots);
    }
    for sheet in [&PLAIN[..], &twin()] {
        converts(Call::ToNamed, sheet, &twin(), slots);
        converts(Call::ToPlain, sheet, &PLAIN, slots);
    }
}

#[test]
fn on_the_heap() {
    every_answer(&mut Heap::slots());
}

#[cfg(target_os = "linux")]
#[test]
fn beside_pages_without_access() {
    use differential::memory::{Guarded, Side};
    every_answer(&mut Guarded::slots(Side::Begin));
    every_answer(&mut Guarded::slots(Side::End));
}

/// Each refusal that a call can give is among those above, and no other.
#[test]
fn every_refusal_is_met() {
    let mut sheets: Vec<Vec<u8>> = unreadable().into_iter().map(|(sheet, _)| sheet).collect();
    sheets.extend(NOT_DECIMAL.map(|labels| named(&PLAIN, &labels)));
    sheets.extend([PLAIN.to_vec(), twin()]);
    for call in BOTH {
        let mut met = BTreeSet::new();
        for sheet in &sheets {
            for length in [new_length(call, sheet), 0] {
                let outcome = agreed(&case(call, sheet, length), &mut Heap::slots());
                met.insert(outcome.answer.map_or_else(|refusal| refusal.number, |_| 0));
            }
        }
        let all: BTreeSet<u8> = call.refusals().iter().copied().chain([0]).collect();
        assert_eq!(met, all, "{call:?}");
    }
}

/// 6 before 19, 19 before 15: each fault taken away shows the next one.
#[test]
fn the_place_of_names_that_are_not_decimal() {
    let slots = &mut Heap::slots();
    let names: [&[u8]; 3] = [b"1", b"2", b"x"];
    let repeated = with(&PLAIN, &[(26, 1), (28, 1)]);
    let answer = |sheet: &[u8], length, slots: &mut _| {
        agreed(&case(Call::ToPlain, sheet, length), slots).answer
    };
    let rows = [
        (named(&repeated, &names), 31, Err(Refusal::TWICE)),
        (named(&PLAIN, &names), 31, Err(Refusal::NOT_DECIMAL)),
        (twin(), 31, Err(Refusal::BUFFER)),
        (twin(), 32, Ok(vec![])),
    ];
    for (sheet, length, expected) in rows {
        assert_eq!(answer(&sheet, length, slots), expected);
    }
    // Whichever of 64 names it is.
    for at in 0..64 {
        let mut labels = decimal(64);
        labels[at] = "x".to_string();
        let plain = sheet::write(&Lts::of(2, 64, &[(0, 64, 1)]));
        let sheet = sheet::with_labels(&plain, &labels);
        refuses(Call::ToPlain, &sheet, Refusal::NOT_DECIMAL, slots);
    }
}

/// No names, 64 names, and the longest sheet.
#[test]
fn sheets_at_their_limits() {
    let rng = &mut Prng::new(11_000_000);
    let slots = &mut Heap::slots();
    let longest = random::lts_exact(rng, 256, 64, 1_024, 10);
    for lts in [Lts::of(1, 0, &[]), Lts::of(256, 0, &[]), longest] {
        let plain = random::shuffled_sheet(rng, &lts);
        let named = sheet::with_labels(&plain, &decimal(lts.actions()));
        for sheet in [&plain, &named] {
            converts(Call::ToNamed, sheet, &named, slots);
            converts(Call::ToPlain, sheet, &plain, slots);
        }
    }
}

/// The sheet that the archive's call gives.
fn converted(call: Call, sheet: &[u8]) -> Result<Vec<u8>, flow::Refusal> {
    match call {
        Call::ToNamed => flow::to_named(sheet),
        _ => flow::to_plain(sheet),
    }
}

/// There and back is the same sheet, from a plain one always, from a named one
/// where there is a way back; and a second time is a copy.
#[test]
fn there_and_back() {
    let rng = &mut Prng::new(11_100_000);
    let sizes = flows::Sizes {
        large: 100,
        edges: 300,
    };
    let (mut round, mut moved) = ([0; 2], 0);
    for _ in 0..10_000 {
        let lts = flows::flow(rng, sizes);
        let flow = flows::to_convert(rng, lts);
        let sheet = random::shuffled_labelled(rng, &flow);
        let (there, back) = match flow.kind() {
            Kind::Plain => (Call::ToNamed, Call::ToPlain),
            Kind::Named => (Call::ToPlain, Call::ToNamed),
        };
        assert_eq!(converted(back, &sheet).as_ref(), Ok(&sheet));
        let is_decimal = flow.labels() == decimal(flow.lts().actions());
        let Ok(other) = converted(there, &sheet) else {
            assert!(!is_decimal && there == Call::ToPlain, "{sheet:?}");
            continue;
        };
        assert!(is_decimal);
        assert_eq!(converted(back, &other).as_ref(), Ok(&sheet));
        assert_eq!(converted(there, &other).as_ref(), Ok(&other));
        round[usize::from(flow.kind() == Kind::Named)] += 1;
        moved += usize::from(sheet != sheet::write_labelled(&flow));
    }
    assert!(round.iter().all(|&count| count > 2_000), "{round:?}");
    assert!(moved > 3_000, "{moved} not in normal form");
}

/// To every other call the converted sheet is the same flow.
#[test]
fn other_calls_answer_alike() {
    let rng = &mut Prng::new(11_200_000);
    let slots = &mut Heap::slots();
    let sizes = flows::Sizes { large: 0, edges: 0 };
    // The results of these are sheets, and go by kind.
    let sheets = [Call::Normalise, Call::Join, Call::ToNamed, Call::ToPlain];
    for _ in 0..1_000 {
        let first = random::lts(rng, 3, 4, 6, 20);
        let flows = [first, flows::flow(rng, sizes)];
        let plain = flows.map(|lts| random::shuffled_sheet(rng, &lts));
        let named = plain.each_ref().map(|sheet| flow::to_named(sheet).unwrap());
        for call in calls_on(1).chain(calls_on(2)) {
            if sheets.contains(&call) {
                continue;
            }
            for make in [right, wrong] {
                let [one, other] = [&plain, &named].map(|sheets| {
                    let sheets = sheets.each_ref().map(Vec::as_slice);
                    agreed(&make(call, &sheets[..call.sheets()], 3), slots)
                });
                assert_eq!(one.answer, other.answer, "{call:?} {plain:?}");
                let read = call.sheets();
                assert_eq!(one.bytes[read..], other.bytes[read..], "{call:?} {plain:?}");
            }
        }
    }
}

/// Normalise and a conversion in either order give the same sheet.
#[test]
fn normalise_before_and_after() -> Result<(), flow::Refusal> {
    let rng = &mut Prng::new(11_300_000);
    let normal = |sheet: &[u8]| {
        let mut out = vec![0; sheet.len()];
        flow::normalise(sheet, &mut out).map(|()| out)
    };
    for _ in 0..2_000 {
        let lts = random::small(rng, 12, 64);
        let plain = random::shuffled_sheet(rng, &lts);
        let named = flow::to_named(&plain)?;
        assert_eq!(flow::to_named(&normal(&plain)?)?, normal(&named)?);
        assert_eq!(flow::to_plain(&normal(&named)?)?, normal(&plain)?);
    }
    Ok(())
}

/// The made sheets have all kinds of names, and each is answered as it should.
#[test]
fn the_made_sheets() {
    let mut count = [0; 6];
    for seed in 0..20_000 {
        let case = make::case(Call::ToPlain, seed);
        let Ok(flow) = sheet::read_labelled(&case.bytes[0]) else {
            continue;
        };
        let own = decimal(flow.lts().actions());
        let others = own.iter().zip(flow.labels()).filter(|(a, b)| a != b);
        let (others, same) = (others.count(), sorted(flow.labels()) == sorted(&own));
        let sort = match (flow.kind(), others) {
            (Kind::Plain, _) => 0,
            (Kind::Named, 0) if own.len() > 9 => 1,
            (Kind::Named, 0) => 2,
            (Kind::Named, 1) => 3,
            (Kind::Named, 2) if same => 4,
            (Kind::Named, _) => 5,
        };
        count[sort] += 1;
        let answer = expected(&case).answer;
        let is_refused = answer == Err(Refusal::NOT_DECIMAL);
        assert_eq!(is_refused, sort > 2, "given {case:?}");
    }
    assert!(count.iter().all(|&count| count > 300), "{count:?}");
}

/// The labels in one order.
fn sorted(labels: &[String]) -> BTreeSet<&String> {
    labels.iter().collect()
}

/// A named flow keeps its labels and its sheet.
#[test]
fn other_labels_are_copied() {
    let rng = &mut Prng::new(11_400_000);
    for _ in 0..1_000 {
        let lts = random::small(rng, 9, 64);
        let flow = random::named(rng, &lts);
        let sheet = random::shuffled_labelled(rng, &flow);
        assert_eq!(flow::to_named(&sheet).as_ref(), Ok(&sheet));
        assert_eq!(flow::labels(&sheet).unwrap(), flow.labels());
    }
}
