//! Named sheets in every call, the archive's and the independent program's,
//! against answers written by hand.

mod cases;

use cases::{calls_on, refused, right, wrong};
use differential::case::{Call, Case, Outcome};
use differential::memory::{Heap, Slot, SLOTS};
use differential::sides::{agreed, carried16};
use differential::{flows, make};
use flow::LONGEST_SHEET;
use reference::labels::{decimal, Kind, LabelledLts};
use reference::lts::Lts;
use reference::prng::Prng;
use reference::refusal::Refusal;
use reference::{random, sheet};

/// F3's sheet, as document 01 prints it.
const F3: [u8; 30] = [
    3, 0, 1, 0, 2, 0, 0, 0, 1, 0, 0, 0, 0, 0, 0, 0, 2, 0, 1, 0, 1, 0, 0, 0, 1, 0, 2, 0, 0, 0,
];

/// The named sheet with a plain sheet's records and these bytes as names.
fn named(plain: &[u8], labels: &[&[u8]]) -> Vec<u8> {
    let mut sheet = plain[..6].to_vec();
    sheet[1] += 128;
    for label in labels {
        sheet.extend_from_slice(label);
        sheet.resize(sheet.len() + 16 - label.len(), 0);
    }
    sheet.extend_from_slice(&plain[6..]);
    sheet
}

/// The names "a0", "a1" and so on, from a number on.
fn many(from: usize, count: usize) -> Vec<String> {
    (from..from + count).map(|at| format!("a{at}")).collect()
}

/// A flow of so many pages without moves, with these names.
fn only_names(pages: usize, labels: &[String]) -> Vec<u8> {
    let labels: Vec<&[u8]> = labels.iter().map(String::as_bytes).collect();
    named(&sheet::write(&Lts::of(pages, labels.len(), &[])), &labels)
}

/// What the case comes to on both sides.
fn outcome(case: &Case) -> Outcome {
    agreed(case, &mut Heap::slots())
}

fn case(call: Call, buffers: &[&[u8]], numbers: &[u64]) -> Case {
    Case {
        call,
        bytes: buffers.iter().map(|buffer| buffer.to_vec()).collect(),
        numbers: numbers.to_vec(),
    }
}

/// The answer's values, and the buffers behind the first ones afterwards.
fn answers(case: Case, values: &[u64], results: &[&[u8]]) {
    let outcome = outcome(&case);
    assert_eq!(outcome.answer.as_deref(), Ok(values), "given {case:?}");
    let read = case.bytes.len() - results.len();
    assert_eq!(outcome.bytes[..read], case.bytes[..read]);
    assert_eq!(outcome.bytes[read..], *results, "given {case:?}");
}

/// Rows of one word.
fn grid(rows: [u8; 3]) -> Vec<u8> {
    rows.map(|row| [row, 0, 0, 0, 0, 0, 0, 0]).concat()
}

/// Named F3, with its records the other way round: document 01's answers.
#[test]
fn f3_in_every_other_call_on_one_sheet() {
    let normal = named(&F3, &[b"open_flock"]);
    let turned = [
        3, 0, 1, 0, 2, 0, 0, 0, 2, 0, 0, 0, 0, 0, 0, 0, 1, 0, 1, 0, 2, 0, 0, 0, 1, 0, 1, 0, 0, 0,
    ];
    let sheet = &named(&turned, &[b"open_flock"])[..];
    let (all, kept) = (&grid([7; 3])[..], &grid([5, 7, 4])[..]);
    let ready = &grid([5, 2, 5])[..];
    let blank = [0xa5; 46];
    answers(
        case(Call::Normalise, &[sheet, &blank], &[]),
        &[],
        &[&normal],
    );
    for (call, start) in [(Call::EndStart, all), (Call::ReadyStart, ready)] {
        answers(case(call, &[sheet, &blank[..24]], &[]), &[], &[start]);
    }
    let coarsest = case(
        Call::Coarsest,
        &[sheet, all, &[], &blank[..24], &blank[..6]],
        &[],
    );
    answers(coarsest, &[2, 6, 3], &[kept, &[0, 0, 1, 0, 2, 0]]);
    for (claim, yes) in [(kept, 1), (all, 0)] {
        let test = case(Call::TestSimulation, &[sheet, all, claim], &[]);
        answers(test, &[yes], &[]);
    }
    let plan = carried16(&[0, 1, 1, 1, 2, 1, 1, 2, 2, 0, 1, 2]);
    let write = case(Call::WritePlan, &[sheet, all, &blank[..24]], &[2, 0]);
    answers(write, &[3], &[&plan]);
    answers(
        case(Call::CheckPlan, &[sheet, all, &plan], &[]),
        &[2, 0, 2],
        &[],
    );
    for (rounds, wins) in [(1, 0), (2, 1)] {
        let play = case(Call::HandPlay, &[sheet, all], &[2, 0, rounds]);
        answers(play, &[wins], &[]);
    }
}

/// Named F3 is copied, and has no way to a plain sheet.
#[test]
fn f3_in_the_converting_calls() {
    let (sheet, blank) = (&named(&F3, &[b"open_flock"])[..], [0xa5; 46]);
    answers(case(Call::ToNamed, &[sheet, &blank], &[]), &[], &[sheet]);
    let plain = case(Call::ToPlain, &[sheet, &blank[..30]], &[]);
    refused(&plain, Refusal::NOT_DECIMAL, "F3", &mut Heap::slots());
}

/// "open" is action 1 in the first sheet; in the second it is 2, or missing.
#[test]
fn compare_and_join_by_name() {
    let lts = |action| sheet::write(&Lts::of(2, 2, &[(0, action, 1)]));
    let first = named(&lts(1), &[b"open", b"sell"]);
    let joined = |labels: &[&[u8]], action| {
        let moves = [(0, 1, 1), (2, action, 3)];
        named(&sheet::write(&Lts::of(4, labels.len(), &moves)), labels)
    };
    let three: [&[u8]; 3] = [b"open", b"sell", b"buy"];
    let rows = [
        (
            named(&lts(2), &[b"sell", b"open"]),
            1,
            joined(&three[..2], 1),
        ),
        (
            named(&lts(1), &[b"sell", b"open"]),
            0,
            joined(&three[..2], 2),
        ),
        (named(&lts(2), &[b"buy", b"open"]), 1, joined(&three, 1)),
        (named(&lts(1), &[b"buy", b"open"]), 0, joined(&three, 3)),
    ];
    for (second, yes, joined) in rows {
        for call in [Call::Compare, Call::CompareReady] {
            let compared = outcome(&case(call, &[&first, &second], &[]));
            assert_eq!(compared.answer.unwrap()[0], yes);
        }
        let out = vec![0xa5; joined.len() + 3];
        let after = [&joined[..], &[0xa5; 3]].concat();
        let join = case(Call::Join, &[&first, &second, &out], &[]);
        answers(join, &[joined.len() as u64], &[&after]);
        let short = case(Call::Join, &[&first, &second, &out[4..]], &[]);
        refused(&short, Refusal::BUFFER, "short", &mut Heap::slots());
    }
}

/// A plain sheet's names come into the named joined sheet.
#[test]
fn join_of_two_kinds() {
    let plain = sheet::write(&Lts::of(1, 2, &[(0, 2, 0)]));
    let twin = named(&plain, &[b"1", b"2"]);
    let other = named(&plain, &[b"2", b"x"]);
    let lts = |actions, a, b| sheet::write(&Lts::of(2, actions, &[(0, a, 0), (1, b, 1)]));
    let rows = [
        (&plain, &plain, lts(2, 2, 2)),
        (&plain, &twin, named(&lts(2, 2, 2), &[b"1", b"2"])),
        (&twin, &plain, named(&lts(2, 2, 2), &[b"1", b"2"])),
        (&plain, &other, named(&lts(3, 2, 3), &[b"1", b"2", b"x"])),
        (&other, &plain, named(&lts(3, 2, 1), &[b"2", b"x", b"1"])),
        (&other, &other, named(&lts(2, 2, 2), &[b"2", b"x"])),
    ];
    for (first, second, joined) in rows {
        let out = vec![0xa5; joined.len()];
        let join = case(Call::Join, &[first, second, &out], &[]);
        answers(join, &[joined.len() as u64], &[&joined]);
    }
}

/// Three names, a bad one or a repeated one among them.
const BAD: [[&[u8]; 3]; 14] = [
    [b"", b"b", b"c"],
    [b"a", b"b", b""],
    [b" a", b"b", b"c"],
    [b"a", b"b\x1f", b"c"],
    [b"a", b"b", b"c\x7f"],
    [b"\x80", b"b", b"c"],
    [b"a", b"b", b"0123456789abcde\xff"],
    [b"a", b"\0b", b"c"],
    [b"a", b"b\0b", b"c"],
    [b"a", b"b\0\0\0\0\0\0\0\0\0\0\0\0\0\0b", b"c"],
    [b"a", b"a", b"c"],
    [b"a", b"b", b"b"],
    [b"a", b"b", b"a"],
    [b"0123456789abcdef", b"b", b"0123456789abcdef"],
];

/// The sheets of three pages with these names.
fn bad_names() -> Vec<Vec<u8>> {
    let plain = sheet::write(&Lts::of(3, 3, &[(0, 1, 1), (1, 3, 2)]));
    let sheets = BAD.iter().map(|labels| named(&plain, labels));
    sheets.collect()
}

/// A sheet that is refused so: in every call, and in every place.
fn in_every_call<S: Slot>(bad: &[u8], refusal: Refusal, slots: &mut [S; SLOTS]) {
    let good = named(&F3, &[b"open_flock"]);
    for make in [right, wrong] {
        for call in calls_on(1) {
            refused(&make(call, &[bad], 3), refusal, "one sheet", slots);
        }
        for call in calls_on(2) {
            for other in [&F3[..], &good, bad] {
                refused(&make(call, &[other, bad], 3), refusal, "second", slots);
            }
            for other in [&F3[..], &good, &F3[..5], &[]] {
                refused(&make(call, &[bad, other], 3), refusal, "first", slots);
            }
        }
    }
}

fn bad_names_in_every_call<S: Slot>(slots: &mut [S; SLOTS]) {
    for bad in bad_names() {
        in_every_call(&bad, Refusal::LABEL, slots);
    }
}

#[test]
fn bad_names_on_the_heap() {
    bad_names_in_every_call(&mut Heap::slots());
}

#[cfg(target_os = "linux")]
#[test]
fn bad_names_beside_pages_without_access() {
    use differential::memory::{Guarded, Side};
    bad_names_in_every_call(&mut Guarded::slots(Side::Begin));
    bad_names_in_every_call(&mut Guarded::slots(Side::End));
}

/// Of 64 names two are the same, wherever they stand; or one is bad.
#[test]
fn a_fault_among_64_names() {
    let slots = &mut Heap::slots();
    for (at, other) in [(0, 1), (0, 63), (1, 62), (31, 32), (62, 63)] {
        let mut labels = many(0, 64);
        labels[other] = labels[at].clone();
        in_every_call(&only_names(3, &labels), Refusal::LABEL, slots);
    }
    for at in [0, 31, 63] {
        let mut sheet = only_names(3, &many(0, 64));
        sheet[6 + 16 * at] = 0x20;
        in_every_call(&sheet, Refusal::LABEL, slots);
    }
}

/// 17 comes after 2 and the length, and before 3 and all others.
#[test]
fn the_place_of_a_bad_name() {
    let slots = &mut Heap::slots();
    let (pages, records) = (6 + 16 * 3, 6 + 16 * 3 + 4 * 3);
    for bad in bad_names() {
        let with = |changes: &[(usize, u8)]| {
            let mut sheet = bad.clone();
            for &(at, byte) in changes {
                sheet[at] = byte;
            }
            sheet
        };
        let before = [
            (bad[..5].to_vec(), Refusal::LENGTH),
            (bad[..bad.len() - 1].to_vec(), Refusal::LENGTH),
            ([&bad[..], &[0]].concat(), Refusal::LENGTH),
            (with(&[(1, 0)]), Refusal::LENGTH), // no longer named
            (with(&[(0, 0)]), Refusal::RANGE),
            (with(&[(0, 1), (1, 129)]), Refusal::RANGE),
            (with(&[(2, 65)]), Refusal::RANGE),
            (with(&[(5, 5)]), Refusal::RANGE),
        ];
        for (sheet, refusal) in before {
            in_every_call(&sheet, refusal, slots);
        }
        // The mark; the spare byte; the chains; the action and target.
        for change in [(pages, 2), (records + 1, 1), (pages + 2, 0), (records, 4)] {
            in_every_call(&with(&[change]), Refusal::LABEL, slots);
        }
    }
}

/// 64 joined names are taken and 65 are not: after both sheets and 7, before
/// the buffer.
#[test]
fn the_place_of_too_many_names() {
    let slots = &mut Heap::slots();
    let (most, refusal) = (only_names(3, &many(0, 64)), Refusal::TOO_MANY_LABELS);
    for from in [0, 63] {
        let second = only_names(3, &many(from, 64 - from));
        for call in calls_on(2) {
            assert!(outcome(&right(call, &[&most, &second], 3)).answer.is_ok());
        }
        let short = wrong(Call::Join, &[&most, &second], 3);
        refused(&short, Refusal::BUFFER, "64 names", slots);
    }
    let seconds = [
        only_names(3, &many(64, 1)),
        only_names(3, &many(1, 64)),
        only_names(3, &many(64, 64)),
        F3.to_vec(),
        only_names(253, &many(60, 5)),
    ];
    for second in &seconds {
        for call in calls_on(2) {
            for make in [right, wrong] {
                for sheets in [[&most, second], [second, &most]] {
                    let case = make(call, &sheets.map(Vec::as_slice), 3);
                    refused(&case, refusal, "65 names and more", slots);
                }
            }
        }
    }
    let large = only_names(254, &many(60, 5));
    let mut unmarked = seconds[0].clone();
    unmarked[6 + 16] = 2;
    for (second, refusal) in [(&large, Refusal::JOIN), (&unmarked, Refusal::PAGE_RECORD)] {
        for call in calls_on(2) {
            for sheets in [[&most, second], [second, &most]] {
                let case = wrong(call, &sheets.map(Vec::as_slice), 3);
                refused(&case, refusal, "before 18", slots);
            }
        }
    }
}

/// Other action numbers with the names carried along change no yes of the call.
fn renumbering_changes_no_yes_of(call: Call) {
    let sizes = flows::Sizes { large: 0, edges: 0 };
    let rng = &mut Prng::new(9_000_000);
    let mut count = [0; 2];
    for _ in 0..3_000 {
        let first = flows::flow(rng, sizes);
        let second = random::fewer(rng, &first, 1);
        let [first, second] = flows::labelled(rng, [first, second]);
        let known = |label: &String| first.labels().contains(label);
        let compared = |first: &LabelledLts, second: &LabelledLts| {
            let sheets = [first, second].map(sheet::write_labelled);
            outcome(&case(call, &[&sheets[0], &sheets[1]], &[])).answer
        };
        let Ok(answer) = compared(&first, &second) else {
            continue; // Too many moves or names.
        };
        let renumbered = compared(&first, &random::renumbered(rng, &second)).unwrap();
        assert_eq!(renumbered[0], answer[0]);
        // The joined flow is the same where the second has no new names.
        if second.labels().iter().all(known) {
            assert_eq!(renumbered, answer);
        }
        let renumbered = compared(&random::renumbered(rng, &first), &second).unwrap();
        assert_eq!(renumbered[0], answer[0]);
        count[answer[0] as usize] += 1;
    }
    assert!(count.iter().all(|&count| count > 300), "{count:?}");
}

#[test]
fn renumbering_changes_no_yes() {
    renumbering_changes_no_yes_of(Call::Compare);
    renumbering_changes_no_yes_of(Call::CompareReady);
}

/// The case with the decimal-named twins of some of its plain sheets; none if
/// one of its sheets is named or is refused for its header or its length.
fn with_twins(case: &Case, which: [bool; 2]) -> Option<Case> {
    let mut twin = case.clone();
    for (sheet, named) in twin.bytes[..case.call.sheets()].iter_mut().zip(which) {
        let is_plain = match sheet::read_labelled(sheet) {
            Ok(flow) => flow.kind() == Kind::Plain,
            Err(refusal) => refusal.number > 2 && sheet[1] < 128,
        };
        if !is_plain {
            return None;
        }
        if named {
            *sheet = sheet::with_labels(sheet, &decimal(sheet[2].into()));
        }
    }
    Some(twin)
}

/// A plain sheet's answers and refusals are its decimal-named twin's.
#[test]
fn a_plain_sheet_and_its_twin() {
    let kinds = [[true, false], [false, true], [true, true]];
    // The results of these are sheets, and go by kind.
    let sheets = [Call::Normalise, Call::Join, Call::ToNamed, Call::ToPlain];
    for call in Call::ALL.into_iter().filter(|call| !sheets.contains(call)) {
        let mut count = [0; 2];
        for seed in 0..3_000 {
            let case = make::case(call, seed);
            for which in kinds {
                let Some(twin) = with_twins(&case, which) else {
                    continue;
                };
                let (plain, named) = (outcome(&case), outcome(&twin));
                assert_eq!(named.answer, plain.answer, "given {case:?}");
                let read = call.sheets();
                assert_eq!(named.bytes[read..], plain.bytes[read..], "given {case:?}");
                count[usize::from(named.answer.is_ok())] += 1;
            }
        }
        assert!(count.iter().all(|&count| count > 50), "{call:?} {count:?}");
    }
}

/// No names, 64 names, names of 16 bytes, and the longest sheet.
#[test]
fn named_sheets_at_their_limits() {
    let rng = &mut Prng::new(9_100_000);
    let long: Vec<String> = (0..64).map(|at| format!("{at:!>16}")).collect();
    let longest = LabelledLts::named(random::lts_exact(rng, 256, 64, 1_024, 10), long.clone());
    let longest = random::shuffled_labelled(rng, &longest);
    assert_eq!((longest.len(), LONGEST_SHEET), (8_198, 8_198));
    let sheets = [
        (only_names(2, &[]), 2),
        (only_names(2, &many(0, 64)), 2),
        (only_names(2, &long), 2),
        (longest, 256),
    ];
    for (sheet, pages) in &sheets {
        for call in calls_on(1) {
            let answer = outcome(&right(call, &[sheet], *pages)).answer;
            match call {
                Call::ToPlain if sheet[2] > 0 => assert_eq!(answer, Err(Refusal::NOT_DECIMAL)),
                _ => assert!(answer.is_ok()),
            }
        }
        for (other, _) in &sheets {
            for call in calls_on(2) {
                outcome(&right(call, &[sheet, other], *pages));
            }
        }
    }
    // Two halves that join to the longest sheet.
    let halves = [&long[..32], &long[32..]].map(|labels| {
        let lts = random::lts_exact(rng, 128, 32, 512, 10);
        random::shuffled_labelled(rng, &LabelledLts::named(lts, labels.to_vec()))
    });
    let case = right(Call::Join, &[&halves[0], &halves[1]], 128);
    assert_eq!(outcome(&case).answer, Ok(vec![8_198]));
    let short = wrong(Call::Join, &[&halves[0], &halves[1]], 128);
    refused(&short, Refusal::BUFFER, "short", &mut Heap::slots());
}
