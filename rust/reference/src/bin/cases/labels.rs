//! Named sheets in every operation, and refusals 17 and 18.

use crate::case::Case;
use crate::convert::converted;
use crate::make::{self, end_words, filled_bytes, filled_numbers, filled_words, with_byte};
use crate::refused::{both_sheets, first_and_second, in_turn, one_sheet};
use reference::chain_faults::{self, Fault};
use reference::compare;
use reference::grid;
use reference::label_faults::{self, other_faults, LABEL_FAULTS};
use reference::labels::{decimal, LabelledLts, LABEL};
use reference::lts::Lts;
use reference::plans::Rounds;
use reference::prng::Prng;
use reference::random;
use reference::refusal::Refusal;
use reference::sheet::{self, with_labels, HEADER};

/// The cases.
pub fn cases() -> Vec<Case> {
    let mut cases = Vec::new();
    faults(&mut cases);
    order_of_refusals(&mut cases);
    header_and_length(&mut cases);
    single_bytes(&mut cases);
    readable(&mut cases);
    large(&mut cases);
    open_here_and_there(&mut cases);
    document_flows(&mut cases);
    random_pairs(&mut cases);
    many_labels(&mut cases);
    before_too_many_labels(&mut cases);
    large_pairs(&mut cases);
    cases
}

/// Bad and repeated labels, in every operation.
fn faults(cases: &mut Vec<Case>) {
    let small = label_faults::small();
    for (i, fault) in small.iter().enumerate() {
        if i % 2 == 0 {
            one_sheet(cases, fault);
            first_and_second(cases, fault);
        } else {
            in_turn(cases, fault);
        }
    }
    // With a fault of the chains, or another bad label, in the other sheet.
    let labels = small.into_iter().step_by(6);
    let mixed: Vec<Fault> = labels.chain(chain_faults::small()).take(18).collect();
    both_sheets(cases, &mixed);
    // Of 64 labels, in a random place.
    let mut rng = Prng::new(601);
    for fault in LABEL_FAULTS {
        let labelled = random::named(&mut rng, &Lts::of(1, 64, &[(0, 64, 0)]));
        let mut sheet = random::shuffled_labelled(&mut rng, &labelled);
        assert!(fault.damage(&mut rng, &mut sheet));
        let refusal = Refusal::LABEL;
        in_turn(cases, &Fault { sheet, refusal });
    }
}

/// A bad label beside each other fault of a sheet, and that fault alone.
fn order_of_refusals(cases: &mut Vec<Case>) {
    let good = label_faults::labelled(&[b"a", b"aa", b"b"]);
    for fault in other_faults(&label_faults::labelled(&[b"a", b"a b", b"b"])) {
        in_turn(cases, &fault);
    }
    for fault in other_faults(&label_faults::labelled(&[b"a", b"b", b"b"])) {
        cases.push(Case::read(&fault.sheet));
    }
    for fault in other_faults(&good) {
        add(cases, &fault.sheet);
    }
    // The same move twice.
    let twice = chain_faults::raw(1, &[1, 0, 0], &[(1, 1, 2), (1, 1, 0)]);
    for label in ["open", "open flock", ""] {
        add(cases, &with_labels(&twice, &[label.to_string()]));
    }
    // Faults of the chains in a named sheet keep their records.
    for fault in chain_faults::small().iter().step_by(5) {
        let labels = decimal(usize::from(fault.sheet[2]));
        let sheet = with_labels(&fault.sheet, &labels);
        let refusal = fault.refusal;
        in_turn(cases, &Fault { sheet, refusal });
    }
}

/// Read, and normalise with an out buffer of the sheet's own length, which is
/// cut where a long sheet is refused.
fn add(cases: &mut Vec<Case>, sheet: &[u8]) {
    let cut = if sheet::read(sheet).is_ok() {
        sheet.len()
    } else {
        sheet.len().min(100)
    };
    cases.push(Case::read(sheet));
    cases.push(Case::normalise(sheet, &filled_bytes(cut)));
}

/// The counts of a named header, and lengths around the one that they say.
fn header_and_length(cases: &mut Vec<Case>) {
    let named = make::named_f3();
    for length in 0..named.len() {
        cases.push(Case::normalise(&named[..length], &filled_bytes(9)));
    }
    for more in [1, 4, 6, 16] {
        add(cases, &[&named[..], &vec![0; more]].concat());
    }
    for n in [0x8000u16, 0x8002, 0x8004, 0x8101, 0x4003, 0xc003, 0xffff] {
        let counts = n.to_le_bytes();
        add(cases, &[&counts, &named[2..]].concat());
    }
    for m in [0, 2, 64, 65, 255] {
        add(cases, &with_byte(&named, 2, m));
    }
    add(cases, &with_byte(&named, 3, 1));
    // Read as a plain sheet of 7 pages, the label is where page records are.
    add(cases, &[&[7, 0], &named[2..]].concat());
    // n = 256 and 257, m = 64 and 65, with the length that they say.
    for n in [256, 257] {
        let plain = chain_faults::raw(1, &vec![0; n], &[]);
        cases.push(Case::read(&with_labels(&plain, &decimal(1))));
    }
    for m in [64, 65] {
        let plain = chain_faults::raw(m as u16, &[1], &[(64, 0, 0)]);
        add(cases, &with_labels(&plain, &decimal(m)));
    }
    // A buffer of another length, such as the plain sheet's.
    for length in [0, 30, 45, 47, 62] {
        cases.push(Case::normalise(&named, &filled_bytes(length)));
    }
}

/// Each byte of named F3's label in a few ways, and of two labels that are
/// nearly the same.
fn single_bytes(cases: &mut Vec<Case>) {
    let named = make::named_f3();
    for at in HEADER..HEADER + LABEL {
        for byte in [0, 0x20, 0x21, 0x7e, 0x7f, 0x80] {
            let sheet = with_byte(&named, at, byte);
            cases.push(Case::normalise(&sheet, &filled_bytes(sheet.len())));
        }
    }
    let full = b"0123456789abcdef";
    for at in 0..LABEL {
        let mut other = *full;
        other[at] = b'x';
        let near = label_faults::labelled(&[full, &other]);
        cases.push(Case::read(&near));
        // The byte that differs, made the same.
        let same = with_byte(&near, HEADER + LABEL + at, full[at]);
        cases.push(Case::read(&same));
    }
}

/// Every call on a readable sheet of less than 65 pages, with the end start
/// and the plan for its last dropped pair.
fn every_call(cases: &mut Vec<Case>, sheet: &[u8]) {
    let lts = sheet::read(sheet).expect("a readable sheet");
    let n = lts.states();
    let start = end_words(&lts);
    let rounds = Rounds::of(&lts, &grid::end_start_of(&lts));
    let pairs = (0..n).flat_map(|p| (0..n).map(move |q| (p, q)));
    let dropped = pairs.rev().find(|&(p, q)| rounds.falls_at(p, q).is_some());
    let (p, q) = dropped.unwrap_or((0, 0));
    let plan = rounds.strategy(&lts, p, q).unwrap_or_default().numbers();
    let (p, q) = (p as u16, q as u16);
    let words = filled_words(n);
    let coarsest = Case::coarsest(sheet, &start, &[1, 2], &words, &filled_numbers(n));
    let check = Case::check_plan(sheet, &start, &plan);
    let write = Case::write_plan(sheet, &start, &filled_numbers(plan.len() + 4), p, q);
    add(cases, sheet);
    cases.extend(converted(sheet));
    cases.extend([
        Case::end_start(sheet, &words),
        Case::ready_start(sheet, &words),
        Case::test_simulation(sheet, &start, &start),
        Case::hand_play(sheet, &start, p, q, 2),
        Case::text(sheet),
        coarsest.on(14, 1, &[]),
        check.on(10, 2, &[]),
        check.on(12, 2, &[]),
        write.on(11, 2, &[]),
        write.on(13, 2, &[]),
        coarsest,
        check,
        write,
    ]);
}

/// Readable sheets in every call.
fn readable(cases: &mut Vec<Case>) {
    every_call(cases, &make::named_f3());
    every_call(cases, &with_labels(&make::f1(), &[]));
    every_call(cases, &with_labels(&make::f2(), &decimal(1)));
    every_call(cases, &with_labels(&make::f4(), &decimal(1)));
    for sheet in label_faults::near_misses() {
        every_call(cases, &sheet);
    }
    let mut rng = Prng::new(602);
    for _ in 0..8 {
        let lts = random::small(&mut rng, 7, 5);
        let labelled = random::named(&mut rng, &lts);
        every_call(cases, &random::shuffled_labelled(&mut rng, &labelled));
    }
    for _ in 0..20 {
        let lts = random::small(&mut rng, 7, 5);
        let labelled = random::named(&mut rng, &lts);
        add(cases, &random::shuffled_labelled(&mut rng, &labelled));
    }
}

/// 64 labels, and the longest sheet, as they are and damaged.
fn large(cases: &mut Vec<Case>) {
    let mut rng = Prng::new(603);
    let lts = random::lts(&mut rng, 6, 64, 40, 20);
    let labelled = random::named(&mut rng, &lts);
    every_call(cases, &random::shuffled_labelled(&mut rng, &labelled));
    let lts = random::lts_exact(&mut rng, 256, 64, 1024, 40);
    let labelled = random::named(&mut rng, &lts);
    let longest = random::shuffled_labelled(&mut rng, &labelled);
    assert_eq!(longest.len(), 8_198);
    add(cases, &longest);
    cases.push(Case::text(&longest));
    let longer = make::longer(&longest, 0);
    cases.push(Case::read(&longer));
    cases.push(Case::text(&longer));
    cases.push(Case::text(&make::longer(&longer, 0)));
    // A bad label, a bad page record, a bad move record, each the last.
    let pages = HEADER + LABEL * 64;
    for at in [pages - 1, pages + 4 * 255 + 1, longest.len() - 5] {
        cases.push(Case::read(&with_byte(&longest, at, 0xff)));
    }
}

/// The joined length of two readable sheets, if they can be joined.
fn joined_length(first: &[u8], second: &[u8]) -> Option<usize> {
    let [first, second] = [first, second].map(|one| sheet::read_labelled(one).expect("readable"));
    let joined = compare::join_labelled(&first, &second).ok()?;
    Some(sheet::write_labelled(&joined).len())
}

/// Compare, and join in a buffer that is longer than it need be by `more`.
fn add_pair(cases: &mut Vec<Case>, first: &[u8], second: &[u8], more: usize) {
    cases.push(Case::compare(first, second));
    let length = joined_length(first, second).map_or(9, |length| length + more);
    cases.push(Case::join(first, second, &filled_bytes(length)));
}

/// Each of the sheets compared with each, and half of the pairs joined.
fn add_pairs(cases: &mut Vec<Case>, sheets: &[Vec<u8>]) {
    for (i, first) in sheets.iter().enumerate() {
        for (j, second) in sheets.iter().enumerate() {
            if (i + j) % 2 == 0 {
                add_pair(cases, first, second, i % 3);
            } else {
                cases.push(Case::compare(first, second));
            }
        }
    }
}

/// The named sheet of a flow with these labels.
fn named(lts: &Lts, labels: &[&str]) -> Vec<u8> {
    let labels: Vec<String> = labels.iter().map(|label| label.to_string()).collect();
    with_labels(&sheet::write(lts), &labels)
}

/// "open" as action 1 in one sheet and as 2 in another; decimal labels beside
/// plain sheets.
pub fn open_here_and_there(cases: &mut Vec<Case>) {
    let one = Lts::of(2, 1, &[(0, 1, 1)]);
    let first_of_two = Lts::of(2, 2, &[(0, 1, 1)]);
    let second_of_two = Lts::of(2, 2, &[(0, 2, 1)]);
    let both = Lts::of(3, 2, &[(0, 1, 1), (1, 2, 2), (2, 1, 2)]);
    add_pairs(
        cases,
        &[
            named(&one, &["open"]),
            named(&second_of_two, &["close", "open"]),
            named(&first_of_two, &["close", "open"]),
            named(&both, &["open", "close"]),
            named(&both, &["close", "open"]),
            named(&both, &["1", "open"]),
            named(&Lts::of(1, 0, &[]), &[]),
            sheet::write(&one),
        ],
    );
    add_pairs(
        cases,
        &[
            named(&one, &["2"]),
            named(&one, &["02"]),
            named(&second_of_two, &["2", "1"]),
            named(&both, &["1", "2"]),
            named(&both, &["2", "1"]),
            sheet::write(&both),
            sheet::write(&second_of_two),
        ],
    );
}

/// F1 to F4, named alike, named otherwise, and plain.
fn document_flows(cases: &mut Vec<Case>) {
    let flows = [make::f1(), make::f2(), make::f3(), make::f4()];
    let label = |flow: &[u8], text: &str| {
        let labels = vec![text.to_string(); usize::from(flow[2])];
        with_labels(flow, &labels)
    };
    for (i, first) in flows.iter().enumerate() {
        for (j, second) in flows.iter().enumerate() {
            let more = (i + j) % 3;
            add_pair(cases, &label(first, "open"), &label(second, "open"), more);
            add_pair(cases, &label(first, "1"), second, more);
            cases.push(Case::compare(first, &label(second, "1")));
            cases.push(Case::compare(
                &label(first, "open"),
                &label(second, "close"),
            ));
        }
    }
}

/// A flow of either kind and one with some of its labels.
fn two(rng: &mut Prng) -> [LabelledLts; 2] {
    let lts = random::small(rng, 7, 4);
    let first = random::labelled(rng, &lts);
    // Often nearly the same flow, so that the answer is yes.
    if rng.chance(40) {
        let fewer = random::fewer(rng, first.lts(), 1);
        let second = LabelledLts::named(fewer, first.labels().to_vec());
        return [first, second];
    }
    let lts = random::small(rng, 7, 4);
    if rng.chance(30) {
        return [first, LabelledLts::plain(lts)];
    }
    let labels = random::labels_from(rng, first.labels(), lts.actions());
    [first, LabelledLts::named(lts, labels)]
}

/// Random pairs, also with the actions of the second in another order, and
/// joined in buffers that are too short.
fn random_pairs(cases: &mut Vec<Case>) {
    let mut rng = Prng::new(604);
    for round in 0..36 {
        let [first, second] = two(&mut rng);
        let other = random::renumbered(&mut rng, &second);
        let [first, second, other] =
            [first, second, other].map(|one| random::shuffled_labelled(&mut rng, &one));
        add_pair(cases, &first, &second, round % 4);
        add_pair(cases, &second, &first, round % 4);
        cases.push(Case::compare(&first, &other));
        cases.push(Case::compare(&other, &first));
        let length = joined_length(&first, &second).expect("few labels");
        let short = [length - 1, 0, length - 16][round % 3];
        cases.push(Case::join(&first, &second, &filled_bytes(short)));
    }
}

/// `m` labels from the number `first` on.
pub fn numbered(first: usize, m: usize) -> Vec<String> {
    (first..first + m).map(|i| format!("act{i}")).collect()
}

/// The sheet of `n` pages with these labels, the last of which page 0 loops
/// with.
fn looping(n: usize, labels: Vec<String>) -> Vec<u8> {
    let m = labels.len();
    let moves = if m > 0 { vec![(0, m, 0)] } else { vec![] };
    with_labels(&sheet::write(&Lts::of(n, m, &moves)), &labels)
}

/// Pairs of sheets with 64, 65 and more labels together.
pub fn many_together() -> Vec<[Vec<u8>; 2]> {
    let plain = |m: usize| sheet::write(&Lts::of(1, m, &[(0, m, 0)]));
    vec![
        // 64 together.
        [looping(1, numbered(1, 40)), looping(1, numbered(41, 24))],
        [looping(1, numbered(1, 40)), looping(1, numbered(30, 35))],
        [looping(1, numbered(1, 64)), looping(1, numbered(64, 1))],
        [looping(1, numbered(1, 64)), looping(1, Vec::new())],
        [looping(1, numbered(1, 4)), plain(60)],
        [plain(64), looping(1, vec!["64".to_string()])],
        // 65 and more.
        [looping(1, numbered(1, 40)), looping(1, numbered(41, 25))],
        [looping(1, numbered(1, 40)), looping(1, numbered(30, 36))],
        [looping(1, numbered(1, 64)), looping(1, numbered(65, 1))],
        [looping(1, numbered(1, 64)), looping(1, numbered(65, 64))],
        [looping(1, numbered(1, 5)), plain(60)],
        [plain(64), looping(1, vec!["65".to_string()])],
        [plain(64), looping(1, vec!["064".to_string()])],
    ]
}

/// 64 and 65 joined labels; 18 goes before 15.
fn many_labels(cases: &mut Vec<Case>) {
    let pairs = many_together();
    for [first, second] in &pairs {
        add_pair(cases, first, second, 0);
        cases.push(Case::compare(second, first));
    }
    // 18 in a buffer that is long enough, above in one that is not.
    let [first, second] = &pairs[8];
    cases.push(Case::join(first, second, &filled_bytes(1_100)));
}

/// 7 and 17 go before 18.
pub fn before_too_many_labels(cases: &mut Vec<Case>) {
    // Too many pages.
    for n in [192, 193] {
        let (first, second) = (looping(64, numbered(1, 40)), looping(n, numbered(41, 25)));
        add_pair(cases, &first, &second, 0);
    }
    // Too many moves.
    let mut rng = Prng::new(605);
    for k in [512, 513] {
        let [first, second] = [(512, 1), (k, 41)].map(|(k, from)| {
            let lts = random::lts_exact(&mut rng, 12, 40, k, 0);
            with_labels(&sheet::write(&lts), &numbered(from, 40))
        });
        cases.push(Case::compare(&first, &second));
    }
    // A bad label in either sheet.
    let bad = label_faults::labelled(&[b"a b"]);
    for sheet in [looping(1, numbered(1, 64)), looping(256, numbered(1, 1))] {
        cases.push(Case::compare(&bad, &sheet));
        cases.push(Case::compare(&sheet, &bad));
    }
}

/// The longest joined sheet, from two with the same 64 labels in two orders.
fn large_pairs(cases: &mut Vec<Case>) {
    let mut rng = Prng::new(606);
    let [first, second] = [0; 2].map(|_| random::lts_exact(&mut rng, 128, 64, 512, 10));
    let first = random::named(&mut rng, &first);
    let second = LabelledLts::named(second, first.labels().to_vec());
    let second = random::renumbered(&mut rng, &second);
    let [first, second] = [first, second].map(|one| random::shuffled_labelled(&mut rng, &one));
    assert_eq!(joined_length(&first, &second), Some(8_198));
    add_pair(cases, &first, &second, 2);
    // 40 of 64 labels in both, and 24 new ones.
    let few = random::lts(&mut rng, 9, 40, 60, 10);
    let some = random::lts(&mut rng, 9, 64, 60, 10);
    let few = with_labels(&sheet::write(&few), &numbered(25, 40));
    let some = with_labels(&sheet::write(&some), &numbered(1, 64));
    add_pair(cases, &few, &some, 0);
    add_pair(cases, &some, &few, 0);
    // A plain sheet with labels of two digits, and its actions in another order.
    let plain = LabelledLts::plain(random::lts(&mut rng, 9, 64, 60, 10));
    let other = random::renumbered(&mut rng, &plain);
    let [plain, other] = [plain, other].map(|one| random::shuffled_labelled(&mut rng, &one));
    add_pair(cases, &plain, &other, 0);
    add_pair(cases, &other, &plain, 0);
}
