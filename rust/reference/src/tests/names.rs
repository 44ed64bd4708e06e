//! Tests of request L2: named sheets, refusals 17 and 18, actions by name.

use super::document::F3;
use super::refused;
use crate::chain_faults;
use crate::compare::{self, compare, compare_ready, join_labelled};
use crate::game::hand_play;
use crate::grid::{self, end_start, ready_start, test_simulation};
use crate::join::join;
use crate::label_faults::{self, other_faults, LABEL_FAULTS};
use crate::labels::{self, decimal, Kind, LabelledLts, LABEL};
use crate::lts::Lts;
use crate::plans::{check_plan, write_plan};
use crate::prng::Prng;
use crate::random;
use crate::refusal::Refusal;
use crate::report::{flowcheck, MOST_BYTES};
use crate::sheet::{self, named_length, normalise, read, read_labelled, with_labels, write};
use crate::turns::coarsest;
use std::collections::BTreeSet;

/// F3 with its action named "open-flock", byte by byte.
const NAMED_F3: [u8; 46] = [
    3, 0x80, 1, 0, 2, 0, // header
    0x6f, 0x70, 0x65, 0x6e, 0x2d, 0x66, 0x6c, 0x6f, 0x63, 0x6b, 0, 0, 0, 0, 0, 0, // label
    0, 0, 1, 0, 0, 0, 0, 0, 0, 0, 2, 0, // pages
    1, 0, 1, 0, 0, 0, 1, 0, 2, 0, 0, 0, // moves
];

/// The texts as labels.
fn texts(labels: &[&str]) -> Vec<String> {
    labels.iter().map(|label| label.to_string()).collect()
}

/// The named sheet of a flow with these labels, in normal form.
fn named(lts: &Lts, labels: &[&str]) -> Vec<u8> {
    with_labels(&write(lts), &texts(labels))
}

/// A small random flow of either kind.
fn sample(rng: &mut Prng) -> LabelledLts {
    let lts = random::small(rng, 7, 5);
    random::labelled(rng, &lts)
}

#[test]
fn named_f3_by_hand() {
    let f3 = read(&F3).unwrap();
    assert_eq!(read(&NAMED_F3), Ok(f3.clone()));
    assert_eq!(sheet::labels(&NAMED_F3), Ok(texts(&["open-flock"])));
    assert_eq!(sheet::labels(&F3), Ok(texts(&["1"])));
    assert_eq!(read_labelled(&F3), Ok(LabelledLts::plain(f3.clone())));
    let labelled = LabelledLts::named(f3, texts(&["open-flock"]));
    assert_eq!(read_labelled(&NAMED_F3), Ok(labelled.clone()));
    assert_eq!(sheet::write_labelled(&labelled), NAMED_F3);
    assert_eq!(flowcheck(&NAMED_F3), flowcheck(&F3));
    assert_eq!(flowcheck(&NAMED_F3[..45]), "refused 1\n");
}

#[test]
fn decimal_names_up_to_64() {
    let labels = sheet::labels(&write(&Lts::of(1, 64, &[]))).unwrap();
    assert_eq!(labels.len(), 64);
    assert_eq!(labels[..3], texts(&["1", "2", "3"]));
    assert_eq!(labels[8..11], texts(&["9", "10", "11"]));
    assert_eq!(labels[63], "64");
}

#[test]
fn no_actions_and_named() {
    let sheet = [1, 0x80, 0, 0, 0, 0, 1, 0, 0, 0];
    let labelled = read_labelled(&sheet).unwrap();
    assert_eq!((labelled.kind(), labelled.labels().len()), (Kind::Named, 0));
    let mut out = [9; 10];
    assert_eq!(normalise(&sheet, &mut out), Ok(()));
    assert_eq!(out, sheet);
    // Joined with a plain one without actions, still named.
    let mut out = [9; 14];
    let plain = [1, 0, 0, 0, 0, 0, 0, 0, 0, 0];
    assert_eq!(join(&plain, &sheet, &mut out), Ok(14));
    assert_eq!(out, [2, 0x80, 0, 0, 0, 0, 0, 0, 0, 0, 1, 0, 0, 0]);
}

#[test]
fn counts_of_a_named_header() {
    let header = |n: u16, m: u16, k: u16| {
        let mut sheet = vec![0; named_length(1, 1, 0)];
        sheet[..2].copy_from_slice(&n.to_le_bytes());
        sheet[2..4].copy_from_slice(&m.to_le_bytes());
        sheet[4..6].copy_from_slice(&k.to_le_bytes());
        sheet[6] = b'a';
        read(&sheet).map(|_| ())
    };
    assert_eq!(header(0x8001, 1, 0), Ok(()));
    // n is what is left without the 32,768.
    for n in [0x8000, 0x8101, 0x8200, 0xc001, 0xffff, 0x4001, 0x7fff] {
        assert_eq!(header(n, 1, 0), refused(2));
    }
    assert_eq!(header(0x8001, 65, 0), refused(2));
    assert_eq!(header(0x8001, 1, 1025), refused(2));
    // Another length, with the names counted.
    assert_eq!(header(0x8001, 0, 0), refused(1));
    assert_eq!(header(0x8001, 2, 0), refused(1));
    assert_eq!(header(0x8002, 1, 0), refused(1));
    assert_eq!(header(0x8005, 0, 0), Err(Refusal::PAGE_RECORD));
    // The same bytes as a plain sheet of five pages.
    assert_eq!(header(0x0001, 1, 0), refused(1));
    assert_eq!(header(0x0005, 1, 0), Err(Refusal::PAGE_RECORD));
}

#[test]
fn the_longest_sheet() {
    let mut rng = Prng::new(31);
    let lts = random::lts_exact(&mut rng, 256, 64, 1024, 20);
    let labelled = random::named(&mut rng, &lts);
    let sheet = random::shuffled_labelled(&mut rng, &labelled);
    assert_eq!(sheet.len(), 8198);
    assert_eq!(named_length(256, 64, 1024), 8198);
    assert_eq!(read_labelled(&sheet), Ok(labelled));
    assert_eq!(flowcheck(&sheet), flowcheck(&write(&lts)));
    assert_eq!(MOST_BYTES, 8199);
    // One byte more is seen; what is past that is cut off.
    for more in [1, 2, 1000] {
        let longer = [&sheet[..], &vec![0; more]].concat();
        assert_eq!(flowcheck(&longer), "refused 1\n");
    }
}

#[test]
fn bad_and_repeated_names() {
    for fault in label_faults::small() {
        assert_eq!(fault.refusal, Refusal::numbered(17));
        assert_eq!(read(&fault.sheet), refused(17), "{:?}", fault.sheet);
    }
    for sheet in label_faults::near_misses() {
        assert!(read(&sheet).is_ok(), "{sheet:?}");
    }
}

/// Is the field a name by the words of document 02, for some length of it?
fn is_name(field: &[u8]) -> bool {
    (1..=LABEL).any(|length| {
        let (name, rest) = field.split_at(length);
        name.iter().all(|byte| (0x21..=0x7e).contains(byte)) && rest.iter().all(|&byte| byte == 0)
    })
}

#[test]
fn fields_of_a_name() {
    let mut rng = Prng::new(32);
    let (mut good, mut bad) = (0, 0);
    for _ in 0..20_000 {
        let mut field = labels::field(random::label(&mut rng).as_bytes());
        for _ in 0..rng.below(3) {
            let bytes = [0, 0, 1, 0x20, 0x21, 0x41, 0x7e, 0x7f, 0x80, 0xff];
            field[rng.below(LABEL)] = bytes[rng.below(10)];
        }
        assert_eq!(labels::read(&field).is_ok(), is_name(&field), "{field:?}");
        if let Ok(label) = labels::read(&field) {
            assert_eq!(labels::field(label.as_bytes()), field);
            good += 1;
        } else {
            bad += 1;
        }
    }
    assert!(good > 1_000 && bad > 1_000);
    // Each byte alone, in the first place and in the last.
    for byte in 0..=255 {
        let in_range = (0x21..=0x7e).contains(&byte);
        assert_eq!(labels::read(&labels::field(&[byte])).is_ok(), in_range);
        let mut full = [b'a'; LABEL];
        full[LABEL - 1] = byte;
        assert_eq!(labels::read(&full).is_ok(), in_range || byte == 0);
    }
}

#[test]
fn after_the_length_and_before_the_records() {
    for fault in label_faults::small() {
        for other in other_faults(&fault.sheet) {
            assert_eq!(read(&other.sheet), Err(other.refusal), "{:?}", other.sheet);
        }
    }
    // 5, 16 and 6: the same as in the plain sheet with good names, 17 with bad.
    let repeat = chain_faults::raw(1, &[1, 0, 0], &[(1, 1, 2), (1, 1, 0)]);
    let mut plain: Vec<Vec<u8>> = chain_faults::small()
        .into_iter()
        .map(|fault| fault.sheet)
        .collect();
    plain.push(repeat);
    for sheet in plain {
        let m = usize::from(sheet[2]);
        assert_eq!(read(&with_labels(&sheet, &decimal(m))), read(&sheet));
        let mut fields = vec![labels::field(b"a"); m];
        fields[m - 1] = labels::field(b"a b");
        assert_eq!(read(&sheet::with_fields(&sheet, &fields)), refused(17));
    }
}

#[test]
fn each_kind_of_damage() {
    let mut rng = Prng::new(33);
    for fault in LABEL_FAULTS {
        let mut damaged = 0;
        for _ in 0..300 {
            let labelled = sample(&mut rng);
            let before = random::shuffled_labelled(&mut rng, &labelled);
            let mut sheet = before.clone();
            if !fault.damage(&mut rng, &mut sheet) {
                assert_eq!(sheet, before);
                assert!(labelled.kind() == Kind::Plain || labelled.labels().len() < 2);
                continue;
            }
            damaged += 1;
            assert_eq!(read(&sheet), refused(17), "{fault:?} {sheet:?}");
            for other in other_faults(&sheet) {
                assert_eq!(read(&other.sheet), Err(other.refusal), "{fault:?}");
            }
        }
        assert!(damaged > 80, "{fault:?}");
    }
}

#[test]
fn any_bytes_are_read_or_refused() {
    let mut rng = Prng::new(34);
    let mut met = BTreeSet::new();
    for _ in 0..20_000 {
        let lts = random::small(&mut rng, 4, 3);
        let labelled = random::named(&mut rng, &lts);
        let mut sheet = random::shuffled_labelled(&mut rng, &labelled);
        for _ in 0..rng.between(1, 3) {
            let at = rng.below(sheet.len());
            sheet[at] = [rng.below(6) as u8, rng.bits() as u8][rng.below(2)];
        }
        match read_labelled(&sheet) {
            Ok(labelled) => {
                assert_eq!(sheet::write_labelled(&labelled).len(), sheet.len());
            }
            Err(refusal) => {
                met.insert(refusal.number);
                assert_eq!(refusal.record > 0, matches!(refusal.number, 5 | 16));
            }
        }
    }
    assert!(met.into_iter().eq([1, 2, 3, 4, 5, 6, 16, 17]));
}

#[test]
fn normalise_keeps_the_kind_and_the_names() {
    let mut rng = Prng::new(35);
    for _ in 0..500 {
        let labelled = sample(&mut rng);
        let sheet = random::shuffled_labelled(&mut rng, &labelled);
        let mut once = vec![170; sheet.len()];
        assert_eq!(normalise(&sheet, &mut once), Ok(()));
        assert_eq!(read_labelled(&once), Ok(labelled.clone()));
        // Header and names stay, records are those of the plain normal form.
        let names = match labelled.kind() {
            Kind::Plain => 0,
            Kind::Named => LABEL * labelled.labels().len(),
        };
        assert_eq!(once[..6 + names], sheet[..6 + names]);
        assert_eq!(once[6 + names..], write(labelled.lts())[6..]);
        let mut twice = vec![170; once.len()];
        assert_eq!(normalise(&once, &mut twice), Ok(()));
        assert_eq!(once, twice);
        // A buffer of the plain sheet's length or any other is refused.
        for length in [sheet.len() - 1, sheet.len() + 1, sheet.len() + 16] {
            let mut out = vec![170; length];
            assert_eq!(normalise(&sheet, &mut out), refused(15));
            assert_eq!(out, vec![170; length]);
        }
    }
}

#[test]
fn open_is_1_here_and_2_there() {
    let here = named(&Lts::of(2, 1, &[(0, 1, 1)]), &["open"]);
    let there = named(&Lts::of(2, 2, &[(0, 2, 1)]), &["close", "open"]);
    let shut = named(&Lts::of(2, 2, &[(0, 1, 1)]), &["close", "open"]);
    assert_eq!(compare(&here, &there).map(|(yes, _)| yes), Ok(true));
    assert_eq!(compare(&there, &here).map(|(yes, _)| yes), Ok(true));
    // The same number is another action, and the answer is no.
    assert_eq!(compare(&here, &shut).map(|(yes, _)| yes), Ok(false));
    assert_eq!(compare(&shut, &here).map(|(yes, _)| yes), Ok(false));
    // "open", then the second's new "close".
    let mut out = [9; 66];
    assert_eq!(join(&here, &there, &mut out), Ok(66));
    let expected = Lts::of(4, 2, &[(0, 1, 1), (2, 1, 3)]);
    assert_eq!(out[..], named(&expected, &["open", "close"]));
    assert_eq!(join(&here, &shut, &mut out), Ok(66));
    let expected = Lts::of(4, 2, &[(0, 1, 1), (2, 2, 3)]);
    assert_eq!(out[..], named(&expected, &["open", "close"]));
    assert_eq!(join(&shut, &here, &mut out), Ok(66));
    let expected = Lts::of(4, 2, &[(0, 1, 1), (2, 2, 3)]);
    assert_eq!(out[..], named(&expected, &["close", "open"]));
}

#[test]
fn decimal_names_match_a_plain_sheet() {
    let plain = write(&Lts::of(2, 2, &[(0, 2, 1)]));
    let two = named(&Lts::of(2, 1, &[(0, 1, 1)]), &["2"]);
    for other in ["02", "1", "3", "two"] {
        let other = named(&Lts::of(2, 1, &[(0, 1, 1)]), &[other]);
        assert_eq!(compare(&plain, &other).map(|(yes, _)| yes), Ok(false));
        assert_eq!(compare(&other, &plain).map(|(yes, _)| yes), Ok(false));
    }
    assert_eq!(compare(&plain, &two).map(|(yes, _)| yes), Ok(true));
    assert_eq!(compare(&two, &plain).map(|(yes, _)| yes), Ok(true));
    // One of them is named, so the joined sheet is.
    let mut out = vec![9; named_length(4, 2, 2)];
    assert_eq!(join(&plain, &two, &mut out), Ok(out.len()));
    let expected = Lts::of(4, 2, &[(0, 2, 1), (2, 2, 3)]);
    assert_eq!(out, named(&expected, &["1", "2"]));
    assert_eq!(join(&two, &plain, &mut out), Ok(out.len()));
    let expected = Lts::of(4, 2, &[(0, 1, 1), (2, 1, 3)]);
    assert_eq!(out, named(&expected, &["2", "1"]));
}

/// Two flows whose labels are partly the same, of either kind.
fn two(rng: &mut Prng) -> [LabelledLts; 2] {
    let first = sample(rng);
    if rng.chance(30) {
        let fewer = random::fewer(rng, first.lts(), 1);
        return [
            first.clone(),
            LabelledLts::named(fewer, first.labels().to_vec()),
        ];
    }
    let second = random::small(rng, 7, 5);
    if rng.chance(30) {
        return [first, LabelledLts::plain(second)];
    }
    let labels = random::labels_from(rng, first.labels(), second.actions());
    [first, LabelledLts::named(second, labels)]
}

/// The moves with the label in the action's place, and pages shifted.
fn named_moves(labelled: &LabelledLts, shift: usize) -> BTreeSet<(usize, String, usize)> {
    let moves = labelled.lts().transitions().iter();
    let named = moves.map(|t| {
        let label = labelled.labels()[t.action - 1].clone();
        (t.source + shift, label, t.target + shift)
    });
    named.collect()
}

#[test]
fn the_joined_flow_has_the_moves_of_both_by_name() {
    let mut rng = Prng::new(36);
    for _ in 0..1000 {
        let [first, second] = two(&mut rng);
        let joined = join_labelled(&first, &second).unwrap();
        let mut moves = named_moves(&first, 0);
        moves.extend(named_moves(&second, first.lts().states()));
        assert_eq!(named_moves(&joined, 0), moves);
        // The first's names in order, then the second's new ones in theirs.
        let (old, new) = joined.labels().split_at(first.labels().len());
        assert_eq!(old, first.labels());
        let mut rest = second.labels().to_vec();
        rest.retain(|label| !old.contains(label));
        assert_eq!(new, rest);
        let marks = [first.lts().end_marks(), second.lts().end_marks()].concat();
        assert_eq!(joined.lts().end_marks(), marks);
        let plain = first.kind() == Kind::Plain && second.kind() == Kind::Plain;
        assert_eq!(joined.kind() == Kind::Plain, plain);
    }
}

#[test]
fn two_plain_flows_are_joined_by_number() {
    let mut rng = Prng::new(37);
    for _ in 0..300 {
        let [first, second] = [0; 2].map(|_| random::small(&mut rng, 7, 5));
        let joined = compare::join(&first, &second).unwrap();
        let [first, second] = [first, second].map(LabelledLts::plain);
        assert_eq!(
            join_labelled(&first, &second),
            Ok(LabelledLts::plain(joined))
        );
    }
}

#[test]
fn renumbering_with_the_names_keeps_the_answer() {
    let mut rng = Prng::new(38);
    let (mut yes_met, mut no_met) = (0, 0);
    for _ in 0..1000 {
        let [first, second] = two(&mut rng);
        let sheets = [&first, &second].map(|one| random::shuffled_labelled(&mut rng, one));
        let renumbered = [&first, &second].map(|one| {
            let one = random::renumbered(&mut rng, one);
            random::shuffled_labelled(&mut rng, &one)
        });
        let (yes, turns) = compare(&sheets[0], &sheets[1]).unwrap();
        if yes {
            yes_met += 1;
        } else {
            no_met += 1;
        }
        for a in [&sheets[0], &renumbered[0]] {
            for b in [&sheets[1], &renumbered[1]] {
                assert_eq!(compare(a, b).unwrap().0, yes);
            }
        }
        // Without new names in the second, its joined flow is the very same.
        let known = |label: &String| first.labels().contains(label);
        if second.labels().iter().all(known) {
            assert_eq!(compare(&sheets[0], &renumbered[1]), Ok((yes, turns)));
        }
    }
    assert!(yes_met > 100 && no_met > 100);
}

#[test]
fn one_flow_joined_with_itself_in_either_numbering() {
    let mut rng = Prng::new(39);
    for _ in 0..200 {
        let labelled = sample(&mut rng);
        let other = random::renumbered(&mut rng, &labelled);
        let joined = join_labelled(&labelled, &other).unwrap();
        assert_eq!(joined.labels(), labelled.labels());
        let half = labelled.lts().transitions().len();
        let (first, second) = joined.lts().transitions().split_at(half);
        let n = labelled.lts().states();
        for (a, b) in first.iter().zip(second) {
            let shifted = (b.source - n, b.action, b.target - n);
            assert_eq!((a.source, a.action, a.target), shifted);
        }
    }
}

/// All that the calls on one sheet give and leave, but for normalise.
fn replies(sheet: &[u8], n: usize) -> impl PartialEq + std::fmt::Debug {
    let (mut start, mut ready, mut words) = (vec![9; n], vec![9; n], vec![9; n]);
    let mut names = vec![9; n];
    let mut plan = vec![9; 4 * (n * n + 1)];
    let ended = (end_start(sheet, &mut start), ready_start(sheet, &mut ready));
    let coarsest = coarsest(sheet, &start, &[1, 5], &mut words, &mut names);
    let tested = test_simulation(sheet, &start, &words);
    let (p, q) = (n as u16 - 1, 0);
    let written = write_plan(sheet, &start, p, q, &mut plan);
    let checked = check_plan(sheet, &start, &plan[..4 * written.unwrap_or(0)]);
    let played = hand_play(sheet, &start, p, q, 3);
    let calls = (ended, coarsest, tested, written, checked, played);
    (calls, start, ready, words, names, plan, flowcheck(sheet))
}

#[test]
fn a_plain_sheet_and_its_decimal_twin() {
    let mut rng = Prng::new(40);
    for _ in 0..300 {
        let lts = random::small(&mut rng, 7, 5);
        let n = lts.states();
        let plain = random::shuffled_sheet(&mut rng, &lts);
        let twin = with_labels(&plain, &decimal(lts.actions()));
        assert_eq!(read(&twin), read(&plain));
        assert_eq!(sheet::labels(&twin), sheet::labels(&plain));
        assert_eq!(
            read_labelled(&twin),
            Ok(LabelledLts::plain(lts.clone()).as_named())
        );
        assert_eq!(replies(&twin, n), replies(&plain, n));
        // Other names make no difference to a call on one sheet.
        let other = with_labels(&plain, &random::labels(&mut rng, lts.actions()));
        assert_eq!(replies(&other, n), replies(&plain, n));
        let third = sample(&mut rng);
        let third = random::shuffled_labelled(&mut rng, &third);
        for (a, b) in [(&plain, &third), (&plain, &plain), (&plain, &twin)] {
            assert_eq!(compare(a, b), compare(&twin, b));
            assert_eq!(compare(b, a), compare(b, &twin));
            assert_eq!(compare_ready(a, b), compare_ready(&twin, b));
            assert_eq!(compare_ready(b, a), compare_ready(b, &twin));
        }
    }
}

#[test]
fn every_call_passes_17_on() {
    for fault in label_faults::small() {
        let sheet = &fault.sheet[..];
        let (mut out, mut words, mut names) = (vec![9; sheet.len()], [9; 3], [9; 3]);
        let mut plan = [9; 12];
        assert_eq!(normalise(sheet, &mut out), refused(17));
        assert_eq!(normalise(sheet, &mut out[1..]), refused(17));
        assert_eq!(end_start(sheet, &mut words), refused(17));
        assert_eq!(end_start(sheet, &mut words[1..]), refused(17));
        assert_eq!(ready_start(sheet, &mut words), refused(17));
        assert_eq!(ready_start(sheet, &mut words[1..]), refused(17));
        for start in [&[7, 7, 7][..], &[]] {
            let coarsest = coarsest(sheet, start, &[], &mut words, &mut names);
            assert_eq!(coarsest, refused(17));
            assert_eq!(test_simulation(sheet, start, &[]), refused(17));
            assert_eq!(check_plan(sheet, start, &[]), refused(17));
            assert_eq!(write_plan(sheet, start, 9, 0, &mut plan), refused(17));
            assert_eq!(hand_play(sheet, start, 2, 300, 7), refused(17));
        }
        for good in [&F3[..], &NAMED_F3, &write(&Lts::of(256, 0, &[]))] {
            assert_eq!(compare(sheet, good), refused(17));
            assert_eq!(compare(good, sheet), refused(17));
            assert_eq!(compare_ready(sheet, good), refused(17));
            assert_eq!(compare_ready(good, sheet), refused(17));
            assert_eq!(join(sheet, good, &mut out), refused(17));
            assert_eq!(join(good, sheet, &mut []), refused(17));
        }
        // Of two refused sheets, the first counts.
        assert_eq!(compare(sheet, &F3[..29]), refused(17));
        assert_eq!(compare(&F3[..29], sheet), refused(1));
        assert_eq!(flowcheck(sheet), "refused 17\n");
        assert!(out.iter().all(|&byte| byte == 9));
        assert_eq!((words, names, plan), ([9; 3], [9; 3], [9; 12]));
    }
}

/// A flow of `n` pages and no moves with `m` labels from `first` on: "x1", ..
pub fn with_many(n: usize, first: usize, m: usize) -> Vec<u8> {
    let labels: Vec<String> = (first..first + m).map(|i| format!("x{i}")).collect();
    with_labels(&write(&Lts::of(n, m, &[])), &labels)
}

/// Join in a buffer of this length, which a refusal leaves.
fn join_in(first: &[u8], second: &[u8], length: usize) -> Result<usize, Refusal> {
    let mut out = vec![9; length];
    let result = join(first, second, &mut out);
    assert!(result.is_ok() || out.iter().all(|&byte| byte == 9));
    result
}

#[test]
fn up_to_64_joined_names() {
    let f = with_many;
    let length = named_length(2, 64, 0);
    // With some in both, and with none.
    for (first, second) in [
        (f(1, 1, 40), f(1, 41, 24)),
        (f(1, 1, 40), f(1, 30, 35)),
        (f(1, 1, 64), f(1, 1, 64)),
        (f(1, 1, 64), f(1, 64, 1)),
        (f(1, 1, 0), f(1, 1, 64)),
    ] {
        for (a, b) in [(&first, &second), (&second, &first)] {
            assert!(compare(a, b).is_ok());
            assert_eq!(join_in(a, b, length), Ok(length));
            assert_eq!(join_in(a, b, length - 1), refused(15));
        }
    }
    // Two plain sheets have 64 names at most.
    let [few, most] = [1, 64].map(|m| write(&Lts::of(1, m, &[])));
    assert!(compare(&few, &most).is_ok());
    assert_eq!(join_in(&most, &few, 14), Ok(14));
}

#[test]
fn more_than_64_joined_names() {
    let f = with_many;
    for (first, second) in [
        (f(1, 1, 40), f(1, 41, 25)),
        (f(1, 1, 40), f(1, 30, 36)),
        (f(1, 1, 64), f(1, 65, 1)),
        (f(1, 1, 64), f(1, 65, 64)),
        (write(&Lts::of(1, 64, &[])), f(1, 1, 1)),
    ] {
        for (a, b) in [(&first, &second), (&second, &first)] {
            assert_eq!(compare(a, b), refused(18));
            // Before 15.
            assert_eq!(join_in(a, b, 0), refused(18));
            assert_eq!(join_in(a, b, 3_000), refused(18));
        }
    }
    // 7 goes before 18.
    let (first, second) = (f(128, 1, 64), f(129, 2, 64));
    assert_eq!(compare(&first, &second), refused(7));
    assert_eq!(join_in(&first, &second, 0), refused(7));
    assert_eq!(compare(&first, &f(128, 2, 64)), refused(18));
}

#[test]
fn names_that_no_move_uses_count_too() {
    let lts = Lts::of(1, 64, &[(0, 64, 0)]);
    let [first, second] = ["a", "b"].map(|letter| {
        let labels: Vec<String> = (1..=64)
            .map(|i| {
                if i < 64 {
                    format!("{letter}{i}")
                } else {
                    "same".to_string()
                }
            })
            .collect();
        LabelledLts::named(lts.clone(), labels)
    });
    assert_eq!(join_labelled(&first, &second), refused(18));
    assert!(join_labelled(&first, &first).is_ok());
}

#[test]
fn random_labels_differ_and_are_of_all_sorts() {
    let mut rng = Prng::new(41);
    let pool = random::labels(&mut rng, 64);
    assert!(labels::all_differ(&pool));
    assert!(pool.iter().all(|label| labels::is_label(label)));
    assert!(pool.iter().any(|label| label.len() == 1));
    assert!(pool.iter().any(|label| label.len() == LABEL));
    assert!(pool.iter().any(|label| decimal(64).contains(label)));
    let other = random::labels_from(&mut rng, &pool, 64);
    let shared = other.iter().filter(|label| pool.contains(label)).count();
    assert!((10..60).contains(&shared));
}

#[test]
fn compare_is_coarsest_on_the_joined_sheet() {
    let mut rng = Prng::new(42);
    for _ in 0..300 {
        let [first, second] = two(&mut rng);
        let sheets = [&first, &second].map(|one| random::shuffled_labelled(&mut rng, one));
        let mut joined = vec![9; 1000];
        let length = join(&sheets[0], &sheets[1], &mut joined).unwrap();
        let joined = &joined[..length];
        let n = read(joined).unwrap().states();
        let (mut start, mut kept) = (vec![0; grid::length(n)], vec![0; grid::length(n)]);
        end_start(joined, &mut start).unwrap();
        let (turns, ..) = coarsest(joined, &start, &[], &mut kept, &mut vec![0; n]).unwrap();
        let yes = kept[0] >> first.lts().states() & 1 == 1;
        assert_eq!(compare(&sheets[0], &sheets[1]), Ok((yes, turns)));
    }
}
