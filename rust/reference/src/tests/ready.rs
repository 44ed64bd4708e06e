//! Tests of request L6: the ready start, the coarsest simulation under it, and
//! compare with it.

use super::document::F3;
use super::names::with_many;
use super::properties::agree;
use super::refused;
use crate::chain_faults;
use crate::compare::{compare, compare_ready, join_labelled};
use crate::fixpoint;
use crate::grid::{self, end_start, end_start_of, ready_start, ready_start_of};
use crate::label_faults;
use crate::labels::LabelledLts;
use crate::lts::{Action, Lts, State};
use crate::prng::Prng;
use crate::random;
use crate::ready_flows::{self, Compared, Worked};
use crate::refusal::Refusal;
use crate::relation::Relation;
use crate::shapes;
use crate::sheet::{self, with_labels};
use crate::turns;
use std::collections::BTreeSet;

/// What ready start writes into a grid of this length; a refusal leaves it.
fn written(sheet: &[u8], length: usize) -> Result<Vec<u64>, Refusal> {
    let before: Vec<u64> = (1..=length as u64).map(|i| !(i * i)).collect();
    let mut words = before.clone();
    let result = ready_start(sheet, &mut words);
    if result.is_err() {
        assert_eq!(words, before);
    }
    result.map(|()| words)
}

/// The ready start of the flow is the one beside it, and the call writes it.
fn check(worked: &Worked) {
    let Worked { lts, alike } = worked;
    assert_eq!(ready_start_of(lts).relation(), alike, "{lts:?}");
    let length = grid::length(lts.states());
    let words = written(&sheet::write(lts), length);
    assert_eq!(words, Ok(grid::write(alike)), "{lts:?}");
}

#[test]
fn starts_by_hand() {
    ready_flows::small().iter().for_each(check);
}

#[test]
fn words_of_the_document_flows() {
    // F1 to F4: all pages with a move have action 1, the last ones have none.
    let flows: [(Lts, &[u64]); 4] = [
        (Lts::of(1, 0, &[]), &[1]),
        (Lts::of(2, 1, &[(0, 1, 1), (1, 1, 0)]), &[3, 3]),
        (Lts::of(3, 1, &[(0, 1, 1), (2, 1, 2)]), &[5, 2, 5]),
        (
            Lts::of(4, 1, &[(0, 1, 1), (1, 1, 2), (2, 1, 3)]),
            &[7, 7, 7, 8],
        ),
    ];
    for (lts, words) in flows {
        assert_eq!(
            written(&sheet::write(&lts), words.len()),
            Ok(words.to_vec())
        );
    }
    assert_eq!(written(&F3, 3), Ok(vec![5, 2, 5]));
    // F3 with the end mark on page 2: (2, 0) is outside.
    let mut marked = F3;
    marked[14] = 1;
    assert_eq!(written(&marked, 3), Ok(vec![5, 2, 4]));
}

#[test]
fn every_set_of_a_few_actions() {
    for m in 0..=5 {
        check(&ready_flows::every_set(m));
    }
}

#[test]
fn each_action_alone() {
    for n in [1, 63, 64, 65, 66, 128, 256] {
        check(&ready_flows::single_actions(n));
    }
}

#[test]
fn all_64_actions() {
    let (all, but_one) = (
        ready_flows::all_actions(16),
        ready_flows::all_actions_but_one(),
    );
    for worked in [&all, &but_one] {
        assert_eq!(worked.lts.transitions().len(), 1024);
        check(worked);
    }
    // Page 9 without action 37: it is alike to itself alone.
    let mut transitions = all.lts.transitions().to_vec();
    transitions.retain(|t| (t.source, t.action) != (9, 37));
    let lts = Lts::new(64, vec![false; 16], transitions);
    let alike = Relation::from_fn(16, |p, q| (p == 9) == (q == 9));
    check(&Worked { lts, alike });
}

#[test]
fn refusals_of_ready_start_in_their_order() {
    let repeat = chain_faults::raw(1, &[1, 0, 0], &[(1, 1, 2), (1, 1, 0)]);
    let with = |at: usize, byte: u8| {
        let mut sheet = F3.to_vec();
        sheet[at] = byte;
        sheet
    };
    let mut wrong = vec![
        (F3[..29].to_vec(), Refusal::LENGTH),
        (with(0, 0), Refusal::RANGE),
        (with(7, 1), Refusal::PAGE_RECORD),
        (with(19, 1), Refusal::MOVE_RECORD),
        (with(22, 1), Refusal::reached_twice(1)),
        (repeat, Refusal::TWICE),
    ];
    let faults = chain_faults::small().into_iter();
    let faults = faults.chain(label_faults::small());
    wrong.extend(faults.map(|fault| (fault.sheet, fault.refusal)));
    for (sheet, refusal) in wrong {
        for length in [3, 0, 2, 4, 1025] {
            assert_eq!(written(&sheet, length), Err(refusal), "{sheet:?}");
        }
    }
}

#[test]
fn grids_of_other_lengths() {
    for (n, length) in [(1, 1), (3, 3), (63, 63), (64, 64), (65, 130), (256, 1024)] {
        let sheet = sheet::write(&Lts::of(n, 1, &[(0, 1, 0)]));
        assert!(written(&sheet, length).is_ok());
        for other in [0, length - 1, length + 1, 2 * length, 65] {
            assert_eq!(written(&sheet, other), refused(15), "{n} {other}");
        }
    }
}

/// A sheet of either kind with a few bytes changed.
fn damaged(rng: &mut Prng) -> Vec<u8> {
    let lts = random::small(rng, 4, 3);
    let labelled = random::labelled(rng, &lts);
    let mut sheet = random::shuffled_labelled(rng, &labelled);
    for _ in 0..rng.below(3) {
        let at = rng.below(sheet.len());
        sheet[at] = rng.below(6) as u8;
    }
    sheet
}

#[test]
fn refused_as_end_start_is() {
    let mut rng = Prng::new(60);
    let mut met = BTreeSet::new();
    for _ in 0..20_000 {
        let (sheet, length) = (damaged(&mut rng), rng.between(1, 4));
        let older = end_start(&sheet, &mut vec![9; length]);
        assert_eq!(written(&sheet, length).map(|_| ()), older);
        met.insert(older.map_or_else(|refusal| refusal.number, |()| 0));
    }
    assert!(met.into_iter().eq([0, 1, 2, 3, 4, 5, 6, 15, 16, 17]));
}

/// Have the moves of the two pages the same actions? One action at a time.
fn same_actions(lts: &Lts, p: State, q: State) -> bool {
    (1..=lts.actions()).all(|a| lts.can(p, a) == lts.can(q, a))
}

/// A flow in which often several pages have the same actions.
fn sample(rng: &mut Prng, most: usize) -> Lts {
    if rng.chance(30) {
        return random::small(rng, most, 4);
    }
    let (n, sets) = (rng.between(1, most), rng.between(1, 4));
    let marks = [0, 20, 50][rng.below(3)];
    ready_flows::few_sets(rng, n, 3, sets, marks)
}

#[test]
fn a_preorder_inside_the_end_start() {
    let mut rng = Prng::new(61);
    let (mut held, mut mark_alone, mut actions_alone, mut neither) = (0, 0, 0, 0);
    for _ in 0..1_000 {
        let lts = sample(&mut rng, 12);
        let ready = ready_start_of(&lts);
        let (ready, end) = (ready.relation(), end_start_of(&lts));
        assert!(ready.is_reflexive() && ready.is_transitive());
        assert!(ready.is_inside(end.relation()));
        for (p, q) in Relation::full(lts.states()).pairs() {
            let mark = !lts.has_end_mark(p) || lts.has_end_mark(q);
            let counted = match (mark, same_actions(&lts, p, q)) {
                (true, true) => &mut held,
                (true, false) => &mut mark_alone,
                (false, true) => &mut actions_alone,
                (false, false) => &mut neither,
            };
            *counted += usize::from(p != q);
            assert_eq!(ready.contains(p, q), mark && same_actions(&lts, p, q));
        }
    }
    let counts = [held, mark_alone, actions_alone, neither];
    assert!(counts.iter().all(|&count| count > 2_000), "{counts:?}");
}

#[test]
fn without_end_marks_the_ready_start_goes_both_ways() {
    let mut rng = Prng::new(62);
    let mut others = 0;
    for _ in 0..300 {
        let lts = ready_flows::few_sets(&mut rng, 9, 3, 4, 0);
        let ready = ready_start_of(&lts);
        for (p, q) in ready.relation().pairs() {
            assert!(ready.contains(q, p));
            others += usize::from(p != q);
        }
    }
    assert!(others > 1_000);
}

#[test]
fn f3_under_the_ready_start() {
    // Pages 0 and 2 have action 1, page 1 has none: two blocks, both pending.
    // {0, 2}: page 0 moves to 1 alone, so that (2, 0) falls. {1}: page 2 moves
    // to 2 alone, and (0, 2) falls. {0} and {2} were seen as one: two turns
    // more. A page is alike to itself only.
    let (mut words, mut names) = ([9; 3], [9; 3]);
    let start = written(&F3, 3).unwrap();
    let values = turns::coarsest(&F3, &start, &[], &mut words, &mut names);
    assert_eq!(values, Ok((4, 3, 3)));
    assert_eq!((words, names), ([1, 2, 4], [0, 1, 2]));
}

/// Does the pair follow the rules of request L6, with this relation for the
/// pages after a move?
fn passes(lts: &Lts, relation: &Relation, p: State, q: State) -> bool {
    let moves = |page: State| lts.transitions().iter().filter(move |t| t.source == page);
    let answered = moves(p).all(|step| {
        moves(q).any(|reply| {
            step.action == reply.action && relation.contains(step.target, reply.target)
        })
    });
    let end_mark = !lts.has_end_mark(p) || lts.has_end_mark(q);
    end_mark && same_actions(lts, p, q) && answered
}

/// All pairs, without those that break a rule, until none does.
fn largest(lts: &Lts) -> Relation {
    let mut kept = Relation::full(lts.states());
    loop {
        let good = |p, q| kept.contains(p, q) && passes(lts, &kept, p, q);
        let next = Relation::from_fn(lts.states(), good);
        if next == kept {
            return kept;
        }
        kept = next;
    }
}

/// A simulation inside the end start that relates only pages with the same
/// actions?
fn is_ready_simulation(lts: &Lts, relation: &Relation) -> bool {
    grid::is_simulation(lts, relation)
        && relation.is_inside(end_start_of(lts).relation())
        && relation.pairs().all(|(p, q)| same_actions(lts, p, q))
}

#[test]
fn coarsest_is_the_largest_with_the_same_actions() {
    let mut rng = Prng::new(63);
    let (mut off_diagonal, mut below_start, mut below_older) = (0, 0, 0);
    for _ in 0..1_500 {
        let lts = sample(&mut rng, 10);
        let ready = ready_start_of(&lts);
        let kept = fixpoint::coarsest(&lts, &ready);
        assert!(is_ready_simulation(&lts, &kept));
        assert_eq!(kept, largest(&lts), "{lts:?}");
        let older = fixpoint::coarsest(&lts, &end_start_of(&lts));
        assert!(kept.is_inside(&older));
        off_diagonal += usize::from(kept.len() > lts.states());
        below_start += usize::from(kept != *ready.relation());
        below_older += usize::from(kept != older);
    }
    let counts = [off_diagonal, below_start, below_older];
    assert!(counts.iter().all(|&count| count > 300), "{counts:?}");
}

#[test]
fn coarsest_is_the_union_of_all_with_the_same_actions() {
    // All relations on up to 3 pages are tried.
    let mut rng = Prng::new(64);
    let mut off_diagonal = 0;
    for _ in 0..200 {
        let lts = sample(&mut rng, 3);
        let n = lts.states();
        let mut union = Relation::empty(n);
        for bits in 0..1usize << (n * n) {
            let claim = Relation::from_fn(n, |p, q| bits >> (p * n + q) & 1 == 1);
            if is_ready_simulation(&lts, &claim) {
                claim.pairs().for_each(|(p, q)| union.insert(p, q));
            }
        }
        assert_eq!(turns::run(&lts, &ready_start_of(&lts), &[]).kept, union);
        off_diagonal += usize::from(union.len() > n);
    }
    assert!(off_diagonal > 50);
}

#[test]
fn three_ways_agree_under_the_ready_start() {
    let mut rng = Prng::new(65);
    for _ in 0..400 {
        let lts = sample(&mut rng, 14);
        let kept = agree(&mut rng, &lts, &ready_start_of(&lts));
        assert_eq!(kept, largest(&lts));
    }
    for (n, sets) in [(64, 3), (65, 5), (130, 8), (256, 4)] {
        let lts = ready_flows::few_sets(&mut rng, n, 5, sets, 10);
        agree(&mut rng, &lts, &ready_start_of(&lts));
    }
}

/// What compare says in the older form, and compare ready.
fn answers(first: &[u8], second: &[u8]) -> [bool; 2] {
    [compare(first, second), compare_ready(first, second)].map(|result| result.unwrap().0)
}

#[test]
fn pairs_by_hand() {
    for Compared { flows, yes, ready } in ready_flows::pairs() {
        let [first, second] = [&flows[0], &flows[1]].map(sheet::write);
        assert_eq!(answers(&first, &second), [yes, ready], "{flows:?}");
    }
}

#[test]
fn turns_by_hand() {
    let f1 = sheet::write(&Lts::of(1, 0, &[]));
    let f2 = sheet::write(&Lts::of(2, 1, &[(0, 1, 1), (1, 1, 0)]));
    // One block of all pages, so that nothing is pending.
    assert_eq!(compare_ready(&f1, &f1), Ok((true, 0)));
    assert_eq!(compare_ready(&f2, &f2), Ok((true, 0)));
    // Page 0 and the two others: with the end start only the second block is
    // pending, with the ready start both are.
    assert_eq!(compare(&f1, &f2), Ok((true, 1)));
    assert_eq!(compare_ready(&f1, &f2), Ok((false, 2)));
    assert_eq!(compare_ready(&f2, &f1), Ok((false, 2)));
}

#[test]
fn no_two_of_the_document_flows_are_alike() {
    let ring = sheet::write(&Lts::of(2, 1, &shapes::cycle(0, 2)));
    let [f1, f4] = [1, 4].map(|n| sheet::write(&Lts::of(n, 1, &shapes::path(n))));
    let flows = [f1, ring, F3.to_vec(), f4];
    for (i, first) in flows.iter().enumerate() {
        for (j, second) in flows.iter().enumerate() {
            let yes = compare_ready(first, second).unwrap().0;
            assert_eq!(yes, i == j, "{i} {j}");
        }
    }
}

#[test]
fn a_ready_yes_is_always_a_yes() {
    let mut rng = Prng::new(66);
    let (mut both, mut older_alone, mut none) = (0, 0, 0);
    for _ in 0..3_000 {
        let flows = ready_flows::two(&mut rng);
        let [first, second] = ready_flows::kinds(&mut rng, &flows)
            .map(|one| random::shuffled_labelled(&mut rng, &one));
        match answers(&first, &second) {
            [true, true] => both += 1,
            [true, false] => older_alone += 1,
            [false, false] => none += 1,
            [false, true] => panic!("a ready yes alone: {flows:?}"),
        }
    }
    let counts = [both, older_alone, none];
    assert!(counts.iter().all(|&count| count > 300), "{counts:?}");
}

#[test]
fn compare_ready_is_about_the_joined_flow() {
    let mut rng = Prng::new(67);
    let (mut yes_met, mut no_met, mut other_turns) = (0, 0, 0);
    for _ in 0..1_000 {
        let flows = ready_flows::two(&mut rng);
        let labelled = ready_flows::kinds(&mut rng, &flows);
        let sheets = [&labelled[0], &labelled[1]].map(sheet::write_labelled);
        let joined = join_labelled(&labelled[0], &labelled[1]).unwrap();
        let outcome = turns::run(joined.lts(), &ready_start_of(joined.lts()), &[]);
        let (yes, turns) = compare_ready(&sheets[0], &sheets[1]).unwrap();
        assert_eq!(turns, outcome.turns);
        assert_eq!(yes, largest(joined.lts()).contains(0, flows[0].states()));
        yes_met += usize::from(yes);
        no_met += usize::from(!yes);
        other_turns += usize::from(compare(&sheets[0], &sheets[1]) != Ok((yes, turns)));
    }
    assert!(yes_met > 200 && no_met > 200 && other_turns > 200);
}

/// The named sheet of one page that loops with these actions.
fn looping(actions: &[Action], labels: &[&str]) -> Vec<u8> {
    let moves: Vec<_> = actions.iter().map(|&action| (0, action, 0)).collect();
    let labels: Vec<String> = labels.iter().map(|label| label.to_string()).collect();
    with_labels(&sheet::write(&Lts::of(1, labels.len(), &moves)), &labels)
}

#[test]
fn names_match_and_numbers_do_not() {
    let (here, there) = (looping(&[1], &["open"]), looping(&[2], &["close", "open"]));
    let shut = looping(&[1], &["close", "open"]);
    assert_eq!(answers(&here, &there), [true, true]);
    assert_eq!(answers(&there, &here), [true, true]);
    assert_eq!(answers(&here, &shut), [false, false]);
    assert_eq!(answers(&there, &shut), [false, false]);
    // "open" and "close" as 1 and 2, and then as 3 and 1 beside "wait".
    let both = looping(&[1, 2], &["open", "close"]);
    let labels = ["close", "wait", "open"];
    assert_eq!(answers(&both, &looping(&[1, 3], &labels)), [true, true]);
    assert_eq!(answers(&both, &looping(&[1, 2, 3], &labels)), [true, false]);
    assert_eq!(answers(&both, &looping(&[1, 2], &labels)), [false, false]);
    assert_eq!(answers(&looping(&[3], &labels), &both), [true, false]);
}

#[test]
fn decimal_names_match_a_plain_sheet() {
    let plain = sheet::write(&Lts::of(1, 2, &[(0, 2, 0)]));
    for (name, yes) in [("2", true), ("1", false), ("02", false)] {
        let named = looping(&[1], &[name]);
        assert_eq!(answers(&plain, &named), [yes, yes]);
        assert_eq!(answers(&named, &plain), [yes, yes]);
    }
    let more = looping(&[1, 2], &["2", "1"]);
    assert_eq!(answers(&plain, &more), [true, false]);
    assert_eq!(answers(&more, &plain), [false, false]);
}

#[test]
fn renumbering_with_the_names_keeps_the_ready_answer() {
    let mut rng = Prng::new(68);
    let (mut yes_met, mut no_met) = (0, 0);
    for _ in 0..500 {
        let flows = ready_flows::two(&mut rng);
        let plain = flows.clone().map(LabelledLts::plain);
        let renumbered = [&plain[0], &plain[1]].map(|one| random::renumbered(&mut rng, one));
        let [first, second] = [&plain[0], &plain[1]].map(sheet::write_labelled);
        let others = [&renumbered[0], &renumbered[1]].map(sheet::write_labelled);
        let yes = compare_ready(&first, &second).unwrap().0;
        for (a, b) in [
            (&first, &others[1]),
            (&others[0], &second),
            (&others[0], &others[1]),
        ] {
            assert_eq!(compare_ready(a, b).unwrap().0, yes, "{flows:?}");
        }
        yes_met += usize::from(yes);
        no_met += usize::from(!yes);
    }
    assert!(yes_met > 100 && no_met > 100);
}

#[test]
fn at_and_above_the_limits() {
    let f = with_many;
    assert_eq!(compare_ready(&f(6, 1, 0), &f(250, 1, 0)), Ok((true, 0)));
    assert_eq!(compare_ready(&f(6, 1, 0), &f(251, 1, 0)), refused(7));
    assert_eq!(compare_ready(&f(256, 1, 0), &f(1, 1, 0)), refused(7));
    // Names that no move uses are in no page's set, but count.
    assert_eq!(compare_ready(&f(1, 1, 40), &f(1, 30, 35)), Ok((true, 0)));
    assert_eq!(compare_ready(&f(1, 1, 40), &f(1, 30, 36)), refused(18));
    assert_eq!(compare_ready(&f(128, 1, 64), &f(129, 2, 64)), refused(7));
    let mut rng = Prng::new(69);
    let [few, most, more] =
        [24, 1000, 1001].map(|k| sheet::write(&random::lts_exact(&mut rng, 20, 3, k, 0)));
    assert!(compare_ready(&few, &most).is_ok());
    assert_eq!(compare_ready(&few, &more), refused(7));
}

#[test]
fn refused_as_compare_is() {
    let mut rng = Prng::new(70);
    let mut met = BTreeSet::new();
    for _ in 0..20_000 {
        let mut sheet = || match rng.below(20) {
            0 => with_many(255, 1, 1),
            1 => with_many(1, 1, 64),
            2 => with_many(1, 2, 64),
            _ => damaged(&mut rng),
        };
        let (first, second) = (sheet(), sheet());
        let older = compare(&first, &second).err();
        assert_eq!(compare_ready(&first, &second).err(), older);
        met.insert(older.map_or(0, |refusal| refusal.number));
    }
    assert!(met.into_iter().eq([0, 1, 2, 3, 4, 5, 6, 7, 16, 17, 18]));
}
