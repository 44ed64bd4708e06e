//! The ready start and compare ready, worked out by hand from request L6 of
//! document 02; and what they have to do with the older form.

mod sheets;

use flow::{Compared, Grid, Refusal};
use reference::lts::Lts;
use reference::prng::Prng;
use reference::{random, ready_flows, sheet};
use sheets::{named, F3};

/// The moves of a flow: page, action and target.
type Moves<'a> = &'a [(usize, usize, usize)];

/// A flow with the end mark on these pages.
fn marked(marks: &[usize], lts: &Lts) -> Lts {
    let ended = (0..lts.states()).map(|p| marks.contains(&p)).collect();
    Lts::new(lts.actions(), ended, lts.transitions().to_vec())
}

/// The ready start of a sheet.
fn ready_start(sheet: &[u8], pages: usize) -> Result<Grid, Refusal> {
    let mut start = Grid::new(pages);
    flow::ready_start(sheet, start.bytes_mut())?;
    Ok(start)
}

/// The pairs of two different pages that the ready start of a flow holds. It
/// holds each page with itself.
fn alike(lts: &Lts) -> Vec<(usize, usize)> {
    let pages = lts.states();
    let start = ready_start(&sheet::write(lts), pages).expect("a readable sheet");
    let pairs = (0..pages).flat_map(|p| (0..pages).map(move |q| (p, q)));
    let (own, others): (Vec<_>, Vec<_>) = pairs
        .filter(|&(p, q)| start.holds(p, q))
        .partition(|(p, q)| p == q);
    assert_eq!(own.len(), pages);
    others
}

/// The same of a flow of so many pages without end marks.
fn alike_of(pages: usize, moves: Moves) -> Vec<(usize, usize)> {
    let actions = moves.iter().map(|own| own.1).max().unwrap_or(0);
    alike(&Lts::of(pages, actions, moves))
}

/// Both pairs of the pages 0 and 1.
const BOTH: [(usize, usize); 2] = [(0, 1), (1, 0)];

#[test]
fn one_set_inside_the_other() {
    assert_eq!(alike_of(2, &[(0, 1, 0), (1, 1, 0), (1, 2, 0)]), []);
    assert_eq!(alike_of(2, &[(0, 1, 0), (0, 2, 0), (1, 2, 0)]), []);
    assert_eq!(alike_of(2, &[(0, 1, 1)]), []);
    assert_eq!(alike_of(2, &[(1, 1, 0)]), []);
    let added = [(0, 1, 0), (0, 2, 1), (1, 1, 0), (1, 2, 0)];
    assert_eq!(alike_of(2, &added), BOTH);
}

#[test]
fn as_many_actions_but_others() {
    assert_eq!(alike_of(2, &[(0, 1, 0), (1, 2, 0)]), []);
    let one_shared = [(0, 1, 0), (0, 2, 0), (1, 2, 0), (1, 3, 0)];
    assert_eq!(alike_of(2, &one_shared), []);
    // The same sum.
    let none_shared = [(0, 1, 0), (0, 4, 0), (1, 2, 0), (1, 3, 0)];
    assert_eq!(alike_of(2, &none_shared), []);
}

/// And the pages that they lead to are of no account.
#[test]
fn several_moves_by_one_action_count_once() {
    let moves = [(0, 1, 0), (0, 1, 1), (0, 1, 2), (1, 1, 2)];
    assert_eq!(alike_of(3, &moves), BOTH);
    // As many moves, but another action among them.
    assert_eq!(
        alike_of(2, &[(0, 1, 0), (0, 1, 1), (1, 1, 0), (1, 2, 0)]),
        []
    );
    let crossed = [
        (0, 1, 0),
        (0, 1, 1),
        (0, 2, 0),
        (1, 1, 0),
        (1, 2, 0),
        (1, 2, 1),
    ];
    assert_eq!(alike_of(2, &crossed), BOTH);
}

#[test]
fn pages_without_moves_are_alike() {
    assert_eq!(alike_of(1, &[]), []);
    assert_eq!(alike_of(2, &[]), BOTH);
    // With an action that no move has.
    assert_eq!(alike(&Lts::of(2, 5, &[])), BOTH);
    let three = [(0, 2), (0, 3), (2, 0), (2, 3), (3, 0), (3, 2)];
    assert_eq!(alike_of(4, &[(1, 1, 0)]), three);
}

/// Also with the same set an end mark needs one; with another set none helps.
#[test]
fn end_marks_either_way_round() {
    let (none, loops) = (Lts::of(2, 0, &[]), Lts::of(2, 1, &[(0, 1, 0), (1, 1, 1)]));
    for lts in [none, loops] {
        assert_eq!(alike(&marked(&[0], &lts)), [(1, 0)]);
        assert_eq!(alike(&marked(&[1], &lts)), [(0, 1)]);
        assert_eq!(alike(&marked(&[0, 1], &lts)), BOTH);
    }
    let other = Lts::of(2, 2, &[(0, 1, 0), (1, 1, 0), (1, 2, 0)]);
    for marks in [&[0][..], &[1], &[0, 1]] {
        assert_eq!(alike(&marked(marks, &other)), []);
    }
}

/// Pages 0 and 1 have all 64 actions, page 2 lacks one of them.
#[test]
fn each_of_64_actions_counts() {
    for lacking in 1..=64 {
        let full = (0..2).flat_map(|p| (1..=64).map(move |a| (p, a, 2)));
        let rest = (1..=64).filter(|&a| a != lacking).map(|a| (2, a, 0));
        let moves: Vec<_> = full.chain(rest).collect();
        assert_eq!(alike(&Lts::of(3, 64, &moves)), BOTH, "{lacking}");
        // They have that action alone, and page 2 has none.
        let alone = [(0, lacking, 0), (1, lacking, 1)];
        assert_eq!(alike(&Lts::of(3, 64, &alone)), BOTH, "{lacking}");
    }
}

/// Page p has action p mod 64 + 1, and from page 128 on the end mark.
#[test]
fn pages_256() {
    let moves: Vec<_> = (0..256).map(|p| (p, p % 64 + 1, 255 - p)).collect();
    let marks: Vec<usize> = (128..256).collect();
    let lts = marked(&marks, &Lts::of(256, 64, &moves));
    let start = ready_start(&sheet::write(&lts), 256).expect("a readable sheet");
    for p in 0..256 {
        for q in 0..256 {
            let same = p % 64 == q % 64 && (p < 128 || q >= 128);
            assert_eq!(start.holds(p, q), same, "{p} {q}");
        }
    }
    // Around the ends of words every pair is held, and no bit for no page set.
    for pages in [63, 64, 65, 128, 129, 256] {
        assert_eq!(alike_of(pages, &[]).len(), pages * (pages - 1));
        let sheet = sheet::write(&Lts::of(pages, 0, &[]));
        let (ready, mut end) = (ready_start(&sheet, pages), Grid::new(pages));
        flow::end_start(&sheet, end.bytes_mut()).expect("a readable sheet");
        assert_eq!(ready, Ok(end));
    }
}

/// F3's pages 0 and 2 have action 1, its page 1 has none; a name changes nothing.
#[test]
fn f3_under_the_ready_start() -> Result<(), Refusal> {
    let rows = [5, 2, 5].map(|row| [row, 0, 0, 0, 0, 0, 0, 0]).concat();
    for sheet in [&F3[..], &named(&F3, &["open_flock"])] {
        let start = ready_start(sheet, 3)?;
        assert_eq!(start.bytes(), rows);
        let (mut kept, mut names) = (Grid::new(3), [9; 6]);
        let counts = flow::coarsest(sheet, start.bytes(), &[], kept.bytes_mut(), &mut names)?;
        // Page 0 moves to page 1 alone, and page 2 to itself: none is alike.
        assert_eq!((counts.kept, counts.blocks), (3, 3));
        assert_eq!(kept, Grid::diagonal(3));
    }
    Ok(())
}

/// What the two forms say: compare, then compare ready.
fn answers(first: &[u8], second: &[u8]) -> [bool; 2] {
    let says = |compared: Result<Compared, Refusal>| compared.expect("two sheets").yes;
    [flow::compare, flow::compare_ready].map(|form| says(form(first, second)))
}

#[test]
fn comparing() {
    let flow = |pages, moves: Moves| sheet::write(&Lts::of(pages, 3, moves));
    let (dead, one) = (flow(1, &[]), flow(1, &[(0, 1, 0)]));
    let (two, step) = (flow(1, &[(0, 1, 0), (0, 2, 0)]), flow(2, &[(0, 1, 1)]));
    let ring = flow(2, &[(0, 1, 1), (1, 1, 0)]);
    // A move by 1 to a dead end, or to a page that goes on by 2.
    let choice = flow(3, &[(0, 1, 1), (0, 1, 2), (1, 2, 0)]);
    let on = flow(2, &[(0, 1, 1), (1, 2, 0)]);
    let ended = sheet::write(&marked(&[0], &Lts::of(1, 1, &[(0, 1, 0)])));
    for (first, second, yes) in [
        (&dead, &dead, [true, true]),
        (&one, &ring, [true, true]),
        (&ring, &one, [true, true]),
        (&two, &two, [true, true]),
        (&one, &ended, [true, true]),
        (&on, &choice, [true, true]),
        (&step, &choice, [true, true]),
        (&dead, &one, [true, false]),
        (&one, &two, [true, false]),
        (&step, &one, [true, false]),
        (&step, &on, [true, false]),
        (&choice, &on, [true, false]),
        (&two, &one, [false, false]),
        (&ended, &one, [false, false]),
        (&ring, &step, [false, false]),
    ] {
        assert_eq!(answers(first, second), yes, "{first:?} {second:?}");
    }
    // A dead end and a ring: with the ready start both blocks are pending.
    let answer = |yes, turns| Ok(Compared { yes, turns });
    assert_eq!(flow::compare(&dead, &ring), answer(true, 1));
    assert_eq!(flow::compare_ready(&dead, &ring), answer(false, 2));
    assert_eq!(flow::compare_ready(&ring, &ring), answer(true, 0));
}

/// "open" is action 1 in one sheet and action 2 in the other.
#[test]
fn actions_are_matched_by_name() {
    let loops = |actions: &[usize], labels: &[&str]| {
        let moves: Vec<_> = actions.iter().map(|&action| (0, action, 0)).collect();
        named(&sheet::write(&Lts::of(1, labels.len(), &moves)), labels)
    };
    let first = loops(&[1], &["open", "sell"]);
    let second = |actions| loops(actions, &["sell", "open", "buy"]);
    assert_eq!(answers(&first, &second(&[2])), [true, true]);
    assert_eq!(answers(&first, &second(&[1])), [false, false]);
    assert_eq!(answers(&first, &second(&[1, 2])), [true, false]);
    assert_eq!(answers(&first, &second(&[2, 3])), [true, false]);
    // A plain sheet's actions are named by their decimal numbers.
    let plain = sheet::write(&Lts::of(1, 2, &[(0, 2, 0)]));
    assert_eq!(answers(&plain, &loops(&[1], &["2"])), [true, true]);
    assert_eq!(answers(&plain, &loops(&[1], &["02"])), [false, false]);
    assert_eq!(answers(&plain, &loops(&[1, 2], &["1", "2"])), [true, false]);
}

/// F3's sheet with some bytes changed.
fn with(changes: &[(usize, u8)]) -> Vec<u8> {
    let mut sheet = F3.to_vec();
    for &(at, byte) in changes {
        sheet[at] = byte;
    }
    sheet
}

/// Sheets with the fault that each refusal of a sheet is for.
fn unreadable() -> Vec<(Vec<u8>, Refusal)> {
    vec![
        (Vec::new(), Refusal::Length),
        (F3[..5].to_vec(), Refusal::Length),
        ([&F3[..], &[0]].concat(), Refusal::Length),
        (with(&[(0, 0)]), Refusal::Counts),
        (with(&[(2, 65)]), Refusal::Counts),
        (named(&F3, &["open flock"]), Refusal::Label),
        (with(&[(6, 2)]), Refusal::PageRecord),
        (with(&[(19, 1)]), Refusal::MoveRecord),
        (with(&[(8, 0)]), Refusal::Unreached { record: 1 }),
        (with(&[(16, 0)]), Refusal::Unreached { record: 2 }),
        (with(&[(22, 1)]), Refusal::ReachedTwice { record: 1 }),
        (with(&[(12, 2)]), Refusal::ReachedTwice { record: 2 }),
        // Both records on page 0's chain, with the same target.
        (with(&[(16, 0), (22, 2), (26, 1)]), Refusal::Repeated),
    ]
}

/// The refusal comes whatever the grid, and leaves it.
#[test]
fn ready_start_refuses_a_sheet() {
    let untouched = |sheet: &[u8], length: usize, refusal| {
        let mut grid = vec![0xa5; length];
        assert_eq!(flow::ready_start(sheet, &mut grid), Err(refusal));
        assert!(grid.iter().all(|&byte| byte == 0xa5), "{refusal}");
    };
    for (sheet, refusal) in unreadable() {
        for length in [24, 0, 23, 25] {
            untouched(&sheet, length, refusal);
        }
    }
    for length in [0, 8, 16, 23, 25, 32, 48] {
        untouched(&F3, length, Refusal::Buffer);
    }
    let (large, all) = (sheet::write(&Lts::of(65, 0, &[])), 65 * 16);
    for length in [0, 65 * 8, all - 1, all + 1, all + 8] {
        untouched(&large, length, Refusal::Buffer);
    }
    assert!(flow::ready_start(&large, &mut vec![0xa5; all]).is_ok());
}

/// The first sheet's refusal, then the second's, then those of both.
#[test]
fn compare_ready_refuses_a_sheet() {
    let refused = |first: &[u8], second: &[u8], refusal| {
        assert_eq!(flow::compare_ready(first, second), Err(refusal));
        assert_eq!(flow::compare(first, second), Err(refusal));
    };
    let pages = |count| sheet::write(&Lts::of(count, 1, &[]));
    let labels: Vec<String> = (0..64).map(|at| format!("a{at}")).collect();
    let labels: Vec<&str> = labels.iter().map(String::as_str).collect();
    let names = |count: usize, pages: usize| {
        let plain = sheet::write(&Lts::of(pages, count, &[]));
        named(&plain, &labels[64 - count..])
    };
    let sheets = unreadable();
    for (bad, refusal) in &sheets {
        for other in [&F3[..], &pages(256), &F3[..5]] {
            refused(bad, other, *refusal);
        }
        refused(&F3, bad, *refusal);
        refused(&names(64, 256), bad, *refusal);
        sheets
            .iter()
            .for_each(|(other, _)| refused(bad, other, *refusal));
    }
    assert!(flow::compare_ready(&F3, &pages(253)).is_ok());
    refused(&F3, &pages(254), Refusal::Joined);
    // F3's action "1" is one name more.
    assert!(flow::compare_ready(&F3, &names(63, 253)).is_ok());
    refused(&F3, &names(64, 253), Refusal::TooManyLabels);
    refused(&names(64, 254), &F3, Refusal::Joined);
}

/// On flows with few sets of actions, so that every answer comes often.
#[test]
fn a_ready_yes_is_a_yes() {
    let mut rng = Prng::new(42);
    let mut count = [0; 3];
    for _ in 0..4_000 {
        let flows = ready_flows::two(&mut rng);
        let flows = ready_flows::kinds(&mut rng, &flows);
        let [first, second] = flows.map(|flow| random::shuffled_labelled(&mut rng, &flow));
        match answers(&first, &second) {
            [false, false] => count[0] += 1,
            [true, false] => count[1] += 1,
            [true, true] => count[2] += 1,
            [false, true] => panic!("a ready yes alone: {first:?} {second:?}"),
        }
    }
    assert!(count.iter().all(|&count| count > 500), "{count:?}");
}
