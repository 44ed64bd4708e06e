//! The cases of document 01, through the safe calls.

use flow::{Accepted, Compared, Counts, Grid, Pair, Refusal};
use reference::lts::Lts;
use reference::sheet;

/// F3's sheet, as document 01 prints it.
const F3: [u8; 30] = [
    3, 0, 1, 0, 2, 0, 0, 0, 1, 0, 0, 0, 0, 0, 0, 0, 2, 0, 1, 0, 1, 0, 0, 0, 1, 0, 2, 0, 0, 0,
];

/// The numbers of F5's plan.
const F5: [u16; 12] = [0, 1, 1, 1, 2, 1, 1, 2, 2, 0, 1, 2];

/// The end start of a sheet.
fn end_start(sheet: &[u8]) -> Result<Grid, Refusal> {
    let mut start = Grid::new(usize::from(sheet[0]));
    flow::end_start(sheet, start.bytes_mut())?;
    Ok(start)
}

/// Coarsest from the end start with an empty turn list; also checks that its
/// grid is a simulation and that each page's name is in its block.
fn coarsest(sheet: &[u8]) -> Result<(Counts, Grid), Refusal> {
    let start = end_start(sheet)?;
    let pages = usize::from(sheet[0]);
    let (mut grid, mut names) = (Grid::new(pages), vec![0xff; 2 * pages]);
    let counts = flow::coarsest(sheet, start.bytes(), &[], grid.bytes_mut(), &mut names)?;
    assert!(flow::test_simulation(sheet, start.bytes(), grid.bytes())?);
    for (p, name) in names.chunks_exact(2).enumerate() {
        let name = usize::from(name[0]);
        assert!(grid.holds(p, name) && grid.holds(name, p));
    }
    Ok((counts, grid))
}

#[test]
fn f1_to_f4() {
    let f1 = Lts::of(1, 0, &[]);
    let f2 = Lts::of(2, 1, &[(0, 1, 1), (1, 1, 0)]);
    let f3 = Lts::of(3, 1, &[(0, 1, 1), (2, 1, 2)]);
    let f4 = Lts::of(4, 1, &[(0, 1, 1), (1, 1, 2), (2, 1, 3)]);
    assert_eq!(sheet::write(&f3), F3);
    for (flow, turns, kept, blocks) in [(f1, 0, 1, 1), (f2, 0, 4, 1), (f3, 2, 6, 3), (f4, 3, 10, 4)]
    {
        let counts = Counts {
            turns,
            kept,
            blocks,
        };
        assert_eq!(coarsest(&sheet::write(&flow)).map(|(c, _)| c), Ok(counts));
    }
}

#[test]
fn f3_grid() {
    let (_, grid) = coarsest(&F3).expect("a readable sheet");
    let kept = [[0, 0], [0, 2], [1, 0], [1, 1], [1, 2], [2, 2]];
    for p in 0..3 {
        for q in 0..3 {
            assert_eq!(grid.holds(p, q), kept.contains(&[p, q]), "{p} {q}");
        }
    }
}

#[test]
fn f5_plan() {
    let start = end_start(&F3).expect("a readable sheet");
    let mut plan = [9; 29];
    let written = flow::write_plan(&F3, start.bytes(), 2, 0, &mut plan);
    assert_eq!(written, Ok(3));
    assert_eq!(plan[..24], F5.map(u16::to_le_bytes).concat());
    assert_eq!(plan[24..], [9; 5]);
    let accepted = Accepted {
        pair: Pair { p: 2, q: 0 },
        depth: 2,
    };
    assert_eq!(flow::check_plan(&F3, start.bytes(), &plan), Ok(accepted));
    let short = flow::write_plan(&F3, start.bytes(), 2, 0, &mut plan[..23]);
    assert_eq!(short, Err(Refusal::Buffer));
    let kept = flow::write_plan(&F3, start.bytes(), 0, 2, &mut plan);
    assert_eq!(kept, Err(Refusal::Kept));
}

#[test]
fn f6_hand_play() {
    let start = end_start(&F3).expect("a readable sheet");
    let wins = |rounds| flow::hand_play(&F3, start.bytes(), 2, 0, rounds);
    assert_eq!((wins(1), wins(2)), (Ok(false), Ok(true)));
    // F5's plan, for the same pair, is as deep as the rounds that it takes.
    let plan = F5.map(u16::to_le_bytes).concat();
    let accepted = flow::check_plan(&F3, start.bytes(), &plan);
    assert_eq!(accepted.map(|accepted| accepted.depth), Ok(2));
    assert_eq!(wins(7), Err(Refusal::Rounds));
    let beyond = flow::hand_play(&F3, start.bytes(), 2, 3, 1);
    assert_eq!(beyond, Err(Refusal::Page));
}

#[test]
fn f7_to_f9_leave_the_buffer() {
    let mut no_pages = F3.to_vec();
    no_pages[0] = 0;
    let longer = [&F3[..], &[0]].concat();
    let mut itself = F3.to_vec();
    itself[22] = 1;
    for (sheet, refusal) in [
        (no_pages, Refusal::Counts),
        (longer, Refusal::Length),
        (itself, Refusal::ReachedTwice { record: 1 }),
    ] {
        let mut out = vec![0xa5; sheet.len()];
        assert_eq!(flow::normalise(&sheet, &mut out), Err(refusal));
        assert!(out.iter().all(|&byte| byte == 0xa5));
    }
}

/// A sheet of two pages and three move records with these first and next
/// indices.
fn chained(firsts: [u8; 2], nexts: [u8; 3]) -> [u8; 32] {
    let [f0, f1] = firsts;
    let [n1, n2, n3] = nexts;
    [
        2, 0, 3, 0, 3, 0, 0, 0, f0, 0, 0, 0, f1, 0, // the counts, the pages
        1, 0, 0, 0, n1, 0, 2, 0, 0, 0, n2, 0, 3, 0, 0, 0, n3, 0, // the records
    ]
}

#[test]
fn a_fault_in_the_chains_has_its_record() {
    let unreached = |record| Err(Refusal::Unreached { record });
    let twice = |record| Err(Refusal::ReachedTwice { record });
    for (firsts, nexts, answer) in [
        ([1, 0], [2, 3, 0], Ok(())),
        ([1, 0], [2, 0, 0], unreached(3)),
        ([1, 0], [0, 3, 2], unreached(2)),
        ([0, 0], [0, 0, 0], unreached(1)),
        ([3, 3], [2, 0, 1], twice(3)),
        ([1, 2], [2, 3, 0], twice(2)),
        ([1, 0], [2, 3, 3], twice(3)),
        ([3, 3], [2, 0, 0], unreached(1)),
        ([1, 1], [2, 0, 0], unreached(3)),
    ] {
        let sheet = chained(firsts, nexts);
        assert_eq!(flow::normalise(&sheet, &mut [0; 32]), answer);
        assert_eq!(end_start(&sheet).map(|_| ()), answer);
        assert_eq!(flow::compare(&F3, &sheet).map(|_| ()), answer);
        assert_eq!(flow::compare(&sheet, &F3).map(|_| ()), answer);
    }
}

#[test]
fn comparing() {
    let one = sheet::write(&Lts::of(2, 1, &[(0, 1, 1)]));
    let answer = |yes, turns| Ok(Compared { yes, turns });
    assert_eq!(flow::compare(&one, &one), answer(true, 1));
    assert_eq!(flow::compare(&F3, &one), answer(true, 2));
    let loops = sheet::write(&Lts::of(1, 1, &[(0, 1, 0)]));
    assert_eq!(flow::compare(&loops, &one).map(|c| c.yes), Ok(false));
    assert_eq!(flow::compare(&F3[..5], &one), Err(Refusal::Length));
    let large = sheet::write(&Lts::of(255, 0, &[]));
    assert_eq!(flow::compare(&one, &large), Err(Refusal::Joined));
}
