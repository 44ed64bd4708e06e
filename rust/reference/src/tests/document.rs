//! F1 to F9 and the program output of document 01.

use super::{accepted, refused};
use crate::compare::compare;
use crate::game::hand_play;
use crate::grid;
use crate::lts::Lts;
use crate::plans::{check_plan, write_plan};
use crate::refusal::Refusal;
use crate::report::flowcheck;
use crate::sheet;
use crate::turns::coarsest;

/// The sheet of F3, byte by byte from document 01.
pub const F3: [u8; 30] = [
    3, 0, 1, 0, 2, 0, // header
    0, 0, 1, 0, 0, 0, 0, 0, 0, 0, 2, 0, // pages
    1, 0, 1, 0, 0, 0, 1, 0, 2, 0, 0, 0, // moves
];

/// F1.
fn f1() -> Vec<u8> {
    sheet::write(&Lts::of(1, 0, &[]))
}

/// F2.
fn f2() -> Vec<u8> {
    sheet::write(&Lts::of(2, 1, &[(0, 1, 1), (1, 1, 0)]))
}

/// F4.
fn f4() -> Vec<u8> {
    sheet::write(&Lts::of(4, 1, &[(0, 1, 1), (1, 1, 2), (2, 1, 3)]))
}

/// The grid that end start writes for a sheet.
fn end_start_grid(sheet: &[u8]) -> Vec<u64> {
    let n = sheet::read(sheet).unwrap().states();
    let mut words = vec![7; grid::length(n)];
    grid::end_start(sheet, &mut words).unwrap();
    words
}

/// Coarsest with the end start and an empty turn list.
fn run(sheet: &[u8]) -> (usize, usize, usize) {
    let start = end_start_grid(sheet);
    let n = sheet::read(sheet).unwrap().states();
    coarsest(
        sheet,
        &start,
        &[],
        &mut vec![0; start.len()],
        &mut vec![0; n],
    )
    .unwrap()
}

#[test]
fn f3_sheet_is_the_one_shown() {
    assert_eq!(sheet::write(&Lts::of(3, 1, &[(0, 1, 1), (2, 1, 2)])), F3);
}

#[test]
fn f1_to_f4() {
    assert_eq!(run(&f1()), (0, 1, 1));
    assert_eq!(run(&f2()), (0, 4, 1));
    assert_eq!(run(&F3), (2, 6, 3));
    assert_eq!(run(&f4()), (3, 10, 4));
}

#[test]
fn f5_plan() {
    let start = end_start_grid(&F3);
    let expected = [0, 1, 1, 1, 2, 1, 1, 2, 2, 0, 1, 2];
    let mut plan = [9; 17];
    assert_eq!(write_plan(&F3, &start, 2, 0, &mut plan), Ok(3));
    assert_eq!(plan[..12], expected);
    assert_eq!(plan[12..], [9; 5]);
    assert_eq!(check_plan(&F3, &start, &expected), accepted(2, 0, 2));
    assert_eq!(check_plan(&F3, &start, &plan[..15]), accepted(2, 0, 2));
    assert_eq!(check_plan(&F3, &start, &plan), refused(14));
    assert_eq!(check_plan(&F3, &start, &[]), refused(14));
    assert_eq!(check_plan(&F3, &start, &expected[..3]), refused(14));
    assert_eq!(check_plan(&F3, &start, &expected[8..]), refused(14));
    assert_eq!(write_plan(&F3, &start, 2, 0, &mut [9; 11]), refused(15));
    assert_eq!(write_plan(&F3, &start, 0, 2, &mut [9; 11]), refused(13));
    assert_eq!(write_plan(&F3, &start, 0, 3, &mut [9; 11]), refused(11));
    assert_eq!(write_plan(&F3, &start, 3, 0, &mut [9; 11]), refused(11));
}

#[test]
fn f6_hand_play() {
    let start = end_start_grid(&F3);
    assert_eq!(hand_play(&F3, &start, 2, 0, 0), Ok(false));
    assert_eq!(hand_play(&F3, &start, 2, 0, 1), Ok(false));
    assert_eq!(hand_play(&F3, &start, 2, 0, 2), Ok(true));
    assert_eq!(hand_play(&F3, &start, 2, 0, 6), Ok(true));
    assert_eq!(hand_play(&F3, &start, 2, 0, 7), refused(12));
    assert_eq!(hand_play(&F3, &start, 3, 0, 7), refused(11));
    assert_eq!(hand_play(&F3, &start, 2, 3, 6), refused(11));
}

#[test]
fn f7_f8_f9() {
    let mut f7 = F3;
    f7[0] = 0;
    assert_eq!(sheet::read(&f7), refused(2));
    let mut f8 = F3.to_vec();
    f8.push(0);
    assert_eq!(sheet::read(&f8), refused(1));
    let mut f9 = F3;
    f9[18 + 4] = 1;
    assert_eq!(sheet::read(&f9), Err(Refusal::reached_twice(1)));
    assert_eq!(flowcheck(&f9), "refused 16\n");
}

#[test]
fn program_output() {
    let expected = "pages 3 turns 2 kept 6 classes 3\n0 0 0 2\n1 1 0 1 2\n2 2 2\n";
    assert_eq!(flowcheck(&F3), expected);
    assert_eq!(flowcheck(&F3[..29]), "refused 1\n");
}

#[test]
fn compare_of_the_flows() {
    let flows = [f1(), f2(), F3.to_vec(), f4()];
    // F1 has no moves: every flow simulates it. F2 goes on for ever, and so
    // does no other page 0. F3 makes one move at page 0, F4 three.
    let expected = [
        [true, true, true, true],
        [false, true, false, false],
        [false, true, true, true],
        [false, true, false, true],
    ];
    for (i, first) in flows.iter().enumerate() {
        for (j, second) in flows.iter().enumerate() {
            assert_eq!(compare(first, second).unwrap().0, expected[i][j], "{i} {j}");
        }
    }
    assert_eq!(compare(&F3[..5], &F3[..7]), refused(1));
    let mut bad = F3;
    bad[7] = 1;
    assert_eq!(compare(&F3, &bad), refused(3));
    assert_eq!(compare(&F3[..29], &bad), refused(1));
}

#[test]
fn refusals_leave_buffers() {
    let start = end_start_grid(&F3);
    let (mut words, mut names) = ([5; 3], [6; 3]);
    assert_eq!(
        coarsest(&F3, &start[..2], &[], &mut words, &mut names),
        refused(8)
    );
    assert_eq!(
        coarsest(&F3, &[7, 8, 7], &[], &mut words, &mut names),
        refused(8)
    );
    assert_eq!(
        coarsest(&F3, &[7, 5, 7], &[], &mut words, &mut names),
        refused(9)
    );
    assert_eq!(
        coarsest(&F3, &[3, 6, 4], &[], &mut words, &mut names),
        refused(10)
    );
    assert_eq!(
        coarsest(&F3, &start, &[], &mut words[..2], &mut names),
        refused(15)
    );
    assert_eq!(
        coarsest(&F3, &start, &[], &mut words, &mut names[..2]),
        refused(15)
    );
    assert_eq!((words, names), ([5; 3], [6; 3]));
    assert_eq!(
        coarsest(&F3, &start, &[], &mut words, &mut names),
        Ok((2, 6, 3))
    );
    assert_eq!((words, names), ([5, 7, 4], [0, 1, 2]));
    let mut four = [9; 4];
    assert_eq!(grid::end_start(&F3, &mut four), refused(15));
    assert_eq!(four, [9; 4]);
}

#[test]
fn test_simulation_on_f3() {
    let start = end_start_grid(&F3);
    assert_eq!(grid::test_simulation(&F3, &start, &[0, 0, 0]), Ok(true));
    assert_eq!(grid::test_simulation(&F3, &start, &[5, 7, 4]), Ok(true));
    assert_eq!(grid::test_simulation(&F3, &start, &[5, 7, 5]), Ok(false));
    assert_eq!(grid::test_simulation(&F3, &[1, 2, 4], &[1, 2, 4]), Ok(true));
    assert_eq!(
        grid::test_simulation(&F3, &[1, 2, 4], &[1, 3, 4]),
        Ok(false)
    );
    assert_eq!(grid::test_simulation(&F3, &start, &[8, 0, 0]), refused(8));
    assert_eq!(grid::test_simulation(&F3, &start, &[0, 0]), refused(8));
    assert_eq!(grid::test_simulation(&F3, &[0, 0, 0], &[0, 0]), refused(9));
}
