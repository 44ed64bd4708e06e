//! Tests of join, on sheets made by hand.

use super::document::F3;
use crate::compare;
use crate::join::join;
use crate::lts::Lts;
use crate::prng::Prng;
use crate::random;
use crate::refusal::Refusal;
use crate::sheet;

/// Two pages, the second with the end mark; the moves 0 -2-> 1, 1 -1-> 0 and
/// 1 -1-> 1, with records and chains in no order.
const SECOND: [u8; 32] = [
    2, 0, 2, 0, 3, 0, // header
    0, 0, 2, 0, 1, 0, 3, 0, // pages
    1, 0, 0, 0, 0, 0, 2, 0, 1, 0, 0, 0, 1, 0, 1, 0, 1, 0, // moves
];

/// F3 followed by the sheet above, in normal form.
const JOINED: [u8; 56] = [
    5, 0, 2, 0, 5, 0, // header
    0, 0, 1, 0, 0, 0, 0, 0, 0, 0, 2, 0, // F3's pages
    0, 0, 3, 0, 1, 0, 4, 0, // the second's pages
    1, 0, 1, 0, 0, 0, 1, 0, 2, 0, 0, 0, // F3's moves
    2, 0, 4, 0, 0, 0, 1, 0, 3, 0, 5, 0, 1, 0, 4, 0, 0, 0, // the second's moves
];

#[test]
fn the_second_follows_the_first() {
    let mut out = [0xa5; 56];
    assert_eq!(join(&F3, &SECOND, &mut out), Ok(56));
    assert_eq!(out, JOINED);
}

#[test]
fn two_pages_without_moves() {
    let (marked, one) = (
        [1, 0, 0, 0, 0, 0, 1, 0, 0, 0],
        [1, 0, 7, 0, 0, 0, 0, 0, 0, 0],
    );
    let mut out = [9; 14];
    assert_eq!(join(&marked, &one, &mut out), Ok(14));
    assert_eq!(out, [2, 0, 7, 0, 0, 0, 1, 0, 0, 0, 0, 0, 0, 0]);
    assert_eq!(join(&one, &marked, &mut out), Ok(14));
    assert_eq!(out, [2, 0, 7, 0, 0, 0, 0, 0, 0, 0, 1, 0, 0, 0]);
}

#[test]
fn bytes_past_the_end_stay() {
    let mut out = [0xa5; 60];
    assert_eq!(join(&F3, &SECOND, &mut out), Ok(56));
    assert_eq!(out[..56], JOINED);
    assert_eq!(out[56..], [0xa5; 4]);
}

/// Asserts a refusal that leaves the buffer.
fn refuses(first: &[u8], second: &[u8], length: usize, refusal: Refusal) {
    let mut out = vec![0xa5; length];
    assert_eq!(join(first, second, &mut out), Err(refusal));
    assert_eq!(out, vec![0xa5; length]);
}

#[test]
fn refusals_in_their_order() {
    let with = |at: usize, byte: u8| {
        let mut sheet = SECOND;
        sheet[at] = byte;
        sheet
    };
    // The sheets with the refusals of a sheet, in their order.
    let wrong: [(&[u8], Refusal); 7] = [
        (&SECOND[..31], Refusal::LENGTH),
        (&with(0, 0), Refusal::RANGE),
        (&with(7, 1), Refusal::PAGE_RECORD),
        (&with(14, 3), Refusal::MOVE_RECORD),
        (&with(8, 0), Refusal::unreached(2)),
        (&with(24, 1), Refusal::reached_twice(1)),
        (&with(28, 0), Refusal::TWICE),
    ];
    for (first, refusal) in wrong {
        refuses(first, &SECOND, 56, refusal);
        refuses(&SECOND, first, 56, refusal);
        refuses(&SECOND, first, 0, refusal);
        for (second, _) in wrong {
            refuses(first, second, 0, refusal);
        }
    }
    refuses(&F3, &SECOND, 55, Refusal::BUFFER);
    refuses(&F3, &SECOND, 0, Refusal::BUFFER);
}

#[test]
fn at_and_above_the_limits() {
    let pages = |n: usize| sheet::write(&Lts::of(n, 0, &[]));
    let length = sheet::length(256, 0);
    assert_eq!(
        join(&pages(6), &pages(250), &mut vec![0; length]),
        Ok(length)
    );
    refuses(&pages(6), &pages(251), length + 4, Refusal::JOIN);
    refuses(&pages(256), &pages(1), 0, Refusal::JOIN);

    let mut rng = Prng::new(12);
    let mut moves = |k: usize| sheet::write(&random::lts_exact(&mut rng, 20, 3, k, 0));
    let length = sheet::length(40, 1024);
    assert_eq!(
        join(&moves(24), &moves(1000), &mut vec![0; length]),
        Ok(length)
    );
    refuses(&moves(25), &moves(1000), length + 6, Refusal::JOIN);
    refuses(&moves(1000), &moves(25), 0, Refusal::JOIN);
}

#[test]
fn the_joined_sheet_is_normal_and_the_joined_flow() {
    let mut rng = Prng::new(13);
    for _ in 0..500 {
        let (first, second) = (random::small(&mut rng, 8, 4), random::small(&mut rng, 8, 4));
        let sheets = [&first, &second].map(|lts| random::shuffled_sheet(&mut rng, lts));
        let length = sheets[0].len() + sheets[1].len() - sheet::HEADER;
        let mut out = vec![0xa5; length];
        assert_eq!(join(&sheets[0], &sheets[1], &mut out), Ok(length));
        assert_eq!(
            sheet::read(&out),
            Ok(compare::join(&first, &second).unwrap())
        );
        let mut normal = vec![0; length];
        assert_eq!(sheet::normalise(&out, &mut normal), Ok(()));
        assert_eq!(out, normal);
    }
}
