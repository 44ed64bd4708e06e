//! The moves of a sheet, in normal order.

mod sheets;

use flow::{Move, Refusal};
use reference::lts::{Lts, Transition};
use reference::prng::Prng;
use reference::random;
use sheets::{named, F3};

/// The moves as numbers: page, action and target.
fn numbers(sheet: &[u8]) -> Result<Vec<[usize; 3]>, Refusal> {
    let of = |own: Move| [own.source, own.action, own.target].map(usize::from);
    Ok(flow::moves(sheet)?.into_iter().map(of).collect())
}

/// The same of a flow.
fn expected(lts: &Lts) -> Vec<[usize; 3]> {
    let of = |own: &Transition| [own.source, own.action, own.target];
    lts.transitions().iter().map(of).collect()
}

#[test]
fn f3() -> Result<(), Refusal> {
    assert_eq!(numbers(&F3)?, [[0, 1, 1], [2, 1, 2]]);
    assert_eq!(
        numbers(&named(&F3, &["open_flock"]))?,
        [[0, 1, 1], [2, 1, 2]]
    );
    Ok(())
}

/// Whatever the order of records and chains, and of either kind.
#[test]
fn of_sheets_in_no_order() -> Result<(), Refusal> {
    let mut rng = Prng::new(40);
    let (mut none, mut many) = (0, 0);
    for _ in 0..2_000 {
        let lts = random::small(&mut rng, 9, 5);
        let flow = random::labelled(&mut rng, &lts);
        let sheet = random::shuffled_labelled(&mut rng, &flow);
        assert_eq!(numbers(&sheet)?, expected(&lts), "{sheet:?}");
        none += usize::from(lts.transitions().is_empty());
        many += usize::from(lts.transitions().len() > 9);
    }
    assert!(none > 100 && many > 100, "{none} {many}");
    Ok(())
}

/// 256 pages, 64 names and 1,024 moves.
#[test]
fn of_the_longest_sheet() -> Result<(), Refusal> {
    let mut rng = Prng::new(41);
    let lts = random::lts_exact(&mut rng, 256, 64, 1_024, 10);
    let flow = random::named(&mut rng, &lts);
    let sheet = random::shuffled_labelled(&mut rng, &flow);
    assert_eq!(sheet.len(), flow::LONGEST_SHEET);
    assert_eq!(numbers(&sheet)?, expected(&lts));
    Ok(())
}

#[test]
fn refused_as_the_sheet_is() {
    let mut itself = F3;
    itself[22] = 1;
    let twice = Refusal::ReachedTwice { record: 1 };
    assert_eq!(numbers(&itself), Err(twice));
    assert_eq!(numbers(&F3[..29]), Err(Refusal::Length));
    assert_eq!(numbers(&named(&F3, &["open flock"])), Err(Refusal::Label));
}
