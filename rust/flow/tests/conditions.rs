//! Test simulation beside Definition 2.1 of document 000: each pair of the
//! claim meets the starting condition, and each of its moves has an answer.

use flow::{Grid, Refusal};
use reference::lts::Lts;
use reference::relation::Relation;
use reference::{grid, sheet};

/// Test simulation of a claim given by its pairs.
fn test(flow: &Lts, start: &Relation, claim: &Relation) -> Result<bool, Refusal> {
    let [start, claim] = [start, claim].map(bytes);
    flow::test_simulation(&sheet::write(flow), &start, &claim)
}

/// The bytes of a grid.
fn bytes(relation: &Relation) -> Vec<u8> {
    let words = grid::write(relation);
    words.iter().flat_map(|word| word.to_le_bytes()).collect()
}

/// The claim with these pairs alone.
fn pairs(pages: usize, pairs: &[(usize, usize)]) -> Relation {
    Relation::from_fn(pages, |p, q| pairs.contains(&(p, q)))
}

#[test]
fn a_pair_outside_the_start_is_found_at_every_place() {
    for pages in [1, 63, 64, 65, 256] {
        let flow = Lts::of(pages, 0, &[]);
        let diagonal = Relation::identity(pages);
        assert_eq!(bytes(&diagonal), Grid::diagonal(pages).bytes());
        for p in [0, pages / 2, pages - 1] {
            for q in 0..pages {
                let mut claim = diagonal.clone();
                claim.insert(p, q);
                assert_eq!(test(&flow, &diagonal, &claim), Ok(p == q), "{p} {q}");
            }
        }
    }
}

#[test]
fn a_pair_without_an_answer_is_found_at_every_place() {
    let pages = 256;
    let all = Relation::full(pages);
    for p in [0, 63, 64, 255] {
        let flow = Lts::of(pages, 1, &[(p, 1, p)]);
        for q in 0..pages {
            let mut claim = Relation::identity(pages);
            claim.insert(p, q);
            assert_eq!(test(&flow, &all, &claim), Ok(p == q), "{p} {q}");
        }
    }
}

#[test]
fn a_move_without_an_answer_is_found_whichever_it_is() {
    let claim = pairs(3, &[(0, 1), (2, 2)]);
    let both = |lacking: usize| {
        let answers = (1..=64).filter(|&a| a != lacking).map(|a| (1, a, 2));
        let moves: Vec<_> = (1..=64).map(|a| (0, a, 2)).chain(answers).collect();
        Lts::of(3, 64, &moves)
    };
    let all = Relation::full(3);
    assert_eq!(test(&both(0), &all, &claim), Ok(true));
    for lacking in 1..=64 {
        assert_eq!(test(&both(lacking), &all, &claim), Ok(false), "{lacking}");
    }
}

#[test]
fn the_answer_may_be_any_move_by_the_action() {
    let pages = 256;
    let all = Relation::full(pages);
    // Page 0 moves to page 2; page 1 may answer by action 1 to 100 .. 199.
    let answers = (100..200).map(|r| (1, 1, r));
    let others = (0..pages).map(|r| (1, 2, r));
    let moves: Vec<_> = [(0, 1, 2)]
        .into_iter()
        .chain(answers)
        .chain(others)
        .collect();
    let flow = Lts::of(pages, 2, &moves);
    for r in 0..pages {
        let claim = pairs(pages, &[(0, 1), (2, r)]);
        let answered = (100..200).contains(&r);
        assert_eq!(test(&flow, &all, &claim), Ok(answered), "{r}");
    }
}

#[test]
fn both_conditions_are_asked_of_a_pair() {
    let claim = pairs(2, &[(0, 1)]);
    let (diagonal, all) = (Relation::identity(2), Relation::full(2));
    let (still, moving) = (Lts::of(2, 1, &[]), Lts::of(2, 1, &[(0, 1, 0)]));
    assert_eq!(test(&still, &all, &claim), Ok(true));
    assert_eq!(test(&still, &diagonal, &claim), Ok(false));
    assert_eq!(test(&moving, &all, &claim), Ok(false));
    assert_eq!(test(&moving, &diagonal, &claim), Ok(false));
    // A claim without pairs asks nothing.
    assert_eq!(test(&moving, &diagonal, &pairs(2, &[])), Ok(true));
}
