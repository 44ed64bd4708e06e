//! The two Rust programs, doing the jobs of the exported calls from the same
//! bytes: the base algorithm of document 004 and the plain fixed point.

use reference::lts::Lts;
use reference::refusal::Refusal;
use reference::relation::{Preorder, Relation};
use reference::{compare, grid, sheet};

/// The coarsest simulation of a flow inside a start.
pub type Algorithm = fn(&Lts, &Preorder) -> Relation;

/// Coarsest on bytes: writes grid and names; gives kept pairs and blocks.
pub fn coarsest(
    algorithm: Algorithm,
    sheet: &[u8],
    start: &[u8],
    grid: &mut [u8],
    names: &mut [u8],
) -> Result<(usize, usize), Refusal> {
    let lts = sheet::read(sheet)?;
    let words: Vec<u64> = start
        .chunks_exact(8)
        .map(|word| u64::from_le_bytes(word.try_into().expect("8 bytes")))
        .collect();
    let start = grid::read_start(&words, lts.states())?;
    let kept = algorithm(&lts, &start);
    let mut pairs = 0;
    for (word, bytes) in grid::write(&kept).iter().zip(grid.chunks_exact_mut(8)) {
        pairs += word.count_ones() as usize;
        bytes.copy_from_slice(&word.to_le_bytes());
    }
    let mut blocks = 0;
    for (p, bytes) in names.chunks_exact_mut(2).enumerate() {
        let name = kept.representative(p);
        blocks += usize::from(name == p);
        bytes.copy_from_slice(&(name as u16).to_le_bytes());
    }
    Ok((pairs, blocks))
}

/// Compare on bytes: yes or no.
pub fn compared(algorithm: Algorithm, first: &[u8], second: &[u8]) -> Result<bool, Refusal> {
    let first = sheet::read(first)?;
    let second = sheet::read(second)?;
    let joined = compare::join(&first, &second)?;
    let kept = algorithm(&joined, &grid::end_start_of(&joined));
    Ok(kept.contains(0, first.states()))
}
