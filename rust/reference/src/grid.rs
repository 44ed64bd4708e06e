//! Grids: relations carried as 64-bit words, and the calls on them.

use crate::lts::{Action, Lts};
use crate::refusal::Refusal;
use crate::relation::{Preorder, Relation};
use crate::sheet;
use crate::state_set::StateSet;
use std::collections::BTreeSet;

/// w, the words of one row for `n` states.
pub fn words_per_row(n: usize) -> usize {
    n.div_ceil(64)
}

/// The words of a whole grid for `n` states.
pub fn length(n: usize) -> usize {
    n * words_per_row(n)
}

/// Reads a grid; refused if its length is wrong or a bit at q ≥ n is set.
pub fn read(words: &[u64], n: usize) -> Result<Relation, Refusal> {
    if words.len() != length(n) {
        return Err(Refusal::GRID);
    }
    let rows: Vec<StateSet> = words
        .chunks_exact(words_per_row(n))
        .map(StateSet::from_words)
        .collect();
    let pages = StateSet::all(n);
    if rows.iter().any(|row| !row.is_subset(&pages)) {
        return Err(Refusal::GRID);
    }
    Ok(Relation::from_rows(rows))
}

/// Reads a start: a grid that must also be reflexive and transitive.
pub fn read_start(words: &[u64], n: usize) -> Result<Preorder, Refusal> {
    Preorder::new(read(words, n)?)
}

/// The grid of a relation.
pub fn write(relation: &Relation) -> Vec<u64> {
    let n = relation.states();
    let w = words_per_row(n);
    let mut words = Vec::with_capacity(length(n));
    for p in 0..n {
        words.extend_from_slice(&relation.row(p).words()[..w]);
    }
    words
}

/// The end start of a flow: (p, q) unless p has the end mark and q has not.
pub fn end_start_of(lts: &Lts) -> Preorder {
    Preorder::of_mark(lts.states(), |p| lts.has_end_mark(p))
}

/// The ready start of a flow: (p, q) if the end start holds it and the moves
/// of p have exactly the actions that those of q have.
pub fn ready_start_of(lts: &Lts) -> Preorder {
    let n = lts.states();
    let end_start = end_start_of(lts);
    let actions: Vec<BTreeSet<Action>> = (0..n).map(|p| lts.actions_of(p)).collect();
    let holds = |p, q| end_start.contains(p, q) && actions[p] == actions[q];
    Preorder::new(Relation::from_fn(n, holds)).expect("a preorder")
}

/// Is the relation a simulation over the flow?
pub fn is_simulation(lts: &Lts, relation: &Relation) -> bool {
    relation.pairs().all(|(p, q)| {
        lts.moves_of(p).iter().all(|step| {
            lts.replies(q, step.action)
                .iter()
                .any(|reply| relation.contains(step.target, reply.target))
        })
    })
}

/// End start: writes the end start of the sheet's flow into the grid. A
/// refusal leaves the grid as it is.
pub fn end_start(sheet: &[u8], grid: &mut [u64]) -> Result<(), Refusal> {
    write_start(sheet, grid, end_start_of)
}

/// Ready start: writes the ready start of the sheet's flow into the grid. A
/// refusal leaves the grid as it is.
pub fn ready_start(sheet: &[u8], grid: &mut [u64]) -> Result<(), Refusal> {
    write_start(sheet, grid, ready_start_of)
}

/// Writes the start that the sheet's flow has into a grid of its length.
fn write_start(
    sheet: &[u8],
    grid: &mut [u64],
    start_of: fn(&Lts) -> Preorder,
) -> Result<(), Refusal> {
    let lts = sheet::read(sheet)?;
    if grid.len() != length(lts.states()) {
        return Err(Refusal::BUFFER);
    }
    grid.copy_from_slice(&write(start_of(&lts).relation()));
    Ok(())
}

/// Test simulation: is the claimed grid a simulation inside the start?
pub fn test_simulation(sheet: &[u8], start: &[u64], claim: &[u64]) -> Result<bool, Refusal> {
    let lts = sheet::read(sheet)?;
    let start = read_start(start, lts.states())?;
    let claim = read(claim, lts.states())?;
    Ok(is_simulation(&lts, &claim) && claim.is_inside(start.relation()))
}
